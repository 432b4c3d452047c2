/* How the threads of a hub sleep until something has come for them.
 *
 * No call of vlm_hub.h waits, so a thread with nothing to do would have to look again and again. Here it sleeps on a
 * bell: the hub's thread on the hub's bell, the thread of a port on the bell of its node. A post rings the hub's bell,
 * and the hub rings the bell of each node that got an item.
 *
 *     vlm_bell bell = VLM_BELL_CLOSED, bells[2] = {VLM_BELL_CLOSED, VLM_BELL_CLOSED};
 *     vlm_bell_open(&bell);                             and the same for both of bells
 *     vlm_hub_service service = {.size = sizeof service, .hub = &hub, .bell = &bell, .bells = bells, .bell_count = 2};
 *     vlm_hub_run(&service);                            the hub's thread
 *
 *     vlm_port_posted(&bell, vlm_port_enq(&port, &request, name, name_len));      the thread of node 1
 *     while (vlm_port_next(&port, &bells[0], &bell, -1, &item) == VLM_NORMAL) ...
 *
 *     vlm_hub_stop(&service);                           any thread
 *
 * Only vlm_bell_wait, vlm_port_next, vlm_port_block and vlm_hub_run wait. A loop of the program's own in the hub's
 * thread calls vlm_hub_turn_ringing, and vlm_hub_answer_reads after each turn if threads of ports read status blocks.
 * One in the thread of a port rings the hub's bell after a post and after taking items.
 *
 * The layer is plain C over pthreads and Linux's eventfd. It is tested, and not proved. No call takes memory.
 *
 * What the caller owes, beside what vlm_hub.h says:
 * - A bell stays at its place from its opening until its last call has returned, and so does a service.
 * - One thread at a time waits for a bell. Any number of threads ring it.
 * - A pointer is not null, except where a comment says so.
 * - No call is made from a signal handler.
 */
#ifndef VLM_HUB_WAIT_H
#define VLM_HUB_WAIT_H

#include "vlm_hub.h"

#ifdef __cplusplus
extern "C" {
#endif

/* A bell. A ring lasts until a wait takes it, so a ring before the wait is not lost. One wait takes all rings so
 * far. */
typedef struct vlm_bell {
    void (*ring)(void *context);                       /* null: the bell is an eventfd */
    uint32_t (*wait)(void *context, int milliseconds); /* NORMAL or TIMEOUT */
    void *context;
    int descriptor;     /* the eventfd, or -1 */
    uint32_t is_made;   /* 1: vlm_bell_open made the eventfd */
    uint32_t is_rung;   /* 1: the eventfd is readable, or is just about to be */
    uint32_t has_taken; /* 1: vlm_port_next took an item with it, and rang no bell since */
} vlm_bell;
#define VLM_BELL_CLOSED \
    { 0, 0, 0, -1, 0, 0, 0 }

/* Opens a bell with a new eventfd. NORMAL; INSFMEM: there was no eventfd to be had; BADPARAM: the bell is open. */
uint32_t vlm_bell_open(vlm_bell *bell);

/* Opens a bell that rings an eventfd of the program, which stays the program's. An event loop polls the descriptor;
 * when it is readable, the loop calls vlm_bell_wait with 0 milliseconds, and reads nothing itself. NORMAL, BADPARAM. */
uint32_t vlm_bell_open_on(vlm_bell *bell, int descriptor);

/* Opens a bell of two functions, which keep the promise of a bell. NORMAL, BADPARAM. */
uint32_t vlm_bell_open_with(vlm_bell *bell, void (*ring)(void *context),
                            uint32_t (*wait)(void *context, int milliseconds), void *context);

/* Closes a bell, open or not, and the eventfd that vlm_bell_open made. */
void vlm_bell_close(vlm_bell *bell);

/* Rings a bell. Never waits. On a closed bell it does nothing. */
void vlm_bell_ring(vlm_bell *bell);

/* Waits for a ring for so many milliseconds, or with -1 for ever. NORMAL: it was rung. TIMEOUT. BADPARAM: the bell is
 * closed, or its descriptor is. */
uint32_t vlm_bell_wait(vlm_bell *bell, int milliseconds);

/* A status block that the thread of a port reads. A completion AST tells only that a request has ended. The status
 * block tells how, and has the value. The hub's thread looks it up between two turns. Each node has one read at a time,
 * which stays at its place as a bell does. */
typedef struct vlm_block_read {
    uint32_t size;
    uint32_t state;  /* 0; the calls write it */
    uint32_t pid;    /* a process of the port's node */
    uint32_t block;  /* the number of its status block, from 1 */
    uint32_t status; /* what vlm_hub_block answered */
    uint32_t reserved;
    vlm_lksb lksb; /* the status block, if it answered NORMAL; its size need not be set */
} vlm_block_read;

/* The hub's thread. */

/* Makes a turn, and rings the bell of each node that got an item in it. bells has the bells of `count` nodes, node 1
 * first. Answers as vlm_hub_turn. */
uint32_t vlm_hub_turn_ringing(vlm_hub *hub, vlm_bell *bells, size_t count, size_t *made);

/* Looks up the status blocks that threads of ports have asked for, and rings the bells of their nodes. bells and reads
 * have those of `count` nodes, node 1 first. Answers how many there were. */
size_t vlm_hub_answer_reads(vlm_hub *hub, vlm_bell *bells, size_t count, vlm_block_read *reads);

/* A hub that a thread serves. */
typedef struct vlm_hub_service {
    uint32_t size;
    uint32_t is_stopped; /* 0; vlm_hub_stop writes it */
    uint32_t lost;       /* 0; vlm_hub_tell_lost writes it: bit n for node n */
    uint32_t reserved;   /* 0 */
    vlm_hub *hub;
    vlm_bell *bell;     /* the hub's: posts ring it */
    vlm_bell *bells;    /* those of the nodes, node 1 first */
    size_t bell_count;  /* how many they are */
    vlm_entry *entries; /* place for a part of the journal, or null: nothing cuts the journal, and it grows */
    size_t capacity;    /* how many entries fit there, VLM_LEAST_CAPACITY or more; else 0 */
    /* Gets each part, or null. */
    uint32_t (*keep)(void *context, const vlm_entry *entries, const vlm_cut *cut);
    void *context;         /* the first argument of keep */
    vlm_block_read *reads; /* those of the nodes, as many as bells, or null: no thread of a port reads a block */
} vlm_hub_service;

enum { VLM_LEAST_CAPACITY = 32 };

/* Makes turns until vlm_hub_stop is called, and answers the reads after each. Sleeps on the hub's bell after a turn
 * that made nothing. With `entries`, it cuts the journal while there is still place for a turn, and at the end, and
 * calls keep with each part.
 * NORMAL: it was stopped. Posts that it has not made stay at their ports.
 * INSFMEM: the journal got no more memory. Nothing is lost: cut, and call it again.
 * IVBUFLEN: the journal had more than `capacity` entries at the start.
 * BADPARAM: the service is malformed, or has a closed hub, or its own bell is closed. A closed bell of a node is not
 * rung: its thread looks for items by itself.
 * Any other value is what keep returned instead of NORMAL. */
uint32_t vlm_hub_run(vlm_hub_service *service);

/* Ends vlm_hub_run after the turn that it makes, if it runs, and each later one at its start. For any thread. */
void vlm_hub_stop(vlm_hub_service *service);

/* Tells vlm_hub_run that the thread of a node is gone: it calls vlm_hub_lost in the hub's thread, at the latest when it
 * ends. For any thread. NORMAL; BADPARAM: the node is not 1 to 8. */
uint32_t vlm_hub_tell_lost(vlm_hub_service *service, uint32_t node);

/* The thread of a port. */

/* Rings the hub's bell if a post succeeded. Its answer is `status`, the post's. */
uint32_t vlm_port_posted(vlm_bell *hub_bell, uint32_t status);

/* Takes the next item, and waits for it on the bell of its node: for so many milliseconds, or with -1 for ever. If it
 * took items and finds no more, it rings the hub's bell, since the hub may wait for their places. A thread that calls
 * vlm_port_take instead rings the hub's bell itself.
 * NORMAL: *item is the item.
 * TIMEOUT: *item is of the kind VLM_NO_ITEM.
 * BADPARAM: the port is closed, or the bell is and no item has come, or the item has another size. */
uint32_t vlm_port_next(vlm_port *port, vlm_bell *bell, vlm_bell *hub_bell, int milliseconds, vlm_item *item);

/* Reads the status block that `read` names, by the hub's thread: rings the hub's bell, and waits for the answer on the
 * bell of the node. The block is as it is after all items that the thread has taken. The wait takes no item, and
 * vlm_port_next after it misses none.
 * NORMAL: read->lksb is the block, and the read is free for another one.
 * TIMEOUT: the answer has not come yet; the same call with the same read waits for it further. With 0 milliseconds the
 * call never waits.
 * BADPARAM: no living process has the ID, or it has no such block; then the read is free too. Or the process is of
 * another node, the port or a bell is closed, or the read is malformed; then a read that was asked for stays so. */
uint32_t vlm_port_block(vlm_port *port, vlm_bell *bell, vlm_bell *hub_bell, int milliseconds, vlm_block_read *read);

#ifdef __cplusplus
}
#endif
#endif
