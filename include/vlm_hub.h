/* A hub: several nodes, each with a thread of its own, share one lock manager, and no call of a node waits.
 *
 * The hub's thread owns the lock manager. Each node has a port. Its thread posts steps at the port and takes items from
 * it: the answers to its posts, in their order, and the ASTs of its processes. The hub makes the steps in turns.
 *
 *     vlm_hub hub = VLM_HUB_CLOSED;                     the hub's thread
 *     vlm_port port = VLM_PORT_CLOSED;
 *     vlm_options options = VLM_OPTIONS;
 *     vlm_hub_open(&hub, 2, &options);                  a hub of nodes 1 and 2
 *     vlm_hub_port(&hub, 1, &port);                     the port of node 1, for the thread of node 1
 *     while (running) vlm_hub_turn(&hub, &made);
 *
 *     vlm_port_enq(&port, &request, name, name_len);    the thread of node 1
 *     while (vlm_port_take(&port, &item) == VLM_NORMAL && item.kind != VLM_NO_ITEM) ...
 *
 * What the caller owes is what vlm.h says of its handles: one call at a time has a hub, and one call at a time has a
 * port. A hub and its ports are different handles, so their threads need no lock between them. Each handle is used by
 * its own calls alone: a hub by vlm_hub_.., a port by vlm_port_.. .
 *
 * All else is checked, as vlm.h says. A call answers VLM_BADPARAM and changes nothing
 * - on a handle with nothing, or with an argument that is malformed, as vlm.h lists them;
 * - for a step of another node than the port's.
 *
 * 64 posts of a node and 64 items for it have room between a port and the hub. No call of a port takes memory.
 *
 * Two things of Rattle's hub are not here. `settle` counts what is left between the hub and a port whose thread has
 * ended: empty them instead, by taking until nothing comes and turning until a turn makes nothing, again and again
 * until neither finds anything. Watchers of resources: a publish may wait, which the kit lets no static library do, so
 * replay the journal into a lock manager of your own.
 */
#ifndef VLM_HUB_H
#define VLM_HUB_H

#include "vlm.h"

#ifdef __cplusplus
extern "C" {
#endif

/* Kinds of item. */
enum { VLM_NO_ITEM = 0, VLM_ANSWER = 1, VLM_AST = 2 };

/* Kinds of step, as a journal has them. */
enum {
    VLM_STEP_DECLARE = 1,
    VLM_STEP_SET_VALUE = 2,
    VLM_STEP_ENQ = 3,
    VLM_STEP_CONVERT = 4,
    VLM_STEP_DEQ = 5,
    VLM_STEP_RUNDOWN = 6,
    VLM_STEP_LEAVE = 7,
    VLM_STEP_SEARCH = 8,
    VLM_STEP_TAKE = 9
};

/* A handle of a hub, or of nothing. */
typedef struct vlm_hub {
    void *held;
    bool is_held;
} vlm_hub;
#define VLM_HUB_CLOSED \
    { 0, false }

/* A handle of a port, or of nothing. */
typedef struct vlm_port {
    void *held;
    bool is_held;
} vlm_port;
#define VLM_PORT_CLOSED \
    { 0, false }

/* An item for a node. */
typedef struct vlm_item {
    uint32_t size;
    uint32_t kind;   /* VLM_NO_ITEM, VLM_ANSWER or VLM_AST */
    uint32_t status; /* VLM_ANSWER: the condition value of the oldest post that had no answer yet */
    uint32_t number; /* VLM_ANSWER: a process, a lock, or the victim's lock of a search; or 0 */
    uint32_t pid;    /* VLM_AST: the process that it is for */
    uint32_t reserved[3];
    vlm_ast ast; /* VLM_AST: the AST */
} vlm_item;

/* An entry of the journal: a step that the hub made, with its answer. `step` says which of the other members tell of
 * it: those that belong to other steps are 0, and `ast` is of the kind VLM_NO_AST. declaration, setting, request and
 * dequeue can be passed to the calls of vlm.h. */
typedef struct vlm_entry {
    uint32_t size;
    uint32_t sender;             /* the node that posted the step, or 0: the hub took an AST, or a node was lost */
    uint32_t step;               /* VLM_STEP_DECLARE .. VLM_STEP_TAKE */
    uint32_t pid;                /* VLM_STEP_RUNDOWN, VLM_STEP_TAKE */
    uint32_t node;               /* VLM_STEP_LEAVE, VLM_STEP_SEARCH */
    uint32_t status;             /* of the answer: its condition value */
    uint32_t number;             /* of the answer: a process, a lock, a victim's lock, or 0 */
    uint32_t name_len;           /* VLM_STEP_ENQ: the length of the name, 1 to 31, or 0 if its length was not allowed */
    vlm_ast ast;                 /* of the answer to VLM_STEP_TAKE */
    uint8_t name[32];            /* VLM_STEP_ENQ: the name, with zeros after it */
    vlm_declaration declaration; /* VLM_STEP_DECLARE */
    vlm_setting setting;         /* VLM_STEP_SET_VALUE */
    vlm_request request;         /* VLM_STEP_ENQ, VLM_STEP_CONVERT */
    vlm_dequeue dequeue;         /* VLM_STEP_DEQ */
    uint32_t reserved[8];
} vlm_entry;

/* What vlm_hub_cut tells of the entries that it handed out. */
typedef struct vlm_cut {
    uint32_t size;
    uint32_t entry_size; /* sizeof(vlm_entry) */
    uint64_t base;       /* how many entries were handed out before */
    uint64_t count;      /* how many entries it wrote */
    uint32_t reserved[2];
} vlm_cut;

VLM_ASSERT(sizeof(vlm_hub) == 16);
VLM_ASSERT_AT(vlm_hub, held, 0);
VLM_ASSERT_AT(vlm_hub, is_held, 8);
VLM_ASSERT(sizeof(vlm_port) == 16);
VLM_ASSERT_AT(vlm_port, held, 0);
VLM_ASSERT_AT(vlm_port, is_held, 8);

VLM_ASSERT(sizeof(vlm_item) == 64);
VLM_ASSERT_AT(vlm_item, size, 0);
VLM_ASSERT_AT(vlm_item, kind, 4);
VLM_ASSERT_AT(vlm_item, status, 8);
VLM_ASSERT_AT(vlm_item, number, 12);
VLM_ASSERT_AT(vlm_item, pid, 16);
VLM_ASSERT_AT(vlm_item, reserved, 20);
VLM_ASSERT_AT(vlm_item, ast, 32);

VLM_ASSERT(sizeof(vlm_entry) == 512);
VLM_ASSERT_AT(vlm_entry, size, 0);
VLM_ASSERT_AT(vlm_entry, sender, 4);
VLM_ASSERT_AT(vlm_entry, step, 8);
VLM_ASSERT_AT(vlm_entry, pid, 12);
VLM_ASSERT_AT(vlm_entry, node, 16);
VLM_ASSERT_AT(vlm_entry, status, 20);
VLM_ASSERT_AT(vlm_entry, number, 24);
VLM_ASSERT_AT(vlm_entry, name_len, 28);
VLM_ASSERT_AT(vlm_entry, ast, 32);
VLM_ASSERT_AT(vlm_entry, name, 64);
VLM_ASSERT_AT(vlm_entry, declaration, 96);
VLM_ASSERT_AT(vlm_entry, setting, 128);
VLM_ASSERT_AT(vlm_entry, request, 224);
VLM_ASSERT_AT(vlm_entry, dequeue, 352);
VLM_ASSERT_AT(vlm_entry, reserved, 480);

VLM_ASSERT(sizeof(vlm_cut) == 32);
VLM_ASSERT_AT(vlm_cut, size, 0);
VLM_ASSERT_AT(vlm_cut, entry_size, 4);
VLM_ASSERT_AT(vlm_cut, base, 8);
VLM_ASSERT_AT(vlm_cut, count, 16);
VLM_ASSERT_AT(vlm_cut, reserved, 24);

/* Puts a new hub of 1 to 8 nodes into a handle that has nothing. NORMAL, INSFMEM; BADPARAM if the handle has a hub,
 * there are 0 nodes or more than 8, or the options are malformed or of another version. */
uint32_t vlm_hub_open(vlm_hub *hub, uint32_t nodes, const vlm_options *options);

/* Puts the port of a node into a handle that has nothing. The hub gives each port once. NORMAL, INSFMEM: then the hub
 * still has the port; BADPARAM if the hub has no such node, or has given its port, or `port` has a port. */
uint32_t vlm_hub_port(vlm_hub *hub, uint32_t node, vlm_port *port);

/* Attends to each node once: sends it one of its pending ASTs, and makes and answers one of its posts, if its port has
 * room for the item. *made is the number of entries that it wrote, or 0: there was nothing to do. NORMAL; INSFMEM if
 * the journal got no more memory after *made entries: no post is lost, and another turn may go on; BADPARAM, with
 * *made 0. */
uint32_t vlm_hub_turn(vlm_hub *hub, size_t *made);

/* A node departs whose thread is gone: all its processes end. Its later posts are answered DEPARTED. NORMAL, or
 * DEPARTED if it had departed before; INSFMEM: then nothing is changed; BADPARAM if the node is not 1 to 8. */
uint32_t vlm_hub_lost(vlm_hub *hub, uint32_t node);

/* Counts the posts of a node that are in its ring, and that the hub has not made. It looks at the ring, so once the
 * node's thread has ended, none is missed. NORMAL, or BADPARAM and nothing is written: the hub has no such
 * node. */
uint32_t vlm_hub_waiting(vlm_hub *hub, uint32_t node, size_t *posts);

/* Count the nodes that the hub serves, and the entries of its journal since the last cut. 0 on a handle with no hub. */
size_t vlm_hub_nodes(vlm_hub *hub);
size_t vlm_hub_entries(vlm_hub *hub);

/* Copies the entry at a place, from 0, since the last cut, in constant time. NORMAL, or BADPARAM and nothing is
 * written. */
uint32_t vlm_hub_entry(vlm_hub *hub, size_t place, vlm_entry *entry);

/* Copies a status block of a process of the hub, as vlm_block does. The items of a node bring no status blocks:
 * vlm_port_block of vlm_hub_wait.h lets the thread of a port read them. NORMAL, or BADPARAM and nothing is written. */
uint32_t vlm_hub_block(vlm_hub *hub, uint32_t pid, uint32_t block, vlm_lksb *lksb);

/* Hands out all entries since the last cut, in order, and begins a new part of the journal. The parts in their order
 * are the whole journal. It takes no memory. NORMAL; IVBUFLEN if there are more than `capacity` entries, or BADPARAM:
 * then nothing is written and nothing is cut. Elements of `entries` after the last entry stay as they were. A hub that
 * runs for long must cut: nothing else shortens its journal. */
uint32_t vlm_hub_cut(vlm_hub *hub, vlm_entry *entries, size_t capacity, vlm_cut *cut);

/* Frees the hub of a handle, with the ports that it has not given. Ports that it has given live on, and nobody answers
 * them. */
void vlm_hub_close(vlm_hub *hub);

/* Tells the node of a port, 1 to 8, or 0 on a handle with no port. */
uint32_t vlm_port_node(vlm_port *port);

/* Post a step of the node. NORMAL: it is posted, and its answer comes as an item; FULL; BADPARAM. The answer is what
 * the call of vlm.h would have returned. vlm_port_search searches for a deadlock, and vlm_port_bye lets the node
 * depart. */
uint32_t vlm_port_declare(vlm_port *port, const vlm_declaration *declaration);
uint32_t vlm_port_set_value(vlm_port *port, const vlm_setting *setting);
uint32_t vlm_port_enq(vlm_port *port, const vlm_request *request, const uint8_t *name, size_t name_len);
uint32_t vlm_port_convert(vlm_port *port, const vlm_request *request);
uint32_t vlm_port_deq(vlm_port *port, const vlm_dequeue *dequeue);
uint32_t vlm_port_rundown(vlm_port *port, uint32_t pid);
uint32_t vlm_port_search(vlm_port *port);
uint32_t vlm_port_bye(vlm_port *port);

/* Takes the next item: kind VLM_NO_ITEM if the port knows of none. NORMAL, or BADPARAM and nothing is written. */
uint32_t vlm_port_take(vlm_port *port, vlm_item *item);

/* Counts the items that have come and that nobody has taken. It looks at the ring, so while the hub makes no turn, none
 * is missed. NORMAL, or BADPARAM and nothing is written. */
uint32_t vlm_port_waiting(vlm_port *port, size_t *items);

/* Frees the port of a handle. The hub may go on, or be closed already. */
void vlm_port_close(vlm_port *port);

/* Makes the step of a journal's entry on a lock manager, and compares its answer. All entries of a hub, in their order,
 * bring a new lock manager to the state of the hub's. It costs what the step costs.
 * NORMAL: the answer is the entry's. A step that was answered INSFMEM changed nothing, and is not made.
 * INSFMEM: memory was refused here; replay the same entry again.
 * BADPARAM: the answer is another one, and the step was made; or the struct is no entry, or the handle has no lock
 * manager, and nothing has changed. */
uint32_t vlm_replay(vlm *handle, const vlm_entry *entry);

#ifdef __cplusplus
}
#endif
#endif
