/* What the files of the layer for OpenVMS share. Not a header of programs.
 *
 * A request has a record from its service to its end. A lock has a record from its acceptance until it goes: so the
 * layer knows which blocking routine a warning is for. The lock manager below tells of ends and warnings in a thread of
 * its own, which writes the lock status block, sets the event flag and queues the AST. Other threads run the ASTs.
 *
 * enq.c         sys$enq and sys$enqw, and how a request ends
 * deq.c         sys$deq
 * getlki.c      sys$getlki: the item list
 * items.c       sys$getlki: what each item has
 * flags.c       event flags
 * asts.c        the queue of ASTs, their delivery, and waits
 * locks.c       records of locks
 * engine.c      which lock manager there is, and opening it
 * in_process.c  the lock manager in this process, by vlm_threads.h
 * by_vlmd.c     the lock service, by vlm_client.h
 * conditions.c  numbers and texts of conditions
 *
 * One mutex guards all that these files keep. No function keeps it while it calls the lock manager below, or an AST
 * routine. Functions that are declared here want it held if their comment says so.
 */
#ifndef VMS_PARTS_H
#define VMS_PARTS_H

#define _GNU_SOURCE

#include "starlet.h"

#include <vlm_threads.h>

#include <pthread.h>

enum { SHORT_VALUE = 16, WHOLE_VALUE = 64, NAME_BYTES = 32, MOST_REQUESTS = 255 };

/* The lock manager below. */

/* A lock as a reading tells of it. */
struct row {
    uint32_t lkid;
    uint32_t pid; /* of the operating system */
    uint32_t held, want, queue;
};

struct rows {
    struct row *rows;
    size_t count, room;
};

/* What is read of one lock. */
struct reading {
    struct row row;
    uint32_t parent, sublocks, counts[3];
    uint32_t is_system, group, name_len, value_valid, tail_valid;
    uint8_t name[NAME_BYTES];
    uint8_t value[WHOLE_VALUE];
};

/* Lists of locks: all that the process may see; those on the resource of a lock; those that its request waits for;
 * those whose requests wait for it. */
enum list { ALL, ON_RESOURCE, BLOCKERS, BLOCKED };

/* A lock manager. Each function answers a status of vlm.h, and wants the mutex not held. `ask` is one of the start
 * forms, a conversion without a name. Readings answer IVLOCKID if the process may see no such lock, and VLM_FULL if a
 * list is too long. `below` counts the resources below that of a lock. */
struct engine {
    uint32_t (*open)(const char *address, uint32_t quota);
    uint32_t (*ask)(vlm_threads_request *request, const uint8_t *name, size_t name_len);
    uint32_t (*deq)(vlm_threads_dequeue *dequeue);
    uint32_t (*read)(uint32_t lkid, struct reading *reading);
    uint32_t (*list)(enum list list, uint32_t lkid, struct rows *rows);
    uint32_t (*below)(uint32_t lkid, uint32_t *count);
};

extern const struct engine vms_in_process, vms_by_vlmd;

/* engine.c. vms_open opens the lock manager of this process if it is not open: SS$_NORMAL and the engine, or what the
 * service answers. vms_claim makes this process the one that uses the layer, if none does: whether it is. A child that
 * it forks is not, since threads are not forked. vms_setting reads a setting such as VLM$SERVICE, or null. vms_add_row
 * answers whether there was memory. */
uint32_t vms_open(const struct engine **engine);
bool vms_claim(void);
const char *vms_setting(const char *name);
bool vms_add_row(struct rows *rows, const struct row *row);

/* conditions.c: the condition value for a status of vlm.h. */
uint32_t vms_condition(uint32_t status);

/* ASTs and waits. */

struct ast {
    struct ast *previous, *next;
    VMS$AST routine;
    VMS$PARAMETER parameter;
    bool is_queued;
    bool is_kept; /* it belongs to a lock, and is not freed after its call */
};

typedef bool (*vms_condition_met)(const void *argument);

/* asts.c. vms_changed, vms_queue_ast and vms_unqueue_ast want the mutex held. A service calls vms_enter, which waits
 * for the end of a routine, and at its end vms_leave, which delivers what is pending. vms_wait delivers ASTs until the
 * condition is met, which is asked with the mutex held; vms_await delivers none. In an AST routine none is delivered.
 * vms_start starts the thread that delivers while no service does: whether it runs. */
void vms_lock(void);
void vms_unlock(void);
void vms_changed(void);
void vms_queue_ast(struct ast *ast);
void vms_unqueue_ast(struct ast *ast);
void vms_wait(vms_condition_met is_met, const void *argument);
void vms_await(vms_condition_met is_met, const void *argument);
void vms_enter(void);
void vms_leave(void);
bool vms_start(void);
struct ast *vms_new_ast(VMS$AST routine, VMS$PARAMETER parameter);

/* flags.c. vms_check_flag answers SS$_NORMAL, SS$_ILLEFC or SS$_UNASEFC. The others want the mutex held. */
uint32_t vms_check_flag(uint32_t efn);
void vms_set_flag(uint32_t efn);
void vms_clear_flag(uint32_t efn);

/* Locks and requests. */

/* The lock status block of a program. */
struct status_block {
    uint16_t status, reserved;
    uint32_t lkid;
    uint8_t value[WHOLE_VALUE]; /* as far as the flags say */
};

/* A grant has a number: so a warning of an earlier one is known. */
struct lock {
    struct lock *next_hashed, *previous, *next;
    uint32_t lkid, parent;
    uint64_t grant;    /* 0 while it waits */
    uint64_t going;    /* the number of the dequeue that is made for it, or 0 */
    bool is_given_up;  /* by that dequeue, so no warning is queued */
    bool is_held_back; /* a warning has come meanwhile */
    VMS$AST blocking;
    VMS$PARAMETER parameter;
    struct ast warning;
    struct request *pending; /* its request, or null */
};

struct request {
    struct request *next_called;
    struct lock *lock; /* of a new request: the record of its lock, until that is in the table */
    uint32_t parent, flags, efn;
    struct status_block *block;
    struct ast *completion; /* or null */
    VMS$AST blocking;
    VMS$PARAMETER parameter;
    uint64_t grant;
    bool is_conversion, is_accepted, is_ended;
    bool is_called; /* its service has not returned, and frees it */
};

/* locks.c. All want the mutex held. vms_find_lock: or null. vms_is_below: whether a lock is below another; all are
 * below 0. vms_warn queues the blocking AST of a lock. */
struct lock *vms_find_lock(uint32_t lkid);
struct lock *vms_first_lock(void);
void vms_add_lock(struct lock *lock);
void vms_remove_lock(struct lock *lock);
bool vms_is_below(const struct lock *lock, uint32_t lkid);
void vms_warn(struct lock *lock);

/* enq.c. From vms_begin_dequeue to vms_end_dequeue no request is made if the dequeue is alone: one of many locks, or a
 * cancel. Both want the mutex not held. */
void vms_begin_dequeue(bool is_alone);
void vms_end_dequeue(void);

/* enq.c: queues the blocking ASTs of all locks, after they were lost. The layer below calls it. */
void vms_lost(void *unused);

/* items.c: writes an item of a lock into a buffer. *written is how many bytes, *whole how many there are, and *each how
 * long an entry of a list is, or 0. A condition value. */
struct item {
    uint16_t length, code;
    uint8_t *buffer;
    uint32_t *returned; /* or null */
};
struct answer {
    uint32_t written, whole, each;
};
uint32_t vms_read_item(const struct engine *engine, const struct reading *reading, const struct item *item,
                       struct answer *answer);

#endif
