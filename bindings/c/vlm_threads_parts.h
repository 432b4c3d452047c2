/* What the files of the layer for threads share. Not a header of programs.
 *
 * The layer has one mutex, which guards everything. Each call makes a step of the core, then takes all ASTs that the
 * step queued, so between two calls none is pending in the core. A request has a record here. Its place in the table of
 * records is the parameter of both its ASTs, so an AST finds its request at once. An AST wakes the one thread that
 * waits for its request, or becomes an event in a queue, from which routines are called without the mutex.
 *
 * vlm_threads.c            opening, closing, counters
 * vlm_threads_watch.c      searches, the thread that watches, and the hooks
 * vlm_threads_cycles.c     the victim of a search, and its cycle
 * vlm_threads_processes.c  declare, rundown, leave, the ends of threads
 * vlm_threads_requests.c   enq, convert, deq, and the wait for a grant
 * vlm_threads_delivery.c   calls of routines
 * vlm_threads_ends.c       the ASTs of the core, the ends of requests, the queue of events
 * vlm_threads_records.c    tables, and the room that a call makes before its step
 * vlm_threads_lock.c       the mutex, and how threads sleep without it
 * vlm_threads_print.c      counters, waits and deadlocks as text
 *
 * The functions that are declared here want the mutex held. Exceptions are vlmt_lock, vlmt_processors, vlmt_looks,
 * those that make or free a mutex, a condition or a table, and those that threads begin with (vlmt_dispatch,
 * vlmt_watch).
 */
#ifndef VLM_THREADS_PARTS_H
#define VLM_THREADS_PARTS_H

#define _POSIX_C_SOURCE 200809L

#include "vlm_descriptors.h"
#include "vlm_sizes.h"

#include <stdatomic.h>

enum { CACHE_LINE = 64 };

/* The kind of an event that calls a `released` routine, beside those of ASTs. */
enum { RELEASED = 3 };

/* A wait that is shorter than this is short. So long a thread looks whether its request has ended, before it sleeps. */
enum { LOOK_MICROSECONDS = 50, MOST_SHORT = 16 };

/* What threads sleep on, without the mutex, until something has come. */
struct condition {
#ifdef VLM_THREADS_PLAIN_MUTEX
    pthread_cond_t plain;
#else
    atomic_uint count;          /* of wakes */
    uint32_t sleepers, lookers; /* threads that sleep on it or look at it, or are on their way to the mutex */
#endif
};

/* Whom the owner of the mutex has told since it took the mutex that something has come. */
struct told {
    bool any;                  /* somebody */
    bool looker;               /* a thread that looks */
    struct condition *sleeper; /* where a thread sleeps that is to be woken once the mutex is let go, or null */
};

/* The layer's mutex. Threads that want it look at the first two words, so these are on a cache line of their own. */
struct mutex {
#ifdef VLM_THREADS_PLAIN_MUTEX
    pthread_mutex_t plain;
#endif
    uint8_t before[CACHE_LINE];
    atomic_uint state;
    atomic_uint taken; /* how often it was taken */
    uint8_t after[CACHE_LINE - 2 * sizeof(atomic_uint)];
    /* Threads that want the mutex and have looked for a while, on two sides. Those who come join one side. A giver, who
     * lets others have the mutex, has them join the other side, and waits until the first is empty. */
    atomic_uint waiting[2];
    atomic_uint joined; /* the side that is joined */
    uint32_t givers;
};

/* What a table finds by its number: the first member of a process and of a lock. */
struct entry {
    uint32_t id;
    struct entry *next;
};

/* Chains of entries. There are at least as many chains as entries. The table grows by one chain at a time, which takes
 * over a part of one other (linear hashing), so no call moves more than one chain. */
struct table {
    struct entry **chains;
    uint32_t room;  /* for this many chains */
    uint32_t used;  /* how many chains there are */
    uint32_t half;  /* a power of two, with half < used <= 2 * half */
    uint32_t count; /* how many entries */
};

struct event {
    struct event *next, *previous;
    struct request *request;
    struct queue *queue; /* in which it is pending, or null */
    uint32_t kind;
};

/* Pending events, whose routines run one at a time. */
struct queue {
    struct event *first, *last;
    struct event *due; /* the last one that the delivery under way calls for, or null */
    uint64_t count;
    int descriptor;     /* the eventfd, or -1 */
    bool is_delivering; /* a thread is in a delivery */
    bool is_left;       /* its process has ended */
};

/* A call of a routine or a hook that runs without the mutex. It is on the stack of the thread that makes it. */
struct running {
    struct running *next, **link;
    pthread_t thread;
    uint64_t number; /* such calls are numbered in the order in which they begin */
};

/* A thread that waits for the end of a request. It is on that thread's stack. */
struct waiter {
    struct condition ended;
    const struct asked *asked;
    struct request *request; /* null if the thread does not wait */
    uint32_t status;         /* 0 until the request has ended */
};

/* The arguments of a call that makes a request. */
struct asked {
    vlm_threads_request words;  /* as they were given, and whole */
    vlm_threads_request *given; /* where the answers are written */
    const uint8_t *name;
    size_t name_len;
    bool is_conversion;
    bool waits;
};

/* A request that was accepted. Its record is in use while it is queued, while its lock holds the mode that it granted,
 * and while an event of it is pending. */
struct request {
    struct request *next_free;
    struct process *process;
    struct request *older, *newer;    /* among all queued requests */
    struct request *next_own, **link; /* among those of its process */
    struct lock *lock;
    uint32_t index; /* its place in the layer's table */
    uint32_t lkid;
    uint32_t flags;
    uint32_t status; /* how it ended */
    uint8_t block;   /* its status block while it is queued */
    bool is_queued;
    bool is_held; /* its lock holds the mode that it granted */
    bool is_late; /* its time is over */
    bool is_told; /* the hook was told that it is to be a victim */
    uint64_t since;
    struct waiter *waiter; /* null with a completion routine */
    vlm_threads_routine completion, blocking;
    void *completion_context, *blocking_context;
    vlm_threads_released released; /* null after its call too */
    struct event ended, warned;    /* `ended` also calls `released` at last */
    uint8_t value[WHOLE_VALUE];
};

struct lock {
    struct entry entry;
    struct process *process;
    struct lock *sublocks;
    struct lock *next, **link; /* among the sublocks of its parent, or the roots of its process */
    struct request *held;      /* the last one that was granted, or null */
    struct request *queued;    /* the one that waits, or null */
};

/* What a walk over waits knows of a process that it has reached: by a wait of a request for a lock. */
struct visit {
    uint64_t walk;         /* the last one that came here */
    struct process *below; /* the next one that it reached */
    struct request *reached_by;
    uint32_t reached_for;
};

struct process {
    struct entry entry;
    struct lock *locks;     /* those without a parent */
    struct request *queued; /* its queued requests, the latest first */
    struct queue *queue;    /* the layer's, or its own */
    struct visit visit;
    uint8_t label[VLM_THREADS_LABEL];
    struct bond *bond; /* the thread that it is tied to, or null */
    struct process *next_tied;
    uint32_t free_count;
    uint8_t free_blocks[]; /* the status blocks that no queued request has */
};

/* A thread with the processes that are tied to it. */
struct bond {
    vlm_threads *layer;
    struct bond *next, **link;
    struct process *processes;
};

struct vlm_threads {
    struct mutex mutex;
    struct told told;
    struct condition pending; /* the dispatcher sleeps: an event is pending, or it is to end */
    struct condition watched; /* the watchdog sleeps: it is to end */
    struct condition calm;    /* a close or a settle sleeps: a routine or a sleep has ended */
    vlm handle;
    uint32_t departed; /* bit n: node n has departed */

    struct table processes, locks;
    struct request **requests; /* all records, by index */
    uint32_t request_count, request_room;
    struct request *free_requests;
    struct lock *free_locks;

    struct request *oldest, *newest; /* all queued requests, in the order in which they were made */
    struct request *untold;          /* the oldest one whose wait was not told as a long one, or null */
    uint64_t walk;                   /* how many walks over waits there were */

    struct queue queue;      /* of the processes without one */
    struct running *running; /* the calls of routines and hooks that run */
    uint64_t begun;          /* how many of them have begun */
    uint32_t settling;       /* threads that wait for their end */

    pthread_key_t key; /* of a thread's bond */
    bool has_key;
    struct bond *bonds; /* of all threads with a tied process */

    pthread_t dispatcher, watchdog;
    bool has_dispatcher, has_watchdog, is_closing;
    vlm_threads_options options;
    uint32_t sleepers;    /* threads that sleep in a call other than a close */
    uint32_t processors;  /* that the threads of the program may use */
    uint32_t short_waits; /* of the last ones: one more with each, one less with each long one, 0 to MOST_SHORT */
    vlm_threads_counters counters;
};

/* vlm_threads_lock.c: the mutex. */
void vlmt_make_mutex(struct mutex *mutex);
void vlmt_free_mutex(struct mutex *mutex);
void vlmt_lock(vlm_threads *layer);
void vlmt_unlock(vlm_threads *layer);

/* How many processors the program's threads may use. */
uint32_t vlmt_processors(void);

/* Lets the mutex go, and takes it again when each thread that was waiting for it has had it. */
void vlmt_let_others(vlm_threads *layer);

/* Conditions. A thread sleeps without the mutex until it is woken, or for nothing, or until a moment of the monotonic
 * clock, if `end` is not null: then the answer is false. A thread that looks returns when it would be woken, or after
 * LOOK_MICROSECONDS. */
void vlmt_make_condition(struct condition *condition);
void vlmt_free_condition(struct condition *condition);
bool vlmt_sleep(vlm_threads *layer, struct condition *condition, const struct timespec *end);
void vlmt_look(vlm_threads *layer, struct condition *condition);
void vlmt_wake(vlm_threads *layer, struct condition *condition);
void vlmt_wake_all(struct condition *condition);

/* vlm_threads_records.c: an entry of a table, or null. */
struct entry *vlmt_found(const struct table *table, uint32_t id);
void vlmt_put(struct table *table, struct entry *entry);
void vlmt_take_out(struct table *table, struct entry *entry);

/* Room: whether it could be made. */
bool vlmt_make_table(struct table *table, uint32_t bits);
bool vlmt_reserve_entry(struct table *table);
bool vlmt_reserve_request(vlm_threads *layer);
bool vlmt_reserve_lock(vlm_threads *layer);

/* vlm_threads_ends.c: the eventfd of a queue, and events. An event joins the queue of its process. */
void vlmt_set_readable(const struct queue *queue, bool is_readable);
void vlmt_queue_event(vlm_threads *layer, struct event *event);
void vlmt_unqueue_event(vlm_threads *layer, struct event *event);
void vlmt_drop_event(vlm_threads *layer, struct event *event);

/* Frees the queue of a process that has ended. What is left in it goes to the layer's queue. */
void vlmt_free_queue(vlm_threads *layer, struct queue *queue);

/* The beginning and the end of a grant, of a wait, of a lock, and of a record. */
void vlmt_hold(vlm_threads *layer, struct request *request);
void vlmt_leave_queue(vlm_threads *layer, struct request *request);
void vlmt_tell(vlm_threads *layer, struct request *request);
void vlmt_remove_lock(vlm_threads *layer, struct lock *lock);
void vlmt_remove_locks(vlm_threads *layer, struct lock **locks);
void vlmt_release(vlm_threads *layer, struct request *request);

/* How a request ended: the bytes that were returned, the reading from its status block, the writing for the caller. */
uint32_t vlmt_value_len(const struct request *request);
void vlmt_read_block(vlm_threads *layer, struct request *request);
void vlmt_write_words(const struct request *request, const struct asked *asked);

/* Takes all ASTs that a step has queued: ends their requests and queues their warnings. Comes after each step. */
void vlmt_take_asts(vlm_threads *layer);

/* vlm_threads_processes.c: all processes of a node have ended in the core, or of all nodes with 0. */
void vlmt_forget_node(vlm_threads *layer, uint32_t node);

/* The core's answer about a process that does not live: NONEXPR or DEPARTED. */
uint32_t vlmt_refusal(vlm_threads *layer, uint32_t pid);

/* vlm_threads_delivery.c: the start routine of the layer's thread, which takes the mutex itself. */
void *vlmt_dispatch(void *layer);

/* Before and after a call of a routine or a hook: the first lets the mutex go, the second takes it. */
void vlmt_begin_running(vlm_threads *layer, struct running *running);
void vlmt_end_running(vlm_threads *layer, struct running *running);
bool vlmt_is_in_routine(const vlm_threads *layer);

/* Calls the `released` routines that are left when the layer is closed. */
void vlmt_release_rest(vlm_threads *layer);

/* Before and after a sleep of a call, for which a close waits. Between them the thread is not cancelled. */
int vlmt_begin_sleep(vlm_threads *layer);
void vlmt_end_sleep(vlm_threads *layer, int before);

/* Waits until each routine and hook that runs has returned. */
void vlmt_settle(vlm_threads *layer);

/* vlm_threads.c: whether the calling thread is in a reader of vlm_threads_look. Needs no mutex. */
bool vlmt_looks(const vlm_threads *layer);

/* vlm_threads_watch.c: the start routine of the thread that watches, which takes the mutex itself. */
void *vlmt_watch(void *layer);

/* vlm_threads_cycles.c: the request that a search of the core would end, or null; its cycle; a wait of a request for
 * another lock, or for none with 0. */
struct request *vlmt_victim(vlm_threads *layer);
void vlmt_read_cycle(vlm_threads *layer, struct request *victim, vlm_threads_deadlock *deadlock);
void vlmt_read_wait(vlm_threads *layer, const struct request *request, uint32_t blocker, vlm_threads_wait *wait);

static inline struct process *process_of(vlm_threads *layer, uint32_t pid) {
    return (struct process *)vlmt_found(&layer->processes, pid);
}

static inline struct lock *lock_of(vlm_threads *layer, uint32_t lkid) {
    return (struct lock *)vlmt_found(&layer->locks, lkid);
}

static inline struct lock *lowest(struct lock *lock) {
    while (lock->sublocks)
        lock = lock->sublocks;
    return lock;
}

#endif
