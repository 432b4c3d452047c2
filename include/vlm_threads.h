/* The lock manager for programs with threads: a layer over vlm.h that waits, wakes, calls back and counts.
 *
 * The steps are vlm.h's, and proved. The layer itself is plain C11 over pthreads and Linux's eventfd and futex. It is
 * tested, and not proved.
 *
 *     vlm_threads_options options = VLM_THREADS_OPTIONS;
 *     vlm_threads *layer;
 *     uint32_t pid;
 *     options.search_milliseconds = 100;
 *     vlm_threads_open(&options, &layer);
 *     vlm_threads_declaration declaration = {.size = sizeof declaration, .node = 1, .quota = 9, .requests = 1};
 *     vlm_threads_declare(layer, &declaration, &pid);
 *     vlm_threads_request request = {.size = sizeof request, .pid = pid, .mode = VLM_EX, .milliseconds = 500};
 *     if (vlm_threads_enq(layer, &request, (const uint8_t *)"A", 1) == VLM_NORMAL) {
 *         ... this thread holds A alone ...
 *         vlm_threads_deq(layer, &(vlm_threads_dequeue){.size = sizeof(vlm_threads_dequeue), .pid = pid,
 *                                                       .lock = request.lkid});
 *     }
 *     vlm_threads_close(layer);
 *
 * Answers. A call returns a condition value of vlm.h, or VLM_TIMEOUT. Modes, flags and queues are vlm.h's. Arguments
 * are checked, except for the list below. A malformed one is answered VLM_BADPARAM and nothing changes.
 *
 * Sizes. Set `size` of every struct before a call. Later versions with the same first two numbers add members at the
 * ends of structs. So a struct may be shorter than the library's: the members that it lacks count as 0, and are not
 * written. These are always there: up to `keys` in options, `tied` in a declaration, `status` in a request, `wide` in a
 * dequeue, `most_waiting` in counters, `waits` in a deadlock, all of a wait. A struct without them, or longer than the
 * library's, is answered VLM_BADPARAM. vlm_threads_open compares the version of this header, which VLM_THREADS_OPTIONS
 * has, with that of the library, as vlm_open does.
 *
 * Threads. Any thread may make any call for any process, at any time between opening and closing; so may a routine,
 * except where a comment says otherwise. A call holds the layer's mutex while it works, and gives it up while it
 * sleeps. Only vlm_threads_enq, vlm_threads_convert, vlm_threads_settle and vlm_threads_close sleep. Before a thread
 * sleeps for a grant, it looks for it for up to 50 microseconds, if most of the last waits were shorter and fewer
 * requests wait than the program has processors. A thread that is cancelled by pthread_cancel during a call ends after
 * it, if its cancelability type is deferred, as it is by default.
 *
 * Memory. A call asks for all memory before its step. If memory is refused, it answers VLM_INSFMEM and nothing has
 * changed. Giving up, ending, searching and waking need none. A lock with its request takes about 400 bytes here beside
 * what the core takes, a conversion that waits 310 more. The layer keeps what has ended for later requests, and frees
 * it when it is closed.
 *
 * What the caller owes, which nothing checks:
 * - A layer comes from vlm_threads_open, and vlm_threads_close has not begun with it, except in a routine that the
 *   close waits for. If other threads may still make calls, call vlm_threads_stop, join them, and then close. No thread
 *   that declared a tied process ends during a close.
 * - A pointer is not null, except where its comment says so, and points to initialized objects of its type during the
 *   call. A name has name_len bytes, and is not null even with length 0. No two arguments overlap.
 * - The context of a routine lives as long as the routine may run; see `released` and vlm_threads_settle.
 * - A routine or a reader returns. It does not leave by longjmp, a C++ exception or pthread_exit.
 * - A reader of vlm_threads_look makes only the readings of vlm.h, and no call of this header except vlm_threads_label.
 * - No call is made from a signal handler, or in the forked child of a process with threads.
 * - malloc, calloc, realloc and free belong to one allocator. This header and vlm.h are of one version.
 */
#ifndef VLM_THREADS_H
#define VLM_THREADS_H

#include <stdio.h>

#include "vlm.h"

#ifdef __cplusplus
extern "C" {
#endif

/* A lock manager with its mutex, its processes and its threads. */
typedef struct vlm_threads vlm_threads;

/* What is told of waits. */

enum { VLM_THREADS_LABEL = 32, VLM_THREADS_CYCLE = 16 };

/* A request that waits, and a lock for which it waits. */
typedef struct vlm_threads_wait {
    uint32_t size;
    uint32_t milliseconds; /* how long it has waited */
    vlm_lock waits;        /* the lock whose request waits */
    vlm_lock blocks;       /* the lock that it waits for; lkid 0 if there is none */
    uint32_t name_len;     /* of the resource of both */
    uint8_t name[32];
    uint8_t waits_label[VLM_THREADS_LABEL];  /* of the process that waits */
    uint8_t blocks_label[VLM_THREADS_LABEL]; /* of the other process */
} vlm_threads_wait;

/* A deadlock: the cycle of waits that leads from the victim's process back to it. */
typedef struct vlm_threads_deadlock {
    uint32_t size;
    uint32_t victim; /* the lock whose request is to end by DEADLOCK */
    uint32_t pid;    /* its process */
    uint32_t length; /* how many waits the cycle has */
    /* The first of them, at most 16. The first is the victim's request; each next one is of the process that the one
     * before waits for. */
    vlm_threads_wait waits[VLM_THREADS_CYCLE];
} vlm_threads_deadlock;

/* The hooks of a layer. A hook runs without the layer's mutex, and may make any call except vlm_threads_close and
 * vlm_threads_settle. What it is given lasts as long as its call. */
typedef void (*vlm_threads_deadlock_hook)(void *context, const vlm_threads_deadlock *deadlock);
typedef void (*vlm_threads_wait_hook)(void *context, const vlm_threads_wait *wait);

/* Opening and closing. */

/* Who runs the routines. */
enum {
    VLM_THREADS_BY_LAYER = 0,  /* a thread of the layer */
    VLM_THREADS_BY_PROGRAM = 1 /* the program, by vlm_threads_dispatch */
};

typedef struct vlm_threads_options {
    uint32_t size;
    uint32_t version;             /* VLM_VERSION */
    uint32_t delivery;            /* VLM_THREADS_BY_LAYER or VLM_THREADS_BY_PROGRAM */
    uint32_t search_milliseconds; /* the time between two searches for deadlocks, or 0: the layer never searches */
    uint32_t has_keys;            /* 1: names are hashed by keys; 0: by fixed keys */
    uint8_t keys[16];
    uint32_t victim_milliseconds; /* a request that has waited less is no victim; see vlm_threads_search */
    uint32_t long_milliseconds;   /* a longer wait is told to `long_wait`; 0: none is */
    /* Is told of each deadlock before its victim ends, by the thread that searches; or null. */
    vlm_threads_deadlock_hook deadlock;
    void *deadlock_context;
    /* Is told once of each wait that lasts longer than long_milliseconds, by the thread that searches at intervals; or
     * null. */
    vlm_threads_wait_hook long_wait;
    void *long_wait_context;
} vlm_threads_options;
/* clang-format off */
#define VLM_THREADS_OPTIONS { sizeof(vlm_threads_options), VLM_VERSION, 0, 0, 0, { 0 }, 0, 0, 0, 0, 0, 0 }
/* clang-format on */

/* Makes a layer with a lock manager. Starts a thread that runs routines (VLM_THREADS_BY_LAYER), and one that searches
 * and tells of long waits (search_milliseconds or long_milliseconds not 0). No signal is delivered to them. *layer is
 * null unless the answer is NORMAL.
 * INSFMEM: memory, a thread or an eventfd was refused.
 * BADPARAM: the options are malformed or of another version; also long_milliseconds without `long_wait`. */
uint32_t vlm_threads_open(const vlm_threads_options *options, vlm_threads **layer);

/* Ends all processes, as if all nodes departed. A call that waits answers DEPARTED, and so does each later call for a
 * process. Pending events are dropped, and no routine begins any more. NORMAL. */
uint32_t vlm_threads_stop(vlm_threads *layer);

/* Stops the layer, waits until each call that sleeps or searches and each routine that runs have returned, calls the
 * `released` routines that are left, ends the layer's threads, and frees everything. The answer is NORMAL, also with a
 * null layer.
 * BADPARAM: a routine or a hook of the layer calls it; nothing happens. */
uint32_t vlm_threads_close(vlm_threads *layer);

/* Processes. A process owns locks. A program has one for each thread, session or client. */

typedef struct vlm_threads_declaration {
    uint32_t size;
    uint32_t node;                    /* 1 to 8 */
    uint32_t group;                   /* the UIC group, to 65535 */
    uint32_t syslck;                  /* 1 with the privilege SYSLCK */
    uint32_t quota;                   /* how many locks it may have, to 65535 */
    uint32_t requests;                /* how many of its requests may be under way at once, 1 to 255 */
    uint32_t tied;                    /* 1: the process is run down when the calling thread ends */
    uint32_t own_queue;               /* 1: its events wait in a queue of its own, for vlm_threads_process_dispatch */
    uint8_t label[VLM_THREADS_LABEL]; /* a text for people, with zeros after it, or zeros */
} vlm_threads_declaration;

/* Declares a process. *pid is 0 unless the answer is NORMAL. A tied process ends when the thread returns from its start
 * routine, calls pthread_exit or is cancelled; one of the main thread only by pthread_exit. A process takes about 75
 * bytes for each of `requests`, and 420 more.
 * BADPARAM: the declaration is malformed, or the node has declared 65,535 processes.
 * DEPARTED: the node has departed.
 * INSFMEM: memory was refused, with `tied` a key for data of threads, or with `own_queue` an eventfd. */
uint32_t vlm_threads_declare(vlm_threads *layer, const vlm_threads_declaration *declaration, uint32_t *pid);

/* Ends a process with all its locks. Each value block that it could write becomes invalid. A call that waits for the
 * process answers NONEXPR. Its pending events are dropped; a routine that has begun goes on. The cost grows with its
 * locks and with the pending events.
 * NONEXPR: there is no such process. DEPARTED: its node has departed. */
uint32_t vlm_threads_rundown(vlm_threads *layer, uint32_t pid);

/* A node departs: all its processes end, and it declares no more. A call that waits for one of them answers DEPARTED.
 * The cost grows with its processes, their locks and the pending events.
 * BADPARAM: the node is not 1 to 8. DEPARTED: it has departed before. */
uint32_t vlm_threads_leave(vlm_threads *layer, uint32_t node);

/* Reads the label of a process, 32 bytes. A reader of vlm_threads_look may call it too.
 * NONEXPR: there is no such process; label is zeros. */
uint32_t vlm_threads_label(vlm_threads *layer, uint32_t pid, uint8_t *label);

/* Routines. An event tells a completion routine how its request ended, or a blocking routine that its lock is in the
 * way of another request. It lasts as long as the call of the routine. A request ends with the status NORMAL,
 * VALNOTVALID or WIDENOTVALID if it was granted, else with ABORT, CANCEL or DEADLOCK. */

typedef struct vlm_threads_event {
    uint32_t size;
    uint32_t kind;      /* VLM_COMPLETION or VLM_BLOCKING */
    uint32_t pid;       /* the process of the lock */
    uint32_t lkid;      /* the lock; it may have gone since */
    uint32_t status;    /* of a completion: how the request ended; else 0 */
    uint32_t value_len; /* of a grant with VLM_VALBLK: 16, or 64 with VLM_WIDE; else 0 */
    uint8_t value[64];  /* the value block that the grant returned, valid or not; else what the conversion was given */
    /* Of a warning: the mode that the first queued request in whose way the lock is wants. It is VLM_NO_MODE if there
     * is none any more, and in a completion. */
    uint32_t wanted;
} vlm_threads_event;

typedef void (*vlm_threads_routine)(void *context, const vlm_threads_event *event);

/* Is given both contexts of a request, once neither of its routines runs or will run. */
typedef void (*vlm_threads_released)(void *completion_context, void *blocking_context);

/* Requests. */

typedef struct vlm_threads_request {
    uint32_t size;
    uint32_t pid;
    uint32_t mode;                  /* VLM_NL to VLM_EX */
    uint32_t flags;                 /* of vlm_enq, or 0 */
    uint32_t lock;                  /* enq: the parent lock, or 0; convert: the lock */
    uint32_t milliseconds;          /* enq and convert: the longest wait, or 0: no limit. The start forms ignore it */
    uint8_t *value;                 /* with VLM_VALBLK: 16 bytes, and with VLM_WIDE too 64; else it may be null */
    vlm_threads_routine completion; /* the start forms: the completion routine; else null */
    void *completion_context;       /* its first argument; may be null */
    vlm_threads_routine blocking;   /* the blocking routine of the lock once this request is granted, or null */
    void *blocking_context;         /* its first argument; may be null */
    uint32_t lkid;                  /* written: the lock, or 0 if there is none */
    uint32_t status;                /* written: how the request ended, or 0 if it was refused or has not ended */
    vlm_threads_released released;  /* called once for a request that was accepted, or null */
} vlm_threads_request;

/* Asks for a new lock and waits until the request has ended. With these answers there is a lock, and `lkid` is written:
 * NORMAL: granted. `status` is NORMAL too; with VLM_VALBLK it is VALNOTVALID if the value block is invalid, and with
 * VLM_WIDE it is WIDENOTVALID if only bytes 16 to 63 are. With VLM_VALBLK the value block is in `value`, valid or not.
 * SYNCH: the same, with VLM_SYNCSTS, if it was granted at once.
 *
 * With these the request was accepted and has ended without a lock. `lkid` is 0, and `status` is the answer:
 * TIMEOUT: it waited for `milliseconds`, and was cancelled. A grant that comes just before that counts as a grant.
 * DEADLOCK: it was the victim of a search for deadlocks.
 * ABORT: another thread cancelled the request, or gave its lock up.
 * NONEXPR, DEPARTED: another thread ran the process down, or its node departed, or the layer was stopped.
 *
 * With these it was refused, nothing has changed, and `lkid` and `status` are 0:
 * BADPARAM: malformed; also VLM_VALBLK with a null `value`, or a completion routine.
 * EXENQLM: the process has as many locks as its quota, or as many requests under way as it declared.
 * INSFMEM: memory was refused.
 * NOTQUEUED: with VLM_NOQUEUE, it can't be granted at once.
 * DEPARTED, NONEXPR, IVBUFLEN, UNSUPPORTED, IVLOCKID, PARNOTGRANT, EXDEPTH, NOSYSLCK, NOLOCKID: as vlm_enq.
 *
 * The blocking routine may run before the call returns. Costs a step of the core and some 400 instructions, and a
 * sleep if it waits. */
uint32_t vlm_threads_enq(vlm_threads *layer, vlm_threads_request *request, const uint8_t *name, size_t name_len);

/* Asks for another mode of a granted lock and waits until the request has ended. Answers as vlm_threads_enq, with these
 * differences. The lock stays, and `lkid` is written, also with TIMEOUT and DEADLOCK, and with CANCEL: another thread
 * cancelled the request. It holds what it held then. With ABORT, NONEXPR and DEPARTED it has gone.
 * With VLM_VALBLK, a conversion from PW or EX writes `value` to the value block, except from PW to EX. That one, and a
 * conversion from a lower mode to the same or a higher one, return it. Others do neither; docs/MACHINE.md has the
 * table.
 * Refused also with CVTUNGRANT: the lock has a request that has not ended; and BADPARAM: VLM_QUECVT does not go with
 * the two modes. The quota of locks is not looked at.
 * Until the grant the old blocking routine counts, then that of this request. */
uint32_t vlm_threads_convert(vlm_threads *layer, vlm_threads_request *request);

/* The start forms: the same requests without waiting. `value` is read during the call. The completion routine may run
 * before the call returns.
 * NORMAL: accepted. The completion routine gets an event when the request ends, also if it is granted at once; `status`
 * is not 0 then. The event brings the value block.
 * SYNCH: with VLM_SYNCSTS, granted at once. The completion routine is not called, and `value` is written.
 * Refused as the forms that wait; BADPARAM also without a completion routine.
 * Two requests of one process that are queued on one resource are a deadlock if the second waits for the first: let
 * each have a process of its own. */
uint32_t vlm_threads_start_enq(vlm_threads *layer, vlm_threads_request *request, const uint8_t *name, size_t name_len);
uint32_t vlm_threads_start_convert(vlm_threads *layer, vlm_threads_request *request);

/* Reads `lkid` of a request while another thread may be in the call for it: the lock that this call waits for, or 0 if
 * it does not wait yet. With it, vlm_threads_deq with VLM_DEQ_CANCEL ends this one wait. The request has been
 * initialized, and lives. NORMAL. */
uint32_t vlm_threads_lkid(vlm_threads *layer, const vlm_threads_request *request, uint32_t *lkid);

typedef struct vlm_threads_dequeue {
    uint32_t size;
    uint32_t pid;
    uint32_t flags; /* of vlm_deq: VLM_DEQALL, VLM_DEQ_CANCEL, VLM_INVVALBLK, or 0 */
    uint32_t lock;
    const uint8_t *value; /* what is written to the value block if the lock holds PW or EX, or null */
    uint32_t wide;        /* 1: value has 64 bytes; 0: it has 16 */
} vlm_threads_dequeue;

/* Gives a lock up. With VLM_DEQALL gives up all locks below it, or with lock 0 all locks of the process. With
 * VLM_DEQ_CANCEL ends its request: a new request goes with its lock, by ABORT; a conversion ends by CANCEL, and the
 * lock stays. Never waits, and needs no memory.
 * BADPARAM: malformed, or flags that do not go together. IVLOCKID: the process has no such lock. SUBLOCKS: the lock has
 * sublocks. CANCELGRANT: it has no request to cancel. NONEXPR, DEPARTED: as vlm_threads_rundown. */
uint32_t vlm_threads_deq(vlm_threads *layer, const vlm_threads_dequeue *dequeue);

/* Cancels each request of a process that is queued, as vlm_threads_deq does with VLM_DEQ_CANCEL: a call that waits for
 * one answers ABORT or CANCEL. A thread that ends a session need not know its requests. *cancelled is how many there
 * were. Never waits, and needs no memory. The cost grows with the locks of the process.
 * NONEXPR, DEPARTED: as vlm_threads_rundown; *cancelled is 0. */
uint32_t vlm_threads_cancel(vlm_threads *layer, uint32_t pid, uint32_t *cancelled);

/* Delivery. Events wait in queues: that of the layer, and that of each process with `own_queue`. The routines of a
 * queue run one at a time, without the layer's mutex, oldest event first. So the events of a process come in the core's
 * order: the completion of a grant before the warning of that grant. Each completion is told once, unless its process
 * has ended. A warning is dropped if its grant is over: the lock has gone, or a conversion was granted.
 *
 * A routine may make any call except vlm_threads_close and vlm_threads_settle. If a routine waits, no other routine of
 * its queue runs until it returns. Its wait ends all the same, because the thread that makes the granting step wakes
 * it. But if the lock must be given up by another routine of the queue, that routine can't run: use `milliseconds`, a
 * start form, or another queue.
 *
 * A `released` routine runs as an event of the queue does. It is called after the lock has gone or got another mode,
 * the request has ended without a grant, or the process has ended. The queue of a process ends with it: what is left of
 * `released` routines is in the layer's queue then, for vlm_threads_dispatch if the program runs the routines. */

/* Tells the file descriptor of the layer's queue, for poll, select and epoll. It is readable while an event is pending
 * and no dispatch of the queue runs. Only the layer reads, writes and closes it.
 * BADPARAM: the layer runs the routines itself; *descriptor is -1. */
uint32_t vlm_threads_fd(vlm_threads *layer, int *descriptor);

/* Runs, in the calling thread, the routines of the events that are pending at the call; not of those that come
 * meanwhile. *delivered is how many. It is 0 if another dispatch of the queue runs, in this thread or another.
 * BADPARAM: the layer runs the routines itself; *delivered is 0. */
uint32_t vlm_threads_dispatch(vlm_threads *layer, uint32_t *delivered);

/* Tell the file descriptor of the queue of a process with `own_queue`, and run its routines, as vlm_threads_fd and
 * vlm_threads_dispatch do for the layer's queue, whoever runs the routines of that. A slow routine stalls only its own
 * process then. The descriptor is closed when the process ends: stop polling it before a rundown.
 * BADPARAM: the process has no queue of its own. NONEXPR, DEPARTED: as vlm_threads_rundown. */
uint32_t vlm_threads_process_fd(vlm_threads *layer, uint32_t pid, int *descriptor);
uint32_t vlm_threads_process_dispatch(vlm_threads *layer, uint32_t pid, uint32_t *delivered);

/* Waits until each routine and hook that runs has returned. To free the context of a blocking routine, give its lock up
 * and then call this. To free all contexts of a process, run it down and then call this. No such routine runs then, or
 * will run, except `released`. A completion routine of a living process is called once in any case.
 * BADPARAM: a routine or a hook calls it. */
uint32_t vlm_threads_settle(vlm_threads *layer);

/* Deadlocks. */

/* Searches until no request is deadlocked. *victims is how many requests ended by DEADLOCK, the latest first. The
 * layer's own thread does the same each search_milliseconds, if a request waits. The search for a victim keeps the
 * mutex, and costs more the more requests wait (docs/PERFORMANCE.md). After each victim the mutex is let go: the victim
 * is told, and the threads that wait for the mutex have it before the next search.
 *
 * The victim is the most recent deadlocked request. With victim_milliseconds a search ends there, without a victim,
 * while that request has waited less. Older deadlocks wait with it. So no request ends by DEADLOCK before it has waited
 * that long, and a deadlock lasts that long at least.
 *
 * The hook `deadlock` is called once for each victim, and then the layer looks again. If the hook has resolved the
 * deadlock, by cancelling a request of its choice say, there is no victim. If two threads search at once, one may end
 * the victim while the other is in the hook.
 *
 * With victim_milliseconds or a hook, the layer first looks for the victim, which takes as long as the search. For the
 * hook it follows waits from the victim until they lead back: that takes time for each pair of a request and a lock
 * that it waits for, and 1,000 requests in one queue have 500,000 of them.
 * DEPARTED: all nodes have departed. */
uint32_t vlm_threads_search(vlm_threads *layer, uint32_t *victims);

/* Looking. */

typedef void (*vlm_threads_reader)(void *context, vlm *handle);

/* Calls the reader with the handle of the lock manager, for vlm_next_process, vlm_next_resource, vlm_find,
 * vlm_first_row and the other readings of vlm.h. It keeps the mutex: no other call works meanwhile. NORMAL. */
uint32_t vlm_threads_look(vlm_threads *layer, vlm_threads_reader reader, void *context);

/* Counters. Times are of the monotonic clock. */

enum { VLM_THREADS_CONDITIONS = 32, VLM_THREADS_TIMES = 32 };

typedef struct vlm_threads_counters {
    uint32_t size;
    uint32_t reserved;
    /* Since the opening. requests = granted_at_once + waited + all of refused. */
    uint64_t requests;                        /* calls of enq and convert, in both forms */
    uint64_t granted_at_once;                 /* of them */
    uint64_t waited;                          /* of them: those that were queued */
    uint64_t refused[VLM_THREADS_CONDITIONS]; /* of them: those that were refused, by condition value */
    /* waited = granted_later + timed_out + cancelled + victims + run_down + waiting. */
    uint64_t granted_later;
    uint64_t timed_out;
    uint64_t cancelled;   /* ended by vlm_threads_deq */
    uint64_t victims;     /* ended by a search */
    uint64_t run_down;    /* ended with their process */
    uint64_t dequeues;    /* calls of vlm_threads_deq, without the refused ones */
    uint64_t searches;    /* of the layer's thread and of vlm_threads_search, one for each victim and one more */
    uint64_t completions; /* calls of completion routines */
    uint64_t blockings;   /* calls of blocking routines */
    uint64_t dropped;     /* events without a call */
    /* How long the requests that waited and have ended were queued. times[0]: less than a microsecond; times[i]: at
     * least 2^(i-1) and less than 2^i microseconds; the last entry has all longer times too. */
    uint64_t times[VLM_THREADS_TIMES];
    uint64_t microseconds; /* the sum of these times */
    /* Now. */
    uint64_t processes;
    uint64_t locks;        /* those that wait too */
    uint64_t events;       /* pending */
    uint64_t waiting;      /* requests that are queued */
    uint64_t most_waiting; /* how many were queued at once, at most */
} vlm_threads_counters;

/* Reads all counters at one moment.
 * BADPARAM: counters->size is wrong; nothing is written. */
uint32_t vlm_threads_read_counters(vlm_threads *layer, vlm_threads_counters *counters);

/* Print counters as lines of text, and in the text format of Prometheus: names begin with vlm_, times are in seconds.
 * ferror(file) tells whether writing failed.
 * BADPARAM: counters->size is wrong; nothing is printed. */
uint32_t vlm_threads_print(const vlm_threads_counters *counters, FILE *file);
uint32_t vlm_threads_print_prometheus(const vlm_threads_counters *counters, FILE *file);

/* Print what a hook was given: a wait or a deadlock as a line of text, with the locks, modes and processes. A process
 * without a label is called by its number. Of a deadlock without waits only the victim is printed.
 * BADPARAM: the size is wrong; nothing is printed. */
uint32_t vlm_threads_print_wait(const vlm_threads_wait *wait, FILE *file);
uint32_t vlm_threads_print_deadlock(const vlm_threads_deadlock *deadlock, FILE *file);

VLM_ASSERT(sizeof(struct vlm_threads_wait) == 236);
VLM_ASSERT(sizeof(struct vlm_threads_deadlock) == 3792);
VLM_ASSERT(sizeof(struct vlm_threads_options) == 80);
VLM_ASSERT(sizeof(struct vlm_threads_declaration) == 64);
VLM_ASSERT(sizeof(struct vlm_threads_event) == 92);
VLM_ASSERT(sizeof(struct vlm_threads_request) == 80);
VLM_ASSERT(sizeof(struct vlm_threads_dequeue) == 32);
VLM_ASSERT(sizeof(struct vlm_threads_counters) == 672);

#ifdef __cplusplus
}
#endif
#endif
