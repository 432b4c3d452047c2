/* sys$enq and sys$enqw: from the arguments to the end of the request.
 *
 * The lock manager below is always asked with SYNCSTS: so a grant at once is known when its call returns, and the lock
 * status block is written then. All other ends come as calls of `completed`, by a thread of the lock manager. That
 * thread waits for the calls that have begun, since one of them may have made what it is told of: so ends and warnings
 * keep their order. */
#include "parts.h"

#include "descrip.h"
#include "lckdef.h"
#include "ssdef.h"

#include <stdlib.h>
#include <string.h>

/* Requests and dequeues of one lock are readers of this lock. A dequeue of many is its writer, so that no new lock that
 * it gives up is without its record. So is a cancel: its lock gets no next request before the end of this one. */
static pthread_rwlock_t making = PTHREAD_RWLOCK_WRITER_NONRECURSIVE_INITIALIZER_NP;
/* Guarded by the mutex. */
static struct request *called; /* those that the lock manager below is being asked for */
static uint64_t grants;

void vms_begin_dequeue(bool is_alone) {
    if (is_alone)
        pthread_rwlock_wrlock(&making);
    else
        pthread_rwlock_rdlock(&making);
}

void vms_end_dequeue(void) { pthread_rwlock_unlock(&making); }

/* What sys$enq is given. */
struct asked {
    uint32_t efn, mode, flags, parent;
    struct status_block *block;
    const struct dsc$descriptor_s *name;
    VMS$AST completion, blocking;
    VMS$PARAMETER parameter;
    bool is_conversion;
};

/* Each flag of lckdef.h here, and below. */
static const struct {
    uint32_t flag, below;
} flags[] = {{LCK$M_VALBLK, VLM_VALBLK},       {LCK$M_CONVERT, 0},
             {LCK$M_NOQUEUE, VLM_NOQUEUE},     {LCK$M_SYNCSTS, VLM_SYNCSTS},
             {LCK$M_SYSTEM, VLM_SYSTEM},       {LCK$M_NODLCKWT, VLM_NODLCKWT},
             {LCK$M_NODLCKBLK, VLM_NODLCKBLK}, {LCK$M_EXPEDITE, VLM_EXPEDITE},
             {LCK$M_QUECVT, VLM_QUECVT},       {LCK$M_XVALBLK, VLM_WIDE}};

enum { UNSUPPORTED_FLAGS = LCK$M_NOQUOTA | LCK$M_CVTSYS | LCK$M_RECOVER | LCK$M_PROTECT };

/* The flags below, and in *rest those that are not known. */
static uint32_t flags_below(uint32_t given, uint32_t *rest) {
    uint32_t below = VLM_SYNCSTS;
    *rest = given;
    for (size_t at = 0; at < sizeof flags / sizeof *flags; at++) {
        *rest &= ~flags[at].flag;
        if ((given & flags[at].flag) != 0)
            below |= flags[at].below;
    }
    return below;
}

static uint32_t check(const struct asked *asked) {
    uint32_t rest, status = vms_check_flag(asked->efn);
    flags_below(asked->flags, &rest);
    if (status != SS$_NORMAL)
        return status;
    if (asked->block == NULL || (asked->name == NULL && !asked->is_conversion))
        return SS$_ACCVIO;
    if (!asked->is_conversion && asked->name->dsc$a_pointer == NULL && asked->name->dsc$w_length != 0)
        return SS$_ACCVIO;
    if ((rest & UNSUPPORTED_FLAGS) != 0)
        return SS$_UNSUPPORTED;
    return rest != 0 || asked->mode > LCK$K_EXMODE ? SS$_BADPARAM : SS$_NORMAL;
}

/* Ends of requests. All want the mutex held. */

static bool is_grant(uint32_t status) {
    return status == VLM_NORMAL || status == VLM_VALNOTVALID || status == VLM_WIDENOTVALID;
}

static size_t value_len(const struct request *request) {
    if ((request->flags & LCK$M_VALBLK) == 0)
        return 0;
    return (request->flags & LCK$M_XVALBLK) != 0 ? WHOLE_VALUE : SHORT_VALUE;
}

/* The lock manager below has accepted a request. */
static void accept(struct request *request, uint32_t lkid) {
    struct lock *lock = request->lock;
    request->is_accepted = true;
    request->lock = NULL;
    request->block->status = 0;
    request->block->lkid = lkid;
    if (lock != NULL) {
        lock->lkid = lkid;
        lock->parent = request->parent;
        vms_add_lock(lock);
    }
    lock = vms_find_lock(lkid);
    if (lock != NULL)
        lock->pending = request;
}

/* What a lock is once its request has ended. */
static void settle_lock(struct lock *lock, const struct request *request, uint32_t status) {
    lock->pending = NULL;
    if (is_grant(status)) {
        vms_unqueue_ast(&lock->warning);
        lock->grant = request->grant;
        lock->blocking = request->blocking;
        lock->parameter = request->parameter;
    } else if (status == VLM_ABORT || lock->grant == 0) {
        vms_remove_lock(lock);
    }
}

/* A request has ended. A grant at once that its service tells by SS$_SYNCH sets no flag and queues no AST. */
static void end(struct request *request, uint32_t lkid, uint32_t status, const uint8_t *value, bool is_told) {
    struct lock *lock = vms_find_lock(lkid);
    if (is_grant(status) && value != NULL)
        memcpy(request->block->value, value, value_len(request));
    request->block->status = (uint16_t)vms_condition(status);
    request->is_ended = true;
    if (!is_told)
        vms_set_flag(request->efn);
    if (!is_told && request->completion != NULL)
        vms_queue_ast(request->completion);
    else
        free(request->completion);
    request->completion = NULL;
    if (lock != NULL)
        settle_lock(lock, request, status);
    vms_changed();
}

/* The routines of the lock manager below. The context of a completion is its request, that of a warning the number of
 * its grant. */

static bool are_returned(const void *argument) {
    const uint64_t *newest = argument;
    for (const struct request *request = called; request != NULL; request = request->next_called)
        if (request->grant <= *newest)
            return false;
    return true;
}

/* Waits for the calls that have begun. */
static void await_calls(void) {
    vms_lock();
    uint64_t newest = grants;
    vms_unlock();
    vms_await(are_returned, &newest);
}

static void completed(void *context, const vlm_threads_event *event) {
    struct request *request = context;
    await_calls();
    vms_lock();
    end(request, event->lkid, event->status, event->value, false);
    if (!request->is_called)
        free(request);
    vms_unlock();
}

static void warned(void *context, const vlm_threads_event *event) {
    await_calls();
    vms_lock();
    struct lock *lock = vms_find_lock(event->lkid);
    if (lock != NULL && lock->grant == (uintptr_t)context)
        vms_warn(lock);
    vms_unlock();
}

/* All locks are lost. A program that sleeps under one would not learn it: no service of its own tells it. */
void vms_lost(void *unused) {
    (void)unused;
    await_calls();
    vms_lock();
    for (struct lock *lock = vms_first_lock(); lock != NULL; lock = lock->next)
        vms_warn(lock);
    vms_unlock();
}

/* The service. */

static void free_request(struct request *request) {
    free(request->lock);
    free(request->completion);
    free(request);
}

/* Null without memory. */
static struct request *made_request(const struct asked *asked) {
    struct request *request = calloc(1, sizeof *request);
    if (request == NULL)
        return NULL;
    request->efn = asked->efn;
    request->flags = asked->flags;
    request->block = asked->block;
    request->parent = asked->parent;
    request->blocking = asked->blocking;
    request->parameter = asked->parameter;
    request->is_conversion = asked->is_conversion;
    request->is_called = true;
    if (!asked->is_conversion)
        request->lock = calloc(1, sizeof *request->lock);
    if (asked->completion != NULL)
        request->completion = vms_new_ast(asked->completion, asked->parameter);
    if ((asked->is_conversion || request->lock != NULL) && (asked->completion == NULL || request->completion != NULL))
        return request;
    free_request(request);
    return NULL;
}

static void begin(struct request *request) {
    vms_lock();
    request->grant = ++grants;
    request->next_called = called;
    called = request;
    vms_clear_flag(request->efn);
    vms_unlock();
}

/* The call below has returned. */
static void note(struct request *request, const vlm_threads_request *words, uint32_t status) {
    struct request **at = &called;
    vms_lock();
    while (*at != request)
        at = &(*at)->next_called;
    *at = request->next_called;
    if (status == VLM_NORMAL || status == VLM_SYNCH)
        accept(request, words->lkid);
    if (status == VLM_SYNCH)
        end(request, words->lkid, words->status, words->value, (request->flags & LCK$M_SYNCSTS) != 0);
    vms_changed();
    vms_unlock();
}

/* The bytes of a name. An empty string may have no address, and a request without an address is a conversion. */
static const uint8_t *bytes_of(const struct dsc$descriptor_s *name) {
    return (const uint8_t *)(name->dsc$a_pointer != NULL ? name->dsc$a_pointer : "");
}

/* Makes a request: SS$_NORMAL, SS$_SYNCH, or a refusal. */
static uint32_t make(const struct engine *engine, const struct asked *asked, struct request *request) {
    uint8_t value[WHOLE_VALUE];
    uint32_t rest;
    vlm_threads_request words = {.size = sizeof words,
                                 .mode = asked->mode,
                                 .flags = flags_below(asked->flags, &rest),
                                 .lock = asked->is_conversion ? asked->block->lkid : asked->parent,
                                 .value = value_len(request) != 0 ? value : NULL,
                                 .completion = completed,
                                 .completion_context = request,
                                 .blocking = asked->blocking != NULL ? warned : NULL};
    memcpy(value, asked->block->value, value_len(request));
    pthread_rwlock_rdlock(&making);
    begin(request);
    words.blocking_context = (void *)(uintptr_t)request->grant;
    uint32_t status = asked->is_conversion ? engine->ask(&words, NULL, 0)
                                           : engine->ask(&words, bytes_of(asked->name), asked->name->dsc$w_length);
    note(request, &words, status);
    pthread_rwlock_unlock(&making);
    if (status == VLM_SYNCH)
        return (asked->flags & LCK$M_SYNCSTS) != 0 ? SS$_SYNCH : SS$_NORMAL;
    return vms_condition(status);
}

static bool is_ended(const void *argument) { return ((const struct request *)argument)->is_ended; }

/* Makes a request, and may wait for its end. */
static int ask(const struct asked *asked, bool waits) {
    const struct engine *engine;
    uint32_t status = check(asked);
    if (status == SS$_NORMAL)
        status = vms_open(&engine);
    if (status != SS$_NORMAL)
        return (int)status;
    struct request *request = made_request(asked);
    if (request == NULL)
        return SS$_INSFMEM;
    vms_enter();
    status = make(engine, asked, request);
    if (waits && request->is_accepted)
        vms_wait(is_ended, request);
    vms_lock();
    request->is_called = false;
    if (request->is_ended || !request->is_accepted)
        free_request(request);
    vms_unlock();
    vms_leave();
    return (int)status;
}

/* The arguments as they come. */
#define ASKED                                                                                               \
    {                                                                                                       \
        efn, lkmode, flags, (flags & LCK$M_CONVERT) == 0 ? parid : 0, lksb, resnam, astadr, blkast, astprm, \
            (flags & LCK$M_CONVERT) != 0                                                                    \
    }

int sys$enq(unsigned int efn, unsigned int lkmode, void *lksb, unsigned int flags, void *resnam, unsigned int parid,
            VMS$AST astadr, VMS$PARAMETER astprm, VMS$AST blkast, unsigned int acmode, unsigned int rsdm_id, ...) {
    const struct asked asked = ASKED;
    (void)acmode;
    return rsdm_id != 0 ? SS$_UNSUPPORTED : ask(&asked, false);
}

int sys$enqw(unsigned int efn, unsigned int lkmode, void *lksb, unsigned int flags, void *resnam, unsigned int parid,
             VMS$AST astadr, VMS$PARAMETER astprm, VMS$AST blkast, unsigned int acmode, unsigned int rsdm_id, ...) {
    const struct asked asked = ASKED;
    (void)acmode;
    return rsdm_id != 0 ? SS$_UNSUPPORTED : ask(&asked, true);
}
