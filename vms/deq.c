/* sys$deq. */
#include "parts.h"

#include "lckdef.h"
#include "ssdef.h"

/* Guarded by the mutex. */
static uint64_t dequeues;

/* A dequeue. It marks the records of the locks that it is made for by its number. */
struct dequeue {
    uint32_t lkid, flags;
    uint64_t number;
};

static bool is_all(const struct dequeue *dequeue) { return (dequeue->flags & LCK$M_DEQALL) != 0; }

/* The records among which its locks are: all, or that of the lock it names. */
static struct lock *first_of(const struct dequeue *dequeue) {
    return is_all(dequeue) ? vms_first_lock() : vms_find_lock(dequeue->lkid);
}

static struct lock *next_of(const struct dequeue *dequeue, const struct lock *lock) {
    return is_all(dequeue) ? lock->next : NULL;
}

/* No blocking AST comes for a lock that is being given up. */
static void mark(struct lock *lock, const struct dequeue *dequeue) {
    lock->going = dequeue->number;
    lock->is_given_up = (dequeue->flags & LCK$M_CANCEL) == 0;
    lock->is_held_back = lock->is_given_up && (lock->warning.is_queued || lock->is_held_back);
    if (lock->is_given_up)
        vms_unqueue_ast(&lock->warning);
}

static void begin(struct dequeue *dequeue) {
    vms_lock();
    dequeue->number = ++dequeues;
    for (struct lock *lock = first_of(dequeue); lock != NULL; lock = next_of(dequeue, lock))
        if (!is_all(dequeue) || vms_is_below(lock, dequeue->lkid))
            mark(lock, dequeue);
    vms_unlock();
}

/* Whether no request of its locks is pending. */
static bool are_ended(const void *argument) {
    const struct dequeue *dequeue = argument;
    for (const struct lock *lock = first_of(dequeue); lock != NULL; lock = next_of(dequeue, lock))
        if (lock->going == dequeue->number && lock->pending != NULL)
            return false;
    return true;
}

/* Removes the records of its locks that have no request. With `is_kept` they are still locks. */
static void settle(const struct dequeue *dequeue, bool is_kept) {
    vms_lock();
    for (struct lock *lock = first_of(dequeue), *next; lock != NULL; lock = next) {
        next = next_of(dequeue, lock);
        if (lock->going != dequeue->number)
            continue;
        lock->going = 0;
        lock->is_given_up = false;
        bool is_held_back = lock->is_held_back;
        lock->is_held_back = false;
        if (!is_kept && lock->pending == NULL)
            vms_remove_lock(lock);
        else if (is_held_back)
            vms_warn(lock);
    }
    vms_unlock();
}

static uint32_t give_up(const struct engine *engine, struct dequeue *dequeue, const uint8_t *value) {
    vlm_threads_dequeue words = {.size = sizeof words,
                                 .flags = dequeue->flags & ~(uint32_t)LCK$M_XVALBLK,
                                 .lock = dequeue->lkid,
                                 .value = value,
                                 .wide = (dequeue->flags & LCK$M_XVALBLK) != 0};
    vms_begin_dequeue(is_all(dequeue) || (dequeue->flags & LCK$M_CANCEL) != 0);
    begin(dequeue);
    uint32_t status = engine->deq(&words);
    if (status == VLM_NORMAL)
        vms_await(are_ended, dequeue);
    /* (a lock that is not there has been given up by another thread) */
    settle(dequeue, status == VLM_NORMAL ? (dequeue->flags & LCK$M_CANCEL) != 0 : status != VLM_IVLOCKID);
    vms_end_dequeue();
    return vms_condition(status);
}

int sys$deq(unsigned int lkid, void *valblk, unsigned int acmode, unsigned int flags) {
    const struct engine *engine;
    struct dequeue dequeue = {.lkid = lkid, .flags = flags};
    (void)acmode;
    if ((flags & ~(uint32_t)(LCK$M_DEQALL | LCK$M_CANCEL | LCK$M_INVVALBLK | LCK$M_XVALBLK)) != 0)
        return SS$_BADPARAM;
    uint32_t status = vms_open(&engine);
    if (status != SS$_NORMAL)
        return (int)status;
    vms_enter();
    status = give_up(engine, &dequeue, valblk);
    vms_leave();
    return (int)status;
}
