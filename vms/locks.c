/* Records of the locks of this process. */
#include "parts.h"

#include <stdlib.h>

enum { FIRST_BUCKETS = 64 };

/* Guarded by the mutex. */
static struct lock *few[FIRST_BUCKETS], **buckets = few, *first;
static size_t bucket_count = FIRST_BUCKETS, count;

static struct lock **bucket_of(uint32_t lkid) { return &buckets[lkid % bucket_count]; }

struct lock *vms_find_lock(uint32_t lkid) {
    struct lock *lock = *bucket_of(lkid);
    while (lock != NULL && lock->lkid != lkid)
        lock = lock->next_hashed;
    return lock;
}

struct lock *vms_first_lock(void) {
    return first;
}

static void hash(struct lock *lock) {
    struct lock **bucket = bucket_of(lock->lkid);
    lock->next_hashed = *bucket;
    *bucket = lock;
}

/* Twice as many buckets. Without memory the old ones go on. */
static void grow(void) {
    struct lock **more = calloc(2 * bucket_count, sizeof(struct lock *));
    if (more == NULL)
        return;
    if (buckets != few)
        free(buckets);
    buckets = more;
    bucket_count *= 2;
    for (struct lock *lock = first; lock != NULL; lock = lock->next)
        hash(lock);
}

void vms_add_lock(struct lock *lock) {
    lock->previous = NULL;
    lock->next = first;
    if (first != NULL)
        first->previous = lock;
    first = lock;
    if (++count > bucket_count)
        grow();
    if (vms_find_lock(lock->lkid) == NULL)
        hash(lock);
}

void vms_remove_lock(struct lock *lock) {
    struct lock **at = bucket_of(lock->lkid);
    while (*at != lock)
        at = &(*at)->next_hashed;
    *at = lock->next_hashed;
    *(lock->previous != NULL ? &lock->previous->next : &first) = lock->next;
    if (lock->next != NULL)
        lock->next->previous = lock->previous;
    count--;
    vms_unqueue_ast(&lock->warning);
    free(lock);
}

bool vms_is_below(const struct lock *lock, uint32_t lkid) {
    uint32_t above = lock->parent;
    while (lkid != 0 && above != 0 && above != lkid) {
        const struct lock *parent = vms_find_lock(above);
        above = parent != NULL ? parent->parent : 0;
    }
    return above == lkid || lkid == 0;
}

void vms_warn(struct lock *lock) {
    if (lock->warning.is_queued || lock->blocking == NULL)
        return;
    if (lock->is_given_up) {
        lock->is_held_back = true;
        return;
    }
    lock->warning.routine = lock->blocking;
    lock->warning.parameter = lock->parameter;
    lock->warning.is_kept = true;
    vms_queue_ast(&lock->warning);
}
