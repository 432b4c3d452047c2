/* The layer's mutex, and sleeping until something has come.
 *
 * The mutex is free most of the time, and a call keeps it for less than a microsecond. So a thread that finds it taken
 * looks again for a while: a sleep would cost more. Then it yields its processor and looks again, several times. If the
 * mutex does not change hands meanwhile, the thread sleeps: the owner makes a search, say, or has lost its processor.
 *
 * No order is kept among threads that want the mutex. One that slept for it is woken when it is free, and tries again.
 * vlmt_let_others is for a thread that takes it many times in a row.
 *
 * A thread that waits for the end of its request looks for a while too, where the last waits were short: a hand-over
 * from one thread to another takes less than a microsecond then, and several where a sleeper is woken.
 *
 * With VLM_THREADS_PLAIN_MUTEX all this is made of pthreads, for tools that know no other locks. */
#define _GNU_SOURCE

#include "vlm_threads_parts.h"

#include <sched.h>

/* A thread that looks at the mutex pauses this often in all, some 100 microseconds: once after its first look, then
 * twice, four times and so on, to this many times at once. Fewer looks disturb the owner less. It yields this often,
 * while the mutex does not change hands, before it sleeps. */
enum { PAUSES = 2000, MOST_AT_ONCE = 512, YIELDS = 8 };

/* A thread pauses LOOK_PAUSES times between two looks at a condition. One that has told such a thread of its grant
 * pauses TOLD_PAUSES times after it has let the mutex go, so that the other one takes it first. Otherwise the two often
 * take turns at each pair of calls, and the memory of the lock moves from one processor to the other each time. */
enum { LOOK_PAUSES = 4, TOLD_PAUSES = 50 };

static void pause_often(int times) {
    while (times-- > 0)
        __builtin_ia32_pause();
}

/* Lets other threads run: at last also those that a yield is not for, of a lower priority. */
static void stand_back(int times) {
    if (times < PAUSES)
        pause_often(1);
    else if (times < PAUSES + YIELDS)
        sched_yield();
    else
        nanosleep(&(struct timespec){.tv_nsec = 50000}, NULL);
}

/* Counts a thread that begins to wait, and tells where it is counted. */
static atomic_uint *begin_waiting(struct mutex *mutex) {
    atomic_uint *side = &mutex->waiting[atomic_load(&mutex->joined)];
    atomic_fetch_add(side, 1);
    return side;
}

uint32_t vlmt_processors(void) {
    cpu_set_t set;
    /* (a set that is too small says that there are very many) */
    return sched_getaffinity(0, sizeof set, &set) ? CPU_SETSIZE : (uint32_t)CPU_COUNT(&set);
}

void vlmt_let_others(vlm_threads *layer) {
    struct mutex *mutex = &layer->mutex;
    if (!mutex->givers++)
        atomic_fetch_xor(&mutex->joined, 1);
    const atomic_uint *left = &mutex->waiting[!atomic_load(&mutex->joined)];
    vlmt_unlock(layer);
    for (int times = 0; atomic_load(left); times++)
        stand_back(times);
    vlmt_lock(layer);
    mutex->givers--;
}

#ifndef VLM_THREADS_PLAIN_MUTEX

#include <errno.h>
#include <limits.h>
#include <linux/futex.h>
#include <sys/syscall.h>
#include <unistd.h>

/* The states of a mutex. SLEPT_FOR: it is taken, and a thread may sleep until it is free. */
enum { FREE, TAKEN, SLEPT_FOR };

/* Sleeps while a word has this value, at most until a moment of the monotonic clock. Whether that moment has come. */
static bool sleeps_too_long(atomic_uint *word, unsigned value, const struct timespec *end) {
    return syscall(SYS_futex, word, FUTEX_WAIT_BITSET_PRIVATE, value, end, NULL, FUTEX_BITSET_MATCH_ANY) < 0
           && errno == ETIMEDOUT;
}

/* Wakes threads that sleep by a word. The word may be gone: the system reads no more than its address. */
static void wake(const atomic_uint *word, int count) { syscall(SYS_futex, word, FUTEX_WAKE_PRIVATE, count); }

static bool try_to_take(struct mutex *mutex, unsigned state) {
    unsigned was = FREE;
    return atomic_load_explicit(&mutex->state, memory_order_relaxed) == FREE
           && atomic_compare_exchange_strong_explicit(&mutex->state, &was, state, memory_order_acquire,
                                                      memory_order_relaxed);
}

static bool take_by_looks(struct mutex *mutex, unsigned state) {
    for (int done = 0, next = 1; done < PAUSES; done += next) {
        if (try_to_take(mutex, state))
            return true;
        pause_often(next);
        next = next < MOST_AT_ONCE ? 2 * next : next;
    }
    return false;
}

/* Yields and looks. Gives up if the mutex does not change hands meanwhile. */
static bool take_by_yields(struct mutex *mutex, unsigned state) {
    unsigned seen = atomic_load_explicit(&mutex->taken, memory_order_relaxed);
    for (int yields = 0; yields < YIELDS; yields++) {
        sched_yield();
        if (take_by_looks(mutex, state))
            return true;
        unsigned taken = atomic_load_explicit(&mutex->taken, memory_order_relaxed);
        if (taken != seen)
            yields = 0;
        seen = taken;
    }
    return false;
}

/* A thread that has slept takes the mutex as one that is slept for, since others may sleep still. */
static void take_by_waiting(struct mutex *mutex) {
    atomic_uint *side = begin_waiting(mutex);
    for (unsigned state = TAKEN; !take_by_yields(mutex, state); state = SLEPT_FOR) {
        if (atomic_exchange_explicit(&mutex->state, SLEPT_FOR, memory_order_acquire) == FREE)
            break;
        sleeps_too_long(&mutex->state, SLEPT_FOR, NULL);
    }
    atomic_fetch_sub(side, 1);
}

void vlmt_lock(vlm_threads *layer) {
    struct mutex *mutex = &layer->mutex;
    if (!try_to_take(mutex, TAKEN) && !take_by_looks(mutex, TAKEN))
        take_by_waiting(mutex);
    unsigned before = atomic_load_explicit(&mutex->taken, memory_order_relaxed);
    atomic_store_explicit(&mutex->taken, before + 1, memory_order_relaxed);
}

static void let_go(struct mutex *mutex) {
    if (atomic_exchange_explicit(&mutex->state, FREE, memory_order_release) == SLEPT_FOR)
        wake(&mutex->state, 1);
}

/* Kept out of line: most calls tell no other thread. */
__attribute__((noinline)) static void let_go_for_others(vlm_threads *layer) {
    struct told told = layer->told;
    layer->told = (struct told){.any = false};
    let_go(&layer->mutex);
    if (told.sleeper)
        wake(&told.sleeper->count, 1);
    if (told.looker)
        pause_often(TOLD_PAUSES);
}

void vlmt_unlock(vlm_threads *layer) {
    if (layer->told.any)
        let_go_for_others(layer);
    else
        let_go(&layer->mutex);
}

bool vlmt_sleep(vlm_threads *layer, struct condition *condition, const struct timespec *end) {
    unsigned count = atomic_load(&condition->count);
    condition->sleepers++;
    vlmt_unlock(layer);
    bool is_over = sleeps_too_long(&condition->count, count, end);
    vlmt_lock(layer);
    condition->sleepers--;
    return !is_over;
}

void vlmt_look(vlm_threads *layer, struct condition *condition) {
    unsigned count = atomic_load(&condition->count);
    uint64_t end = now() + LOOK_MICROSECONDS * UINT64_C(1000);
    condition->lookers++;
    vlmt_unlock(layer);
    do
        pause_often(LOOK_PAUSES);
    while (atomic_load_explicit(&condition->count, memory_order_relaxed) == count && now() < end);
    vlmt_lock(layer);
    condition->lookers--;
}

/* The call of the system comes when the mutex is free, so that the thread does not wake to find it taken. Of
 * several wakes only the last one waits for that. */
void vlmt_wake(vlm_threads *layer, struct condition *condition) {
    if (!condition->sleepers && !condition->lookers)
        return;
    atomic_fetch_add(&condition->count, 1);
    layer->told.any = true;
    layer->told.looker |= condition->lookers != 0;
    if (!condition->sleepers)
        return;
    if (layer->told.sleeper)
        wake(&layer->told.sleeper->count, 1);
    layer->told.sleeper = condition;
}

void vlmt_wake_all(struct condition *condition) {
    atomic_fetch_add(&condition->count, 1);
    wake(&condition->count, INT_MAX);
}

void vlmt_make_mutex(struct mutex *mutex) { *mutex = (struct mutex){.state = FREE}; }

void vlmt_make_condition(struct condition *condition) { *condition = (struct condition){.sleepers = 0}; }

void vlmt_free_mutex(struct mutex *mutex) { (void)mutex; }

void vlmt_free_condition(struct condition *condition) { (void)condition; }

#else

/* (On Linux these never fail.) */

void vlmt_lock(vlm_threads *layer) {
    atomic_uint *side = begin_waiting(&layer->mutex);
    pthread_mutex_lock(&layer->mutex.plain);
    atomic_fetch_sub(side, 1);
}

void vlmt_unlock(vlm_threads *layer) { pthread_mutex_unlock(&layer->mutex.plain); }

bool vlmt_sleep(vlm_threads *layer, struct condition *condition, const struct timespec *end) {
    if (end)
        return !pthread_cond_timedwait(&condition->plain, &layer->mutex.plain, end);
    return !pthread_cond_wait(&condition->plain, &layer->mutex.plain);
}

void vlmt_look(vlm_threads *layer, struct condition *condition) { (void)layer, (void)condition; }

void vlmt_wake(vlm_threads *layer, struct condition *condition) {
    (void)layer;
    pthread_cond_signal(&condition->plain);
}

void vlmt_wake_all(struct condition *condition) { pthread_cond_broadcast(&condition->plain); }

void vlmt_make_mutex(struct mutex *mutex) {
    *mutex = (struct mutex){.waiting = 0};
    pthread_mutex_init(&mutex->plain, NULL);
}

void vlmt_make_condition(struct condition *condition) {
    pthread_condattr_t monotonic;
    pthread_condattr_init(&monotonic);
    pthread_condattr_setclock(&monotonic, CLOCK_MONOTONIC);
    pthread_cond_init(&condition->plain, &monotonic);
    pthread_condattr_destroy(&monotonic);
}

void vlmt_free_mutex(struct mutex *mutex) { pthread_mutex_destroy(&mutex->plain); }

void vlmt_free_condition(struct condition *condition) { pthread_cond_destroy(&condition->plain); }

#endif
