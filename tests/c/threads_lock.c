/* The mutex of the layer for threads, and waits. Eight threads take the mutex many times, and no two have it at once. A
 * reader keeps it for long: the threads that want it use no processor meanwhile, and have it afterwards. Threads that
 * wait for a grant use no processor either, also where the waits before were short, so that a thread looks for a while
 * before it sleeps. A lock that threads hand to each other, by sleeps and by looks, is held by one at a time. */
#include "threads_test.h"

/* (two threads look where there are processors for both; eight sleep, except on large machines) */
enum { THREADS = 8, LOOKERS = 2, TAKINGS = 20000, LONG = 300000000, LITTLE = 100000000 };

static vlm_threads *layer;
static long all;
static long counted; /* guarded by the layer's mutex, or by the lock A */
static atomic_uint begun;

static void count(void *context, vlm *handle) {
    (void)context;
    (void)handle;
    counted++;
}

static void *count_often(void *given) {
    for (long i = 0; i < all; i++)
        EXPECT(vlm_threads_look(layer, count, NULL), VLM_NORMAL);
    return given;
}

static void *count_once(void *given) {
    atomic_fetch_add(&begun, 1);
    EXPECT(vlm_threads_look(layer, count, NULL), VLM_NORMAL);
    return given;
}

static void *wait_for_grant(void *given) {
    vlm_threads_request request = asked(declared(layer, 1), VLM_EX);
    EXPECT(enq(layer, &request, "A"), VLM_NORMAL);
    EXPECT(deq(layer, request.pid, request.lkid, 0), VLM_NORMAL);
    return given;
}

static void *hand_over(void *given) {
    uint32_t pid = declared(layer, 1);
    for (long i = 0; i < all; i++) {
        vlm_threads_request request = asked(pid, VLM_EX);
        EXPECT(enq(layer, &request, "A"), VLM_NORMAL);
        counted++;
        EXPECT(deq(layer, pid, request.lkid, 0), VLM_NORMAL);
    }
    return given;
}

static void start(int count, pthread_t threads[THREADS], void *(*run)(void *)) {
    for (int i = 0; i < count; i++)
        threads[i] = started(run, NULL);
}

static void join(int count, const pthread_t threads[THREADS]) {
    for (int i = 0; i < count; i++)
        pthread_join(threads[i], NULL);
}

/* The processor time of all threads, in nanoseconds. */
static int64_t used(void) {
    struct timespec time;
    clock_gettime(CLOCK_PROCESS_CPUTIME_ID, &time);
    return (int64_t)time.tv_sec * 1000000000 + time.tv_nsec;
}

/* Sleeps for long while other threads wait. */
static void expect_rest(void) {
    int64_t before = used();
    nanosleep(&(struct timespec){.tv_nsec = LONG}, NULL);
    HOLD(used() - before < LITTLE);
}

/* Keeps the mutex until all threads want it, and then for long. */
static void keep(void *context, vlm *handle) {
    (void)handle;
    start(THREADS, context, count_once);
    while (begun < THREADS)
        nanosleep(&(struct timespec){.tv_nsec = 100000}, NULL);
    expect_rest();
    HOLD(counted == 0);
}

static void take_often(void) {
    pthread_t threads[THREADS];
    counted = 0;
    start(THREADS, threads, count_often);
    join(THREADS, threads);
    HOLD(counted == all * THREADS);
}

static void keep_long(void) {
    pthread_t threads[THREADS];
    counted = 0;
    EXPECT(vlm_threads_look(layer, keep, threads), VLM_NORMAL);
    join(THREADS, threads);
    HOLD(counted == THREADS);
}

static void grant_late(int count) {
    pthread_t threads[THREADS];
    uint64_t before = counters_of(layer).granted_later;
    vlm_threads_request request = asked(declared(layer, 1), VLM_EX);
    EXPECT(enq(layer, &request, "A"), VLM_NORMAL);
    start(count, threads, wait_for_grant);
    await_waiting(layer, (uint64_t)count);
    expect_rest();
    EXPECT(deq(layer, request.pid, request.lkid, 0), VLM_NORMAL);
    join(count, threads);
    HOLD(counters_of(layer).granted_later == before + (uint64_t)count);
}

static void hand_over_often(int count) {
    pthread_t threads[THREADS];
    counted = 0;
    start(count, threads, hand_over);
    join(count, threads);
    HOLD(counted == all * count);
}

int main(void) {
    all = rounds(TAKINGS);
    layer = opened(VLM_THREADS_BY_LAYER, 0);
    take_often();
    keep_long();
    grant_late(THREADS);
    hand_over_often(THREADS);
    hand_over_often(LOOKERS);
    grant_late(LOOKERS);
    EXPECT(vlm_threads_close(layer), VLM_NORMAL);
    printf("the mutex of the layer: %u wrong\n", wrong);
    return wrong != 0;
}
