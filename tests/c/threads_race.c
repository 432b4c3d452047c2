/* A time-out that races with a grant, 100,000 times. Each of fifty threads waits a millisecond for its resource, and
 * another thread gives it up after a millisecond. Each wait ends by a grant, with a lock, or by a time-out, without. */
#include "threads_test.h"

enum { WAITERS = 50, RACES = 100000 };

static vlm_threads *layer;
static uint32_t holder;
static pthread_barrier_t start, end;
static atomic_long granted, late;
static long all;

static void name_resource(char name[2], uint32_t number) {
    name[0] = (char)('0' + number);
    name[1] = 0;
}

static void race(uint32_t pid, const char *name) {
    vlm_threads_request request = asked(pid, VLM_EX);
    request.milliseconds = 1;
    uint32_t status = enq(layer, &request, name);
    HOLD(status == VLM_NORMAL || status == VLM_TIMEOUT);
    HOLD((status == VLM_NORMAL) == (request.lkid != 0));
    atomic_fetch_add(status == VLM_NORMAL ? &granted : &late, 1);
    if (request.lkid)
        EXPECT(deq(layer, pid, request.lkid, 0), VLM_NORMAL);
}

static void *wait_often(void *given) {
    uint32_t pid = declared(layer, 1);
    char name[2];
    name_resource(name, (uint32_t)(uintptr_t)given);
    for (long round = 0; round < all; round++) {
        pthread_barrier_wait(&start);
        race(pid, name);
        pthread_barrier_wait(&end);
    }
    return NULL;
}

static void hold_and_give_up(void) {
    vlm_threads_request request = asked(holder, VLM_EX);
    uint32_t locks[WAITERS];
    char name[2];
    for (uint32_t i = 0; i < WAITERS; i++) {
        name_resource(name, i);
        EXPECT(enq(layer, &request, name), VLM_NORMAL);
        locks[i] = request.lkid;
    }
    pthread_barrier_wait(&start);
    nanosleep(&(struct timespec){.tv_nsec = 1000000}, NULL);
    for (uint32_t i = 0; i < WAITERS; i++)
        EXPECT(deq(layer, holder, locks[i], 0), VLM_NORMAL);
    pthread_barrier_wait(&end);
}

int main(void) {
    pthread_t threads[WAITERS];
    all = rounds(RACES / WAITERS);
    layer = opened(VLM_THREADS_BY_LAYER, 0);
    holder = declared(layer, 2);
    pthread_barrier_init(&start, NULL, WAITERS + 1);
    pthread_barrier_init(&end, NULL, WAITERS + 1);
    for (uintptr_t i = 0; i < WAITERS; i++)
        threads[i] = started(wait_often, (void *)i);
    for (long round = 0; round < all; round++)
        hold_and_give_up();
    for (uint32_t i = 0; i < WAITERS; i++)
        pthread_join(threads[i], NULL);
    vlm_threads_counters counters = counters_of(layer);
    HOLD(granted + late == all * WAITERS && counters.timed_out == (uint64_t)late);
    HOLD(counters.locks == 0 && counters.waiting == 0);
    expect_sums(layer);
    if (getenv("VLM_TEST_PRINT"))
        fprintf(stderr, "%ld granted, %ld late\n", granted, late);
    EXPECT(vlm_threads_close(layer), VLM_NORMAL);
    printf("grants and time-outs that race: %u wrong\n", wrong);
    return wrong != 0;
}
