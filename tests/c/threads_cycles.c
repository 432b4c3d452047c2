/* Many deadlocks at once: 100 cycles of two processes, and one call that searches. The latest request of each cycle
 * is the victim, and the latest cycle comes first. The 20 latest victims are threads that wait. One of them is told,
 * and another thread gets a call through, before the last search. On a busy machine these may have no processor in that
 * time, so it is tried again. */
#include "threads_test.h"

enum { CYCLES = 100, THREADS = 20, TRIES = 20 };

/* A cycle: the first process holds A of the cycle and waits for B, and the second the other way round. */
struct cycle {
    uint32_t second;
    char names[2][16];
};

static vlm_threads *layer;
static struct cycle cycles[CYCLES];
static atomic_uint told, told_early, between;
static atomic_bool is_over;

static void count_deadlock(void *context, const vlm_threads_event *event) {
    (void)context;
    EXPECT(event->status, VLM_DEADLOCK);
    atomic_fetch_add(&told, 1);
}

static void count_grant(void *context, const vlm_threads_event *event) {
    (void)context;
    EXPECT(event->status, VLM_NORMAL);
}

static uint32_t holder_of(const char *name) {
    vlm_threads_request request = asked(declared(layer, 1), VLM_EX);
    EXPECT(enq(layer, &request, name), VLM_NORMAL);
    return request.pid;
}

/* Starts a request that waits. */
static void await(uint32_t pid, const char *name, vlm_threads_routine completion) {
    vlm_threads_request request = asked(pid, VLM_EX);
    request.completion = completion;
    EXPECT(start_enq(layer, &request, name), VLM_NORMAL);
}

static void begin_cycle(struct cycle *cycle, int number) {
    for (int i = 0; i < 2; i++)
        snprintf(cycle->names[i], sizeof cycle->names[i], "%c%d", "AB"[i], number);
    uint32_t first = holder_of(cycle->names[0]);
    cycle->second = holder_of(cycle->names[1]);
    await(first, cycle->names[1], count_grant);
}

/* Closes a cycle, and becomes its victim. */
static void *close_cycle(void *given) {
    struct cycle *cycle = given;
    vlm_threads_request request = asked(cycle->second, VLM_EX);
    EXPECT(enq(layer, &request, cycle->names[0]), VLM_DEADLOCK);
    HOLD(request.lkid == 0 && request.status == VLM_DEADLOCK);
    if (counters_of(layer).searches < CYCLES)
        atomic_fetch_add(&told_early, 1);
    atomic_fetch_add(&told, 1);
    return NULL;
}

/* Makes calls that no deadlock is in the way of. Counts those between two searches. */
static void *go_on(void *given) {
    vlm_threads_request request = asked(declared(layer, 2), VLM_EX);
    while (!is_over) {
        EXPECT(enq(layer, &request, "C"), VLM_NORMAL);
        EXPECT(deq(layer, request.pid, request.lkid, 0), VLM_NORMAL);
        uint64_t searches = counters_of(layer).searches;
        if (searches > 0 && searches < CYCLES)
            atomic_fetch_add(&between, 1);
    }
    return given;
}

static void make_cycles(pthread_t threads[THREADS]) {
    for (int i = 0; i < CYCLES; i++)
        begin_cycle(&cycles[i], i);
    for (int i = 0; i < CYCLES - THREADS; i++)
        await(cycles[i].second, cycles[i].names[0], count_deadlock);
    for (int i = 0; i < THREADS; i++)
        threads[i] = started(close_cycle, &cycles[CYCLES - THREADS + i]);
}

static void expect_victims(void) {
    uint32_t victims;
    await_waiting(layer, UINT64_C(2) * CYCLES);
    EXPECT(vlm_threads_search(layer, &victims), VLM_NORMAL);
    HOLD(victims == CYCLES);
    vlm_threads_counters counters = counters_of(layer);
    HOLD(counters.victims == CYCLES && counters.searches == CYCLES + 1 && counters.waiting == CYCLES);
    expect_sums(layer);
}

static void search(void) {
    pthread_t threads[THREADS];
    told = 0;
    is_over = false;
    layer = opened(VLM_THREADS_BY_LAYER, 0);
    make_cycles(threads);
    pthread_t other = started(go_on, NULL);
    expect_victims();
    is_over = true;
    pthread_join(other, NULL);
    for (int i = 0; i < THREADS; i++)
        pthread_join(threads[i], NULL);
    while (told < CYCLES)
        nanosleep(&(struct timespec){.tv_nsec = 100000}, NULL);
    EXPECT(vlm_threads_close(layer), VLM_NORMAL);
    HOLD(told == CYCLES);
}

int main(void) {
    for (int i = 0; i < TRIES && !(told_early && between); i++)
        search();
    HOLD(told_early > 0 && between > 0);
    if (getenv("VLM_TEST_PRINT"))
        fprintf(stderr, "%u told early, %u calls between\n", told_early, between);
    printf("many deadlocks at once: %u wrong\n", wrong);
    return wrong != 0;
}
