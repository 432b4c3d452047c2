/* What the tests of the layer for threads share. */
#ifndef THREADS_TEST_H
#define THREADS_TEST_H

#ifndef _POSIX_C_SOURCE
#define _POSIX_C_SOURCE 200809L
#endif

#include "vlm_threads.h"

#include <pthread.h>
#include <stdatomic.h>
#include <stdlib.h>
#include <string.h>
#include <time.h>

static atomic_uint wrong;

static inline void expect_at(int line, uint32_t got, uint32_t want) {
    if (got == want)
        return;
    atomic_fetch_add(&wrong, 1);
    fprintf(stderr, "line %d: %u %s, not %u %s\n", line, (unsigned)got, vlm_condition_name(got), (unsigned)want,
            vlm_condition_name(want));
}
#define EXPECT(call, want) expect_at(__LINE__, (call), (want))

static inline void hold_at(int line, int fact, const char *text) {
    if (fact)
        return;
    atomic_fetch_add(&wrong, 1);
    fprintf(stderr, "line %d: not %s\n", line, text);
}
#define HOLD(fact) hold_at(__LINE__, (fact), #fact)

/* How many rounds a long test does: all, or one VLM_TEST_SHARE-th of them, under a sanitizer or valgrind. */
static inline long rounds(long all) {
    const char *share = getenv("VLM_TEST_SHARE");
    return share ? all / atol(share) : all;
}

static inline vlm_threads *opened(uint32_t delivery, uint32_t search_milliseconds) {
    vlm_threads_options options = {.size = sizeof options,
                                   .version = VLM_VERSION,
                                   .delivery = delivery,
                                   .search_milliseconds = search_milliseconds};
    vlm_threads *layer;
    EXPECT(vlm_threads_open(&options, &layer), VLM_NORMAL);
    return layer;
}

static inline uint32_t declared(vlm_threads *layer, uint32_t node) {
    vlm_threads_declaration declaration = {
        .size = sizeof declaration, .node = node, .group = 1, .quota = 100, .requests = 100};
    uint32_t pid;
    EXPECT(vlm_threads_declare(layer, &declaration, &pid), VLM_NORMAL);
    return pid;
}

static inline vlm_threads_request asked(uint32_t pid, uint32_t mode) {
    return (vlm_threads_request){.size = sizeof(vlm_threads_request), .pid = pid, .mode = mode};
}

static inline uint32_t enq(vlm_threads *layer, vlm_threads_request *request, const char *name) {
    return vlm_threads_enq(layer, request, (const uint8_t *)name, strlen(name));
}

static inline uint32_t start_enq(vlm_threads *layer, vlm_threads_request *request, const char *name) {
    return vlm_threads_start_enq(layer, request, (const uint8_t *)name, strlen(name));
}

static inline uint32_t deq(vlm_threads *layer, uint32_t pid, uint32_t lock, uint32_t flags) {
    vlm_threads_dequeue dequeue = {.size = sizeof dequeue, .pid = pid, .flags = flags, .lock = lock};
    return vlm_threads_deq(layer, &dequeue);
}

static inline vlm_threads_counters counters_of(vlm_threads *layer) {
    vlm_threads_counters counters = {.size = sizeof counters};
    EXPECT(vlm_threads_read_counters(layer, &counters), VLM_NORMAL);
    return counters;
}

/* Waits until this many requests wait. */
static inline void await_waiting(vlm_threads *layer, uint64_t count) {
    while (counters_of(layer).waiting != count)
        nanosleep(&(struct timespec){.tv_nsec = 100000}, NULL);
}

static inline pthread_t started(void *(*run)(void *), void *given) {
    pthread_t thread;
    if (pthread_create(&thread, NULL, run, given))
        abort();
    return thread;
}

/* Checks the sums that the header states for the counters. */
static inline void expect_sums(vlm_threads *layer) {
    vlm_threads_counters counters = counters_of(layer);
    uint64_t refused = 0, times = 0;
    for (int i = 0; i < VLM_THREADS_CONDITIONS; i++)
        refused += counters.refused[i];
    for (int i = 0; i < VLM_THREADS_TIMES; i++)
        times += counters.times[i];
    HOLD(counters.requests == counters.granted_at_once + counters.waited + refused);
    HOLD(counters.waited
         == counters.granted_later + counters.timed_out + counters.cancelled + counters.victims + counters.run_down
                + counters.waiting);
    HOLD(times == counters.waited - counters.waiting);
}

#endif
