/* The run of bench/long.rattle through the layer for threads, in one thread: processes are declared, locks on resources
 * of their own are asked for, convert, and are given up, each in the order of their numbers.
 *
 *     long clock 0 SIZE        makes all steps of a run to SIZE locks; prints how many nanoseconds each takes, in four
 *                              bytes, the lowest first
 *     long steps COUNT SIZE    makes the first COUNT of these steps */
#define _POSIX_C_SOURCE 200809L

#include "vlm_threads.h"

#include <stdlib.h>
#include <string.h>
#include <time.h>

/* How many locks there are of one process, and at most in all. */
enum { EACH = 1000, MOST = 10000000 };

static vlm_threads *layer;
static uint32_t size;
static uint32_t *pids, *locks;

static void must(bool fact, const char *what) {
    if (fact)
        return;
    fprintf(stderr, "long: %s\n", what);
    exit(1);
}

static void declare(uint32_t number) {
    vlm_threads_declaration declaration = {
        .size = sizeof declaration, .node = 1, .group = 1, .quota = 65535, .requests = 2};
    must(vlm_threads_declare(layer, &declaration, &pids[number]) == VLM_NORMAL, "declare");
}

static void ask(uint32_t number) {
    char name[16];
    int length = snprintf(name, sizeof name, "R%08u", (unsigned)number);
    vlm_threads_request request = {.size = sizeof request, .pid = pids[number / EACH], .mode = VLM_EX};
    must(vlm_threads_enq(layer, &request, (const uint8_t *)name, (size_t)length) == VLM_NORMAL, "enq");
    locks[number] = request.lkid;
}

static void convert(uint32_t number) {
    vlm_threads_request request = {
        .size = sizeof request, .pid = pids[number / EACH], .mode = VLM_CR, .lock = locks[number]};
    must(vlm_threads_convert(layer, &request) == VLM_NORMAL, "convert");
}

static void give_up(uint32_t number) {
    vlm_threads_dequeue dequeue = {.size = sizeof dequeue, .pid = pids[number / EACH], .lock = locks[number]};
    must(vlm_threads_deq(layer, &dequeue) == VLM_NORMAL, "deq");
}

static void make(uint32_t step) {
    static void (*const kinds[])(uint32_t) = {ask, convert, give_up};
    uint32_t owners = size / EACH + 1;
    if (step < owners)
        declare(step);
    else
        kinds[(step - owners) / size]((step - owners) % size);
}

static uint64_t now(void) {
    struct timespec time;
    clock_gettime(CLOCK_MONOTONIC, &time);
    return (uint64_t)time.tv_sec * 1000000000 + (uint64_t)time.tv_nsec;
}

/* Makes all steps, and prints what each takes. */
static void clock_all(uint32_t count) {
    uint32_t *times = calloc(count, sizeof *times);
    must(times, "memory");
    memset(times, 1, count * sizeof *times); /* (the clock is not to count the system's pages) */
    for (uint32_t step = 0; step < count; step++) {
        uint64_t began = now(), took;
        make(step);
        took = now() - began;
        times[step] = took < UINT32_MAX ? (uint32_t)took : UINT32_MAX;
    }
    must(fwrite(times, sizeof *times, count, stdout) == count, "output");
    free(times);
}

int main(int count, char **words) {
    vlm_threads_options options = VLM_THREADS_OPTIONS;
    must(count == 4 && atol(words[2]) >= 0 && atol(words[3]) > 0 && atol(words[3]) <= MOST, "clock|steps COUNT SIZE");
    size = (uint32_t)atol(words[3]);
    pids = calloc(size / EACH + 1, sizeof *pids);
    locks = calloc(size, sizeof *locks);
    must(pids && locks && vlm_threads_open(&options, &layer) == VLM_NORMAL, "memory");
    memset(locks, 1, size * sizeof *locks);
    uint32_t all = size / EACH + 1 + 3 * size, asked = (uint32_t)atol(words[2]);
    if (!strcmp(words[1], "clock"))
        clock_all(all);
    else
        for (uint32_t step = 0; step < asked && step < all; step++)
            make(step);
    vlm_threads_close(layer);
    free(pids);
    free(locks);
    return 0;
}
