/* Walks over what a lock manager holds, and a look for pending ASTs: what a monitor and a dispatcher do.
 *
 *     walks resources N     declares a process, makes N resources with a lock each, and walks over them
 *     walks dump N          the same, and over the locks in each queue of each
 *     walks rows N          makes N locks on one resource, and walks over its queues
 *     walks pairs N         makes 1,000 locks, then N times asks for EX on one more resource and gives it up
 *     walks processes N     declares N processes, and walks over them
 *     walks pending N       declares N processes without an AST, and calls vlm_take_any N times
 *
 * It prints the nanoseconds that the walk, or the calls, took. */
#define _POSIX_C_SOURCE 200809L
#include <vlm.h>

#include <stdio.h>
#include <stdlib.h>
#include <string.h>
#include <time.h>

static vlm handle = VLM_CLOSED;
static const vlm_options options = VLM_OPTIONS;

/* Ends the program where a call does not answer what it is to answer. */
static void need(uint32_t status) {
    if (status != VLM_NORMAL) {
        fprintf(stderr, "a call answered %s\n", vlm_condition_name(status));
        exit(1);
    }
}

static uint32_t declare(uint32_t node) {
    uint32_t pid;
    vlm_declaration declaration = {.size = sizeof declaration, .node = node, .quota = 65535, .blocks = 1};
    need(vlm_declare(&handle, &declaration, &pid));
    return pid;
}

/* Makes locks on as many resources, or all on one. */
static void make_locks(long count, int is_one) {
    uint32_t pid = 0, lkid;
    for (long made = 0; made < count; made++) {
        if (made % 65535 == 0)
            pid = declare(1);
        vlm_request request = {.size = sizeof request, .pid = pid, .mode = VLM_NL, .block = 1};
        long name = is_one ? 0 : made;
        need(vlm_enq(&handle, &request, (const uint8_t *)&name, sizeof name, &lkid));
    }
}

static void make_processes(long count) {
    for (long made = 0; made < count; made++)
        declare((uint32_t)(made % 8) + 1);
}

static long walk_resources(void) {
    long seen = 0;
    vlm_resource resource = {.size = sizeof resource};
    while (vlm_next_resource(&handle, &resource) == VLM_NORMAL && resource.serial != 0)
        seen++;
    return seen;
}

/* The locks of all queues of all resources. */
static long walk_rows(void) {
    long seen = 0;
    vlm_resource resource = {.size = sizeof resource};
    vlm_lock lock = {.size = sizeof lock};
    while (vlm_next_resource(&handle, &resource) == VLM_NORMAL && resource.serial != 0)
        for (uint32_t queue = VLM_GRANTED; queue <= VLM_WAITING; queue++) {
            need(vlm_first_row(&handle, &resource, queue, &lock));
            for (; lock.lkid != 0; seen++)
                need(vlm_next_row(&handle, lock.lkid, &lock));
        }
    return seen;
}

static long walk_processes(void) {
    long seen = 0;
    vlm_process process = {.size = sizeof process};
    while (vlm_next_process(&handle, process.pid, &process) == VLM_NORMAL && process.pid != 0)
        seen++;
    return seen;
}

static long make_pairs(long count) {
    static const uint8_t name[] = "one more";
    uint32_t pid = declare(1);
    vlm_request request = {.size = sizeof request, .pid = pid, .mode = VLM_EX, .block = 1};
    vlm_dequeue dequeue = {.size = sizeof dequeue, .pid = pid};
    for (long made = 0; made < count; made++) {
        need(vlm_enq(&handle, &request, name, sizeof name, &dequeue.lock));
        need(vlm_deq(&handle, &dequeue));
    }
    return count;
}

static long look_for_pending(long count) {
    for (long made = 0; made < count; made++) {
        uint32_t pid;
        vlm_ast ast = {.size = sizeof ast};
        need(vlm_take_any(&handle, &pid, &ast));
    }
    return count;
}

int main(int argc, char **argv) {
    if (argc != 3)
        return 2;
    long count = atol(argv[2]), seen;
    int resources = strcmp(argv[1], "resources") == 0, processes = strcmp(argv[1], "processes") == 0;
    int rows = strcmp(argv[1], "rows") == 0, dump = strcmp(argv[1], "dump") == 0;
    int pairs = strcmp(argv[1], "pairs") == 0;
    struct timespec from, to;
    need(vlm_open(&handle, &options));
    resources || rows || dump || pairs ? make_locks(pairs ? 1000 : count, rows) : make_processes(count);
    clock_gettime(CLOCK_MONOTONIC, &from);
    seen = resources      ? walk_resources()
           : rows || dump ? walk_rows()
           : pairs        ? make_pairs(count)
           : processes    ? walk_processes()
                          : look_for_pending(count);
    clock_gettime(CLOCK_MONOTONIC, &to);
    if (seen != count)
        return 3;
    printf("%lld\n", (to.tv_sec - from.tv_sec) * 1000000000LL + (to.tv_nsec - from.tv_nsec));
    vlm_close(&handle);
    return 0;
}
