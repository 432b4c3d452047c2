/* Each allocation, thread and eventfd of the layer for threads refused in turn, and the key for data of threads: the
 * call answers INSFMEM and changes nothing, and is made again. Then all of them from each on: each call answers
 * INSFMEM, as often as it is made, or its result, and a close frees all. Linked with -Wl,--wrap= of malloc, calloc,
 * realloc, free, pthread_create and eventfd. */
#include "threads_test.h"

#include <errno.h>
#include <limits.h>

/* Which of them is refused, from 1, and whether all after it are, in every thread; how many were asked for, by the main
 * thread alone; and how many blocks there are. */
static atomic_long refused, asked_for, blocks;
static atomic_bool goes_on;
static long told;
static _Thread_local bool counts;

void *__real_malloc(size_t size);
void *__real_calloc(size_t count, size_t size);
void *__real_realloc(void *block, size_t size);
void __real_free(void *block);
int __real_pthread_create(pthread_t *thread, const pthread_attr_t *attributes, void *(*run)(void *), void *given);
int __real_eventfd(unsigned count, int flags);

static bool is_refused(void) {
    if (counts && atomic_fetch_add(&asked_for, 1) + 1 == refused)
        return true;
    return goes_on && refused && asked_for >= refused;
}

static void *counted(void *block) {
    blocks += block != NULL;
    return block;
}

void *__wrap_malloc(size_t size) { return is_refused() ? NULL : counted(__real_malloc(size)); }

void *__wrap_calloc(size_t count, size_t size) { return is_refused() ? NULL : counted(__real_calloc(count, size)); }

void *__wrap_realloc(void *block, size_t size) {
    if (is_refused())
        return NULL;
    return block ? __real_realloc(block, size) : counted(__real_realloc(block, size));
}

void __wrap_free(void *block) {
    blocks -= block != NULL;
    __real_free(block);
}

int __wrap_pthread_create(pthread_t *thread, const pthread_attr_t *attributes, void *(*run)(void *), void *given) {
    return is_refused() ? EAGAIN : __real_pthread_create(thread, attributes, run, given);
}

int __wrap_eventfd(unsigned count, int flags) { return is_refused() ? -1 : __real_eventfd(count, flags); }

/* What a refused call leaves as it was. */
struct figures {
    vlm_threads_counters counters;
    size_t processes, resources;
};

static void read_core(void *context, vlm *handle) {
    struct figures *figures = context;
    figures->processes = vlm_process_count(handle);
    figures->resources = vlm_resource_count(handle);
}

static struct figures figures_of(vlm_threads *layer) {
    struct figures figures = {.counters = counters_of(layer)};
    vlm_threads_look(layer, read_core, &figures);
    return figures;
}

static void expect_equal(struct figures before, struct figures after) {
    after.counters.requests = before.counters.requests;
    after.counters.refused[VLM_INSFMEM] = before.counters.refused[VLM_INSFMEM];
    HOLD(memcmp(&before.counters, &after.counters, sizeof before.counters) == 0);
    HOLD(before.processes == after.processes && before.resources == after.resources);
}

/* Whether a call was short of memory, and is to be made again. */
static bool again(uint32_t status) {
    told += status == VLM_INSFMEM;
    return status == VLM_INSFMEM;
}

/* A call of a layer, made again where it was short of memory. Its answer is in `status`. */
#define MADE(call)                                   \
    do {                                             \
        struct figures before = figures_of(layer);   \
        status = (call);                             \
        if (again(status)) {                         \
            expect_equal(before, figures_of(layer)); \
            status = (call);                         \
        }                                            \
        EXPECT(status, VLM_NORMAL);                  \
    } while (0)

static void note(void *context, const vlm_threads_event *event) {
    *(uint32_t *)context += event->status == VLM_NORMAL || event->kind == VLM_BLOCKING;
}

static uint32_t open_by(uint32_t delivery, vlm_threads **layer) {
    vlm_threads_options options = {
        .size = sizeof options, .version = VLM_VERSION, .delivery = delivery, .search_milliseconds = 100000};
    *layer = NULL;
    return vlm_threads_open(&options, layer);
}

static vlm_threads *opened_at_last(uint32_t delivery) {
    vlm_threads *layer;
    uint32_t status = open_by(delivery, &layer);
    if (again(status)) {
        HOLD(layer == NULL);
        status = open_by(delivery, &layer);
    }
    EXPECT(status, VLM_NORMAL);
    return layer;
}

enum { MANY = 40 };

/* More processes and locks than tables have room for at first, tied ones, and requests that wait and are granted. */
static void use(vlm_threads *layer) {
    uint32_t status, pids[MANY], granted = 0, delivered;
    vlm_threads_declaration declaration = {.size = sizeof declaration, .node = 1, .quota = 9, .requests = 2};
    vlm_threads_request holds = {.size = sizeof holds, .mode = VLM_EX, .blocking = note, .blocking_context = &granted};
    vlm_threads_request waits = {.size = sizeof waits, .mode = VLM_PR, .completion = note};
    waits.completion_context = &granted;
    for (uint32_t i = 0; i < MANY; i++) {
        declaration.tied = i % 2;
        declaration.own_queue = i == MANY - 1;
        MADE(vlm_threads_declare(layer, &declaration, &pids[i]));
    }
    holds.pid = pids[0];
    MADE(enq(layer, &holds, "A"));
    for (uint32_t i = 1; i < MANY; i++) {
        waits.pid = pids[i];
        MADE(start_enq(layer, &waits, "A"));
    }
    holds.lock = holds.lkid;
    holds.mode = VLM_PR;
    holds.blocking = NULL;
    MADE(vlm_threads_convert(layer, &holds));
    EXPECT(vlm_threads_dispatch(layer, &delivered), VLM_NORMAL);
    EXPECT(vlm_threads_process_dispatch(layer, pids[MANY - 1], &delivered), VLM_NORMAL);
    HOLD(granted == MANY - 1);
    expect_sums(layer);
}

/* The whole life of two layers. */
static void live(void) {
    vlm_threads *layer = opened_at_last(VLM_THREADS_BY_PROGRAM);
    use(layer);
    EXPECT(vlm_threads_close(layer), VLM_NORMAL);
    EXPECT(vlm_threads_close(opened_at_last(VLM_THREADS_BY_LAYER)), VLM_NORMAL);
}

/* A call of a layer that is refused for good, so its second answer is the same. Otherwise it is NORMAL. */
#define LASTS(call)                                  \
    do {                                             \
        struct figures before = figures_of(layer);   \
        status = (call);                             \
        if (again(status)) {                         \
            EXPECT((call), VLM_INSFMEM);             \
            expect_equal(before, figures_of(layer)); \
        } else {                                     \
            EXPECT(status, VLM_NORMAL);              \
        }                                            \
    } while (0)

/* The same use with what each call gets: who is not declared asks for nothing. */
static void use_starved(vlm_threads *layer) {
    uint32_t status, pids[MANY] = {0}, granted = 0, waiting = 0, delivered;
    vlm_threads_declaration declaration = {.size = sizeof declaration, .node = 1, .quota = 9, .requests = 2};
    vlm_threads_request holds = {.size = sizeof holds, .mode = VLM_EX, .blocking = note, .blocking_context = &granted};
    vlm_threads_request waits = {.size = sizeof waits, .mode = VLM_PR, .completion = note};
    waits.completion_context = &granted;
    for (uint32_t i = 0; i < MANY; i++) {
        declaration.tied = i % 2;
        declaration.own_queue = i == 0;
        LASTS(vlm_threads_declare(layer, &declaration, &pids[i]));
        HOLD((pids[i] != 0) == (status == VLM_NORMAL));
    }
    holds.pid = pids[0];
    if (pids[0])
        LASTS(enq(layer, &holds, "A"));
    for (uint32_t i = 1; i < MANY && holds.lkid; i++) {
        waits.pid = pids[i];
        if (pids[i])
            LASTS(start_enq(layer, &waits, "A"));
        waiting += pids[i] && status == VLM_NORMAL;
    }
    HOLD(counters_of(layer).waiting == waiting);
    if (holds.lkid)
        EXPECT(deq(layer, pids[0], holds.lkid, 0), VLM_NORMAL);
    EXPECT(vlm_threads_dispatch(layer, &delivered), VLM_NORMAL);
    HOLD(granted == waiting);
    expect_sums(layer);
}

/* The life of two layers without all from one on. */
static void live_starved(void) {
    vlm_threads *layer;
    long before = blocks;
    for (uint32_t delivery = 0; delivery < 2; delivery++) {
        uint32_t by = delivery ? VLM_THREADS_BY_LAYER : VLM_THREADS_BY_PROGRAM;
        if (again(open_by(by, &layer))) {
            EXPECT(open_by(by, &layer), VLM_INSFMEM);
            HOLD(layer == NULL);
            continue;
        }
        if (!delivery)
            use_starved(layer);
        EXPECT(vlm_threads_close(layer), VLM_NORMAL);
    }
    HOLD(blocks == before);
}

/* All keys for data of threads are taken. */
static void use_without_key(void) {
    static pthread_key_t keys[PTHREAD_KEYS_MAX];
    size_t count = 0;
    vlm_threads *layer = opened(VLM_THREADS_BY_PROGRAM, 0);
    vlm_threads_declaration declaration = {.size = sizeof declaration, .node = 1, .requests = 2, .tied = 1};
    uint32_t pid;
    while (count < PTHREAD_KEYS_MAX && !pthread_key_create(&keys[count], NULL))
        count++;
    EXPECT(vlm_threads_declare(layer, &declaration, &pid), VLM_INSFMEM);
    HOLD(pid == 0 && counters_of(layer).processes == 0);
    while (count)
        pthread_key_delete(keys[--count]);
    EXPECT(vlm_threads_declare(layer, &declaration, &pid), VLM_NORMAL);
    EXPECT(vlm_threads_close(layer), VLM_NORMAL);
}

/* Runs without each of them, or under a tool without some: each tells of it, and where it is refused for good as often
 * as it likes. */
static void refuse_each(void (*run)(void)) {
    refused = asked_for = told = 0;
    run();
    HOLD(told == 0 && asked_for > 9);
    long all = asked_for, step = getenv("VLM_TEST_SHARE") ? 1 + all / 40 : 1;
    for (long first = 1; first <= all; first += step) {
        refused = first;
        asked_for = told = 0;
        run();
        HOLD(goes_on ? told >= 1 : told == 1);
    }
}

int main(void) {
    use_without_key();
    counts = true;
    refuse_each(live);
    goes_on = true;
    refuse_each(live_starved);
    printf("each allocation, thread and eventfd refused in turn, and all from each on: %u wrong\n", wrong);
    return wrong != 0;
}
