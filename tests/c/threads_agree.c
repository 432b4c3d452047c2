/* Random calls with trees of locks, by one thread: after each of them the layer counts the locks, the waiting requests
 * and the processes that the core has, and at the end each started request has had one completion. */
#include "threads_test.h"

enum { CALLS = 100000, PROCESSES = 4, MOST_LOCKS = 400 };

static vlm_threads *layer;
static uint64_t state = 88172645463325252u;
static uint32_t pids[PROCESSES];

/* The locks of the latest requests, each with its process. */
static struct known { uint32_t pid, lkid; } known[16];

/* How many completions are due, and how many came. */
static uint64_t due, told;

static uint32_t below(uint32_t limit) {
    state ^= state << 13;
    state ^= state >> 7;
    state ^= state << 17;
    return (uint32_t)((state >> 16) % limit);
}

static void count(void *context, const vlm_threads_event *event) {
    HOLD(context == &told);
    told += event->kind == VLM_COMPLETION;
}

struct figures {
    uint64_t processes, locks, waiting;
};

static void read_resource(vlm *handle, const vlm_resource *resource, struct figures *figures) {
    for (uint32_t queue = VLM_GRANTED; queue <= VLM_WAITING; queue++) {
        vlm_lock lock = {.size = sizeof lock};
        uint32_t status = vlm_first_row(handle, resource, queue, &lock);
        for (; status == VLM_NORMAL && lock.lkid != 0; status = vlm_next_row(handle, lock.lkid, &lock)) {
            figures->locks++;
            figures->waiting += queue != VLM_GRANTED;
        }
    }
}

/* Walks the processes and the resources, which are as many as the core counts. */
static void read_core(void *context, vlm *handle) {
    struct figures *figures = context;
    vlm_process process = {.size = sizeof process};
    vlm_resource resource = {.size = sizeof resource};
    size_t resources = 0;
    while (vlm_next_process(handle, process.pid, &process) == VLM_NORMAL && process.pid != 0)
        figures->processes++;
    for (; vlm_next_resource(handle, &resource) == VLM_NORMAL && resource.serial != 0; resources++)
        read_resource(handle, &resource, figures);
    HOLD(figures->processes == vlm_process_count(handle) && resources == vlm_resource_count(handle));
}

static void expect_agreement(void) {
    struct figures figures = {0};
    vlm_threads_counters counters = counters_of(layer);
    vlm_threads_look(layer, read_core, &figures);
    HOLD(figures.processes == counters.processes && figures.locks == counters.locks);
    HOLD(figures.waiting == counters.waiting);
}

static vlm_threads_request any_request(const struct known *one) {
    static uint8_t value[64];
    vlm_threads_request request = asked(one->pid, below(6));
    request.lock = one->lkid;
    request.flags = below(3) ? 0 : below(256);
    request.value = value;
    request.completion = request.blocking = count;
    request.completion_context = request.blocking_context = &told;
    return request;
}

static void start(struct known *one) {
    vlm_threads_request request = any_request(one);
    if (below(3) == 0) {
        request.pid = pids[below(PROCESSES)];
        request.lock = 0;
    }
    due += start_enq(layer, &request, (char[]){(char)('A' + below(4)), 0}) == VLM_NORMAL;
    if (request.lkid)
        known[below(16)] = (struct known){request.pid, request.lkid};
}

static void start_conversion(struct known *one) {
    vlm_threads_request request = any_request(one);
    due += vlm_threads_start_convert(layer, &request) == VLM_NORMAL;
}

static void give_up(struct known *one) {
    static const uint32_t flags[] = {0, 0, VLM_DEQ_CANCEL, VLM_DEQALL, VLM_INVVALBLK};
    uint32_t lock = below(20) ? one->lkid : 0;
    deq(layer, one->pid, lock, flags[below(5)]);
}

/* A process ends with its waiting requests, after a delivery of its pending events. */
static void replace_process(void) {
    uint32_t place = below(PROCESSES), delivered;
    vlm_threads_dispatch(layer, &delivered);
    uint64_t before = counters_of(layer).run_down;
    EXPECT(vlm_threads_rundown(layer, pids[place]), VLM_NORMAL);
    due -= counters_of(layer).run_down - before;
    pids[place] = declared(layer, 1 + below(8));
}

static void act(void) {
    struct known *one = &known[below(16)];
    uint32_t choice = below(1000), number;
    if (choice == 0)
        replace_process();
    else if (choice < 20)
        EXPECT(vlm_threads_search(layer, &number), VLM_NORMAL);
    else if (choice < 60)
        EXPECT(vlm_threads_dispatch(layer, &number), VLM_NORMAL);
    else if (choice < 500 && counters_of(layer).locks < MOST_LOCKS)
        start(one);
    else if (choice < 700)
        start_conversion(one);
    else
        give_up(one);
}

int main(void) {
    uint32_t delivered;
    layer = opened(VLM_THREADS_BY_PROGRAM, 0);
    for (int i = 0; i < PROCESSES; i++)
        pids[i] = declared(layer, 1);
    for (long call = rounds(CALLS); call; call--) {
        act();
        expect_agreement();
    }
    for (int i = 0; i < PROCESSES; i++)
        deq(layer, pids[i], 0, VLM_DEQALL);
    EXPECT(vlm_threads_dispatch(layer, &delivered), VLM_NORMAL);
    HOLD(due == told && counters_of(layer).locks == 0 && counters_of(layer).waiting == 0);
    expect_sums(layer);
    if (getenv("VLM_TEST_PRINT")) {
        vlm_threads_counters counters = counters_of(layer);
        vlm_threads_print(&counters, stderr);
    }
    EXPECT(vlm_threads_close(layer), VLM_NORMAL);
    printf("layer and core: %u wrong\n", wrong);
    return wrong != 0;
}
