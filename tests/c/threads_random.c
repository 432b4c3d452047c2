/* A million random calls by four threads, which write down what they hold. No two incompatible modes are ever held
 * together, no version in a value block is lost, the contexts of each accepted request are released once, and the
 * counters add up. Some processes have queues of their own, and hooks are told of deadlocks and long waits. */
#include "threads_test.h"

enum { THREADS = 4, RESOURCES = 6, SLOTS = 4, CALLS = 1000000 };

static const bool fits[6][6] = {
    /*        NL    CR    CW    PR    PW    EX  */
    /* NL */ {true, true, true, true, true, true},
    /* CR */ {true, true, true, true, true, false},
    /* CW */ {true, true, true, false, false, false},
    /* PR */ {true, true, false, true, false, false},
    /* PW */ {true, true, false, false, false, false},
    /* EX */ {true, false, false, false, false, false},
};

static vlm_threads *layer;

/* How often each mode is held, as the threads know. */
static int held[RESOURCES][6];
static pthread_mutex_t guard = PTHREAD_MUTEX_INITIALIZER;

/* What a lock in PW or EX guards: the version in the value block. */
static uint32_t version[RESOURCES];

enum state { EMPTY, PENDING, HELD };

/* A lock of a thread. A completion routine turns PENDING into EMPTY or HELD, all else is the thread's. */
struct slot {
    enum state state;
    uint32_t lkid, mode, resource;
    uint32_t started; /* the lock of a PENDING one, as the thread knows it */
};

struct worker {
    uint64_t random;
    uint32_t pid;
    bool has_queue; /* of its own, which this thread dispatches */
    struct slot slots[SLOTS];
};

static uint32_t below(struct worker *worker, uint32_t limit) {
    worker->random ^= worker->random << 13;
    worker->random ^= worker->random >> 7;
    worker->random ^= worker->random << 17;
    return (uint32_t)((worker->random >> 16) % limit);
}

static void enter(struct slot *slot) {
    pthread_mutex_lock(&guard);
    held[slot->resource][slot->mode]++;
    for (uint32_t mode = 0; mode < 6; mode++)
        if (!fits[slot->mode][mode])
            HOLD(held[slot->resource][mode] == (mode == slot->mode));
    slot->state = HELD;
    pthread_mutex_unlock(&guard);
}

static void leave(struct slot *slot) {
    pthread_mutex_lock(&guard);
    held[slot->resource][slot->mode]--;
    pthread_mutex_unlock(&guard);
}

static enum state state_of(struct slot *slot) {
    pthread_mutex_lock(&guard);
    enum state state = slot->state;
    pthread_mutex_unlock(&guard);
    return state;
}

static void set_state(struct slot *slot, enum state state) {
    pthread_mutex_lock(&guard);
    slot->state = state;
    pthread_mutex_unlock(&guard);
}

static bool writes(const struct slot *slot) { return slot->mode >= VLM_PW; }

static const char *name_of(const struct slot *slot) {
    static const char *const names[RESOURCES] = {"A", "B", "C", "D", "E", "F"};
    return names[slot->resource];
}

static void ended(void *context, const vlm_threads_event *event) {
    struct slot *slot = context;
    bool is_granted = event->status == VLM_NORMAL;
    HOLD(is_granted || event->status == VLM_ABORT || event->status == VLM_DEADLOCK);
    slot->lkid = event->lkid;
    if (is_granted)
        enter(slot);
    else
        set_state(slot, EMPTY);
}

static void warned(void *context, const vlm_threads_event *event) {
    HOLD(context == &guard && event->kind == VLM_BLOCKING);
}

/* Requests that were accepted, and whose contexts were released. */
static atomic_uint accepted, released_count, told_deadlocks;

static void released(void *completion_context, void *blocking_context) {
    (void)completion_context;
    HOLD(blocking_context == &guard);
    atomic_fetch_add(&released_count, 1);
}

static uint32_t counted(uint32_t status) {
    HOLD(status != VLM_BADPARAM && status != VLM_INSFMEM);
    atomic_fetch_add(&accepted, status != VLM_NOTQUEUED);
    return status;
}

static void note_deadlock(void *context, const vlm_threads_deadlock *deadlock) {
    HOLD(context == &guard && deadlock->length > 0 && deadlock->waits[0].waits.lkid == deadlock->victim);
    atomic_fetch_add(&told_deadlocks, 1);
}

static void note_long_wait(void *context, const vlm_threads_wait *wait) {
    HOLD(context == &guard && wait->milliseconds >= 1 && wait->name_len == 1);
}

static vlm_threads *opened_with_hooks(void) {
    vlm_threads_options options = {.size = sizeof options,
                                   .version = VLM_VERSION,
                                   .search_milliseconds = 3,
                                   .deadlock = note_deadlock,
                                   .deadlock_context = &guard,
                                   .long_milliseconds = 1,
                                   .long_wait = note_long_wait,
                                   .long_wait_context = &guard};
    vlm_threads *made;
    EXPECT(vlm_threads_open(&options, &made), VLM_NORMAL);
    return made;
}

/* Declares the process of a worker. */
static void declare_any(struct worker *worker) {
    vlm_threads_declaration declaration = {
        .size = sizeof declaration, .node = 1 + below(worker, 8), .group = 1, .quota = 100, .requests = 100};
    declaration.own_queue = worker->has_queue = below(worker, 2);
    EXPECT(vlm_threads_declare(layer, &declaration, &worker->pid), VLM_NORMAL);
}

static void dispatch(const struct worker *worker) {
    uint32_t delivered;
    if (worker->has_queue)
        EXPECT(vlm_threads_process_dispatch(layer, worker->pid, &delivered), VLM_NORMAL);
}

/* What a request of a random kind may answer besides NORMAL. */
static void expect_no_grant(uint32_t status) {
    HOLD(status == VLM_NOTQUEUED || status == VLM_TIMEOUT || status == VLM_DEADLOCK);
}

static vlm_threads_request any_request(struct worker *worker, uint32_t mode) {
    vlm_threads_request request = asked(worker->pid, mode);
    if (below(worker, 100) < 98)
        request.flags = VLM_NOQUEUE;
    request.milliseconds = 1 + below(worker, 2);
    if (below(worker, 2))
        request.blocking = warned;
    request.blocking_context = &guard;
    request.released = released;
    return request;
}

static void take_lock(struct worker *worker, struct slot *slot) {
    uint32_t value[4] = {0};
    slot->mode = below(worker, 6);
    slot->resource = below(worker, RESOURCES);
    vlm_threads_request request = any_request(worker, slot->mode);
    request.flags |= VLM_VALBLK;
    request.value = (uint8_t *)value;
    uint32_t status = counted(enq(layer, &request, name_of(slot)));
    if (status != VLM_NORMAL) {
        expect_no_grant(status);
        return;
    }
    slot->lkid = request.lkid;
    enter(slot);
    HOLD(!writes(slot) || value[0] == version[slot->resource]);
}

static void start_lock(struct worker *worker, struct slot *slot) {
    slot->mode = below(worker, 6);
    slot->resource = below(worker, RESOURCES);
    vlm_threads_request request = any_request(worker, slot->mode);
    request.completion = ended;
    request.completion_context = slot;
    set_state(slot, PENDING);
    bool is_accepted = counted(start_enq(layer, &request, name_of(slot))) == VLM_NORMAL;
    slot->started = request.lkid;
    if (is_accepted)
        return;
    HOLD(request.flags & VLM_NOQUEUE);
    set_state(slot, EMPTY);
}

static void convert_lock(struct worker *worker, struct slot *slot) {
    uint32_t mode = below(worker, 6);
    vlm_threads_request request = any_request(worker, mode);
    request.lock = slot->lkid;
    leave(slot);
    uint32_t status = counted(vlm_threads_convert(layer, &request));
    if (status == VLM_NORMAL)
        slot->mode = mode;
    else
        expect_no_grant(status);
    enter(slot);
}

static void give_up_lock(struct worker *worker, struct slot *slot) {
    uint32_t value[4] = {0};
    vlm_threads_dequeue dequeue = {.size = sizeof dequeue, .pid = worker->pid, .lock = slot->lkid};
    if (writes(slot)) {
        value[0] = ++version[slot->resource];
        dequeue.value = (const uint8_t *)value;
    }
    leave(slot);
    EXPECT(vlm_threads_deq(layer, &dequeue), VLM_NORMAL);
    set_state(slot, EMPTY);
}

/* Another process takes the place of the worker's, if nothing is pending. */
static void run_down(struct worker *worker) {
    for (int i = 0; i < SLOTS; i++)
        if (state_of(&worker->slots[i]) == PENDING)
            return;
    for (int i = 0; i < SLOTS; i++) {
        if (state_of(&worker->slots[i]) == HELD)
            leave(&worker->slots[i]);
        set_state(&worker->slots[i], EMPTY);
    }
    EXPECT(vlm_threads_rundown(layer, worker->pid), VLM_NORMAL);
    declare_any(worker);
}

static void act(struct worker *worker) {
    struct slot *slot = &worker->slots[below(worker, SLOTS)];
    enum state state = state_of(slot);
    uint32_t choice = below(worker, 1000);
    if (choice % 8 == 1)
        dispatch(worker);
    if (choice == 0)
        run_down(worker);
    else if (state == EMPTY && choice < 700)
        take_lock(worker, slot);
    else if (state == EMPTY)
        start_lock(worker, slot);
    else if (state == HELD && choice < 400)
        convert_lock(worker, slot);
    else if (state == HELD)
        give_up_lock(worker, slot);
    else if (choice < 100)
        deq(layer, worker->pid, slot->started, VLM_DEQ_CANCEL);
    else
        nanosleep(&(struct timespec){.tv_nsec = 50000}, NULL);
}

/* Cancels what is pending, so that no lock is granted any more when all threads have ended. */
static void cancel_pending(struct worker *worker) {
    for (int i = 0; i < SLOTS; i++)
        while (state_of(&worker->slots[i]) == PENDING) {
            deq(layer, worker->pid, worker->slots[i].started, VLM_DEQ_CANCEL);
            dispatch(worker);
            nanosleep(&(struct timespec){.tv_nsec = 50000}, NULL);
        }
}

static void *work(void *given) {
    for (long call = rounds(CALLS / THREADS); call; call--)
        act(given);
    cancel_pending(given);
    return NULL;
}

int main(void) {
    struct worker workers[THREADS] = {{0}};
    pthread_t threads[THREADS];
    layer = opened_with_hooks();
    vlm_threads_request keep = asked(declared(layer, 1), VLM_NL);
    for (uint32_t i = 0; i < RESOURCES; i++)
        EXPECT(enq(layer, &keep, name_of(&(struct slot){.resource = i})), VLM_NORMAL);
    for (uint32_t i = 0; i < THREADS; i++) {
        workers[i].random = 88172645463325252u + i;
        declare_any(&workers[i]);
        threads[i] = started(work, &workers[i]);
    }
    for (uint32_t i = 0; i < THREADS; i++)
        pthread_join(threads[i], NULL);
    for (uint32_t i = 0; i < THREADS; i++)
        EXPECT(vlm_threads_rundown(layer, workers[i].pid), VLM_NORMAL);
    while (counters_of(layer).events)
        nanosleep(&(struct timespec){.tv_nsec = 50000}, NULL);
    EXPECT(vlm_threads_settle(layer), VLM_NORMAL);
    vlm_threads_counters counters = counters_of(layer);
    HOLD(counters.waiting == 0 && told_deadlocks >= counters.victims && counters.processes == 1
         && counters.locks == RESOURCES);
    expect_sums(layer);
    if (getenv("VLM_TEST_PRINT"))
        vlm_threads_print(&counters, stderr);
    EXPECT(vlm_threads_close(layer), VLM_NORMAL);
    HOLD(accepted > 0 && accepted == released_count);
    printf("four threads, random calls: %u wrong\n", wrong);
    return wrong != 0;
}
