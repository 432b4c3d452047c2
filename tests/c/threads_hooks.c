/* What the layer tells of waits: deadlocks before their victims end, long waits, the lock of a call that waits, labels;
 * and the age of victims. */
#include "threads_test.h"

enum { CYCLE = 3, LONG_CYCLE = 20, RANDOM_PROCESSES = 12, RANDOM_STEPS = 20000 };

static vlm_threads *layer;

static uint32_t declared_as(const char *label) {
    vlm_threads_declaration declaration = {
        .size = sizeof declaration, .node = 1, .group = 1, .quota = 100, .requests = 100};
    uint32_t pid;
    snprintf((char *)declaration.label, sizeof declaration.label, "%s", label);
    EXPECT(vlm_threads_declare(layer, &declaration, &pid), VLM_NORMAL);
    return pid;
}

static void open_with(vlm_threads_options options) {
    options.size = sizeof options;
    options.version = VLM_VERSION;
    options.delivery = VLM_THREADS_BY_PROGRAM;
    EXPECT(vlm_threads_open(&options, &layer), VLM_NORMAL);
}

/* The locks whose requests ended by DEADLOCK, and those that a hook was told of, in order. */
static uint32_t ended[RANDOM_STEPS], told[RANDOM_STEPS];
static size_t ended_count, told_count;

static void note_end(void *context, const vlm_threads_event *event) {
    (void)context;
    if (event->status == VLM_DEADLOCK)
        ended[ended_count++] = event->lkid;
}

static uint32_t hold(uint32_t pid, const char *name) {
    vlm_threads_request request = asked(pid, VLM_EX);
    EXPECT(enq(layer, &request, name), VLM_NORMAL);
    return request.lkid;
}

static uint32_t await(uint32_t pid, const char *name) {
    vlm_threads_request request = asked(pid, VLM_EX);
    request.completion = note_end;
    EXPECT(start_enq(layer, &request, name), VLM_NORMAL);
    return request.lkid;
}

/* Each process holds the resource of its number, and waits for the next one: the last lock. */
static uint32_t make_cycle(const uint32_t *pids, int length) {
    char name[16];
    uint32_t last = 0;
    for (int i = 0; i < length; i++) {
        snprintf(name, sizeof name, "R%d", i);
        hold(pids[i], name);
    }
    for (int i = 0; i < length; i++) {
        snprintf(name, sizeof name, "R%d", (i + 1) % length);
        last = await(pids[i], name);
    }
    return last;
}

static uint32_t searched(void) {
    uint32_t victims, delivered;
    EXPECT(vlm_threads_search(layer, &victims), VLM_NORMAL);
    EXPECT(vlm_threads_dispatch(layer, &delivered), VLM_NORMAL);
    return victims;
}

/* The waits follow each other, and lead back to the victim's process. */
static void check_cycle(const vlm_threads_deadlock *deadlock) {
    uint32_t count = deadlock->length < VLM_THREADS_CYCLE ? deadlock->length : VLM_THREADS_CYCLE;
    HOLD(deadlock->size >= sizeof *deadlock && deadlock->length > 0);
    HOLD(deadlock->waits[0].waits.lkid == deadlock->victim && deadlock->waits[0].waits.pid == deadlock->pid);
    for (uint32_t i = 0; i < count; i++) {
        const vlm_threads_wait *wait = &deadlock->waits[i];
        HOLD(wait->waits.resource == wait->blocks.resource && wait->waits.want != VLM_NO_MODE);
        if (i + 1 < deadlock->length && i + 1 < count)
            HOLD(wait->blocks.pid == deadlock->waits[i + 1].waits.pid);
        else if (i + 1 == deadlock->length)
            HOLD(wait->blocks.pid == deadlock->pid);
    }
}

static bool is_random;

/* With its cycle, and without. */
static void print_both_ways(const vlm_threads_deadlock *deadlock) {
    vlm_threads_deadlock alone = *deadlock;
    EXPECT(vlm_threads_print_deadlock(deadlock, stdout), VLM_NORMAL);
    alone.size = sizeof alone; /* (a newer library's may be longer) */
    alone.length = 0;
    EXPECT(vlm_threads_print_deadlock(&alone, stdout), VLM_NORMAL);
}

static void note_deadlock(void *context, const vlm_threads_deadlock *deadlock) {
    HOLD(context == &layer && counters_of(layer).victims == told_count);
    check_cycle(deadlock);
    told[told_count++] = deadlock->victim;
    if (!is_random && deadlock->length == CYCLE)
        print_both_ways(deadlock);
    HOLD(vlm_threads_close(layer) == VLM_BADPARAM && vlm_threads_settle(layer) == VLM_BADPARAM);
}

/* A deadlock is told before its victim ends: processes, locks, modes and names. A long cycle is told in part. */
static void test_deadlock(void) {
    uint32_t pids[LONG_CYCLE] = {0};
    open_with((vlm_threads_options){.deadlock = note_deadlock, .deadlock_context = &layer});
    pids[0] = declared_as("Anna");
    pids[1] = declared_as("");
    pids[2] = declared_as("Carl");
    HOLD(searched() == 0 && told_count == 0);
    uint32_t last = make_cycle(pids, CYCLE);
    HOLD(searched() == 1 && told_count == 1 && told[0] == last && ended_count == 1 && ended[0] == last);
    for (int i = 0; i < CYCLE; i++)
        EXPECT(vlm_threads_rundown(layer, pids[i]), VLM_NORMAL);
    for (int i = 0; i < LONG_CYCLE; i++)
        pids[i] = declared_as("");
    last = make_cycle(pids, LONG_CYCLE);
    HOLD(searched() == 1 && told_count == 2 && told[1] == last);
    hold(pids[0], "own");
    last = await(pids[0], "own"); /* it waits for its own process */
    HOLD(searched() == 1 && told_count == 3 && told[2] == last);
    EXPECT(vlm_threads_close(layer), VLM_NORMAL);
}

/* Of two queued requests of one process on one resource the second waits for its own process: it ends by DEADLOCK.
 * Two requests of two processes only wait. */
static void test_two_requests(void) {
    open_with((vlm_threads_options){.size = 0});
    ended_count = 0;
    uint32_t holder = declared_as(""), held = hold(holder, "T"), pid = declared_as("");
    uint32_t first = await(pid, "T"), second = await(pid, "T");
    HOLD(searched() == 1 && ended_count == 1 && ended[0] == second && second != first);
    await(declared_as(""), "T");
    HOLD(searched() == 0 && counters_of(layer).waiting == 2);
    EXPECT(deq(layer, holder, held, 0), VLM_NORMAL);
    EXPECT(deq(layer, pid, first, VLM_DEQ_CANCEL), VLM_CANCELGRANT); /* the first one is granted */
    EXPECT(vlm_threads_close(layer), VLM_NORMAL);
}

/* A hook that cancels a request of its choice: no victim is needed then. */
static void choose_first(void *context, const vlm_threads_deadlock *deadlock) {
    const vlm_lock *chosen = &deadlock->waits[1].waits;
    ++*(uint32_t *)context;
    EXPECT(deq(layer, chosen->pid, chosen->lkid, VLM_DEQ_CANCEL), VLM_NORMAL);
}

static void test_choice(void) {
    uint32_t count = 0;
    open_with((vlm_threads_options){.deadlock = choose_first, .deadlock_context = &count});
    make_cycle((uint32_t[]){declared_as("P"), declared_as("Q")}, 2);
    HOLD(searched() == 0 && count == 1 && counters_of(layer).cancelled == 1 && counters_of(layer).victims == 0);
    EXPECT(vlm_threads_close(layer), VLM_NORMAL);
}

/* A request that has waited less than victim_milliseconds is no victim, and is one after that time. */
static void test_age(void) {
    open_with((vlm_threads_options){.victim_milliseconds = 200});
    ended_count = 0;
    make_cycle((uint32_t[]){declared_as("P"), declared_as("Q")}, 2);
    HOLD(searched() == 0 && counters_of(layer).waiting == 2);
    nanosleep(&(struct timespec){.tv_nsec = 210000000}, NULL);
    uint32_t lone = declared_as("R"), young = await(lone, "R0"); /* it is young, and not deadlocked */
    HOLD(searched() == 1 && ended_count == 1 && ended[0] != young);
    EXPECT(vlm_threads_close(layer), VLM_NORMAL);
}

static atomic_uint long_waits;

static void note_long(void *context, const vlm_threads_wait *wait) {
    const uint32_t *holder = context;
    HOLD(wait->size == sizeof *wait && wait->milliseconds >= 200 && wait->waits.want == VLM_EX);
    HOLD(wait->blocks.pid == *holder && wait->blocks.held == VLM_EX && strcmp((char *)wait->blocks_label, "held") == 0);
    HOLD(wait->name_len == 1 && wait->name[0] == 'L');
    FILE *file = fopen("/dev/null", "w");
    EXPECT(vlm_threads_print_wait(wait, file), VLM_NORMAL);
    HOLD(ftell(file) > 40 && fclose(file) == 0);
    EXPECT(deq(layer, wait->waits.pid, wait->waits.lkid, VLM_DEQ_CANCEL), VLM_NORMAL);
    atomic_fetch_add(&long_waits, 1);
}

static void *wait_for_long(void *given) {
    vlm_threads_request request = asked(declared_as("waits"), VLM_EX);
    (void)given;
    EXPECT(enq(layer, &request, "L"), VLM_ABORT);
    return NULL;
}

/* Each long wait is told once, and the hook may end it. A shorter one is not told. */
static void test_long_waits(void) {
    uint32_t holder = 0;
    pthread_t threads[3];
    open_with((vlm_threads_options){
        .long_milliseconds = 200, .long_wait = note_long, .long_wait_context = &holder, .search_milliseconds = 7});
    holder = declared_as("held");
    hold(holder, "L");
    vlm_threads_request request = asked(declared_as("short"), VLM_EX);
    request.milliseconds = 1;
    EXPECT(enq(layer, &request, "L"), VLM_TIMEOUT);
    for (int i = 0; i < 3; i++)
        threads[i] = started(wait_for_long, NULL);
    for (int i = 0; i < 3; i++)
        pthread_join(threads[i], NULL);
    EXPECT(vlm_threads_close(layer), VLM_NORMAL);
    HOLD(long_waits == 3);
}

static vlm_threads_request shown;

static void *wait_shown(void *given) {
    (void)given;
    EXPECT(enq(layer, &shown, "K"), VLM_ABORT);
    return NULL;
}

/* The lock of a call that waits is told to other threads, which end this one wait by it. */
static void test_lkid(void) {
    uint32_t lkid = 0;
    open_with((vlm_threads_options){.size = 0});
    hold(declared_as("P"), "K");
    uint32_t pid = declared_as("Q"), other = await(pid, "K");
    shown = asked(pid, VLM_EX);
    pthread_t thread = started(wait_shown, NULL);
    while (lkid == 0)
        EXPECT(vlm_threads_lkid(layer, &shown, &lkid), VLM_NORMAL);
    HOLD(lkid != other);
    EXPECT(deq(layer, pid, lkid, VLM_DEQ_CANCEL), VLM_NORMAL);
    pthread_join(thread, NULL);
    EXPECT(vlm_threads_lkid(layer, &shown, &lkid), VLM_NORMAL);
    HOLD(lkid == 0 && counters_of(layer).waiting == 1);
    EXPECT(vlm_threads_close(layer), VLM_NORMAL);
}

static void read_label(void *context, vlm *handle) {
    vlm_process process = {.size = sizeof process};
    EXPECT(vlm_next_process(handle, 0, &process), VLM_NORMAL);
    EXPECT(vlm_threads_label(layer, process.pid, context), VLM_NORMAL);
}

static void test_label(void) {
    uint8_t label[VLM_THREADS_LABEL];
    open_with((vlm_threads_options){.size = 0});
    uint32_t pid = declared_as("a label of thirty-one bytes....");
    EXPECT(vlm_threads_look(layer, read_label, label), VLM_NORMAL);
    HOLD(strcmp((char *)label, "a label of thirty-one bytes....") == 0);
    EXPECT(vlm_threads_rundown(layer, pid), VLM_NORMAL);
    EXPECT(vlm_threads_label(layer, pid, label), VLM_NONEXPR);
    HOLD(label[0] == 0);
    EXPECT(vlm_threads_close(layer), VLM_NORMAL);
}

/* One step of random processes on few resources: a request with flags of searches, a conversion, or a dequeue. */
static void step(const uint32_t *pids, uint64_t *random) {
    static const uint32_t flags[] = {0, 0, 0, VLM_NODLCKWT, VLM_NODLCKBLK};
    static uint32_t locks[64];
    *random = *random * UINT64_C(6364136223846793005) + 1442695040888963407;
    uint32_t bits = (uint32_t)(*random >> 33), pid = pids[bits % RANDOM_PROCESSES], *place = &locks[bits / 16 % 64];
    char name[] = {(char)('A' + bits / 1024 % 4), 0};
    vlm_threads_request request = asked(pid, bits / 4096 % 6);
    request.completion = note_end;
    request.flags = flags[bits / 32768 % 5];
    request.lock = *place;
    if (bits / 262144 % 4 == 0)
        deq(layer, pid, *place, 0);
    else if (bits / 262144 % 4 == 1)
        vlm_threads_start_convert(layer, &request);
    else if ((request.lock = 0, start_enq(layer, &request, name)) == VLM_NORMAL)
        *place = request.lkid;
}

/* The victims that the hook is told of are those that the core ends, in the same order. */
static void test_random(void) {
    uint32_t pids[RANDOM_PROCESSES];
    uint64_t random = 1;
    open_with((vlm_threads_options){.deadlock = note_deadlock, .deadlock_context = &layer});
    ended_count = told_count = 0;
    is_random = true;
    for (int i = 0; i < RANDOM_PROCESSES; i++)
        pids[i] = declared_as("");
    for (long count = rounds(RANDOM_STEPS), i = 0; i < count; i++) {
        step(pids, &random);
        if (i % 8 == 0)
            searched();
    }
    searched();
    HOLD(ended_count == told_count && memcmp(ended, told, ended_count * sizeof *ended) == 0);
    HOLD(counters_of(layer).victims == told_count && told_count > (size_t)rounds(500));
    expect_sums(layer);
    EXPECT(vlm_threads_close(layer), VLM_NORMAL);
}

int main(void) {
    test_deadlock();
    test_two_requests();
    test_choice();
    test_age();
    test_long_waits();
    test_lkid();
    test_label();
    test_random();
    printf("hooks: %u wrong\n", wrong);
    return wrong != 0;
}
