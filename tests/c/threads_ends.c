/* Ends of threads, processes, nodes and layers while locks are held and others wait. */
#include "threads_test.h"

enum { WAITERS = 8 };

/* The address sanitizer still guards the stack of a cancelled thread, so no thread is cancelled under it. */
#if defined __SANITIZE_ADDRESS__
#define CANCELS false
#elif defined __has_feature
#define CANCELS !__has_feature(address_sanitizer)
#else
#define CANCELS true
#endif

static vlm_threads *layer;
static pthread_barrier_t both;

static void sleep_milliseconds(long count) { nanosleep(&(struct timespec){.tv_nsec = count * 1000000}, NULL); }

static uint32_t declared_tied(void) {
    vlm_threads_declaration declaration = {
        .size = sizeof declaration, .node = 1, .group = 1, .quota = 9, .requests = 9, .tied = 1};
    uint32_t pid;
    EXPECT(vlm_threads_declare(layer, &declaration, &pid), VLM_NORMAL);
    return pid;
}

enum way { RETURNS, EXITS, IS_CANCELLED };

/* Takes EX of A, waits until another asks for it, and ends. Another tied process ends with it, and one before. */
static void *hold_and_end(void *given) {
    vlm_threads_request request = asked(declared_tied(), VLM_EX);
    declared_tied();
    EXPECT(vlm_threads_rundown(layer, declared_tied()), VLM_NORMAL);
    EXPECT(enq(layer, &request, "A"), VLM_NORMAL);
    pthread_barrier_wait(&both);
    await_waiting(layer, 1);
    if ((uintptr_t)given == EXITS)
        pthread_exit(NULL);
    if ((uintptr_t)given == IS_CANCELLED) {
        pthread_cancel(pthread_self());
        pthread_testcancel();
    }
    return NULL;
}

/* A thread ends with a lock: another gets it, and learns that the value block is invalid. */
static void test_thread_ends(enum way way) {
    uint8_t value[16];
    vlm_threads_request request = asked(declared(layer, 1), VLM_EX), keep = asked(request.pid, VLM_NL);
    EXPECT(enq(layer, &keep, "A"), VLM_NORMAL);
    pthread_t thread = started(hold_and_end, (void *)(uintptr_t)way);
    pthread_barrier_wait(&both);
    request.flags = VLM_VALBLK;
    request.value = value;
    EXPECT(enq(layer, &request, "A"), VLM_NORMAL);
    EXPECT(request.status, VLM_VALNOTVALID);
    pthread_join(thread, NULL);
    EXPECT(vlm_threads_rundown(layer, request.pid), VLM_NORMAL);
    HOLD(counters_of(layer).processes == 0 && counters_of(layer).locks == 0);
}

static void *wait_and_end(void *given) {
    vlm_threads_request request = asked(declared_tied(), VLM_EX);
    EXPECT(enq(layer, &request, "A"), VLM_NORMAL);
    atomic_store((atomic_int *)given, 1);
    pthread_testcancel();
    atomic_store((atomic_int *)given, 2);
    return NULL;
}

/* A thread that is cancelled in a wait ends after it. */
static void test_cancelled_in_wait(void) {
    atomic_int reached = 0;
    vlm_threads_request request = asked(declared(layer, 1), VLM_EX);
    EXPECT(enq(layer, &request, "A"), VLM_NORMAL);
    pthread_t thread = started(wait_and_end, &reached);
    await_waiting(layer, 1);
    pthread_cancel(thread);
    sleep_milliseconds(2);
    HOLD(atomic_load(&reached) == 0);
    EXPECT(deq(layer, request.pid, request.lkid, 0), VLM_NORMAL);
    pthread_join(thread, NULL);
    HOLD(atomic_load(&reached) == 1);
    EXPECT(vlm_threads_rundown(layer, request.pid), VLM_NORMAL);
    HOLD(counters_of(layer).processes == 0 && counters_of(layer).locks == 0);
}

static void ignore(void *context, const vlm_threads_event *event) {
    (void)context;
    (void)event;
}

static void *start_and_end(void *given) {
    vlm_threads_request request = asked(declared_tied(), VLM_NL);
    uint32_t delivered;
    request.completion = ignore;
    pthread_cancel(pthread_self());
    EXPECT(start_enq(layer, &request, "A"), VLM_NORMAL);
    EXPECT(vlm_threads_dispatch(layer, &delivered), VLM_NORMAL);
    atomic_store((atomic_int *)given, 1);
    pthread_testcancel();
    atomic_store((atomic_int *)given, 2);
    return NULL;
}

/* A thread that was cancelled before a call ends after it, though the call writes to the eventfd. */
static void test_cancelled_before_call(void) {
    atomic_int reached = 0;
    layer = opened(VLM_THREADS_BY_PROGRAM, 0);
    pthread_join(started(start_and_end, &reached), NULL);
    HOLD(atomic_load(&reached) == 1 && counters_of(layer).processes == 0);
    EXPECT(vlm_threads_close(layer), VLM_NORMAL);
}

struct wait {
    uint32_t pid;
    vlm_threads_request request;
    uint32_t status;
};

static void *wait_for_lock(void *given) {
    struct wait *wait = given;
    wait->request = asked(wait->pid, VLM_EX);
    wait->status = enq(layer, &wait->request, "A");
    return NULL;
}

/* A process of node 1 holds A, and threads wait for it with processes of node 2. */
static uint32_t wait_for_holder(struct wait waits[WAITERS], pthread_t threads[WAITERS]) {
    vlm_threads_request request = asked(declared(layer, 1), VLM_EX);
    EXPECT(enq(layer, &request, "A"), VLM_NORMAL);
    for (int i = 0; i < WAITERS; i++) {
        waits[i].pid = declared(layer, 2);
        threads[i] = started(wait_for_lock, &waits[i]);
    }
    await_waiting(layer, WAITERS);
    return request.pid;
}

static void expect_ends(struct wait waits[WAITERS], pthread_t threads[WAITERS], uint32_t status) {
    for (int i = 0; i < WAITERS; i++) {
        pthread_join(threads[i], NULL);
        EXPECT(waits[i].status, status);
        HOLD(waits[i].request.lkid == 0 && waits[i].request.status == status);
    }
}

static void test_process_ends(void) {
    struct wait waits[WAITERS];
    pthread_t threads[WAITERS];
    uint32_t holder = wait_for_holder(waits, threads);
    for (int i = 0; i < WAITERS; i++)
        EXPECT(vlm_threads_rundown(layer, waits[i].pid), VLM_NORMAL);
    expect_ends(waits, threads, VLM_NONEXPR);
    EXPECT(vlm_threads_rundown(layer, holder), VLM_NORMAL);
    HOLD(counters_of(layer).run_down == WAITERS);
}

static void test_node_departs(void) {
    struct wait waits[WAITERS];
    pthread_t threads[WAITERS];
    uint32_t holder = wait_for_holder(waits, threads);
    EXPECT(vlm_threads_leave(layer, 2), VLM_NORMAL);
    expect_ends(waits, threads, VLM_DEPARTED);
    HOLD(counters_of(layer).processes == 1);
    EXPECT(vlm_threads_rundown(layer, holder), VLM_NORMAL);
}

/* The layer stops while others wait: their waits answer DEPARTED, and they may make calls until they are joined. */
static void test_stop(void) {
    struct wait waits[WAITERS];
    pthread_t threads[WAITERS];
    layer = opened(VLM_THREADS_BY_LAYER, 1000);
    wait_for_holder(waits, threads);
    EXPECT(vlm_threads_stop(layer), VLM_NORMAL);
    expect_ends(waits, threads, VLM_DEPARTED);
    EXPECT(deq(layer, waits[0].pid, 0, VLM_DEQALL), VLM_DEPARTED);
    expect_sums(layer);
    EXPECT(vlm_threads_close(layer), VLM_NORMAL);
}

/* The layer is closed while others wait: their waits answer DEPARTED, and they make no call after. */
static void test_close(void) {
    struct wait waits[WAITERS];
    pthread_t threads[WAITERS];
    layer = opened(VLM_THREADS_BY_PROGRAM, 0);
    wait_for_holder(waits, threads);
    EXPECT(vlm_threads_close(layer), VLM_NORMAL);
    expect_ends(waits, threads, VLM_DEPARTED);
}

static void *outlive(void *given) {
    (void)given;
    declared_tied();
    pthread_barrier_wait(&both);
    pthread_barrier_wait(&both);
    return NULL;
}

/* A thread with a tied process ends after the layer is closed. */
static void test_outlived(void) {
    layer = opened(VLM_THREADS_BY_LAYER, 0);
    pthread_t thread = started(outlive, NULL);
    pthread_barrier_wait(&both);
    EXPECT(vlm_threads_close(layer), VLM_NORMAL);
    pthread_barrier_wait(&both);
    pthread_join(thread, NULL);
}

/* Runs until the close has ended all processes. */
static void run_long(void *context, const vlm_threads_event *event) {
    (void)event;
    pthread_barrier_wait(&both);
    while (counters_of(layer).processes)
        sleep_milliseconds(1);
    sleep_milliseconds(5);
    atomic_store((atomic_int *)context, 1);
}

static void *settle(void *given) {
    atomic_fetch_add((atomic_int *)given, 1);
    EXPECT(vlm_threads_settle(layer), VLM_NORMAL);
    return NULL;
}

/* A close waits for the routine that runs and for the threads that settle, and drops the events that are pending. */
static void test_close_in_routine(void) {
    atomic_int has_run = 0, settling = 0;
    pthread_t threads[WAITERS];
    layer = opened(VLM_THREADS_BY_LAYER, 0);
    vlm_threads_request request = asked(declared(layer, 1), VLM_NL);
    request.completion = run_long;
    request.completion_context = &has_run;
    EXPECT(start_enq(layer, &request, "A"), VLM_NORMAL);
    EXPECT(start_enq(layer, &request, "A"), VLM_NORMAL);
    pthread_barrier_wait(&both);
    for (int i = 0; i < WAITERS; i++)
        threads[i] = started(settle, &settling);
    while (atomic_load(&settling) < WAITERS)
        sleep_milliseconds(1);
    sleep_milliseconds(50);
    EXPECT(vlm_threads_close(layer), VLM_NORMAL);
    HOLD(atomic_load(&has_run) == 1);
    for (int i = 0; i < WAITERS; i++)
        pthread_join(threads[i], NULL);
}

int main(void) {
    pthread_barrier_init(&both, NULL, 2);
    layer = opened(VLM_THREADS_BY_LAYER, 0);
    test_thread_ends(RETURNS);
    test_thread_ends(EXITS);
    if (CANCELS) {
        test_thread_ends(IS_CANCELLED);
        test_cancelled_in_wait();
    }
    test_process_ends();
    test_node_departs();
    expect_sums(layer);
    EXPECT(vlm_threads_close(layer), VLM_NORMAL);
    test_stop();
    test_close();
    test_outlived();
    test_close_in_routine();
    if (CANCELS)
        test_cancelled_before_call();
    printf("ends: %u wrong\n", wrong);
    return wrong != 0;
}
