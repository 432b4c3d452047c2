/* Queues of processes, the mode that a warning tells of, `released` routines, and two threads that poll. */
#include "threads_test.h"

#include <fcntl.h>
#include <poll.h>
#include <sys/wait.h>
#include <unistd.h>

static vlm_threads *layer;

static uint32_t declared_with(uint32_t own_queue) {
    vlm_threads_declaration declaration = {
        .size = sizeof declaration, .node = 1, .group = 1, .quota = 99, .requests = 99, .own_queue = own_queue};
    uint32_t pid;
    EXPECT(vlm_threads_declare(layer, &declaration, &pid), VLM_NORMAL);
    return pid;
}

static bool is_readable(int descriptor) {
    struct pollfd polled = {.fd = descriptor, .events = POLLIN};
    return poll(&polled, 1, 0) == 1;
}

static int descriptor_of(uint32_t pid) {
    int descriptor;
    EXPECT(vlm_threads_process_fd(layer, pid, &descriptor), VLM_NORMAL);
    return descriptor;
}

static uint32_t dispatched(uint32_t pid) {
    uint32_t delivered;
    EXPECT(vlm_threads_process_dispatch(layer, pid, &delivered), VLM_NORMAL);
    return delivered;
}

/* What a routine was told last, and how often. */
struct note {
    atomic_uint count;
    vlm_threads_event event;
};

static void note(void *context, const vlm_threads_event *event) {
    struct note *note = context;
    note->event = *event;
    atomic_fetch_add(&note->count, 1);
}

/* Asks for a lock that gives way to others by a routine. */
static vlm_threads_request warned(uint32_t pid, uint32_t mode, struct note *context) {
    vlm_threads_request request = asked(pid, mode);
    request.blocking = note;
    request.blocking_context = context;
    return request;
}

static uint32_t await(uint32_t pid, uint32_t mode, const char *name) {
    static struct note ignored;
    vlm_threads_request request = asked(pid, mode);
    request.completion = note;
    request.completion_context = &ignored;
    EXPECT(start_enq(layer, &request, name), VLM_NORMAL);
    return request.lkid;
}

/* The events of a process with its own queue wait for its dispatch, and no other one's. */
static void test_own_queue(void) {
    struct note own = {0}, other = {0};
    uint32_t p = declared_with(1), q = declared_with(0), r = declared_with(0), delivered;
    vlm_threads_request first = warned(p, VLM_EX, &own), second = warned(q, VLM_EX, &other);
    int descriptor = descriptor_of(p);
    EXPECT(enq(layer, &first, "A"), VLM_NORMAL);
    EXPECT(enq(layer, &second, "B"), VLM_NORMAL);
    await(r, VLM_PR, "A");
    await(r, VLM_PR, "B");
    EXPECT(vlm_threads_dispatch(layer, &delivered), VLM_NORMAL);
    HOLD(delivered == 1 && other.count == 1 && own.count == 0 && is_readable(descriptor));
    HOLD(dispatched(p) == 1 && own.count == 1 && !is_readable(descriptor) && dispatched(p) == 0);
    HOLD(own.event.pid == p && own.event.kind == VLM_BLOCKING && own.event.lkid == first.lkid);
    EXPECT(vlm_threads_process_dispatch(layer, q, &delivered), VLM_BADPARAM);
    EXPECT(vlm_threads_process_fd(layer, q, &descriptor), VLM_BADPARAM);
    HOLD(delivered == 0 && descriptor == -1);
    await(p, VLM_EX, "C");
    HOLD(is_readable(descriptor_of(p)));
    for (int i = 0; i < 2; i++)
        EXPECT(vlm_threads_rundown(layer, i ? q : p), VLM_NORMAL);
    EXPECT(vlm_threads_process_dispatch(layer, p, &delivered), VLM_NONEXPR);
    EXPECT(vlm_threads_process_fd(layer, p, &descriptor), VLM_NONEXPR);
    EXPECT(vlm_threads_rundown(layer, r), VLM_NORMAL);
    EXPECT(vlm_threads_dispatch(layer, &delivered), VLM_NORMAL);
}

static pthread_barrier_t both;
static atomic_uint released_count;
static atomic_bool is_in_routine;

static void wait_for_main(void *context, const vlm_threads_event *event) {
    (void)context;
    (void)event;
    is_in_routine = true;
    pthread_barrier_wait(&both);
    pthread_barrier_wait(&both);
    is_in_routine = false;
}

static void release(void *completion_context, void *blocking_context) {
    HOLD(!is_in_routine && completion_context == &both && blocking_context == &layer);
    atomic_fetch_add(&released_count, 1);
}

static void *dispatch(void *given) {
    uint32_t delivered;
    vlm_threads_process_dispatch(layer, *(uint32_t *)given, &delivered);
    return NULL;
}

/* A slow routine stalls no other process. Its process may end meanwhile: `released` is called after it. */
static void test_slow_routine(void) {
    struct note other = {0};
    uint32_t slow = declared_with(1), q = declared_with(1);
    vlm_threads_request request = asked(slow, VLM_EX), first = warned(q, VLM_EX, &other);
    released_count = 0;
    request.completion = wait_for_main;
    request.completion_context = &both;
    request.blocking_context = &layer;
    request.released = release;
    EXPECT(start_enq(layer, &request, "A"), VLM_NORMAL);
    pthread_t thread = started(dispatch, &slow);
    pthread_barrier_wait(&both);
    EXPECT(enq(layer, &first, "B"), VLM_NORMAL);
    await(slow, VLM_EX, "B");
    HOLD(dispatched(q) == 1 && other.count == 1 && is_in_routine);
    EXPECT(vlm_threads_rundown(layer, slow), VLM_NORMAL);
    uint32_t delivered;
    EXPECT(vlm_threads_dispatch(layer, &delivered), VLM_NORMAL);
    HOLD(delivered == 0 && released_count == 0);
    pthread_barrier_wait(&both);
    pthread_join(thread, NULL);
    EXPECT(vlm_threads_dispatch(layer, &delivered), VLM_NORMAL);
    HOLD(delivered == 1 && released_count == 1);
    EXPECT(vlm_threads_rundown(layer, q), VLM_NORMAL);
}

static vlm_threads_request counted(uint32_t pid, uint32_t mode) {
    vlm_threads_request request = asked(pid, mode);
    request.released = release;
    request.completion_context = &both;
    request.blocking_context = &layer;
    return request;
}

static uint32_t released(void) {
    uint32_t delivered;
    EXPECT(vlm_threads_dispatch(layer, &delivered), VLM_NORMAL);
    return atomic_exchange(&released_count, 0);
}

/* Contexts are released once their lock is gone, a conversion took their place, their request ended, or their process
 * did; not for a refused request. */
static void test_released(void) {
    uint32_t p = declared_with(0), q = declared_with(0), count;
    vlm_threads_request holds = counted(p, VLM_EX), waits = counted(q, VLM_EX), refused = counted(q, 6);
    released_count = 0;
    EXPECT(enq(layer, &refused, "A"), VLM_BADPARAM);
    EXPECT(enq(layer, &holds, "A"), VLM_NORMAL);
    waits.milliseconds = 1;
    HOLD(released() == 0);
    EXPECT(enq(layer, &waits, "A"), VLM_TIMEOUT);
    HOLD(released() == 1);
    holds.lock = holds.lkid;
    holds.mode = VLM_PR;
    EXPECT(vlm_threads_convert(layer, &holds), VLM_NORMAL);
    HOLD(released() == 1);
    EXPECT(deq(layer, p, holds.lkid, 0), VLM_NORMAL);
    HOLD(released() == 1 && released() == 0);
    holds.lock = 0;
    for (int i = 0; i < 3; i++)
        EXPECT(enq(layer, &holds, "A"), VLM_NORMAL);
    vlm_threads_request later = counted(q, VLM_EX);
    later.completion = wait_for_main; /* not called: its process ends before */
    EXPECT(start_enq(layer, &later, "A"), VLM_NORMAL);
    EXPECT(vlm_threads_cancel(layer, q, &count), VLM_NORMAL);
    EXPECT(vlm_threads_rundown(layer, q), VLM_NORMAL);
    HOLD(released() == 1);
    EXPECT(vlm_threads_rundown(layer, p), VLM_NORMAL);
    HOLD(released() == 3);
}

/* The queue of a process goes with it, and leaves what it has to release to the layer's. */
static void test_released_later(void) {
    uint32_t p = declared_with(1);
    vlm_threads_request holds = counted(p, VLM_EX);
    EXPECT(enq(layer, &holds, "A"), VLM_NORMAL);
    EXPECT(deq(layer, p, holds.lkid, 0), VLM_NORMAL);
    EXPECT(enq(layer, &holds, "A"), VLM_NORMAL);
    HOLD(released() == 0);
    EXPECT(vlm_threads_rundown(layer, p), VLM_NORMAL);
    HOLD(released() == 2);
}

/* A warning tells what the first request wants that the lock is in the way of. */
static void test_wanted(void) {
    static const uint32_t wants[] = {VLM_PR, VLM_EX};
    uint32_t p = declared_with(1), q = declared_with(1), r = declared_with(0);
    for (int i = 0; i < 2; i++) {
        struct note own = {0}, reader = {0};
        vlm_threads_request first = warned(p, VLM_CW, &own), second = warned(q, VLM_CR, &reader);
        EXPECT(enq(layer, &first, "W"), VLM_NORMAL);
        EXPECT(enq(layer, &second, "W"), VLM_NORMAL);
        uint32_t lkid = await(r, wants[i], "W");
        await(r, VLM_EX, "W");
        HOLD(dispatched(p) == 1 && own.event.wanted == wants[i] && own.event.status == 0);
        HOLD(dispatched(q) == 1 && reader.event.wanted == VLM_EX);
        HOLD(deq(layer, r, lkid, 0) == VLM_NORMAL && dispatched(p) == 0);
        EXPECT(deq(layer, r, 0, VLM_DEQALL), VLM_NORMAL);
        EXPECT(deq(layer, p, 0, VLM_DEQALL), VLM_NORMAL);
        EXPECT(deq(layer, q, 0, VLM_DEQALL), VLM_NORMAL);
    }
    struct note own = {0};
    vlm_threads_request first = warned(p, VLM_PR, &own);
    EXPECT(enq(layer, &first, "W"), VLM_NORMAL);
    await(r, VLM_EX, "W");
    EXPECT(deq(layer, r, 0, VLM_DEQALL), VLM_NORMAL);
    HOLD(dispatched(p) == 1 && own.event.wanted == VLM_NO_MODE);
    for (int i = 0; i < 3; i++)
        EXPECT(vlm_threads_rundown(layer, i == 0 ? p : i == 1 ? q : r), VLM_NORMAL);
}

static atomic_uint turns;
static atomic_bool is_over;

/* Polls as an event loop does, and counts its turns. */
static void *poll_loop(void *given) {
    struct pollfd polled = {.fd = *(int *)given, .events = POLLIN};
    uint32_t delivered;
    while (!is_over)
        if (poll(&polled, 1, 10) == 1) {
            vlm_threads_dispatch(layer, &delivered);
            atomic_fetch_add(&turns, 1);
        }
    return NULL;
}

static void sleep_for_a_while(void *context, const vlm_threads_event *event) {
    (void)event;
    nanosleep(&(struct timespec){.tv_nsec = 100000000}, NULL);
    is_over = context != NULL;
}

/* Two threads poll one descriptor. While one is in a routine, and more events are pending, the other sleeps. */
static void test_two_pollers(void) {
    uint32_t p = declared_with(0), delivered;
    vlm_threads_request request = asked(p, VLM_NL);
    int descriptor;
    EXPECT(vlm_threads_dispatch(layer, &delivered), VLM_NORMAL);
    EXPECT(vlm_threads_fd(layer, &descriptor), VLM_NORMAL);
    request.completion = sleep_for_a_while;
    pthread_t first = started(poll_loop, &descriptor), second = started(poll_loop, &descriptor);
    for (int i = 0; i < 3; i++) {
        request.completion_context = i == 2 ? &turns : NULL;
        EXPECT(start_enq(layer, &request, "P"), VLM_NORMAL);
    }
    pthread_join(first, NULL);
    pthread_join(second, NULL);
    HOLD(turns < 20);
}

/* A close calls what is left of `released`. */
static void test_close(void) {
    vlm_threads_request request = counted(declared_with(0), VLM_EX), other = counted(declared_with(1), VLM_EX);
    released_count = 0;
    EXPECT(enq(layer, &request, "A"), VLM_NORMAL);
    EXPECT(enq(layer, &other, "B"), VLM_NORMAL);
    EXPECT(vlm_threads_close(layer), VLM_NORMAL);
    HOLD(released_count == 2);
}

/* Runs a process with a queue of its own down, while the thread is to be cancelled. */
static void *run_down(void *given) {
    pthread_cancel(pthread_self());
    EXPECT(vlm_threads_rundown(layer, *(uint32_t *)given), VLM_NORMAL);
    pthread_testcancel();
    return given;
}

/* A thread that is cancelled ends after its call, and leaves the layer to others. */
static void test_cancelled(void) {
    uint32_t pid = declared_with(1);
    pthread_t thread;
    void *ended;
    pthread_create(&thread, NULL, run_down, &pid);
    pthread_join(thread, &ended);
    HOLD(ended == PTHREAD_CANCELED);
    EXPECT(vlm_threads_rundown(layer, pid), VLM_NONEXPR);
}

/* In a program without standard streams the layer takes none of their numbers: it would get what is printed. */
static void test_streams(void) {
    pid_t child = fork();
    int status;
    if (child == 0) {
        bool is_free = true;
        for (int stream = 0; stream <= STDERR_FILENO; stream++)
            close(stream);
        layer = opened(VLM_THREADS_BY_PROGRAM, 0);
        uint32_t pid = declared_with(1);
        for (int stream = 0; stream <= STDERR_FILENO; stream++)
            is_free &= fcntl(stream, F_GETFD) < 0;
        EXPECT(vlm_threads_rundown(layer, pid), VLM_NORMAL);
        vlm_threads_close(layer);
        _exit(wrong != 0 || !is_free);
    }
    HOLD(waitpid(child, &status, 0) == child && status == 0);
}

int main(void) {
    test_streams();
    pthread_barrier_init(&both, NULL, 2);
    layer = opened(VLM_THREADS_BY_PROGRAM, 0);
    test_own_queue();
    test_slow_routine();
    test_released();
    test_released_later();
    test_wanted();
    test_two_pollers();
    test_cancelled();
    expect_sums(layer);
    test_close();
    layer = opened(VLM_THREADS_BY_LAYER, 0);
    test_close();
    pthread_barrier_destroy(&both);
    printf("queues: %u wrong\n", wrong);
    return wrong != 0;
}
