/* Routines of the layer for threads: their events, the order of events, and what a routine may do. */
#include "threads_test.h"

#include <poll.h>
#include <signal.h>
#include <sys/epoll.h>
#include <unistd.h>

static vlm_threads *layer;

/* The events that came: 'c' or 'b' with the number of a lock. */
static char told[64];
static size_t told_len;

static void note(void *context, const vlm_threads_event *event) {
    (void)context;
    told[told_len++] = event->kind == VLM_COMPLETION ? 'c' : 'b';
    told[told_len++] = (char)('0' + event->lkid);
    told[told_len] = 0;
}

static uint32_t delivered(void) {
    uint32_t count;
    EXPECT(vlm_threads_dispatch(layer, &count), VLM_NORMAL);
    return count;
}

static bool is_readable(void) {
    struct pollfd polled = {.events = POLLIN};
    EXPECT(vlm_threads_fd(layer, &polled.fd), VLM_NORMAL);
    return poll(&polled, 1, 0) == 1;
}

static vlm_threads_request started_request(uint32_t pid, uint32_t mode) {
    vlm_threads_request request = asked(pid, mode);
    request.completion = note;
    request.blocking = note;
    return request;
}

/* The completion of a grant comes before the warning of the same grant, in one step. */
static void test_order(void) {
    uint32_t p = declared(layer, 1), q = declared(layer, 1), r = declared(layer, 1);
    vlm_threads_request first = started_request(p, VLM_EX), second = started_request(q, VLM_EX);
    vlm_threads_request third = started_request(r, VLM_EX);
    HOLD(!is_readable());
    EXPECT(start_enq(layer, &first, "A"), VLM_NORMAL);
    HOLD(is_readable());
    EXPECT(start_enq(layer, &second, "A"), VLM_NORMAL);
    EXPECT(start_enq(layer, &third, "A"), VLM_NORMAL);
    HOLD(delivered() == 2 && !is_readable() && strcmp(told, "c1b1") == 0);
    EXPECT(deq(layer, p, first.lkid, 0), VLM_NORMAL);
    HOLD(delivered() == 2 && strcmp(told, "c1b1c2b2") == 0);
    EXPECT(deq(layer, q, second.lkid, 0), VLM_NORMAL);
    HOLD(delivered() == 1 && strcmp(told, "c1b1c2b2c3") == 0);
    EXPECT(deq(layer, r, third.lkid, 0), VLM_NORMAL);
    HOLD(delivered() == 0);
}

/* A warning is dropped if its grant is over, and a completion if its process has ended. */
static void test_dropped(void) {
    uint32_t p = declared(layer, 1), q = declared(layer, 1);
    vlm_threads_request holds = started_request(p, VLM_EX), waits = started_request(q, VLM_PR);
    uint64_t dropped = counters_of(layer).dropped;
    told_len = 0;
    EXPECT(start_enq(layer, &holds, "A"), VLM_NORMAL);
    EXPECT(start_enq(layer, &waits, "A"), VLM_NORMAL);
    EXPECT(deq(layer, p, holds.lkid, 0), VLM_NORMAL);
    HOLD(is_readable() && delivered() == 2 && strcmp(told, "c4c5") == 0);
    HOLD(counters_of(layer).dropped == dropped + 1);
    EXPECT(start_enq(layer, &holds, "B"), VLM_NORMAL);
    EXPECT(vlm_threads_rundown(layer, p), VLM_NORMAL);
    HOLD(!is_readable() && delivered() == 0 && counters_of(layer).dropped == dropped + 2);
    EXPECT(vlm_threads_rundown(layer, q), VLM_NORMAL);
}

static void count(void *context, const vlm_threads_event *event) {
    HOLD(event->kind == VLM_BLOCKING && event->status == 0 && event->value_len == 0);
    ++*(unsigned *)context;
}

/* A lock is warned once for each grant, however many wait. The routine of the old grant is called until a conversion is
 * granted, then that of the conversion. A conversion to NL is not warned. */
static void test_warned_once(void) {
    uint32_t p = declared(layer, 1), q = declared(layer, 1);
    unsigned first = 0, second = 0;
    vlm_threads_request holds = asked(p, VLM_PR), other = asked(q, VLM_PR), waits = started_request(q, VLM_EX);
    holds.blocking = count;
    holds.blocking_context = &first;
    EXPECT(enq(layer, &holds, "A"), VLM_NORMAL);
    EXPECT(enq(layer, &other, "A"), VLM_NORMAL);
    holds.lock = holds.lkid;
    holds.mode = VLM_EX;
    holds.completion = note;
    holds.blocking_context = &second;
    EXPECT(vlm_threads_start_convert(layer, &holds), VLM_NORMAL);
    EXPECT(deq(layer, p, holds.lock, VLM_DEQ_CANCEL), VLM_NORMAL);
    for (int i = 0; i < 3; i++)
        EXPECT(start_enq(layer, &waits, "A"), VLM_NORMAL);
    HOLD(delivered() == 2 && first == 1 && second == 0);
    EXPECT(deq(layer, q, other.lkid, 0), VLM_NORMAL);
    EXPECT(vlm_threads_start_convert(layer, &holds), VLM_NORMAL);
    HOLD(delivered() == 2 && first == 1 && second == 1);
    holds.mode = VLM_NL;
    EXPECT(vlm_threads_start_convert(layer, &holds), VLM_NORMAL);
    HOLD(delivered() == 3 && first == 1 && second == 1);
    EXPECT(vlm_threads_rundown(layer, q), VLM_NORMAL);
    EXPECT(vlm_threads_rundown(layer, p), VLM_NORMAL);
}

static vlm_threads_event last;

static void keep(void *context, const vlm_threads_event *event) {
    (void)context;
    last = *event;
}

/* The value in a completion: what a new lock reads, and what a conversion returns, writes or was given. */
static void test_values(void) {
    uint8_t value[64] = "as it was", zeros[64] = {0};
    vlm_threads_request request = asked(declared(layer, 1), VLM_EX);
    request.completion = keep;
    request.flags = VLM_VALBLK;
    request.value = value;
    EXPECT(start_enq(layer, &request, "V"), VLM_NORMAL);
    HOLD(delivered() == 1 && last.value_len == 16 && memcmp(last.value, zeros, 64) == 0);
    request.lock = request.lkid;
    request.flags = VLM_VALBLK | VLM_WIDE;
    request.mode = VLM_PR;
    EXPECT(vlm_threads_start_convert(layer, &request), VLM_NORMAL);
    HOLD(delivered() == 1 && last.value_len == 64 && memcmp(last.value, value, 64) == 0);
    memset(value, 'x', sizeof value);
    request.mode = VLM_CR;
    EXPECT(vlm_threads_start_convert(layer, &request), VLM_NORMAL);
    HOLD(delivered() == 1 && last.value_len == 64 && memcmp(last.value, value, 64) == 0);
    request.mode = VLM_PR;
    EXPECT(vlm_threads_start_convert(layer, &request), VLM_NORMAL);
    HOLD(delivered() == 1 && last.value_len == 64 && strcmp((char *)last.value, "as it was") == 0);
    EXPECT(vlm_threads_rundown(layer, request.pid), VLM_NORMAL);
}

struct chain {
    uint32_t pid;
    unsigned left;
};

/* A routine that calls the layer again: it gives its lock up, asks for the next, and can neither dispatch nor close. */
static void go_on(void *context, const vlm_threads_event *event) {
    struct chain *chain = context;
    EXPECT(event->status, VLM_NORMAL);
    EXPECT(vlm_threads_close(layer), VLM_BADPARAM);
    EXPECT(vlm_threads_settle(layer), VLM_BADPARAM);
    EXPECT(deq(layer, chain->pid, event->lkid, 0), VLM_NORMAL);
    if (--chain->left == 0)
        return;
    vlm_threads_request request = asked(chain->pid, VLM_EX);
    request.completion = go_on;
    request.completion_context = chain;
    EXPECT(start_enq(layer, &request, "chain"), VLM_NORMAL);
    HOLD(!is_readable() && delivered() == 0);
}

/* A dispatch delivers what was pending when it began, and leaves what its routines add. */
static void test_again(void) {
    struct chain chain = {.pid = declared(layer, 1), .left = 5};
    vlm_threads_request request = asked(chain.pid, VLM_EX);
    request.completion = go_on;
    request.completion_context = &chain;
    EXPECT(start_enq(layer, &request, "chain"), VLM_NORMAL);
    for (unsigned left = 5; left; left--)
        HOLD(chain.left == left && is_readable() && delivered() == 1);
    HOLD(chain.left == 0 && delivered() == 0);
}

/* An epoll with EPOLLET also reports the events that come during a dispatch. */
static void test_edges(void) {
    struct chain chain = {.pid = declared(layer, 1), .left = 5};
    struct epoll_event wanted = {.events = EPOLLIN | EPOLLET}, ready;
    vlm_threads_request request = asked(chain.pid, VLM_EX);
    int poller = epoll_create1(0), descriptor;
    request.completion = go_on;
    request.completion_context = &chain;
    EXPECT(vlm_threads_fd(layer, &descriptor), VLM_NORMAL);
    HOLD(epoll_ctl(poller, EPOLL_CTL_ADD, descriptor, &wanted) == 0);
    EXPECT(start_enq(layer, &request, "chain"), VLM_NORMAL);
    while (chain.left && epoll_wait(poller, &ready, 1, 1000) == 1)
        HOLD(delivered() == 1);
    HOLD(chain.left == 0 && close(poller) == 0);
}

/* Drops the second event, which was pending, and starts another request. */
static void replace_second(void *context, const vlm_threads_event *event) {
    vlm_threads_request request = started_request(event->pid, VLM_NL);
    EXPECT(vlm_threads_rundown(layer, *(uint32_t *)context), VLM_NORMAL);
    EXPECT(start_enq(layer, &request, "R"), VLM_NORMAL);
}

/* A dispatch delivers no event that came during it, not even in the place of one that was dropped. */
static void test_replaced(void) {
    uint32_t first = declared(layer, 1), second = declared(layer, 1);
    vlm_threads_request request = asked(first, VLM_NL), other = started_request(second, VLM_NL);
    request.completion = replace_second;
    request.completion_context = &second;
    EXPECT(start_enq(layer, &request, "R"), VLM_NORMAL);
    EXPECT(start_enq(layer, &other, "R"), VLM_NORMAL);
    HOLD(delivered() == 1 && is_readable() && delivered() == 1 && !is_readable());
    EXPECT(vlm_threads_rundown(layer, first), VLM_NORMAL);
}

/* What a routine that waits needs. */
struct patient {
    uint32_t pid;
    uint32_t status, later;
};

static void wait_in_routine(void *context, const vlm_threads_event *event) {
    struct patient *patient = context;
    vlm_threads_request request = asked(patient->pid, VLM_EX);
    sigset_t blocked;
    (void)event;
    pthread_sigmask(SIG_SETMASK, NULL, &blocked);
    HOLD(sigismember(&blocked, SIGINT) == 1 && sigismember(&blocked, SIGTERM) == 1);
    patient->status = enq(layer, &request, "W");
    request.milliseconds = 1;
    patient->later = enq(layer, &request, "X");
}

/* A routine may wait: the thread that makes the granting step wakes it. The layer's thread runs it here, and no signal
 * is delivered to that thread. */
static void test_wait_in_routine(void) {
    uint32_t pid = declared(layer, 1);
    struct patient patient = {.pid = declared(layer, 1)};
    vlm_threads_request request = asked(pid, VLM_EX), other = asked(pid, VLM_EX), start = asked(pid, VLM_NL);
    EXPECT(enq(layer, &request, "W"), VLM_NORMAL);
    EXPECT(enq(layer, &other, "X"), VLM_NORMAL);
    start.completion = wait_in_routine;
    start.completion_context = &patient;
    EXPECT(start_enq(layer, &start, "Y"), VLM_NORMAL);
    await_waiting(layer, 1);
    EXPECT(deq(layer, pid, request.lkid, 0), VLM_NORMAL);
    EXPECT(vlm_threads_settle(layer), VLM_NORMAL);
    EXPECT(patient.status, VLM_NORMAL);
    EXPECT(patient.later, VLM_TIMEOUT);
}

static void count_slowly(void *context, const vlm_threads_event *event) {
    (void)event;
    nanosleep(&(struct timespec){.tv_nsec = 1000}, NULL);
    ++*(unsigned *)context;
}

/* After a rundown and a settle no routine of the process runs, so its context can go. */
static void test_settle(void) {
    for (long round = rounds(1000); round; round--) {
        unsigned *counted = calloc(1, sizeof *counted);
        uint32_t pid = declared(layer, 1);
        vlm_threads_request request = asked(pid, VLM_NL);
        request.completion = count_slowly;
        request.completion_context = counted;
        for (int i = 0; i < 3; i++)
            EXPECT(start_enq(layer, &request, "S"), VLM_NORMAL);
        EXPECT(vlm_threads_rundown(layer, pid), VLM_NORMAL);
        EXPECT(vlm_threads_settle(layer), VLM_NORMAL);
        HOLD(*counted <= 3);
        free(counted);
    }
}

/* After a dequeue and a settle the blocking routine of the lock does not run, so its context can go. */
static void test_settle_lock(void) {
    vlm_threads_request holds = asked(declared(layer, 1), VLM_EX), waits = asked(declared(layer, 1), VLM_EX);
    holds.blocking = count_slowly;
    waits.completion = count_slowly;
    waits.completion_context = &(unsigned){0};
    for (long round = rounds(1000); round; round--) {
        unsigned *counted = holds.blocking_context = calloc(1, sizeof *counted);
        EXPECT(enq(layer, &holds, "S"), VLM_NORMAL);
        EXPECT(start_enq(layer, &waits, "S"), VLM_NORMAL);
        EXPECT(deq(layer, holds.pid, holds.lkid, 0), VLM_NORMAL);
        EXPECT(vlm_threads_settle(layer), VLM_NORMAL);
        HOLD(*counted <= 1);
        free(counted);
        EXPECT(deq(layer, waits.pid, waits.lkid, 0), VLM_NORMAL);
    }
    EXPECT(vlm_threads_rundown(layer, waits.pid), VLM_NORMAL);
    EXPECT(vlm_threads_settle(layer), VLM_NORMAL);
}

/* The watchdog finds a victim: of two that wait for each other the later one. */
static void *wait_for_other(void *given) {
    vlm_threads_request *request = given;
    HOLD(vlm_threads_convert(layer, request) == request->status);
    return NULL;
}

static void test_watchdog(void) {
    vlm_threads_request first = asked(declared(layer, 1), VLM_PR), second = asked(declared(layer, 1), VLM_PR);
    EXPECT(enq(layer, &first, "D"), VLM_NORMAL);
    EXPECT(enq(layer, &second, "D"), VLM_NORMAL);
    first.lock = first.lkid;
    second.lock = second.lkid;
    first.mode = second.mode = VLM_EX;
    pthread_t thread = started(wait_for_other, &first);
    await_waiting(layer, 1);
    EXPECT(vlm_threads_convert(layer, &second), VLM_DEADLOCK);
    HOLD(second.lkid == second.lock && second.status == VLM_DEADLOCK);
    EXPECT(deq(layer, second.pid, second.lkid, 0), VLM_NORMAL);
    pthread_join(thread, NULL);
    EXPECT(first.status, VLM_NORMAL);
    HOLD(counters_of(layer).victims == 1);
}

int main(void) {
    layer = opened(VLM_THREADS_BY_PROGRAM, 0);
    test_order();
    test_dropped();
    test_warned_once();
    test_values();
    test_again();
    test_edges();
    test_replaced();
    expect_sums(layer);
    EXPECT(vlm_threads_close(layer), VLM_NORMAL);
    layer = opened(VLM_THREADS_BY_LAYER, 50);
    test_wait_in_routine();
    test_settle();
    test_settle_lock();
    test_watchdog();
    expect_sums(layer);
    EXPECT(vlm_threads_close(layer), VLM_NORMAL);
    printf("routines: %u wrong\n", wrong);
    return wrong != 0;
}
