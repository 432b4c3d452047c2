/* Each call of the layer for threads: its answers, and what it leaves. */
#include "threads_test.h"

static const char *const long_name = "a name of two and thirty letters";

static vlm_threads *layer;
static uint32_t p, q, r;

static vlm_threads_event last;
static unsigned told;

static void note(void *context, const vlm_threads_event *event) {
    HOLD(context == &last);
    last = *event;
    told++;
}

/* Delivers: how many events. */
static uint32_t delivered(void) {
    uint32_t count;
    EXPECT(vlm_threads_dispatch(layer, &count), VLM_NORMAL);
    return count;
}

static void test_open(void) {
    vlm_threads_options options = VLM_THREADS_OPTIONS;
    vlm_threads *none = NULL;
    options.size++;
    EXPECT(vlm_threads_open(&options, &none), VLM_BADPARAM);
    options = (vlm_threads_options){.size = sizeof options, .version = VLM_VERSION, .long_milliseconds = 1};
    EXPECT(vlm_threads_open(&options, &none), VLM_BADPARAM);
    options = (vlm_threads_options){.size = sizeof options, .version = VLM_VERSION, .delivery = 2};
    EXPECT(vlm_threads_open(&options, &none), VLM_BADPARAM);
    options = (vlm_threads_options){.size = sizeof options, .version = VLM_VERSION, .has_keys = 2};
    EXPECT(vlm_threads_open(&options, &none), VLM_BADPARAM);
    HOLD(none == NULL);
    EXPECT(vlm_threads_close(NULL), VLM_NORMAL);
    options = (vlm_threads_options){
        .size = sizeof options, .version = VLM_VERSION, .has_keys = 1, .keys = "sixteen bytes..."};
    EXPECT(vlm_threads_open(&options, &none), VLM_NORMAL);
    int descriptor;
    uint32_t count = 1;
    EXPECT(vlm_threads_fd(none, &descriptor), VLM_BADPARAM);
    HOLD(descriptor == -1);
    EXPECT(vlm_threads_dispatch(none, &count), VLM_BADPARAM);
    HOLD(count == 0);
    EXPECT(vlm_threads_close(none), VLM_NORMAL);
}

static void test_declare(void) {
    const vlm_threads_declaration right = {.size = sizeof right, .node = 1, .group = 2, .quota = 3, .requests = 2};
    vlm_threads_declaration words;
    uint32_t pid = 9;
#define WRONG(member, number)                                           \
    do {                                                                \
        words = right;                                                  \
        words.member = (number);                                        \
        EXPECT(vlm_threads_declare(layer, &words, &pid), VLM_BADPARAM); \
        HOLD(pid == 0);                                                 \
    } while (0)
    WRONG(size, 4);
    WRONG(node, 0);
    WRONG(node, 9);
    WRONG(group, 65536);
    WRONG(syslck, 2);
    WRONG(quota, 65536);
    WRONG(requests, 0);
    WRONG(requests, 256);
    WRONG(tied, 2);
    WRONG(own_queue, 2);
    WRONG(label[31], 'x');
#undef WRONG
    EXPECT(vlm_threads_declare(layer, &right, &p), VLM_NORMAL);
    EXPECT(vlm_threads_declare(layer, &right, &q), VLM_NORMAL);
    words = right;
    words.node = 2;
    EXPECT(vlm_threads_declare(layer, &words, &r), VLM_NORMAL);
    HOLD(counters_of(layer).processes == 3);
}

/* The refusals of a new request. */
static void test_refused_enq(void) {
    vlm_threads_request request;
    uint8_t value[16];
#define REFUSED(want, name, ...)                                                                        \
    do {                                                                                                \
        request = (vlm_threads_request){.size = sizeof request, .pid = p, .mode = VLM_EX, __VA_ARGS__}; \
        request.lkid = request.status = 7;                                                              \
        EXPECT(enq(layer, &request, name), want);                                                       \
        HOLD(request.lkid == 0 && request.status == 0);                                                 \
    } while (0)
    request = asked(p, VLM_EX);
    request.size++;
    EXPECT(enq(layer, &request, "A"), VLM_BADPARAM);
    request.size = offsetof(vlm_threads_request, status);
    EXPECT(enq(layer, &request, "A"), VLM_BADPARAM);
    REFUSED(VLM_BADPARAM, "A", .flags = VLM_VALBLK);
    REFUSED(VLM_BADPARAM, "A", .completion = note);
    REFUSED(VLM_BADPARAM, "A", .flags = 512);
    REFUSED(VLM_IVBUFLEN, "", .flags = 0);
    REFUSED(VLM_IVBUFLEN, long_name, .flags = 0);
    REFUSED(VLM_UNSUPPORTED, "A", .flags = VLM_EXPEDITE);
    REFUSED(VLM_IVLOCKID, "A", .lock = 77);
    REFUSED(VLM_NOSYSLCK, "A", .flags = VLM_SYSTEM, .value = value);
    request = asked(p, 6);
    EXPECT(enq(layer, &request, "A"), VLM_BADPARAM);
    request = asked(65536 + 77, VLM_EX);
    EXPECT(enq(layer, &request, "A"), VLM_NONEXPR);
    request = asked(p, VLM_EX);
    EXPECT(start_enq(layer, &request, "A"), VLM_BADPARAM);
    HOLD(counters_of(layer).locks == 0);
#undef REFUSED
}

/* The refusals of a conversion, which leave the lock as it was. */
static void test_refused_convert(void) {
    vlm_threads_request holds = asked(p, VLM_PR), other = asked(q, VLM_PR), request;
    EXPECT(enq(layer, &holds, "C"), VLM_NORMAL);
    EXPECT(enq(layer, &other, "C"), VLM_NORMAL);
#define REFUSED(want, ...)                                                                                  \
    do {                                                                                                    \
        request = (vlm_threads_request){.size = sizeof request, .pid = p, .lock = holds.lkid, __VA_ARGS__}; \
        request.lkid = request.status = 7;                                                                  \
        EXPECT(vlm_threads_convert(layer, &request), want);                                                 \
        HOLD(request.lkid == 0 && request.status == 0);                                                     \
    } while (0)
    REFUSED(VLM_BADPARAM, .completion = note);
    REFUSED(VLM_BADPARAM, .flags = VLM_VALBLK);
    REFUSED(VLM_BADPARAM, .flags = VLM_QUECVT);
    REFUSED(VLM_BADPARAM, .mode = 6);
    REFUSED(VLM_NOTQUEUED, .mode = VLM_EX, .flags = VLM_NOQUEUE);
#undef REFUSED
    request = asked(p, VLM_EX);
    request.lock = other.lkid;
    EXPECT(vlm_threads_convert(layer, &request), VLM_IVLOCKID);
    request.pid = 65536 + 77;
    EXPECT(vlm_threads_convert(layer, &request), VLM_NONEXPR);
    EXPECT(deq(layer, p, holds.lkid, 0), VLM_NORMAL);
    EXPECT(deq(layer, q, other.lkid, 0), VLM_NORMAL);
}

static void test_values(void) {
    uint8_t value[64] = {0}, read[64], written[64];
    vlm_threads_request request = asked(p, VLM_EX), other = asked(q, VLM_CR);
    request.flags = VLM_VALBLK | VLM_WIDE;
    request.value = value;
    EXPECT(enq(layer, &request, "A"), VLM_NORMAL);
    HOLD(request.lkid && request.status == VLM_NORMAL);
    memset(written, 'v', sizeof written);
    memcpy(value, written, sizeof value);
    request.lock = request.lkid;
    request.mode = VLM_CR;
    EXPECT(vlm_threads_convert(layer, &request), VLM_NORMAL);
    other.flags = VLM_VALBLK | VLM_WIDE | VLM_SYNCSTS;
    other.value = read;
    EXPECT(enq(layer, &other, "A"), VLM_SYNCH);
    HOLD(memcmp(written, read, sizeof read) == 0 && memcmp(written, value, sizeof value) == 0);
    EXPECT(deq(layer, q, other.lkid, 0), VLM_NORMAL);
    request.mode = VLM_EX;
    EXPECT(vlm_threads_convert(layer, &request), VLM_NORMAL);
    vlm_threads_dequeue dequeue = {.size = sizeof dequeue, .pid = p, .lock = request.lkid, .value = value};
    EXPECT(vlm_threads_deq(layer, &dequeue), VLM_NORMAL);
}

/* A short value leaves the tail invalid, INVVALBLK the whole value block, and a wide value mends both. */
static void test_validity(void) {
    uint8_t value[64], read[64] = {0};
    vlm_threads_request keep = asked(r, VLM_NL), request = asked(p, VLM_EX);
    vlm_threads_dequeue dequeue = {.size = sizeof dequeue, .pid = p, .value = value};
    EXPECT(enq(layer, &keep, "V"), VLM_NORMAL);
    request.flags = VLM_VALBLK | VLM_WIDE;
    request.value = read;
    memset(value, 'w', sizeof value);
    for (int round = 0; round < 3; round++) {
        static const uint32_t want[] = {VLM_NORMAL, VLM_WIDENOTVALID, VLM_VALNOTVALID};
        EXPECT(enq(layer, &request, "V"), VLM_NORMAL);
        EXPECT(request.status, want[round]);
        HOLD(round == 0 || memcmp(read, value, 16) == 0);
        dequeue.lock = request.lkid;
        dequeue.flags = round == 1 ? VLM_INVVALBLK : 0;
        dequeue.wide = round == 2;
        EXPECT(vlm_threads_deq(layer, &dequeue), VLM_NORMAL);
    }
    EXPECT(enq(layer, &request, "V"), VLM_NORMAL);
    HOLD(request.status == VLM_NORMAL && memcmp(read, value, 64) == 0);
    EXPECT(deq(layer, p, request.lkid, 0), VLM_NORMAL);
    EXPECT(deq(layer, r, keep.lkid, 0), VLM_NORMAL);
}

static void test_dequeue(void) {
    vlm_threads_request top = asked(p, VLM_CR), below = asked(p, VLM_EX);
    vlm_threads_dequeue words = {.size = sizeof words, .pid = p};
    EXPECT(enq(layer, &top, "T"), VLM_NORMAL);
    below.lock = words.lock = top.lkid;
    EXPECT(enq(layer, &below, "B"), VLM_NORMAL);
    words.size++;
    EXPECT(vlm_threads_deq(layer, &words), VLM_BADPARAM);
    words.size--;
    words.wide = 1;
    EXPECT(vlm_threads_deq(layer, &words), VLM_BADPARAM);
    words.wide = 2;
    EXPECT(vlm_threads_deq(layer, &words), VLM_BADPARAM);
    EXPECT(deq(layer, p, top.lkid, 8), VLM_BADPARAM);
    EXPECT(deq(layer, p, top.lkid, VLM_DEQALL | VLM_DEQ_CANCEL), VLM_BADPARAM);
    EXPECT(deq(layer, p, top.lkid, 0), VLM_SUBLOCKS);
    EXPECT(deq(layer, p, top.lkid, VLM_DEQ_CANCEL), VLM_CANCELGRANT);
    EXPECT(deq(layer, q, top.lkid, 0), VLM_IVLOCKID);
    EXPECT(deq(layer, 65536 + 77, top.lkid, 0), VLM_NONEXPR);
    EXPECT(deq(layer, p, top.lkid, VLM_DEQALL), VLM_NORMAL);
    HOLD(counters_of(layer).locks == 1);
    EXPECT(deq(layer, p, 0, VLM_DEQALL), VLM_NORMAL);
    HOLD(counters_of(layer).locks == 0);
}

/* A request that is queued, from the form that does not wait. */
static void test_started(void) {
    uint8_t value[16] = "0123456789abcde";
    vlm_threads_request holds = asked(p, VLM_EX), waits = asked(q, VLM_EX);
    vlm_threads_dequeue dequeue = {.size = sizeof dequeue, .pid = p, .value = value};
    EXPECT(enq(layer, &holds, "S"), VLM_NORMAL);
    waits.completion = note;
    waits.completion_context = &last;
    waits.flags = VLM_VALBLK;
    waits.value = value;
    EXPECT(start_enq(layer, &waits, "S"), VLM_NORMAL);
    HOLD(waits.lkid && waits.status == 0 && counters_of(layer).waiting == 1);
    waits.lock = waits.lkid;
    EXPECT(vlm_threads_start_convert(layer, &waits), VLM_CVTUNGRANT);
    waits.lock = 0;
    waits.flags |= VLM_NOQUEUE;
    EXPECT(start_enq(layer, &waits, "S"), VLM_NOTQUEUED);
    waits.flags = VLM_VALBLK;
    HOLD(delivered() == 0);
    dequeue.lock = holds.lkid;
    EXPECT(vlm_threads_deq(layer, &dequeue), VLM_NORMAL);
    HOLD(delivered() == 1 && last.kind == VLM_COMPLETION && last.pid == q && last.status == VLM_NORMAL);
    HOLD(last.value_len == 16 && memcmp(last.value, value, 16) == 0);
    EXPECT(deq(layer, q, last.lkid, 0), VLM_NORMAL);
    waits.flags = VLM_SYNCSTS;
    EXPECT(start_enq(layer, &waits, "S"), VLM_SYNCH);
    waits.flags = 0;
    waits.lock = waits.lkid;
    waits.mode = VLM_PR;
    EXPECT(vlm_threads_start_convert(layer, &waits), VLM_NORMAL);
    HOLD(waits.status == VLM_NORMAL && delivered() == 1 && last.lkid == waits.lkid && last.value_len == 0);
    waits.flags = VLM_QUECVT;
    EXPECT(vlm_threads_start_convert(layer, &waits), VLM_BADPARAM);
    EXPECT(deq(layer, q, waits.lock, 0), VLM_NORMAL);
}

/* The ends of a request that waits: by its time, by a cancel, by a dequeue. */
static void test_ends(void) {
    vlm_threads_request holds = asked(p, VLM_PR), other = asked(q, VLM_PR), waits = asked(r, VLM_EX);
    EXPECT(enq(layer, &holds, "E"), VLM_NORMAL);
    EXPECT(enq(layer, &other, "E"), VLM_NORMAL);
    waits.milliseconds = 1;
    EXPECT(enq(layer, &waits, "E"), VLM_TIMEOUT);
    HOLD(waits.lkid == 0 && waits.status == VLM_TIMEOUT);
    holds.lock = holds.lkid;
    holds.mode = VLM_EX;
    holds.milliseconds = 1;
    EXPECT(vlm_threads_convert(layer, &holds), VLM_TIMEOUT);
    HOLD(holds.lkid == holds.lock);
    holds.completion = waits.completion = note;
    holds.completion_context = waits.completion_context = &last;
    EXPECT(vlm_threads_start_convert(layer, &holds), VLM_NORMAL);
    EXPECT(deq(layer, p, holds.lkid, VLM_DEQ_CANCEL), VLM_NORMAL);
    HOLD(delivered() == 1 && last.status == VLM_CANCEL);
    EXPECT(vlm_threads_start_convert(layer, &holds), VLM_NORMAL);
    EXPECT(deq(layer, p, holds.lkid, 0), VLM_NORMAL);
    HOLD(delivered() == 1 && last.status == VLM_ABORT && counters_of(layer).locks == 1);
    EXPECT(start_enq(layer, &waits, "E"), VLM_NORMAL);
    EXPECT(start_enq(layer, &waits, "E"), VLM_NORMAL);
    EXPECT(start_enq(layer, &waits, "F"), VLM_EXENQLM);
    EXPECT(deq(layer, r, waits.lkid, VLM_DEQ_CANCEL), VLM_IVLOCKID);
    EXPECT(deq(layer, r, 0, VLM_DEQALL), VLM_NORMAL);
    HOLD(delivered() == 2 && last.status == VLM_ABORT);
    EXPECT(deq(layer, q, other.lkid, 0), VLM_NORMAL);
}

static void test_quota_and_parents(void) {
    vlm_threads_request request = asked(p, VLM_EX), holds = asked(q, VLM_EX);
    for (uint32_t name = 0; name < 3; name++)
        EXPECT(enq(layer, &request, (char[]){(char)('a' + name), 0}), VLM_NORMAL);
    EXPECT(enq(layer, &request, "d"), VLM_EXENQLM);
    EXPECT(deq(layer, p, 0, VLM_DEQALL), VLM_NORMAL);
    EXPECT(enq(layer, &holds, "d"), VLM_NORMAL);
    request.completion = note;
    request.completion_context = &last;
    EXPECT(start_enq(layer, &request, "d"), VLM_NORMAL);
    request.lock = request.lkid;
    EXPECT(start_enq(layer, &request, "e"), VLM_PARNOTGRANT);
    EXPECT(deq(layer, q, holds.lkid, 0), VLM_NORMAL);
    HOLD(delivered() == 1);
    EXPECT(deq(layer, p, 0, VLM_DEQALL), VLM_NORMAL);
}

static uint32_t deep_process(void) {
    vlm_threads_declaration words = {.size = sizeof words, .node = 3, .quota = 99, .requests = 1};
    uint32_t pid;
    EXPECT(vlm_threads_declare(layer, &words, &pid), VLM_NORMAL);
    return pid;
}

static void test_depth(void) {
    uint32_t pid = deep_process();
    vlm_threads_request request = asked(pid, VLM_EX);
    for (int level = 0; level <= 15; level++) {
        EXPECT(enq(layer, &request, "deep"), VLM_NORMAL);
        request.lock = request.lkid;
    }
    EXPECT(enq(layer, &request, "deep"), VLM_EXDEPTH);
    HOLD(counters_of(layer).locks == 16);
    EXPECT(vlm_threads_rundown(layer, pid), VLM_NORMAL);
    HOLD(counters_of(layer).locks == 0);
}

static void test_deadlock(void) {
    vlm_threads_request first = asked(p, VLM_PR), second = asked(q, VLM_PR);
    uint32_t victims = 9;
    EXPECT(vlm_threads_search(layer, &victims), VLM_NORMAL);
    HOLD(victims == 0);
    EXPECT(enq(layer, &first, "D"), VLM_NORMAL);
    EXPECT(enq(layer, &second, "D"), VLM_NORMAL);
    first.completion = second.completion = note;
    first.completion_context = second.completion_context = &last;
    first.mode = second.mode = VLM_EX;
    first.lock = first.lkid;
    second.lock = second.lkid;
    EXPECT(vlm_threads_start_convert(layer, &first), VLM_NORMAL);
    EXPECT(vlm_threads_start_convert(layer, &second), VLM_NORMAL);
    EXPECT(vlm_threads_search(layer, &victims), VLM_NORMAL);
    HOLD(victims == 1 && delivered() == 1 && last.status == VLM_DEADLOCK && last.lkid == second.lkid);
    EXPECT(deq(layer, q, second.lkid, 0), VLM_NORMAL);
    HOLD(delivered() == 1 && last.status == VLM_NORMAL && last.lkid == first.lkid);
    EXPECT(deq(layer, p, first.lkid, 0), VLM_NORMAL);
}

/* A node declares 65,535 processes, living or not. */
static void test_last_process(void) {
    vlm_threads_declaration words = {.size = sizeof words, .node = 8, .requests = 1};
    uint32_t pid;
    if (getenv("VLM_TEST_SHARE"))
        return;
    for (uint32_t number = 1; number <= 65535; number++) {
        EXPECT(vlm_threads_declare(layer, &words, &pid), VLM_NORMAL);
        EXPECT(vlm_threads_rundown(layer, pid), VLM_NORMAL);
    }
    EXPECT(vlm_threads_declare(layer, &words, &pid), VLM_BADPARAM);
    HOLD(pid == 0);
}

static void look(void *context, vlm *handle) { *(size_t *)context = vlm_process_count(handle); }

static void test_readings(void) {
    size_t processes = 0;
    vlm_threads_counters counters = {.size = 1};
    EXPECT(vlm_threads_look(layer, look, &processes), VLM_NORMAL);
    HOLD(processes == 3);
    EXPECT(vlm_threads_read_counters(layer, &counters), VLM_BADPARAM);
    EXPECT(vlm_threads_print(&counters, stdout), VLM_BADPARAM);
    EXPECT(vlm_threads_print_prometheus(&counters, stdout), VLM_BADPARAM);
    EXPECT(vlm_threads_settle(layer), VLM_NORMAL);
    HOLD(strcmp(vlm_condition_name(VLM_TIMEOUT), "TIMEOUT") == 0);
    HOLD(strcmp(vlm_condition_name(VLM_DEADLOCK), "SS$_DEADLOCK") == 0);
    HOLD(vlm_condition_name(99) == NULL);
}

static void test_departure(void) {
    vlm_threads_declaration words = {.size = sizeof words, .node = 2, .requests = 1};
    vlm_threads_request request = asked(r, VLM_EX);
    uint32_t pid, victims;
    EXPECT(vlm_threads_rundown(layer, 65536 + 77), VLM_NONEXPR);
    EXPECT(vlm_threads_leave(layer, 0), VLM_BADPARAM);
    EXPECT(vlm_threads_leave(layer, 9), VLM_BADPARAM);
    EXPECT(enq(layer, &request, "L"), VLM_NORMAL);
    EXPECT(vlm_threads_leave(layer, 2), VLM_NORMAL);
    EXPECT(vlm_threads_leave(layer, 2), VLM_DEPARTED);
    EXPECT(vlm_threads_declare(layer, &words, &pid), VLM_DEPARTED);
    EXPECT(enq(layer, &request, "L"), VLM_DEPARTED);
    EXPECT(vlm_threads_rundown(layer, r), VLM_DEPARTED);
    request.pid = p;
    request.completion = note;
    EXPECT(start_enq(layer, &request, "L"), VLM_NORMAL);
    EXPECT(vlm_threads_stop(layer), VLM_NORMAL);
    HOLD(delivered() == 0);
    EXPECT(vlm_threads_search(layer, &victims), VLM_DEPARTED);
    EXPECT(deq(layer, p, 0, VLM_DEQALL), VLM_DEPARTED);
    HOLD(counters_of(layer).processes == 0 && counters_of(layer).locks == 0);
    EXPECT(vlm_threads_stop(layer), VLM_NORMAL);
}

int main(void) {
    test_open();
    layer = opened(VLM_THREADS_BY_PROGRAM, 0);
    test_declare();
    test_refused_enq();
    test_refused_convert();
    test_values();
    test_validity();
    test_dequeue();
    test_started();
    test_ends();
    test_quota_and_parents();
    test_depth();
    test_deadlock();
    test_last_process();
    test_readings();
    expect_sums(layer);
    vlm_threads_counters counters = counters_of(layer);
    counters.microseconds = 0; /* (times vary) */
    memset(counters.times, 0, sizeof counters.times);
    EXPECT(vlm_threads_print(&counters, stdout), VLM_NORMAL);
    test_departure();
    EXPECT(vlm_threads_close(layer), VLM_NORMAL);
    printf("%u wrong\n", wrong);
    return wrong != 0;
}
