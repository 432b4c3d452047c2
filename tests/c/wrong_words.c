/* Each call with each kind of wrong argument, on a closed handle and on an open one: each answer is as expected,
 * nothing is written where nothing is to be, and the locks stay as they are. */
#include "core_test.h"

static const uint8_t name[] = {'A'};
static const uint8_t long_name[200] = {1};

/* What each call is given: right words, with the process and the lock if they are there. */
static vlm_options options;
static vlm_declaration declaration;
static vlm_setting setting;
static vlm_request request, conversion;
static vlm_dequeue dequeue;
static uint32_t p, p_lock, q;

static void set_words(void) {
    options = (vlm_options){.size = sizeof options, .version = VLM_VERSION, .has_keys = 1, .keys = {1, 2, 3}};
    declaration = (vlm_declaration){.size = sizeof declaration, .node = 1, .group = 1, .quota = 1, .blocks = 2};
    setting = (vlm_setting){.size = sizeof setting, .pid = p, .block = 1};
    request = (vlm_request){.size = sizeof request, .pid = q, .mode = VLM_EX, .block = 1};
    conversion = (vlm_request){.size = sizeof conversion, .pid = p, .mode = VLM_NL, .block = 1, .lock = p_lock};
    dequeue = (vlm_dequeue){.size = sizeof dequeue, .pid = p, .lock = p_lock};
}

/* One call with one member changed, then the right words again. */
#define WITH(words, member, number, call, want) \
    do {                                        \
        (words).member = (number);              \
        EXPECT(call, want);                     \
        set_words();                            \
    } while (0)

static uint32_t number;
#define OPEN vlm_open(handle, &options)
#define DECLARE vlm_declare(handle, &declaration, &number)
#define SET vlm_set_value(handle, &setting)
#define ENQ vlm_enq(handle, &request, name, sizeof name, &number)
#define CONVERT vlm_convert(handle, &conversion, &number)
#define DEQ vlm_deq(handle, &dequeue)

/* Structs of another size, and reserved words that are not 0: BADPARAM on each handle. */
static void wrong_structs(vlm *handle) {
    static const uint32_t sizes[] = {0, 4, 31, 64, 97, 129, UINT32_MAX};
    for (size_t i = 0; i < sizeof sizes / sizeof *sizes; i++) {
        WITH(declaration, size, sizes[i], DECLARE, VLM_BADPARAM);
        WITH(setting, size, sizes[i], SET, VLM_BADPARAM);
        WITH(request, size, sizes[i], ENQ, VLM_BADPARAM);
        WITH(conversion, size, sizes[i], CONVERT, VLM_BADPARAM);
        WITH(dequeue, size, sizes[i], DEQ, VLM_BADPARAM);
    }
    for (size_t i = 0; i < 2; i++)
        WITH(declaration, reserved[i], 1, DECLARE, VLM_BADPARAM);
    for (size_t i = 0; i < 4; i++)
        WITH(setting, reserved[i], 1, SET, VLM_BADPARAM);
    for (size_t i = 0; i < 20; i++)
        WITH(request, reserved[i], 1, ENQ, VLM_BADPARAM);
    for (size_t i = 0; i < 20; i++)
        WITH(conversion, reserved[i], 1, CONVERT, VLM_BADPARAM);
    for (size_t i = 0; i < 9; i++)
        WITH(dequeue, reserved[i], 1, DEQ, VLM_BADPARAM);
    WITH(options, size, 63, OPEN, VLM_BADPARAM);
    WITH(options, size, 65, OPEN, VLM_BADPARAM);
    for (size_t i = 0; i < 9; i++)
        WITH(options, reserved[i], 1, OPEN, VLM_BADPARAM);
}

/* Declarations, settings and options with a number out of range: BADPARAM on each handle. */
static void wrong_numbers(vlm *handle) {
    WITH(declaration, node, 257, DECLARE, VLM_BADPARAM);
    WITH(declaration, group, 65537, DECLARE, VLM_BADPARAM);
    WITH(declaration, syslck, 2, DECLARE, VLM_BADPARAM);
    WITH(declaration, quota, 65537, DECLARE, VLM_BADPARAM);
    WITH(declaration, blocks, 257, DECLARE, VLM_BADPARAM);
    WITH(setting, block, 257, SET, VLM_BADPARAM);
    WITH(setting, has_tail, 2, SET, VLM_BADPARAM);
    WITH(options, version, 0, OPEN, VLM_BADPARAM);
    WITH(options, has_keys, 2, OPEN, VLM_BADPARAM);
    WITH(options, version, VLM_VERSION + 0x100, OPEN, VLM_BADPARAM);
    WITH(options, version, VLM_VERSION - 0x100, OPEN, VLM_BADPARAM);
    EXPECT(vlm_leave(handle, 257), VLM_BADPARAM);
    EXPECT(vlm_search(handle, 257, &number), VLM_BADPARAM);
    HOLD(number == 0);
}

/* Requests and dequeues with a number out of range: BADPARAM on each handle. */
static void wrong_requests(vlm *handle) {
    static const uint32_t modes[] = {6, 255, 256, UINT32_MAX};
    for (size_t i = 0; i < sizeof modes / sizeof *modes; i++) {
        WITH(request, mode, modes[i], ENQ, VLM_BADPARAM);
        WITH(conversion, mode, modes[i], CONVERT, VLM_BADPARAM);
    }
    WITH(request, flags, 0x10000, ENQ, VLM_BADPARAM);
    WITH(request, block, 257, ENQ, VLM_BADPARAM);
    WITH(request, lock_kind, 2, ENQ, VLM_BADPARAM);
    request.lock_kind = VLM_BY_BLOCK;
    WITH(request, lock, 256, ENQ, VLM_BADPARAM);
    WITH(request, has_ast, 2, ENQ, VLM_BADPARAM);
    WITH(request, has_bast, 2, ENQ, VLM_BADPARAM);
    WITH(conversion, flags, 0x10000, CONVERT, VLM_BADPARAM);
    WITH(conversion, block, 257, CONVERT, VLM_BADPARAM);
    WITH(conversion, lock_kind, 2, CONVERT, VLM_BADPARAM);
    WITH(conversion, has_ast, 2, CONVERT, VLM_BADPARAM);
    WITH(conversion, has_bast, 2, CONVERT, VLM_BADPARAM);
    WITH(dequeue, flags, 0x10000, DEQ, VLM_BADPARAM);
    WITH(dequeue, lock_kind, 2, DEQ, VLM_BADPARAM);
    dequeue.lock_kind = VLM_BY_BLOCK;
    WITH(dequeue, lock, 256, DEQ, VLM_BADPARAM);
    WITH(dequeue, has_value, 2, DEQ, VLM_BADPARAM);
    WITH(dequeue, has_tail, 2, DEQ, VLM_BADPARAM);
}

/* Words that name no step. */
static void wrong_words(vlm *handle) {
    wrong_structs(handle);
    wrong_numbers(handle);
    wrong_requests(handle);
}

/* What calls write, all of it in one place so that it is compared at once. */
struct written {
    vlm_lksb lksb;
    vlm_ast ast;
    vlm_process process;
    vlm_resource resource;
    vlm_lock lock;
};

/* Calls that read into structs of the wrong size, or, where these are right, read what is not there. */
static void wrong_reading(vlm *handle, struct written *to, bool is_sized) {
    uint32_t own = is_sized ? 12345 : p_lock;
    EXPECT(vlm_block(handle, p, is_sized ? 3 : 1, &to->lksb), VLM_BADPARAM);
    EXPECT(vlm_block(handle, is_sized ? 12345 : p, 1, &to->lksb), VLM_BADPARAM);
    EXPECT(vlm_block(handle, p, 257, &to->lksb), VLM_BADPARAM);
    EXPECT(vlm_next_process(handle, is_sized ? 12345 : 0, &to->process), VLM_BADPARAM);
    EXPECT(vlm_next_resource(handle, &to->resource), VLM_BADPARAM);
    EXPECT(vlm_find(handle, &to->resource), VLM_BADPARAM);
    EXPECT(vlm_find_lock(handle, own, &to->lock), VLM_BADPARAM);
    EXPECT(vlm_lock_resource(handle, own, &to->resource), VLM_BADPARAM);
    EXPECT(vlm_first_row(handle, &to->resource, VLM_GRANTED, &to->lock), VLM_BADPARAM);
    EXPECT(vlm_next_row(handle, own, &to->lock), VLM_BADPARAM);
    EXPECT(vlm_first_own(handle, is_sized ? 12345 : p, &to->lock), VLM_BADPARAM);
    EXPECT(vlm_next_own(handle, own, &to->lock), VLM_BADPARAM);
    EXPECT(vlm_first_sublock(handle, own, &to->lock), VLM_BADPARAM);
    EXPECT(vlm_next_sublock(handle, own, &to->lock), VLM_BADPARAM);
    EXPECT(vlm_first_blocker(handle, own, &to->lock), VLM_BADPARAM);
    EXPECT(vlm_next_blocker(handle, own, p_lock, &to->lock), VLM_BADPARAM);
    EXPECT(vlm_first_blocked(handle, own, &to->lock), VLM_BADPARAM);
    EXPECT(vlm_next_blocked(handle, own, p_lock, &to->lock), VLM_BADPARAM);
    EXPECT(vlm_take(handle, p, &to->ast), VLM_BADPARAM);
    EXPECT(vlm_take_any(handle, &number, &to->ast), VLM_BADPARAM);
    HOLD(number == 0);
}

/* Structs to be written of another size, and what is not there: BADPARAM on each handle, and nothing is written. */
static void wrong_readings(vlm *handle) {
    struct written to, before;
    size_t count = 99;
    memset(&to, 0xA5, sizeof to);
    memset(&before, 0xA5, sizeof before);
    wrong_reading(handle, &to, false);
    HOLD(memcmp(&to, &before, sizeof to) == 0);
    before.lksb.size = to.lksb.size = sizeof to.lksb;
    before.process.size = to.process.size = sizeof to.process;
    before.resource.size = to.resource.size = sizeof to.resource;
    before.lock.size = to.lock.size = sizeof to.lock;
    wrong_reading(handle, &to, true);
    HOLD(memcmp(&to, &before, sizeof to) == 0);
    EXPECT(vlm_pending(handle, 12345, &count), VLM_BADPARAM);
    HOLD(count == 99);
}

/* Right words of readings, where the handle has no lock manager. */
static void closed_readings(vlm *handle) {
    vlm_process process = {.size = sizeof process};
    vlm_resource resource = {.size = sizeof resource};
    vlm_lock lock = {.size = sizeof lock};
    EXPECT(vlm_next_process(handle, 0, &process), VLM_BADPARAM);
    EXPECT(vlm_next_resource(handle, &resource), VLM_BADPARAM);
    EXPECT(vlm_find(handle, &resource), VLM_BADPARAM);
    EXPECT(vlm_find_lock(handle, 1, &lock), VLM_BADPARAM);
    EXPECT(vlm_lock_resource(handle, 1, &resource), VLM_BADPARAM);
    EXPECT(vlm_first_row(handle, &resource, VLM_GRANTED, &lock), VLM_BADPARAM);
    EXPECT(vlm_next_row(handle, 1, &lock), VLM_BADPARAM);
    EXPECT(vlm_first_own(handle, p, &lock), VLM_BADPARAM);
    EXPECT(vlm_next_own(handle, 1, &lock), VLM_BADPARAM);
    EXPECT(vlm_first_sublock(handle, 1, &lock), VLM_BADPARAM);
    EXPECT(vlm_next_sublock(handle, 1, &lock), VLM_BADPARAM);
    EXPECT(vlm_first_blocker(handle, 1, &lock), VLM_BADPARAM);
    EXPECT(vlm_next_blocker(handle, 1, 1, &lock), VLM_BADPARAM);
    EXPECT(vlm_first_blocked(handle, 1, &lock), VLM_BADPARAM);
    EXPECT(vlm_next_blocked(handle, 1, 1, &lock), VLM_BADPARAM);
    HOLD(vlm_lock_count(handle) == 0 && vlm_queued_count(handle) == 0);
    HOLD(vlm_process_count(handle) == 0 && vlm_resource_count(handle) == 0);
}

/* Right words, where the handle has no lock manager. */
static void closed_calls(vlm *handle) {
    vlm_lksb lksb = {.size = sizeof lksb};
    vlm_ast ast = {.size = sizeof ast, .kind = 9};
    size_t count = 99;
    number = 7;
    EXPECT(DECLARE, VLM_BADPARAM);
    HOLD(number == 0);
    EXPECT(SET, VLM_BADPARAM);
    EXPECT(ENQ, VLM_BADPARAM);
    EXPECT(CONVERT, VLM_BADPARAM);
    EXPECT(DEQ, VLM_BADPARAM);
    EXPECT(vlm_take(handle, p, &ast), VLM_BADPARAM);
    EXPECT(vlm_take_any(handle, &number, &ast), VLM_BADPARAM);
    EXPECT(vlm_rundown(handle, p), VLM_BADPARAM);
    EXPECT(vlm_leave(handle, 1), VLM_BADPARAM);
    EXPECT(vlm_search(handle, 1, &number), VLM_BADPARAM);
    number = 7;
    EXPECT(vlm_find_victim(handle, &number), VLM_BADPARAM);
    HOLD(number == 7);
    EXPECT(vlm_block(handle, p, 1, &lksb), VLM_BADPARAM);
    EXPECT(vlm_pending(handle, p, &count), VLM_BADPARAM);
    HOLD(ast.kind == 9 && count == 99);
    closed_readings(handle);
    HOLD(!handle->is_held && handle->core == NULL);
}

/* Locks that are named by status blocks that do not exist. */
static void absent_blocks(vlm *handle) {
    conversion.lock_kind = VLM_BY_BLOCK;
    WITH(conversion, lock, 3, CONVERT, VLM_ACCVIO);
    conversion.lock_kind = VLM_BY_BLOCK;
    WITH(conversion, lock, 0, CONVERT, VLM_ACCVIO);
    dequeue.lock_kind = VLM_BY_BLOCK;
    WITH(dequeue, lock, 3, DEQ, VLM_ACCVIO);
    dequeue.lock_kind = VLM_BY_BLOCK;
    WITH(dequeue, lock, 0, DEQ, VLM_ACCVIO);
}

/* Words that name steps, which the core refuses. */
static void refused_steps(vlm *handle) {
    vlm_ast ast = {.size = sizeof ast};
    WITH(declaration, node, 0, DECLARE, VLM_BADPARAM);
    WITH(declaration, node, 9, DECLARE, VLM_BADPARAM);
    WITH(setting, pid, 12345, SET, VLM_NONEXPR);
    WITH(setting, block, 0, SET, VLM_ACCVIO);
    WITH(setting, block, 3, SET, VLM_ACCVIO);
    WITH(request, pid, 12345, ENQ, VLM_NONEXPR);
    WITH(request, flags, 0x8000, ENQ, VLM_BADPARAM);
    WITH(request, block, 3, ENQ, VLM_ACCVIO);
    EXPECT(vlm_enq(handle, &request, name, 0, &number), VLM_IVBUFLEN);
    EXPECT(vlm_enq(handle, &request, long_name, 32, &number), VLM_IVBUFLEN);
    EXPECT(vlm_enq(handle, &request, long_name, sizeof long_name, &number), VLM_IVBUFLEN);
    WITH(request, flags, VLM_EXPEDITE, ENQ, VLM_UNSUPPORTED);
    WITH(request, lock, 12345, ENQ, VLM_IVLOCKID);
    WITH(request, flags, VLM_SYSTEM, ENQ, VLM_NOSYSLCK);
    WITH(request, flags, VLM_NOQUEUE, ENQ, VLM_NOTQUEUED);
    WITH(request, pid, p, ENQ, VLM_EXENQLM);
    HOLD(number == 0);
    WITH(conversion, pid, 12345, CONVERT, VLM_NONEXPR);
    WITH(conversion, flags, 0x8000, CONVERT, VLM_BADPARAM);
    WITH(conversion, block, 3, CONVERT, VLM_ACCVIO);
    WITH(conversion, lock, 12345, CONVERT, VLM_IVLOCKID);
    WITH(dequeue, pid, 12345, DEQ, VLM_NONEXPR);
    WITH(dequeue, flags, 0x8000, DEQ, VLM_BADPARAM);
    WITH(dequeue, has_tail, 1, DEQ, VLM_BADPARAM);
    WITH(dequeue, lock, 12345, DEQ, VLM_IVLOCKID);
    WITH(dequeue, flags, VLM_DEQ_CANCEL, DEQ, VLM_CANCELGRANT);
    EXPECT(vlm_take(handle, 12345, &ast), VLM_NONEXPR);
    EXPECT(vlm_rundown(handle, 12345), VLM_NONEXPR);
    EXPECT(vlm_leave(handle, 0), VLM_BADPARAM);
    EXPECT(vlm_leave(handle, 9), VLM_BADPARAM);
    EXPECT(vlm_search(handle, 0, &number), VLM_BADPARAM);
    EXPECT(OPEN, VLM_BADPARAM);
}

/* P's lock is the only one, granted at EX, and no AST is pending; P was declared before Q. */
static void is_as_it_was(vlm *handle) {
    vlm_process process = {.size = sizeof process};
    vlm_resource resource = {.size = sizeof resource};
    vlm_lock lock = {.size = sizeof lock};
    size_t count = 99;
    EXPECT(vlm_next_resource(handle, &resource), VLM_NORMAL);
    EXPECT(vlm_first_row(handle, &resource, VLM_WAITING, &lock), VLM_NORMAL);
    HOLD(lock.lkid == 0);
    EXPECT(vlm_first_row(handle, &resource, VLM_GRANTED, &lock), VLM_NORMAL);
    HOLD(lock.lkid == p_lock && lock.pid == p && lock.held == VLM_EX && lock.want == VLM_NO_MODE);
    EXPECT(vlm_next_row(handle, p_lock, &lock), VLM_NORMAL);
    HOLD(lock.lkid == 0);
    EXPECT(vlm_pending(handle, p, &count), VLM_NORMAL);
    HOLD(count == 0 && vlm_resource_count(handle) == 1);
    EXPECT(vlm_next_process(handle, p, &process), VLM_NORMAL);
    HOLD(process.pid == q && vlm_process_count(handle) == 2);
    EXPECT(vlm_next_process(handle, 0, &process), VLM_NORMAL);
    HOLD(process.size == sizeof process && process.pid == p && process.node == 1 && process.group == 1);
    HOLD(process.syslck == 0 && process.quota == 1 && process.blocks == 2 && process.pending == 0
         && process.locks == 1);
    HOLD(vlm_lock_count(handle) == 1 && vlm_queued_count(handle) == 0);
}

int main(void) {
    vlm handle_itself = VLM_CLOSED, *handle = &handle_itself;
    set_words();
    closed_calls(handle);
    wrong_words(handle);
    wrong_readings(handle);
    vlm_close(handle);
    closed_calls(handle);
    unsigned closed = calls;

    HOLD(vlm_version() == VLM_VERSION);
    WITH(options, version, VLM_VERSION + 0xff, OPEN, VLM_NORMAL); /* a later header of the same two numbers */
    vlm_close(handle);
    EXPECT(OPEN, VLM_NORMAL);
    EXPECT(vlm_declare(handle, &declaration, &p), VLM_NORMAL);
    EXPECT(vlm_declare(handle, &declaration, &q), VLM_NORMAL);
    set_words();
    request.pid = p;
    EXPECT(vlm_enq(handle, &request, name, sizeof name, &p_lock), VLM_NORMAL);
    set_words();
    is_as_it_was(handle);
    wrong_words(handle);
    is_as_it_was(handle);
    wrong_readings(handle);
    refused_steps(handle);
    absent_blocks(handle);
    is_as_it_was(handle);

    EXPECT(vlm_leave(handle, 1), VLM_NORMAL);
    EXPECT(vlm_leave(handle, 1), VLM_DEPARTED);
    EXPECT(DECLARE, VLM_DEPARTED);
    EXPECT(DEQ, VLM_DEPARTED);
    unsigned open = calls - closed;
    vlm_close(handle);
    vlm_close(handle);
    closed_calls(handle);
    HOLD(vlm_condition_name(0) == NULL && vlm_condition_name(25) == NULL);
    HOLD(strcmp(vlm_condition_name(VLM_DEADLOCK), "SS$_DEADLOCK") == 0);
    printf("%u calls on a closed handle, %u on an open one, %u wrong\n", calls - open, open, wrong);
    return wrong == 0 ? 0 : 1;
}
