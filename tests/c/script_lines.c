/* The calls that read and print lines of a script: each kind of line, each fault, and each kind of wrong argument,
 * which writes nothing. scripts/play.c plays whole scripts by them. */
#include "vlm.h"

#include <stdio.h>
#include <string.h>

static unsigned wrong;

static void hold_at(int at, int fact, const char *text) {
    if (!fact) {
        wrong++;
        fprintf(stderr, "line %d: not %s\n", at, text);
    }
}
#define HOLD(fact) hold_at(__LINE__, (fact), #fact)

static vlm handle = VLM_CLOSED;

static vlm_line read_line(const char *bytes) {
    vlm_line line = {.size = sizeof line};
    HOLD(vlm_read_line((const uint8_t *)bytes, strlen(bytes), &line) == VLM_NORMAL);
    return line;
}

/* A struct that a call must leave as it is. */
static const vlm_text untouched = {.size = sizeof untouched, .len = 7, .bytes = "nothing"};
#define REFUSED(call)                                      \
    do {                                                   \
        vlm_text text = untouched;                         \
        HOLD((call) == VLM_BADPARAM);                      \
        HOLD(memcmp(&text, &untouched, sizeof text) == 0); \
    } while (0)

static void show(const char *what) {
    vlm_line line = read_line(what);
    printf("%-28s kind %u fault %u number %u name \"%s\" resource %u\n", what, line.kind, line.fault, line.number,
           (const char *)line.name, line.resource_len);
}

static void each_line(void) {
    static const char *const lines[] = {"",
                                        "# enq",
                                        "declare P node=1 group=2 quota=3 blocks=4",
                                        "set P block=1 value=0",
                                        "enq P EX name=A block=1",
                                        "enq P EX name= block=1",
                                        "cvt P 7 NL block=1",
                                        "deq P @0",
                                        "end P",
                                        "leave node=3",
                                        "search node=8",
                                        "ast P",
                                        "block P 255",
                                        "tail P 0",
                                        "show",
                                        "tails",
                                        "enqueue",
                                        "ast 1P",
                                        "leave node=256"};
    for (size_t i = 0; i < sizeof lines / sizeof *lines; i++)
        show(lines[i]);
    char longest[257];
    memset(longest, ' ', sizeof longest);
    vlm_line line = {.size = sizeof line};
    HOLD(vlm_read_line((const uint8_t *)longest, 255, &line) == VLM_NORMAL && line.fault == 0);
    HOLD(vlm_read_line((const uint8_t *)longest, 256, &line) == VLM_NORMAL && line.fault == VLM_FAULT_TOO_LONG);
}

static void steps_of_lines(void) {
    vlm_line line = read_line("enq P PW name=x:00ff block=2 parent=@0 ast=5 param=6 valblk bits=256");
    vlm_request request = line.request;
    HOLD(request.size == sizeof request && request.pid == 0 && request.mode == VLM_PW && request.block == 2);
    HOLD(request.lock == 0 && request.lock_kind == VLM_BY_BLOCK && request.flags == (VLM_VALBLK | VLM_WIDE));
    HOLD(request.has_ast == 1 && request.ast == 5 && request.has_bast == 0 && request.bast == 0 && request.param == 6);
    HOLD(line.resource_len == 2 && line.resource[0] == 0 && line.resource[1] == 255 && line.dequeue.size == 0);
    line = read_line("deq P 9 invvalblk value=000102030405060708090a0b0c0d0e0f");
    HOLD(line.dequeue.lock == 9 && line.dequeue.lock_kind == VLM_BY_ID && line.dequeue.flags == VLM_INVVALBLK);
    HOLD(line.dequeue.has_value == 1 && line.dequeue.value[15] == 15 && line.dequeue.has_tail == 0);
    HOLD(line.request.size == 0 && line.setting.size == 0 && line.declaration.size == 0);
}

static void wrong_sizes(void) {
    vlm_line line = read_line("ast P");
    vlm_ast ast = {.size = sizeof ast};
    vlm_lock lock = {.size = sizeof lock};
    vlm_resource resource = {.size = sizeof resource, .name_len = 1, .name = "A", .group = 1};
    vlm_text small = untouched;
    small.size--;
    const vlm_text before = small;
    HOLD(vlm_print_answer(&line, VLM_NORMAL, 0, &small) == VLM_BADPARAM && memcmp(&small, &before, sizeof small) == 0);
    HOLD(vlm_print_ast(&line, VLM_NORMAL, &ast, &small) == VLM_BADPARAM);
    HOLD(vlm_print_block(&handle, 65537, &line, &small) == VLM_BADPARAM);
    HOLD(vlm_print_tail(&handle, 65537, &line, &small) == VLM_BADPARAM);
    HOLD(vlm_print_resource(&handle, &resource, &small) == VLM_BADPARAM);
    HOLD(vlm_print_resource_tail(&handle, &resource, &small) == VLM_BADPARAM);
    HOLD(vlm_print_lock(&lock, &small) == VLM_BADPARAM && memcmp(&small, &before, sizeof small) == 0);
    line.size++;
    HOLD(vlm_read_line((const uint8_t *)"show", 4, &line) == VLM_BADPARAM && line.kind == VLM_LINE_AST);
    REFUSED(vlm_print_answer(&line, VLM_NORMAL, 0, &text));
    REFUSED(vlm_print_ast(&line, VLM_NORMAL, &ast, &text));
    REFUSED(vlm_print_block(&handle, 65537, &line, &text));
    REFUSED(vlm_print_tail(&handle, 65537, &line, &text));
    ast.size = lock.size = resource.size = 0;
    line.size--;
    REFUSED(vlm_print_ast(&line, VLM_NORMAL, &ast, &text));
    REFUSED(vlm_print_lock(&lock, &text));
    REFUSED(vlm_print_resource(&handle, &resource, &text));
    REFUSED(vlm_print_resource_tail(&handle, &resource, &text));
}

static void wrong_members(void) {
    vlm_line line = read_line("leave node=1");
    vlm_ast ast = {.size = sizeof ast};
    vlm_lock lock = {.size = sizeof lock, .queue = 3};
    vlm_resource resource = {.size = sizeof resource, .name_len = 1, .name = "B", .group = 1};
    REFUSED(vlm_print_answer(&line, 0, 0, &text));
    REFUSED(vlm_print_answer(&line, VLM_WIDENOTVALID + 1, 0, &text));
    line.number = 256;
    REFUSED(vlm_print_answer(&line, VLM_NORMAL, 0, &text));
    line = read_line("block P 1");
    line.name_len = 16;
    REFUSED(vlm_print_answer(&line, VLM_NORMAL, 0, &text));
    REFUSED(vlm_print_ast(&line, VLM_NORMAL, &ast, &text));
    REFUSED(vlm_print_block(&handle, 65537, &line, &text));
    REFUSED(vlm_print_tail(&handle, 65537, &line, &text));
    line.name_len = UINT32_MAX;
    REFUSED(vlm_print_answer(&line, VLM_NORMAL, 0, &text));
    line.name_len = 1;
    line.number = 256;
    REFUSED(vlm_print_block(&handle, 65537, &line, &text));
    REFUSED(vlm_print_ast(&line, 0, &ast, &text));
    REFUSED(vlm_print_lock(&lock, &text));
    REFUSED(vlm_print_resource(&handle, &resource, &text)); /* no such resource */
}

static void put(uint32_t status, const vlm_text *text) {
    HOLD(status == VLM_NORMAL);
    fwrite(text->bytes, 1, text->len, stdout);
}

static void printed(void) {
    vlm_text text = {.size = sizeof text};
    vlm_line line = read_line("block longest_name___ 255");
    vlm_ast ast = {.size = sizeof ast, .kind = VLM_BLOCKING, .routine = UINT32_MAX, .param = 0, .lkid = 4000000000};
    HOLD(line.name_len == 15);
    put(vlm_print_ast(&line, VLM_NORMAL, &ast, &text), &text);
    ast.kind = VLM_NO_AST;
    put(vlm_print_ast(&line, VLM_NORMAL, &ast, &text), &text);
    put(vlm_print_ast(&line, VLM_DEPARTED, &ast, &text), &text);
    put(vlm_print_block(&handle, 65537, &line, &text), &text);
    put(vlm_print_tail(&handle, 12345, &line, &text), &text);
    line.number = 1;
    put(vlm_print_block(&handle, 65537, &line, &text), &text);
    put(vlm_print_tail(&handle, 65537, &line, &text), &text);
    vlm_lock lock = {.size = sizeof lock, .lkid = 1, .pid = 2, .held = VLM_CR, .want = VLM_EX, .queue = VLM_CONVERSION};
    put(vlm_print_lock(&lock, &text), &text);
    lock.held = lock.want = VLM_NO_MODE;
    put(vlm_print_lock(&lock, &text), &text);
    line = read_line("search node=1");
    put(vlm_print_answer(&line, VLM_NORMAL, 0, &text), &text);
    put(vlm_print_answer(&line, VLM_NORMAL, 9, &text), &text);
}

/* A name of 31 bytes that no line can have as a word, in a resource of the system. */
static void longest_resource(uint32_t pid) {
    vlm_request request = {.size = sizeof request, .pid = pid, .mode = VLM_EX, .flags = VLM_SYSTEM, .block = 1};
    vlm_resource resource = {.size = sizeof resource, .is_system = 1, .name_len = 31};
    vlm_text text = {.size = sizeof text};
    uint32_t lkid;
    memset(resource.name, 0xff, 31);
    HOLD(vlm_enq(&handle, &request, resource.name, 31, &lkid) == VLM_NORMAL);
    put(vlm_print_resource(&handle, &resource, &text), &text);
    put(vlm_print_resource_tail(&handle, &resource, &text), &text);
}

int main(void) {
    vlm_options options = VLM_OPTIONS;
    vlm_declaration declaration = {
        .size = sizeof declaration, .node = 1, .group = 1, .syslck = 1, .quota = 9, .blocks = 1};
    uint32_t pid = 0;
    vlm_line line = read_line("block P 1");
    REFUSED(vlm_print_block(&handle, 65537, &line, &text)); /* closed */
    HOLD(vlm_open(&handle, &options) == VLM_NORMAL && vlm_declare(&handle, &declaration, &pid) == VLM_NORMAL);
    each_line();
    steps_of_lines();
    wrong_sizes();
    wrong_members();
    printed();
    longest_resource(pid);
    vlm_close(&handle);
    printf("%u wrong\n", wrong);
    return wrong != 0;
}
