/* Plays a script from standard input by the calls of the library, and prints what `vlm play` prints for it:
 * vlm(1) says what a line does. On a line with a fault it ends with status 3. */
#include "vlm.h"

#include <stdio.h>
#include <stdlib.h>
#include <string.h>

enum { LINE = 255, NAME = 16, PROCESSES = 1024, QUEUES = 3 };

static vlm handle = VLM_CLOSED;
static vlm_line line = {.size = sizeof line};
static size_t line_number;

/* The processes that the script has declared, by their names. */
static struct {
    uint8_t name[NAME];
    uint32_t pid;
} processes[PROCESSES];
static size_t process_count;

static const char *const faults[] = {
    [VLM_FAULT_TOO_LONG] = "too long",         [VLM_FAULT_UNKNOWN_COMMAND] = "unknown command",
    [VLM_FAULT_WRONG_WORD] = "wrong word",     [VLM_FAULT_NUMBER_OUT_OF_RANGE] = "number out of range",
    [VLM_FAULT_UNKNOWN_NAME] = "unknown name", [VLM_FAULT_NAME_USED] = "name used"};

static _Noreturn void stop(const char *fault) {
    fprintf(stderr, "line %zu: %s\n", line_number, fault);
    exit(3);
}

/* The process of the line's name, or 0. */
static uint32_t bound(void) {
    for (size_t i = 0; i < process_count; i++)
        if (memcmp(processes[i].name, line.name, NAME) == 0)
            return processes[i].pid;
    return 0;
}

static uint32_t process(void) {
    uint32_t pid = bound();
    if (pid == 0)
        stop(faults[VLM_FAULT_UNKNOWN_NAME]);
    return pid;
}

static void put(uint32_t status, const vlm_text *text) {
    if (status != VLM_NORMAL)
        stop("not printed");
    fwrite(text->bytes, 1, text->len, stdout);
}

static void answer(uint32_t status, uint32_t number) {
    vlm_text text = {.size = sizeof text};
    put(vlm_print_answer(&line, status, number, &text), &text);
}

static void declare(void) {
    if (bound() != 0)
        stop(faults[VLM_FAULT_NAME_USED]);
    if (process_count == PROCESSES)
        stop("too many processes");
    uint32_t pid, status = vlm_declare(&handle, &line.declaration, &pid);
    if (status == VLM_NORMAL) {
        memcpy(processes[process_count].name, line.name, NAME);
        processes[process_count++].pid = pid;
    }
    answer(status, pid);
}

static void set(void) {
    line.setting.pid = process();
    answer(vlm_set_value(&handle, &line.setting), 0);
}

static void enq(void) {
    line.request.pid = process();
    uint32_t lkid, status = vlm_enq(&handle, &line.request, line.resource, line.resource_len, &lkid);
    answer(status, lkid);
}

static void convert(void) {
    line.request.pid = process();
    uint32_t lkid, status = vlm_convert(&handle, &line.request, &lkid);
    answer(status, lkid);
}

static void deq(void) {
    line.dequeue.pid = process();
    answer(vlm_deq(&handle, &line.dequeue), 0);
}

static void search(void) {
    uint32_t victim, status = vlm_search(&handle, line.number, &victim);
    answer(status, victim);
}

static void take(void) {
    vlm_ast ast = {.size = sizeof ast};
    vlm_text text = {.size = sizeof text};
    uint32_t status = vlm_take(&handle, process(), &ast);
    put(vlm_print_ast(&line, status, &ast, &text), &text);
}

static void print_block(void) {
    vlm_text text = {.size = sizeof text};
    put(vlm_print_block(&handle, process(), &line, &text), &text);
}

static void print_tail(void) {
    vlm_text text = {.size = sizeof text};
    put(vlm_print_tail(&handle, process(), &line, &text), &text);
}

static void print_queue(const vlm_resource *resource, uint32_t queue) {
    vlm_lock lock = {.size = sizeof lock};
    vlm_text text = {.size = sizeof text};
    uint32_t status = vlm_first_row(&handle, resource, queue, &lock);
    for (; status == VLM_NORMAL && lock.lkid != 0; status = vlm_next_row(&handle, lock.lkid, &lock))
        put(vlm_print_lock(&lock, &text), &text);
}

static void print_resource(const vlm_resource *resource) {
    vlm_text text = {.size = sizeof text};
    put(vlm_print_resource(&handle, resource, &text), &text);
    for (uint32_t queue = 0; queue < QUEUES; queue++)
        print_queue(resource, queue);
}

static void print_resource_tail(const vlm_resource *resource) {
    vlm_text text = {.size = sizeof text};
    put(vlm_print_resource_tail(&handle, resource, &text), &text);
}

/* Prints every resource, by rising serial. */
static void print_resources(void (*print)(const vlm_resource *)) {
    vlm_resource resource = {.size = sizeof resource};
    uint32_t status = vlm_next_resource(&handle, &resource);
    if (status == VLM_NORMAL && resource.serial == 0)
        printf("no resources\n");
    for (; status == VLM_NORMAL && resource.serial != 0; status = vlm_next_resource(&handle, &resource))
        print(&resource);
}

static void play(void) {
    switch (line.kind) {
    case VLM_LINE_EMPTY: break;
    case VLM_LINE_DECLARE: declare(); break;
    case VLM_LINE_SET: set(); break;
    case VLM_LINE_ENQ: enq(); break;
    case VLM_LINE_CVT: convert(); break;
    case VLM_LINE_DEQ: deq(); break;
    case VLM_LINE_END: answer(vlm_rundown(&handle, process()), 0); break;
    case VLM_LINE_LEAVE: answer(vlm_leave(&handle, line.number), 0); break;
    case VLM_LINE_SEARCH: search(); break;
    case VLM_LINE_AST: take(); break;
    case VLM_LINE_BLOCK: print_block(); break;
    case VLM_LINE_TAIL: print_tail(); break;
    case VLM_LINE_SHOW: print_resources(print_resource); break;
    case VLM_LINE_TAILS: print_resources(print_resource_tail); break;
    default: stop("a kind of line that this program does not know");
    }
}

int main(void) {
    vlm_options options = VLM_OPTIONS;
    char text[LINE + 3]; /* a line that is too long, its line feed and the zero */
    if (vlm_open(&handle, &options) != VLM_NORMAL)
        return 1;
    while (fgets(text, sizeof text, stdin) != NULL) {
        line_number++;
        if (vlm_read_line((const uint8_t *)text, strcspn(text, "\n"), &line) != VLM_NORMAL || line.fault != 0)
            stop(faults[line.fault]);
        play();
    }
    vlm_close(&handle);
    return 0;
}
