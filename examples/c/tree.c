/* A tree of resources: a table, its pages, their rows. A writer holds a row in EX, its page and the table in CW. A
 * reader of the whole table holds the table in PR, which keeps writers out. DEQALL gives a part of the tree up. */
#include <vlm_threads.h>

#include <string.h>

static vlm_threads *layer;

static uint32_t declared(void) {
    vlm_threads_declaration declaration = {.size = sizeof declaration, .node = 1, .quota = 99, .requests = 1};
    uint32_t pid;
    return vlm_threads_declare(layer, &declaration, &pid) == VLM_NORMAL ? pid : 0;
}

/* Asks for a lock below another one, or for a root with 0: the lock, or 0 if it is not granted at once. */
static uint32_t take(uint32_t pid, uint32_t parent, uint32_t mode, const char *name) {
    vlm_threads_request request = {
        .size = sizeof request, .pid = pid, .mode = mode, .flags = VLM_NOQUEUE, .lock = parent};
    uint32_t status = vlm_threads_enq(layer, &request, (const uint8_t *)name, strlen(name));
    printf("process %u, %s: %s\n", (unsigned)(pid & 0xffff), name, vlm_condition_name(status));
    return request.lkid;
}

static void give_up(uint32_t pid, uint32_t lock, uint32_t flags) {
    vlm_threads_dequeue dequeue = {.size = sizeof dequeue, .pid = pid, .flags = flags, .lock = lock};
    vlm_threads_counters counters = {.size = sizeof counters};
    uint32_t status = vlm_threads_deq(layer, &dequeue);
    vlm_threads_read_counters(layer, &counters);
    printf("process %u gives up: %s, %u locks are left\n", (unsigned)(pid & 0xffff), vlm_condition_name(status),
           (unsigned)counters.locks);
}

int main(void) {
    vlm_threads_options options = VLM_THREADS_OPTIONS;
    if (vlm_threads_open(&options, &layer) != VLM_NORMAL)
        return 1;
    uint32_t writer = declared(), reader = declared();
    uint32_t table = take(writer, 0, VLM_CW, "table");
    uint32_t page = take(writer, table, VLM_CW, "page 1");
    take(writer, page, VLM_EX, "row 1");
    take(writer, page, VLM_EX, "row 2");
    take(writer, take(writer, table, VLM_CW, "page 2"), VLM_EX, "row 1");
    take(reader, 0, VLM_PR, "table");
    give_up(writer, table, 0);
    give_up(writer, page, VLM_DEQALL);
    give_up(writer, table, VLM_DEQALL);
    give_up(writer, table, 0);
    take(reader, 0, VLM_PR, "table");
    give_up(reader, 0, VLM_DEQALL);
    vlm_threads_close(layer);
    return 0;
}
