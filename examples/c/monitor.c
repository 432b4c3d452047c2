/* Prints who waits for whom, and why there is a deadlock. The monitor walks the resources, the queued requests of each,
 * and for each request the locks for which it waits. Each step of these walks takes constant time, except past locks
 * that are in nobody's way. Processes are called by their labels. */
#include <vlm_threads.h>

#include <string.h>

static const char *const modes[] = {"NL", "CR", "CW", "PR", "PW", "EX"};

static vlm_threads *layer;

static void print_label(uint32_t pid) {
    uint8_t label[VLM_THREADS_LABEL];
    vlm_threads_label(layer, pid, label);
    fputs((const char *)label, stdout);
}

static void print_wait(const vlm_lock *waits, const vlm_lock *blocks) {
    fputs("  ", stdout);
    print_label(waits->pid);
    fputs(" waits for ", stdout);
    print_label(blocks->pid);
    printf(": lock %u wants %s, lock %u ", (unsigned)waits->lkid, modes[waits->want], (unsigned)blocks->lkid);
    if (blocks->held == VLM_NO_MODE)
        printf("wants %s before it\n", modes[blocks->want]);
    else
        printf("holds %s\n", modes[blocks->held]);
}

/* Prints the waits of one request. */
static void print_waits(vlm *handle, const vlm_lock *waits) {
    vlm_lock blocks = {.size = sizeof blocks};
    uint32_t status = vlm_first_blocker(handle, waits->lkid, &blocks);
    for (; status == VLM_NORMAL && blocks.lkid != 0;
         status = vlm_next_blocker(handle, waits->lkid, blocks.lkid, &blocks))
        print_wait(waits, &blocks);
}

/* Prints the waits of the requests in a queue of a resource. */
static void print_queue(vlm *handle, const vlm_resource *resource, uint32_t queue) {
    vlm_lock waits = {.size = sizeof waits};
    uint32_t status = vlm_first_row(handle, resource, queue, &waits);
    for (; status == VLM_NORMAL && waits.lkid != 0; status = vlm_next_row(handle, waits.lkid, &waits))
        print_waits(handle, &waits);
}

/* The reader: no other call of the layer works while it runs. */
static void print_all(void *context, vlm *handle) {
    vlm_resource resource = {.size = sizeof resource};
    (void)context;
    while (vlm_next_resource(handle, &resource) == VLM_NORMAL && resource.serial != 0) {
        printf("resource %.*s\n", (int)resource.name_len, (const char *)resource.name);
        print_queue(handle, &resource, VLM_CONVERSION);
        print_queue(handle, &resource, VLM_WAITING);
    }
}

static void ignore(void *context, const vlm_threads_event *event) {
    (void)context;
    (void)event;
}

/* The hook: its victim has not ended yet. */
static void print_deadlock(void *context, const vlm_threads_deadlock *deadlock) {
    (void)context;
    vlm_threads_print_deadlock(deadlock, stdout);
}

static uint32_t declared(const char *label) {
    vlm_threads_declaration declaration = {.size = sizeof declaration, .node = 1, .quota = 9, .requests = 9};
    uint32_t pid;
    memcpy(declaration.label, label, strlen(label));
    return vlm_threads_declare(layer, &declaration, &pid) == VLM_NORMAL ? pid : 0;
}

/* Starts a new request, or a conversion if a lock is given: the lock. The name is that of its resource. */
static uint32_t start(uint32_t pid, uint32_t lock, uint32_t mode, const char *name) {
    vlm_threads_request request = {
        .size = sizeof request, .pid = pid, .mode = mode, .lock = lock, .completion = ignore};
    if (lock)
        vlm_threads_start_convert(layer, &request);
    else
        vlm_threads_start_enq(layer, &request, (const uint8_t *)name, strlen(name));
    return request.lkid;
}

int main(void) {
    vlm_threads_options options = VLM_THREADS_OPTIONS;
    uint32_t victims;
    options.deadlock = print_deadlock;
    if (vlm_threads_open(&options, &layer) != VLM_NORMAL)
        return 1;
    uint32_t p = declared("Paul"), q = declared("Quentin"), r = declared("Rosa");
    uint32_t lock = start(p, 0, VLM_PR, "A");
    start(q, 0, VLM_PR, "A");
    start(r, 0, VLM_CW, "A");
    start(q, 0, VLM_EX, "B");
    start(r, 0, VLM_PR, "B");
    start(p, 0, VLM_PR, "B");
    start(p, lock, VLM_EX, "A");
    vlm_threads_look(layer, print_all, NULL);
    vlm_threads_search(layer, &victims);
    vlm_threads_close(layer);
    return 0;
}
