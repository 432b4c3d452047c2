/* A hub's journal, cut into a file in parts. While the hub runs, a second lock manager follows it by each part.
 * Afterwards a third one is made from the file. Both have to end equal. */
#include <vlm_hub_wait.h>

#include <pthread.h>
#include <stdio.h>
#include <string.h>

enum { THREADS = 2, ROUNDS = 200, PART = 64 };

struct worker {
    vlm_port port;
    uint32_t node, pid;
    int wrong;
};

static vlm_hub hub = VLM_HUB_CLOSED;
static vlm_bell hub_bell = VLM_BELL_CLOSED, bells[THREADS];
static vlm follower = VLM_CLOSED, restored = VLM_CLOSED;
static FILE *file;

/* The hub's thread hands each part of the journal to this function. */
static uint32_t keep(void *context, const vlm_entry *part, const vlm_cut *cut) {
    uint32_t status = VLM_NORMAL;
    (void)context;
    for (uint64_t i = 0; i < cut->count && status == VLM_NORMAL; i++)
        status = vlm_replay(&follower, &part[i]);
    return fwrite(part, sizeof *part, cut->count, file) == cut->count ? status : VLM_BADPARAM;
}

static void *serve(void *service) { return vlm_hub_run(service) == VLM_NORMAL ? NULL : service; }

/* Waits for the answer to a post, past ASTs. */
static uint32_t answer(struct worker *worker) {
    vlm_item item = {.size = sizeof item};
    do
        worker->wrong += vlm_port_next(&worker->port, &bells[worker->node - 1], &hub_bell, -1, &item) != VLM_NORMAL;
    while (item.kind != VLM_ANSWER && !worker->wrong);
    worker->wrong += item.status != VLM_NORMAL;
    return item.number;
}

static uint32_t ask(struct worker *worker, uint32_t mode, const char *name) {
    vlm_request request = {
        .size = sizeof request, .pid = worker->pid, .mode = mode, .flags = VLM_VALBLK, .block = 1, .has_ast = 1};
    vlm_port_posted(&hub_bell, vlm_port_enq(&worker->port, &request, (const uint8_t *)name, strlen(name)));
    return answer(worker);
}

static void give_up(struct worker *worker, uint32_t lock, uint8_t value) {
    vlm_dequeue dequeue = {.size = sizeof dequeue, .pid = worker->pid, .lock = lock, .has_value = 1, .value = {value}};
    vlm_port_posted(&hub_bell, vlm_port_deq(&worker->port, &dequeue));
    answer(worker);
}

/* Keeps a lock on SHARED, takes one of its own often, and writes its value block. Then both threads ask for LAST: one
 * of them has it, and the other one waits. */
static void *work(void *given) {
    struct worker *worker = given;
    vlm_declaration declaration = {.size = sizeof declaration, .node = worker->node, .quota = 9, .blocks = 1};
    vlm_port_posted(&hub_bell, vlm_port_declare(&worker->port, &declaration));
    worker->pid = answer(worker);
    ask(worker, VLM_CR, "SHARED");
    for (int round = 0; round < ROUNDS; round++)
        give_up(worker, ask(worker, VLM_EX, worker->node == 1 ? "FIRST" : "SECOND"), (uint8_t)round);
    ask(worker, VLM_EX, "LAST");
    return NULL;
}

/* The comparison of the follower with the restored lock manager. Structs that calls write have no other bytes than
 * their members, so they can be compared whole. */

static int differences, processes, resources, locks;

static void compare(const void *one, const void *other, size_t size) { differences += memcmp(one, other, size) != 0; }

static void compare_blocks(const vlm_process *process) {
    vlm_lksb one = {.size = sizeof one}, other = {.size = sizeof other};
    for (uint32_t block = 1; block <= process->blocks; block++) {
        differences += vlm_block(&follower, process->pid, block, &one) != VLM_NORMAL;
        differences += vlm_block(&restored, process->pid, block, &other) != VLM_NORMAL;
        compare(&one, &other, sizeof one);
    }
}

static void compare_queue(const vlm_resource *resource, uint32_t queue) {
    vlm_lock one = {.size = sizeof one}, other = {.size = sizeof other};
    uint32_t status = vlm_first_row(&follower, resource, queue, &one);
    uint32_t same = vlm_first_row(&restored, resource, queue, &other);
    for (; status == VLM_NORMAL && one.lkid; locks++) {
        differences += status != same;
        compare(&one, &other, sizeof one);
        status = vlm_next_row(&follower, one.lkid, &one);
        same = vlm_next_row(&restored, other.lkid, &other);
    }
    compare(&one, &other, sizeof one);
}

static void compare_all(void) {
    vlm_process one = {.size = sizeof one}, other = {.size = sizeof other};
    vlm_resource here = {.size = sizeof here}, there = {.size = sizeof there};
    for (; vlm_next_process(&follower, one.pid, &one) == VLM_NORMAL && one.pid; processes++) {
        differences += vlm_next_process(&restored, other.pid, &other) != VLM_NORMAL;
        compare(&one, &other, sizeof one);
        compare_blocks(&one);
    }
    for (; vlm_next_resource(&follower, &here) == VLM_NORMAL && here.serial; resources++) {
        differences += vlm_next_resource(&restored, &there) != VLM_NORMAL;
        compare(&here, &there, sizeof here);
        for (uint32_t queue = VLM_GRANTED; queue <= VLM_WAITING; queue++)
            compare_queue(&here, queue);
    }
    differences += vlm_process_count(&follower) != vlm_process_count(&restored);
    differences += vlm_resource_count(&follower) != vlm_resource_count(&restored);
}

/* Reads the file into the restored lock manager, and counts its entries. */
static int restore(void) {
    vlm_entry entry;
    int entries = 0;
    rewind(file);
    for (; fread(&entry, sizeof entry, 1, file) == 1; entries++)
        differences += vlm_replay(&restored, &entry) != VLM_NORMAL;
    return entries;
}

static bool is_ready(struct worker workers[THREADS]) {
    vlm_options options = VLM_OPTIONS;
    bool is_good = vlm_hub_open(&hub, THREADS, &options) == VLM_NORMAL && vlm_bell_open(&hub_bell) == VLM_NORMAL
                   && vlm_open(&follower, &options) == VLM_NORMAL && vlm_open(&restored, &options) == VLM_NORMAL;
    for (uint32_t i = 0; i < THREADS; i++) {
        workers[i].node = i + 1;
        bells[i] = (vlm_bell)VLM_BELL_CLOSED;
        is_good = is_good && vlm_hub_port(&hub, i + 1, &workers[i].port) == VLM_NORMAL
                  && vlm_bell_open(&bells[i]) == VLM_NORMAL;
    }
    file = tmpfile();
    return is_good && file;
}

static bool run_threads(struct worker workers[THREADS], vlm_hub_service *service) {
    pthread_t server, threads[THREADS];
    void *failed = NULL;
    if (pthread_create(&server, NULL, serve, service))
        return false;
    for (int i = 0; i < THREADS; i++)
        if (pthread_create(&threads[i], NULL, work, &workers[i]))
            return false;
    for (int i = 0; i < THREADS; i++)
        pthread_join(threads[i], NULL);
    vlm_hub_stop(service);
    pthread_join(server, &failed);
    return !failed;
}

int main(void) {
    static struct worker workers[THREADS];
    static vlm_entry part[PART];
    vlm_hub_service service = {.size = sizeof service,
                               .hub = &hub,
                               .bell = &hub_bell,
                               .bells = bells,
                               .bell_count = THREADS,
                               .entries = part,
                               .capacity = PART,
                               .keep = keep};
    if (!is_ready(workers) || !run_threads(workers, &service))
        return 1;
    int wrong = workers[0].wrong + workers[1].wrong, entries = restore();
    compare_all();
    printf("%s entries, %d wrong answers\n", entries > 2 * THREADS * ROUNDS ? "more than 800" : "too few", wrong);
    printf("%d processes, %d resources and %d locks, %d differences\n", processes, resources, locks, differences);
    for (int i = 0; i < THREADS; i++) {
        vlm_port_close(&workers[i].port);
        vlm_bell_close(&bells[i]);
    }
    vlm_hub_close(&hub);
    vlm_bell_close(&hub_bell);
    vlm_close(&follower);
    vlm_close(&restored);
    fclose(file);
    return wrong || differences;
}
