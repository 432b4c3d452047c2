/* Two threads count together in the value block of a resource. Each has a port of one hub, holds the lock in NL, and
 * converts it to EX to add 1. A completion AST says that the conversion has ended; the status block has the value. */
#define _POSIX_C_SOURCE 200809L

#include <vlm_hub_wait.h>

#include <pthread.h>
#include <stdio.h>
#include <string.h>

enum { THREADS = 2, ROUNDS = 500, BLOCK = 1 };

struct worker {
    vlm_port port;
    uint32_t node, pid, lock;
    uint32_t count; /* the last one that it wrote */
    int wrong;      /* what was not as it should be */
};

static vlm_hub hub = VLM_HUB_CLOSED;
static vlm_bell hub_bell = VLM_BELL_CLOSED, bells[THREADS];
static vlm_block_read reads[THREADS];
static pthread_barrier_t both_hold;

static void *serve(void *service) { return vlm_hub_run(service) == VLM_NORMAL ? NULL : service; }

/* Waits for the next item, which is of this kind. */
static vlm_item next(struct worker *worker, uint32_t kind) {
    vlm_item item = {.size = sizeof item};
    uint32_t status = vlm_port_next(&worker->port, &bells[worker->node - 1], &hub_bell, -1, &item);
    worker->wrong += status != VLM_NORMAL || item.kind != kind || (kind == VLM_ANSWER && item.status != VLM_NORMAL);
    return item;
}

/* A step was posted: the number of its answer. */
static uint32_t answered(struct worker *worker, uint32_t posted) {
    worker->wrong += vlm_port_posted(&hub_bell, posted) != VLM_NORMAL;
    return next(worker, VLM_ANSWER).number;
}

/* Asks for a mode, and waits for it. */
static void convert(struct worker *worker, uint32_t mode) {
    vlm_request request = {.size = sizeof request,
                           .pid = worker->pid,
                           .mode = mode,
                           .flags = VLM_VALBLK,
                           .block = BLOCK,
                           .lock = worker->lock,
                           .has_ast = 1};
    answered(worker, vlm_port_convert(&worker->port, &request));
    next(worker, VLM_AST);
}

/* Reads the number in the value block of the resource, which the grant of EX has put into the status block. */
static uint32_t value(struct worker *worker) {
    vlm_block_read *read = &reads[worker->node - 1];
    uint32_t number;
    read->pid = worker->pid;
    read->block = BLOCK;
    uint32_t status = vlm_port_block(&worker->port, &bells[worker->node - 1], &hub_bell, -1, read);
    worker->wrong += status != VLM_NORMAL || read->lksb.status != VLM_NORMAL;
    memcpy(&number, read->lksb.value, sizeof number);
    return number;
}

/* A conversion to NL writes the number that is in the status block by then. */
static void add_one(struct worker *worker) {
    vlm_setting setting = {.size = sizeof setting, .pid = worker->pid, .block = BLOCK};
    convert(worker, VLM_EX);
    worker->count = value(worker) + 1;
    memcpy(setting.value, &worker->count, sizeof worker->count);
    answered(worker, vlm_port_set_value(&worker->port, &setting));
    convert(worker, VLM_NL);
}

static void *work(void *given) {
    struct worker *worker = given;
    vlm_declaration declaration = {.size = sizeof declaration, .node = worker->node, .quota = 1, .blocks = BLOCK};
    worker->pid = answered(worker, vlm_port_declare(&worker->port, &declaration));
    vlm_request request = {.size = sizeof request, .pid = worker->pid, .mode = VLM_NL, .block = BLOCK};
    worker->lock = answered(worker, vlm_port_enq(&worker->port, &request, (const uint8_t *)"A", 1));
    pthread_barrier_wait(&both_hold);
    for (int round = 0; round < ROUNDS; round++)
        add_one(worker);
    return NULL;
}

static bool is_ready(struct worker workers[THREADS]) {
    vlm_options options = VLM_OPTIONS;
    bool is_good = vlm_hub_open(&hub, THREADS, &options) == VLM_NORMAL && vlm_bell_open(&hub_bell) == VLM_NORMAL
                   && !pthread_barrier_init(&both_hold, NULL, THREADS);
    for (uint32_t i = 0; i < THREADS; i++) {
        workers[i].node = i + 1;
        reads[i].size = sizeof reads[i];
        bells[i] = (vlm_bell)VLM_BELL_CLOSED;
        is_good = is_good && vlm_hub_port(&hub, i + 1, &workers[i].port) == VLM_NORMAL
                  && vlm_bell_open(&bells[i]) == VLM_NORMAL;
    }
    return is_good;
}

/* Runs the hub and the workers, each in a thread. */
static bool run_threads(struct worker workers[THREADS], vlm_hub_service *service) {
    pthread_t server, threads[THREADS];
    void *failed = NULL;
    if (pthread_create(&server, NULL, serve, service))
        return false;
    for (int i = 0; i < THREADS; i++)
        if (pthread_create(&threads[i], NULL, work, &workers[i]))
            return false;
    for (int i = 0; i < THREADS; i++)
        pthread_join(threads[i], NULL);
    vlm_hub_stop(service);
    pthread_join(server, &failed);
    return !failed;
}

int main(void) {
    static struct worker workers[THREADS];
    vlm_hub_service service = {
        .size = sizeof service, .hub = &hub, .bell = &hub_bell, .bells = bells, .bell_count = THREADS, .reads = reads};
    if (!is_ready(workers) || !run_threads(workers, &service))
        return 1;
    int wrong = workers[0].wrong + workers[1].wrong;
    uint32_t last = workers[0].count > workers[1].count ? workers[0].count : workers[1].count;
    printf("counted to %u, %d wrong answers\n", last, wrong);
    for (int i = 0; i < THREADS; i++) {
        vlm_port_close(&workers[i].port);
        vlm_bell_close(&bells[i]);
    }
    vlm_hub_close(&hub);
    vlm_bell_close(&hub_bell);
    return wrong != 0 || last != THREADS * ROUNDS;
}
