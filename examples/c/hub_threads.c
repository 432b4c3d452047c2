/* Eight threads count under three locks. Each has a port of one hub, and the hub has a thread of its own, which sleeps
 * while there is nothing to do. The journal is cut in parts, so it does not grow. */
#include <vlm_hub_wait.h>

#include <pthread.h>
#include <stdio.h>

enum { THREADS = 8, RESOURCES = 3, ROUNDS = 300, PART = 200 };

struct worker {
    vlm_port port;
    uint32_t node, pid;
    int wrong; /* answers that are not NORMAL */
};

static vlm_hub hub = VLM_HUB_CLOSED;
static vlm_bell hub_bell = VLM_BELL_CLOSED, bells[THREADS];

/* What the locks guard. The numbers are atomic only for the thread sanitizer, which can't see how the hub orders the
 * threads. */
static _Atomic int counted[RESOURCES];

/* How many entries the journal had. */
static uint64_t entries;

static uint32_t keep(void *context, const vlm_entry *part, const vlm_cut *cut) {
    (void)context;
    (void)part;
    entries += cut->count;
    return VLM_NORMAL;
}

static void *serve(void *service) { return vlm_hub_run(service) == VLM_NORMAL ? NULL : service; }

/* Waits for the next item. Here it is of the kind that is due: a post has an answer first, and then perhaps an AST. */
static vlm_item next(struct worker *worker, uint32_t kind) {
    vlm_item item = {.size = sizeof item};
    uint32_t status = vlm_port_next(&worker->port, &bells[worker->node - 1], &hub_bell, -1, &item);
    worker->wrong += status != VLM_NORMAL || item.kind != kind || (kind == VLM_ANSWER && item.status != VLM_NORMAL);
    return item;
}

static void declare(struct worker *worker) {
    vlm_declaration declaration = {.size = sizeof declaration, .node = worker->node, .quota = 9, .blocks = 1};
    vlm_port_posted(&hub_bell, vlm_port_declare(&worker->port, &declaration));
    worker->pid = next(worker, VLM_ANSWER).number;
}

/* Takes a lock in EX, counts and gives it up. The completion AST says that the lock is granted. */
static void count(struct worker *worker, int resource) {
    static const uint8_t names[RESOURCES] = {'A', 'B', 'C'};
    vlm_request request = {.size = sizeof request, .pid = worker->pid, .mode = VLM_EX, .block = 1, .has_ast = 1};
    vlm_dequeue dequeue = {.size = sizeof dequeue, .pid = worker->pid};
    vlm_port_posted(&hub_bell, vlm_port_enq(&worker->port, &request, &names[resource], 1));
    dequeue.lock = next(worker, VLM_ANSWER).number;
    next(worker, VLM_AST);
    counted[resource] = counted[resource] + 1;
    vlm_port_posted(&hub_bell, vlm_port_deq(&worker->port, &dequeue));
    next(worker, VLM_ANSWER);
}

static void *work(void *given) {
    declare(given);
    for (int round = 0; round < ROUNDS; round++)
        count(given, round % RESOURCES);
    return NULL;
}

static bool is_ready(struct worker workers[THREADS]) {
    vlm_options options = VLM_OPTIONS;
    bool is_good = vlm_hub_open(&hub, THREADS, &options) == VLM_NORMAL && vlm_bell_open(&hub_bell) == VLM_NORMAL;
    for (uint32_t i = 0; i < THREADS; i++) {
        workers[i].node = i + 1;
        bells[i] = (vlm_bell)VLM_BELL_CLOSED;
        is_good = is_good && vlm_hub_port(&hub, i + 1, &workers[i].port) == VLM_NORMAL
                  && vlm_bell_open(&bells[i]) == VLM_NORMAL;
    }
    return is_good;
}

/* Runs the hub and the workers, each in a thread. */
static bool run_threads(struct worker workers[THREADS], vlm_hub_service *service) {
    pthread_t server, threads[THREADS];
    void *failed = NULL;
    if (pthread_create(&server, NULL, serve, service))
        return false;
    for (int i = 0; i < THREADS; i++)
        if (pthread_create(&threads[i], NULL, work, &workers[i]))
            return false;
    for (int i = 0; i < THREADS; i++)
        pthread_join(threads[i], NULL);
    vlm_hub_stop(service);
    pthread_join(server, &failed);
    return !failed;
}

int main(void) {
    static struct worker workers[THREADS];
    static vlm_entry part[PART];
    vlm_hub_service service = {.size = sizeof service,
                               .hub = &hub,
                               .bell = &hub_bell,
                               .bells = bells,
                               .bell_count = THREADS,
                               .entries = part,
                               .capacity = PART,
                               .keep = keep};
    int wrong = 0;
    if (!is_ready(workers) || !run_threads(workers, &service))
        return 1;
    for (int i = 0; i < THREADS; i++) {
        wrong += workers[i].wrong;
        vlm_port_close(&workers[i].port);
        vlm_bell_close(&bells[i]);
    }
    vlm_hub_close(&hub);
    vlm_bell_close(&hub_bell);
    printf("A %d, B %d, C %d; %d entries in the journal, %d wrong answers\n", counted[0], counted[1], counted[2],
           (int)entries, wrong);
    return wrong != 0;
}
