/* A thread ends while its process holds a lock. The hub is told that its node is lost, and lets the node depart: the
 * three threads that wait for the lock get it in turn. */
#define _POSIX_C_SOURCE 200809L

#include <vlm_hub_wait.h>

#include <pthread.h>
#include <stdio.h>

enum { NODES = 4 };

struct worker {
    vlm_port port;
    uint32_t node;
    vlm_request request; /* for EX on A */
    uint32_t lock;
    int wrong;
};

static vlm_hub hub = VLM_HUB_CLOSED;
static vlm_bell hub_bell = VLM_BELL_CLOSED, bells[NODES];
static vlm_hub_service service = {
    .size = sizeof service, .hub = &hub, .bell = &hub_bell, .bells = bells, .bell_count = NODES};
static pthread_barrier_t all_wait;

static void *serve(void *given) { return vlm_hub_run(given) == VLM_NORMAL ? NULL : given; }

/* Waits for the next item, which is to be of this kind. */
static uint32_t next(struct worker *worker, uint32_t kind) {
    vlm_item item = {.size = sizeof item};
    uint32_t status = vlm_port_next(&worker->port, &bells[worker->node - 1], &hub_bell, -1, &item);
    worker->wrong += status != VLM_NORMAL || item.kind != kind || (kind == VLM_ANSWER && item.status != VLM_NORMAL);
    return item.number;
}

/* Asks for the lock. The answer says that the request is accepted, and its AST that the lock is granted. */
static void ask(struct worker *worker) {
    vlm_declaration declaration = {.size = sizeof declaration, .node = worker->node, .quota = 1, .blocks = 1};
    worker->request = (vlm_request){.size = sizeof worker->request, .mode = VLM_EX, .block = 1, .has_ast = 1};
    vlm_port_posted(&hub_bell, vlm_port_declare(&worker->port, &declaration));
    worker->request.pid = next(worker, VLM_ANSWER);
    vlm_port_posted(&hub_bell, vlm_port_enq(&worker->port, &worker->request, (const uint8_t *)"A", 1));
    worker->lock = next(worker, VLM_ANSWER);
}

/* Gets the lock, and ends with it. */
static void *end_early(void *given) {
    ask(given);
    next(given, VLM_AST);
    return NULL;
}

/* Waits for the lock, gets it and gives it up. */
static void *work(void *given) {
    struct worker *worker = given;
    ask(worker);
    pthread_barrier_wait(&all_wait);
    next(worker, VLM_AST);
    vlm_dequeue dequeue = {.size = sizeof dequeue, .pid = worker->request.pid, .lock = worker->lock};
    vlm_port_posted(&hub_bell, vlm_port_deq(&worker->port, &dequeue));
    next(worker, VLM_ANSWER);
    return NULL;
}

static bool is_ready(struct worker workers[NODES]) {
    vlm_options options = VLM_OPTIONS;
    bool is_good = vlm_hub_open(&hub, NODES, &options) == VLM_NORMAL && vlm_bell_open(&hub_bell) == VLM_NORMAL;
    for (uint32_t i = 0; i < NODES; i++) {
        workers[i].node = i + 1;
        bells[i] = (vlm_bell)VLM_BELL_CLOSED;
        is_good = is_good && vlm_hub_port(&hub, i + 1, &workers[i].port) == VLM_NORMAL
                  && vlm_bell_open(&bells[i]) == VLM_NORMAL;
    }
    return is_good && !pthread_barrier_init(&all_wait, NULL, NODES);
}

static bool run_threads(struct worker workers[NODES]) {
    pthread_t server, threads[NODES];
    void *failed = NULL;
    if (pthread_create(&server, NULL, serve, &service) || pthread_create(&threads[0], NULL, end_early, &workers[0]))
        return false;
    pthread_join(threads[0], NULL);
    printf("the thread of node 1 has ended with the lock\n");
    for (int i = 1; i < NODES; i++)
        if (pthread_create(&threads[i], NULL, work, &workers[i]))
            return false;
    pthread_barrier_wait(&all_wait);
    printf("%d threads wait for it\n", NODES - 1);
    vlm_hub_tell_lost(&service, 1);
    for (int i = 1; i < NODES; i++)
        pthread_join(threads[i], NULL);
    printf("each of them has had it\n");
    vlm_hub_stop(&service);
    pthread_join(server, &failed);
    return !failed;
}

int main(void) {
    static struct worker workers[NODES];
    int wrong = 0;
    if (!is_ready(workers) || !run_threads(workers))
        return 1;
    for (int i = 0; i < NODES; i++) {
        wrong += workers[i].wrong;
        vlm_port_close(&workers[i].port);
        vlm_bell_close(&bells[i]);
    }
    vlm_hub_close(&hub);
    vlm_bell_close(&hub_bell);
    pthread_barrier_destroy(&all_wait);
    printf("%d wrong answers\n", wrong);
    return wrong != 0;
}
