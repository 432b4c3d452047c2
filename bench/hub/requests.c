/* Pairs of a request for EX and its dequeue, through the ports of a hub, and by the calls of vlm.h.
 *
 *     requests port PAIRS EVERY     one port and its hub in one thread: a request is posted, the hub makes a turn, and
 *                                   the port takes the answer. The journal is cut at EVERY entries, or with 0 never
 *     requests calls PAIRS          the same requests by vlm.h
 *     requests hub NODES PAIRS      a thread for each node keeps 16 posts under way, and one more thread has the hub
 *                                   make turns and cuts its journal
 *     requests mutex NODES PAIRS    as many threads make the same requests by vlm.h, under a mutex of the program's own
 *
 * The first two make their pairs beside 1,000 locks, and print nothing. In the other two each node makes PAIRS pairs,
 * on 16 resources of its own. They print requests a second, by the clock. */
#define _DEFAULT_SOURCE

#include <vlm_hub.h>

#include <pthread.h>
#include <sched.h>
#include <stdatomic.h>
#include <stdio.h>
#include <stdlib.h>
#include <string.h>
#include <time.h>

enum { NODES = 8, HELD = 1000, UNDER_WAY = 16, PART = 4096, ENTRIES_A_TURN = 2 * NODES };

static vlm_hub hub = VLM_HUB_CLOSED;
static vlm handle = VLM_CLOSED;
static const vlm_options options = VLM_OPTIONS;
static vlm_entry part[PART];

static void must(int fact, const char *what) {
    if (fact)
        return;
    fprintf(stderr, "requests: %s\n", what);
    exit(1);
}

static vlm_declaration declaration_of(uint32_t node) {
    return (vlm_declaration){.size = sizeof(vlm_declaration), .node = node, .quota = 65535, .blocks = 1};
}

static void cut_at(size_t entries) {
    vlm_cut cut = {.size = sizeof cut, .entry_size = sizeof(vlm_entry)};
    if (vlm_hub_entries(&hub) >= entries)
        must(vlm_hub_cut(&hub, part, PART, &cut) == VLM_NORMAL, "cut");
}

/* In one thread. */

/* Has the hub make the step that was posted, and takes its answer: the number in it. */
static uint32_t answer(vlm_port *port, uint32_t status) {
    size_t made;
    vlm_item item = {.size = sizeof item};
    must(status == VLM_NORMAL, "post");
    must(vlm_hub_turn(&hub, &made) == VLM_NORMAL && made == 1, "turn");
    must(vlm_port_take(port, &item) == VLM_NORMAL && item.kind == VLM_ANSWER && item.status == VLM_NORMAL, "take");
    return item.number;
}

static void open_hub(uint32_t nodes, vlm_port *ports, uint32_t *pids) {
    must(vlm_hub_open(&hub, nodes, &options) == VLM_NORMAL, "hub_open");
    for (uint32_t i = 0; i < nodes; i++) {
        vlm_declaration declaration = declaration_of(i + 1);
        must(vlm_hub_port(&hub, i + 1, &ports[i]) == VLM_NORMAL, "hub_port");
        pids[i] = answer(&ports[i], vlm_port_declare(&ports[i], &declaration));
    }
}

static void open_manager(uint32_t nodes, uint32_t *pids) {
    must(vlm_open(&handle, &options) == VLM_NORMAL, "open");
    for (uint32_t i = 0; i < nodes; i++) {
        vlm_declaration declaration = declaration_of(i + 1);
        must(vlm_declare(&handle, &declaration, &pids[i]) == VLM_NORMAL, "declare");
    }
}

static const uint8_t one_more[] = {'o', 'n', 'e', ' ', 'm', 'o', 'r', 'e'};

static void by_port(long pairs, size_t every) {
    vlm_port port = VLM_PORT_CLOSED;
    uint32_t pid;
    open_hub(1, &port, &pid);
    vlm_request request = {.size = sizeof request, .pid = pid, .mode = VLM_NL, .block = 1};
    vlm_dequeue dequeue = {.size = sizeof dequeue, .pid = pid};
    for (long held = 0; held < HELD; held++) {
        const uint8_t name[] = {'R', (uint8_t)held, (uint8_t)(held >> 8), (uint8_t)(held >> 16)};
        answer(&port, vlm_port_enq(&port, &request, name, sizeof name));
    }
    request.mode = VLM_EX;
    for (long pair = 0; pair < pairs; pair++) {
        dequeue.lock = answer(&port, vlm_port_enq(&port, &request, one_more, sizeof one_more));
        answer(&port, vlm_port_deq(&port, &dequeue));
        if (every)
            cut_at(every);
    }
}

static void by_calls(long pairs) {
    uint32_t pid, lkid;
    open_manager(1, &pid);
    vlm_request request = {.size = sizeof request, .pid = pid, .mode = VLM_NL, .block = 1};
    vlm_dequeue dequeue = {.size = sizeof dequeue, .pid = pid};
    for (long held = 0; held < HELD; held++) {
        const uint8_t name[] = {'R', (uint8_t)held, (uint8_t)(held >> 8), (uint8_t)(held >> 16)};
        must(vlm_enq(&handle, &request, name, sizeof name, &lkid) == VLM_NORMAL, "enq");
    }
    request.mode = VLM_EX;
    for (long pair = 0; pair < pairs; pair++) {
        must(vlm_enq(&handle, &request, one_more, sizeof one_more, &dequeue.lock) == VLM_NORMAL, "enq");
        must(vlm_deq(&handle, &dequeue) == VLM_NORMAL, "deq");
    }
}

/* In threads. */

/* A node. Its requests go round its resources: one round asks for all of them, and the next gives them up. */
struct worker {
    uint32_t pid;
    vlm_port port;
    uint8_t name[2];
    uint32_t locks[UNDER_WAY];
};

static long requests; /* of each node */
static pthread_barrier_t begin;
static pthread_mutex_t mutex = PTHREAD_MUTEX_INITIALIZER;
static atomic_uint working;

static int is_enq(long number) { return number / UNDER_WAY % 2 == 0; }

static vlm_request request_of(struct worker *worker, long number) {
    worker->name[1] = (uint8_t)(number % UNDER_WAY);
    return (vlm_request){.size = sizeof(vlm_request), .pid = worker->pid, .mode = VLM_EX, .block = 1};
}

static vlm_dequeue dequeue_of(struct worker *worker, long number) {
    return (vlm_dequeue){.size = sizeof(vlm_dequeue), .pid = worker->pid, .lock = worker->locks[number % UNDER_WAY]};
}

static void post(struct worker *worker, long number) {
    uint32_t status;
    if (is_enq(number)) {
        vlm_request request = request_of(worker, number);
        status = vlm_port_enq(&worker->port, &request, worker->name, sizeof worker->name);
    } else {
        vlm_dequeue dequeue = dequeue_of(worker, number);
        status = vlm_port_deq(&worker->port, &dequeue);
    }
    must(status == VLM_NORMAL, "post"); /* (64 posts have room) */
}

static void *post_all(void *given) {
    struct worker *worker = given;
    vlm_item item = {.size = sizeof item};
    pthread_barrier_wait(&begin);
    for (long posted = 0, answered = 0; answered < requests;) {
        while (posted < requests && posted < answered + UNDER_WAY)
            post(worker, posted++);
        must(vlm_port_take(&worker->port, &item) == VLM_NORMAL, "take");
        if (item.kind == VLM_NO_ITEM) {
            sched_yield();
            continue;
        }
        must(item.kind == VLM_ANSWER && item.status == VLM_NORMAL, "answer");
        worker->locks[answered++ % UNDER_WAY] = item.number;
    }
    working--;
    return NULL;
}

static void *call_all(void *given) {
    struct worker *worker = given;
    pthread_barrier_wait(&begin);
    for (long number = 0; number < requests; number++) {
        uint32_t status;
        vlm_request request = request_of(worker, number);
        vlm_dequeue dequeue = dequeue_of(worker, number);
        pthread_mutex_lock(&mutex);
        if (is_enq(number))
            status = vlm_enq(&handle, &request, worker->name, sizeof worker->name, &worker->locks[number % UNDER_WAY]);
        else
            status = vlm_deq(&handle, &dequeue);
        pthread_mutex_unlock(&mutex);
        must(status == VLM_NORMAL, "call");
    }
    return NULL;
}

static void serve(void) {
    while (working) {
        size_t made;
        must(vlm_hub_turn(&hub, &made) == VLM_NORMAL, "turn");
        if (!made)
            sched_yield();
        cut_at(PART - ENTRIES_A_TURN);
    }
}

static double seconds(void) {
    struct timespec time;
    clock_gettime(CLOCK_MONOTONIC, &time);
    return (double)time.tv_sec + 1e-9 * (double)time.tv_nsec;
}

/* The requests a second of so many nodes, through a hub or under the mutex. */
static double rate(int is_hub, uint32_t nodes, long pairs) {
    static struct worker workers[NODES];
    vlm_port ports[NODES] = {VLM_PORT_CLOSED};
    uint32_t pids[NODES];
    pthread_t threads[NODES];
    requests = 2 * pairs;
    working = nodes;
    if (is_hub)
        open_hub(nodes, ports, pids);
    else
        open_manager(nodes, pids);
    pthread_barrier_init(&begin, NULL, nodes + 1);
    for (uint32_t i = 0; i < nodes; i++) {
        workers[i] = (struct worker){.pid = pids[i], .port = ports[i], .name = {(uint8_t)('A' + i)}};
        must(!pthread_create(&threads[i], NULL, is_hub ? post_all : call_all, &workers[i]), "pthread_create");
    }
    /* (before the threads begin: this one may be kept from its processor until they have ended) */
    double start = seconds();
    pthread_barrier_wait(&begin);
    if (is_hub)
        serve();
    for (uint32_t i = 0; i < nodes; i++)
        pthread_join(threads[i], NULL);
    return (double)requests * nodes / (seconds() - start);
}

int main(int count, char **words) {
    const char *kind = count > 2 ? words[1] : "";
    long first = count > 2 ? atol(words[2]) : 0, second = count > 3 ? atol(words[3]) : 0;
    if (count == 4 && !strcmp(kind, "port") && second >= 0 && second < PART)
        by_port(first, (size_t)second);
    else if (count == 3 && !strcmp(kind, "calls"))
        by_calls(first);
    else if (count == 4 && (!strcmp(kind, "hub") || !strcmp(kind, "mutex")) && first >= 1 && first <= NODES)
        printf("%.0f\n", rate(!strcmp(kind, "hub"), (uint32_t)first, second));
    else
        must(0, "port PAIRS EVERY|calls PAIRS|hub NODES PAIRS|mutex NODES PAIRS");
    return 0;
}
