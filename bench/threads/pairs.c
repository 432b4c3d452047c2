/* Pairs of a request for EX and its dequeue, made by several threads: through the layer for threads, through vlm.h
 * under a mutex and a condition variable of the program's own, and through Berkeley DB.
 *
 *     pairs layer|raw|db THREADS own|shared PAIRS
 *     pairs layer THREADS own|shared PAIRS HOLDERS
 *
 * Each thread makes PAIRS pairs, on a resource of its own or on one that all share. With HOLDERS, that many other
 * processes each hold a lock with a blocking routine, and one request waits. Prints pairs a second, by the clock.
 * Compiled with -DWITH_DB where Berkeley DB is there. */
#define _DEFAULT_SOURCE

#include "vlm_threads.h"

#include <pthread.h>
#include <stdlib.h>
#include <string.h>
#include <time.h>

#ifdef WITH_DB
#include <db.h>
#endif

/* What a thread makes pairs with. */
struct worker {
    uint32_t id; /* a process, or a locker */
    uint8_t name[2];
    void *(*run)(void *worker);
};

static long pairs;

/* All threads begin together, and the clock with them. */
static pthread_barrier_t begin;

static void must(int fact, const char *what) {
    if (fact)
        return;
    fprintf(stderr, "pairs: %s\n", what);
    exit(1);
}

/* The layer. */

static vlm_threads *layer;

static void open_layer(void) {
    vlm_threads_options options = VLM_THREADS_OPTIONS;
    options.search_milliseconds = 100;
    must(vlm_threads_open(&options, &layer) == VLM_NORMAL, "open");
}

static uint32_t layer_process(void) {
    vlm_threads_declaration declaration = {.size = sizeof declaration, .node = 1, .quota = 9, .requests = 1};
    uint32_t pid;
    must(vlm_threads_declare(layer, &declaration, &pid) == VLM_NORMAL, "declare");
    return pid;
}

static void *run_layer(void *given) {
    struct worker *worker = given;
    for (long pair = 0; pair < pairs; pair++) {
        vlm_threads_request request = {.size = sizeof request, .pid = worker->id, .mode = VLM_EX};
        must(vlm_threads_enq(layer, &request, worker->name, 2) == VLM_NORMAL, "enq");
        vlm_threads_dequeue dequeue = {.size = sizeof dequeue, .pid = worker->id, .lock = request.lkid};
        must(vlm_threads_deq(layer, &dequeue) == VLM_NORMAL, "deq");
    }
    return NULL;
}

static void ignore(void *context, const vlm_threads_event *event) {
    (void)context;
    (void)event;
}

/* Processes that each hold a lock with a blocking routine, and a request that waits for the last of these locks. */
static void add_holders(long count) {
    vlm_threads_request request = {.size = sizeof request, .mode = VLM_EX, .blocking = ignore, .completion = ignore};
    for (long holder = 0; holder <= count; holder++) {
        uint32_t number = (uint32_t)(holder < count ? holder : count - 1);
        uint8_t name[] = {'H', number & 255, number >> 8 & 255, number >> 16 & 255};
        request.pid = layer_process();
        must(vlm_threads_start_enq(layer, &request, name, sizeof name) == VLM_NORMAL, "start_enq");
    }
}

/* vlm.h under a mutex. */

static vlm handle = VLM_CLOSED;
static const vlm_options options = VLM_OPTIONS;
static pthread_mutex_t mutex = PTHREAD_MUTEX_INITIALIZER;
static pthread_cond_t ended = PTHREAD_COND_INITIALIZER;

static void open_raw(void) { must(vlm_open(&handle, &options) == VLM_NORMAL, "open"); }

static uint32_t raw_process(void) {
    vlm_declaration declaration = {.size = sizeof declaration, .node = 1, .quota = 9, .blocks = 1};
    uint32_t pid;
    must(vlm_declare(&handle, &declaration, &pid) == VLM_NORMAL, "declare");
    return pid;
}

static void *run_raw(void *given) {
    struct worker *worker = given;
    for (long pair = 0; pair < pairs; pair++) {
        vlm_request request = {.size = sizeof request, .pid = worker->id, .mode = VLM_EX, .block = 1};
        vlm_dequeue dequeue = {.size = sizeof dequeue, .pid = worker->id};
        vlm_lksb lksb = {.size = sizeof lksb};
        pthread_mutex_lock(&mutex);
        must(vlm_enq(&handle, &request, worker->name, 2, &dequeue.lock) == VLM_NORMAL, "enq");
        while (vlm_block(&handle, worker->id, 1, &lksb) == VLM_NORMAL && !lksb.status)
            pthread_cond_wait(&ended, &mutex);
        pthread_mutex_unlock(&mutex);
        pthread_mutex_lock(&mutex);
        must(vlm_deq(&handle, &dequeue) == VLM_NORMAL, "deq");
        pthread_cond_broadcast(&ended);
        pthread_mutex_unlock(&mutex);
    }
    return NULL;
}

/* Berkeley DB. */

#ifdef WITH_DB
static DB_ENV *env;

static void open_db(void) {
    must(!db_env_create(&env, 0) && !env->set_lk_partitions(env, 1)
             && !env->open(env, NULL, DB_CREATE | DB_INIT_LOCK | DB_PRIVATE | DB_THREAD, 0),
         "db open");
}

static uint32_t db_process(void) {
    u_int32_t locker;
    must(!env->lock_id(env, &locker), "lock_id");
    return locker;
}

static void *run_db(void *given) {
    struct worker *worker = given;
    for (long pair = 0; pair < pairs; pair++) {
        DBT name = {.data = worker->name, .size = 2};
        DB_LOCK lock;
        must(!env->lock_get(env, worker->id, 0, &name, DB_LOCK_WRITE, &lock), "lock_get");
        must(!env->lock_put(env, &lock), "lock_put");
    }
    return NULL;
}
#endif

static const struct manager {
    const char *name;
    void (*open)(void);
    uint32_t (*process)(void);
    void *(*run)(void *worker);
} managers[] = {
    {"layer", open_layer, layer_process, run_layer},
    {"raw", open_raw, raw_process, run_raw},
#ifdef WITH_DB
    {"db", open_db, db_process, run_db},
#endif
};

static const struct manager *named(const char *name) {
    for (size_t i = 0; i < sizeof managers / sizeof managers[0]; i++)
        if (!strcmp(managers[i].name, name))
            return &managers[i];
    must(0, "no such manager");
    return NULL;
}

static double seconds(void) {
    struct timespec time;
    clock_gettime(CLOCK_MONOTONIC, &time);
    return (double)time.tv_sec + 1e-9 * (double)time.tv_nsec;
}

static void *run_with_others(void *given) {
    struct worker *worker = given;
    pthread_barrier_wait(&begin);
    return worker->run(worker);
}

int main(int count, char **words) {
    enum { MOST = 64 };
    static struct worker workers[MOST];
    pthread_t threads[MOST];
    must((count == 5 || (count == 6 && !strcmp(words[1], "layer") && atol(words[5]) > 0)) && atoi(words[2]) > 0
             && atoi(words[2]) <= MOST,
         "layer|raw|db THREADS own|shared PAIRS [HOLDERS]");
    const struct manager *manager = named(words[1]);
    int all = atoi(words[2]);
    pairs = atol(words[4]);
    manager->open();
    if (count == 6)
        add_holders(atol(words[5]));
    for (int i = 0; i < all; i++)
        workers[i] =
            (struct worker){manager->process(), {'R', words[3][0] == 's' ? '0' : (uint8_t)('0' + i)}, manager->run};
    pthread_barrier_init(&begin, NULL, (unsigned)all + 1);
    for (int i = 0; i < all; i++)
        must(!pthread_create(&threads[i], NULL, run_with_others, &workers[i]), "pthread_create");
    /* (before the threads begin: this one may be kept from its processor until they have ended) */
    double start = seconds();
    pthread_barrier_wait(&begin);
    for (int i = 0; i < all; i++)
        pthread_join(threads[i], NULL);
    printf("%.0f\n", (double)(all * pairs) / (seconds() - start));
    return 0;
}
