/* A cache that eight threads keep coherent by locks. Each thread has a copy of one number. While its lock holds PR the
 * copy is good, and reading it needs no call. A writer asks for EX; the blocking routines of the readers convert their
 * locks to NL; the writer hands the new number over in the value block. */
#include <vlm_threads.h>

#include <pthread.h>
#include <string.h>

enum { THREADS = 8, ROUNDS = 1000, WRITE_EACH = 10 };

struct client {
    pthread_mutex_t mutex; /* guards what follows, against the blocking routine */
    vlm_threads_request lock;
    bool is_busy;     /* the thread works under the lock */
    bool is_asked;    /* somebody waits for the lock, and the thread is busy */
    uint32_t copy[4]; /* the value block; its first word is the number */
    int reads, writes, stale;
};

static vlm_threads *layer;

/* What the lock guards: the number that every good copy equals. */
static uint32_t number;

/* Converts the client's lock. A conversion to NL never waits. */
static void convert(struct client *client, uint32_t mode) {
    client->lock.mode = mode;
    if (vlm_threads_convert(layer, &client->lock) != VLM_NORMAL)
        client->stale++;
}

/* The blocking routine: gives way at once, or leaves it to the thread. */
static void give_way(void *context, const vlm_threads_event *event) {
    struct client *client = context;
    (void)event;
    pthread_mutex_lock(&client->mutex);
    if (client->is_busy)
        client->is_asked = true;
    else if (client->lock.mode != VLM_NL)
        convert(client, VLM_NL);
    pthread_mutex_unlock(&client->mutex);
}

static void begin(struct client *client) {
    pthread_mutex_lock(&client->mutex);
    client->is_busy = true;
    pthread_mutex_unlock(&client->mutex);
}

static void end(struct client *client) {
    pthread_mutex_lock(&client->mutex);
    client->is_busy = false;
    if (client->is_asked)
        convert(client, VLM_NL);
    client->is_asked = false;
    pthread_mutex_unlock(&client->mutex);
}

/* With PR held already, the copy is good. */
static void read_number(struct client *client) {
    begin(client);
    if (client->lock.mode == VLM_NL)
        convert(client, VLM_PR);
    client->reads++;
    client->stale += client->copy[0] != number;
    end(client);
}

/* PR is given up first: two threads that hold PR and ask for EX would wait for each other. The conversion from EX to PR
 * writes the value block. */
static void write_number(struct client *client) {
    begin(client);
    if (client->lock.mode == VLM_PR)
        convert(client, VLM_NL);
    convert(client, VLM_EX);
    client->writes++;
    client->stale += client->copy[0] != number;
    client->copy[0] = ++number;
    convert(client, VLM_PR);
    end(client);
}

static void *run(void *given) {
    struct client *client = given;
    for (int round = 0; round < ROUNDS; round++)
        if (round % WRITE_EACH == 0)
            write_number(client);
        else
            read_number(client);
    return NULL;
}

/* A client with its process, and its lock at NL. */
static bool is_ready(struct client *client) {
    vlm_threads_declaration declaration = {.size = sizeof declaration, .node = 1, .quota = 1, .requests = 1};
    memset(client, 0, sizeof *client);
    pthread_mutex_init(&client->mutex, NULL);
    client->lock = (vlm_threads_request){.size = sizeof client->lock,
                                         .mode = VLM_NL,
                                         .flags = VLM_VALBLK,
                                         .value = (uint8_t *)client->copy,
                                         .blocking = give_way,
                                         .blocking_context = client};
    if (vlm_threads_declare(layer, &declaration, &client->lock.pid) != VLM_NORMAL
        || vlm_threads_enq(layer, &client->lock, (const uint8_t *)"NUMBER", 6) != VLM_NORMAL)
        return false;
    client->lock.lock = client->lock.lkid;
    return true;
}

int main(void) {
    static struct client clients[THREADS];
    pthread_t threads[THREADS];
    int reads = 0, writes = 0, stale = 0;
    vlm_threads_options options = VLM_THREADS_OPTIONS;
    if (vlm_threads_open(&options, &layer) != VLM_NORMAL)
        return 1;
    for (int i = 0; i < THREADS; i++)
        if (!is_ready(&clients[i]))
            return 2;
    for (int i = 0; i < THREADS; i++)
        if (pthread_create(&threads[i], NULL, run, &clients[i]))
            return 3;
    for (int i = 0; i < THREADS; i++)
        pthread_join(threads[i], NULL);
    vlm_threads_close(layer);
    for (int i = 0; i < THREADS; i++) {
        reads += clients[i].reads;
        writes += clients[i].writes;
        stale += clients[i].stale;
        pthread_mutex_destroy(&clients[i].mutex);
    }
    printf("%d reads and %d writes by %d threads: the number is %u, %d were stale\n", reads, writes, THREADS,
           (unsigned)number, stale);
    return stale || number != (uint32_t)writes;
}
