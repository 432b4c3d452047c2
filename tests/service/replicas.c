/* A client of a replicated service: replicas TEST ADDRESS LEASE makes calls while a driver fails its connections. It
 * tells the driver by lines how far it is, and goes on at each line of the driver. */
#define _GNU_SOURCE
#include "check.h"
#include "vlm_client.h"

#include <inttypes.h>
#include <pthread.h>
#include <stdatomic.h>
#include <stdio.h>
#include <stdlib.h>
#include <string.h>
#include <time.h>
#include <unistd.h>

enum { CLIENTS = 2, WORKERS = 3, COUNTERS = 3, KINDS = 4, CALLERS = 100, WAIT = 120000, MOST_SECONDS = 240 };

static vlm_client_options options = {.size = sizeof options, .version = VLM_VERSION};
static atomic_ulong steps, cancels;
static atomic_bool is_over, is_impatient;

static void tell(const char *line) {
    puts(line);
    fflush(stdout);
}

/* Waits for a line of the driver. */
static void hear(void) {
    char line[64];
    CHECK(fgets(line, sizeof line, stdin) != NULL);
}

static vlm_client *opened(void) {
    vlm_client *client;
    CHECK(vlm_client_open(&options, &client) == VLM_NORMAL);
    return client;
}

static uint32_t declared(vlm_client *client) {
    vlm_threads_declaration declaration = {.size = sizeof declaration, .quota = 200, .requests = 200};
    uint32_t pid;
    CHECK(vlm_client_declare(client, &declaration, &pid) == VLM_NORMAL && pid != 0);
    steps++;
    return pid;
}

static vlm_threads_request wanted(uint32_t pid, uint32_t mode, uint32_t flags, uint8_t *value) {
    return (vlm_threads_request){.size = sizeof(vlm_threads_request),
                                 .pid = pid,
                                 .mode = mode,
                                 .flags = flags,
                                 .milliseconds = WAIT,
                                 .value = value};
}

static uint32_t enq(vlm_client *client, vlm_threads_request *request, const char *name) {
    steps++;
    return vlm_client_enq(client, request, (const uint8_t *)name, strlen(name));
}

/* A conversion with a value sets the status block first. */
static uint32_t convert(vlm_client *client, vlm_threads_request *request, uint32_t mode) {
    steps += (request->flags & VLM_VALBLK) != 0 ? 2 : 1;
    request->lock = request->lkid;
    request->mode = mode;
    return vlm_client_convert(client, request);
}

static uint32_t deq(vlm_client *client, const vlm_threads_request *request, uint8_t *value) {
    vlm_threads_dequeue dequeue = {
        .size = sizeof dequeue, .pid = request->pid, .lock = request->lkid, .value = value, .wide = value != NULL};
    steps++;
    return vlm_client_deq(client, &dequeue);
}

/* What the locks guard: each count is also in the value block of its lock. */
static struct counter {
    char name[24];
    unsigned long count;
    uint64_t token;
    int holders;
} counters[COUNTERS];

/* The client knows the token that the service tells, and it is greater than those of earlier holders. */
static void check_token(vlm_client *client, uint32_t lkid, struct counter *counter) {
    char *text;
    uint64_t known, asked = 0;
    CHECK(vlm_client_token(client, lkid, &known) == VLM_NORMAL && known > counter->token);
    CHECK(vlm_client_read(client, "token", lkid, &text) == VLM_NORMAL);
    CHECK(sscanf(text, "token %" SCNu64, &asked) == 1 && asked == known);
    free(text);
    counter->token = known;
}

static uint8_t *count_up(vlm_client *client, uint32_t lkid, struct counter *counter, uint8_t *value) {
    unsigned long found;
    memcpy(&found, value, sizeof found);
    CHECK(counter->holders++ == 0 && found == counter->count);
    check_token(client, lkid, counter);
    counter->count++;
    memcpy(value, &counter->count, sizeof found);
    memcpy(value + 40, &counter->count, sizeof found);
    counter->holders--;
    return value;
}

struct worker {
    vlm_client *client;
    uint32_t pid;
    unsigned seed;
    pthread_mutex_t mutex;
    pthread_cond_t changed;
    unsigned long completions, warnings;
    uint32_t status;
    uint8_t value[64];
};

static void on_event(void *context, const vlm_threads_event *event) {
    struct worker *worker = context;
    pthread_mutex_lock(&worker->mutex);
    if (event->kind == VLM_COMPLETION) {
        worker->completions++;
        worker->status = event->status;
        memcpy(worker->value, event->value, event->value_len);
    } else {
        worker->warnings++;
    }
    pthread_cond_signal(&worker->changed);
    pthread_mutex_unlock(&worker->mutex);
}

/* Waits until as many events have come. */
static void await(struct worker *worker, const unsigned long *count, unsigned long value) {
    pthread_mutex_lock(&worker->mutex);
    while (*count < value)
        pthread_cond_wait(&worker->changed, &worker->mutex);
    CHECK(*count == value);
    pthread_mutex_unlock(&worker->mutex);
}

static void lock_and_write(struct worker *worker, struct counter *counter, uint32_t flags) {
    uint8_t value[64] = {0};
    vlm_threads_request request = wanted(worker->pid, VLM_EX, VLM_VALBLK | VLM_WIDE | flags, value);
    uint32_t status = enq(worker->client, &request, counter->name);
    CHECK(status == VLM_NORMAL || (status == VLM_SYNCH && flags == VLM_SYNCSTS));
    CHECK(memcmp(value, value + 40, sizeof counter->count) == 0);
    CHECK(deq(worker->client, &request, count_up(worker->client, request.lkid, counter, value)) == VLM_NORMAL);
}

/* Waits a moment. The cancel of a wait is a step, if it is still made. */
static void lock_shortly(struct worker *worker, struct counter *counter) {
    uint8_t value[64] = {0};
    vlm_threads_request request = wanted(worker->pid, VLM_EX, VLM_VALBLK | VLM_WIDE, value);
    request.milliseconds = 1;
    uint32_t status = enq(worker->client, &request, counter->name);
    CHECK(status == VLM_NORMAL || status == VLM_TIMEOUT);
    cancels++;
    if (status == VLM_NORMAL)
        CHECK(deq(worker->client, &request, count_up(worker->client, request.lkid, counter, value)) == VLM_NORMAL);
}

static void convert_and_write(struct worker *worker, struct counter *counter) {
    uint8_t value[64] = {0};
    vlm_threads_request request = wanted(worker->pid, VLM_NL, 0, value);
    CHECK(enq(worker->client, &request, counter->name) == VLM_NORMAL);
    request.flags = VLM_VALBLK | VLM_WIDE;
    CHECK(convert(worker->client, &request, VLM_EX) == VLM_NORMAL);
    count_up(worker->client, request.lkid, counter, value);
    CHECK(convert(worker->client, &request, VLM_NL) == VLM_NORMAL);
    CHECK(deq(worker->client, &request, NULL) == VLM_NORMAL);
}

static void start_and_write(struct worker *worker, struct counter *counter) {
    unsigned long before = worker->completions;
    vlm_threads_request request = wanted(worker->pid, VLM_EX, VLM_VALBLK | VLM_WIDE, worker->value);
    memset(worker->value, 0, sizeof worker->value);
    request.completion = on_event;
    request.completion_context = worker;
    steps++;
    CHECK(vlm_client_start_enq(worker->client, &request, (const uint8_t *)counter->name, strlen(counter->name))
          == VLM_NORMAL);
    await(worker, &worker->completions, before + 1);
    CHECK(worker->status == VLM_NORMAL);
    CHECK(deq(worker->client, &request, count_up(worker->client, request.lkid, counter, worker->value)) == VLM_NORMAL);
}

static void *work(void *argument) {
    struct worker *worker = argument;
    while (!is_over) {
        struct counter *counter = &counters[(unsigned)rand_r(&worker->seed) % COUNTERS];
        switch ((unsigned)rand_r(&worker->seed) % (is_impatient ? KINDS + 2 : KINDS)) {
        case 0: lock_and_write(worker, counter, 0); break;
        case 1: lock_and_write(worker, counter, VLM_SYNCSTS); break;
        case 2: convert_and_write(worker, counter); break;
        case 3: start_and_write(worker, counter); break;
        default: lock_shortly(worker, counter);
        }
    }
    return NULL;
}

/* Two holders in turn: each keeps its lock until it is warned. It comes by a conversion in every second round. */
static void *hand_over(void *argument) {
    struct worker *worker = argument;
    for (bool converts = false; !is_over; converts = !converts) {
        unsigned long before = worker->warnings;
        vlm_threads_request request = wanted(worker->pid, converts ? VLM_NL : VLM_EX, VLM_SYNCSTS, NULL);
        if (!converts) {
            request.blocking = on_event;
            request.blocking_context = worker;
        }
        uint32_t status = enq(worker->client, &request, "hot");
        CHECK(status == VLM_NORMAL || status == VLM_SYNCH);
        request.blocking = on_event;
        request.blocking_context = worker;
        if (converts)
            status = convert(worker->client, &request, VLM_EX);
        CHECK(status == VLM_NORMAL || status == VLM_SYNCH);
        await(worker, &worker->warnings, before + 1);
        CHECK(deq(worker->client, &request, NULL) == VLM_NORMAL);
    }
    return NULL;
}

/* The last holder gets its warning from here. */
static void end_hand_over(vlm_client *client, pthread_t *threads) {
    for (int at = 0; at < CLIENTS; at++) {
        vlm_threads_request last = wanted(declared(client), VLM_EX, 0, NULL);
        while (pthread_tryjoin_np(threads[at], NULL) != 0) {
            CHECK(enq(client, &last, "hot") == VLM_NORMAL && deq(client, &last, NULL) == VLM_NORMAL);
            usleep(1000);
        }
    }
}

static void test_cuts(void) {
    static struct worker workers[CLIENTS * (WORKERS + 1)];
    pthread_t threads[CLIENTS * (WORKERS + 1)];
    vlm_client *clients[CLIENTS];
    for (int at = 0; at < CLIENTS; at++)
        clients[at] = opened();
    uint32_t keeper = declared(clients[0]);
    for (int at = 0; at < COUNTERS; at++) {
        snprintf(counters[at].name, sizeof counters[at].name, "count%d", at);
        vlm_threads_request kept = wanted(keeper, VLM_NL, 0, NULL);
        CHECK(enq(clients[0], &kept, counters[at].name) == VLM_NORMAL);
    }
    tell("ready");
    for (int at = 0; at < CLIENTS * (WORKERS + 1); at++) {
        workers[at].client = clients[at % CLIENTS];
        workers[at].pid = declared(workers[at].client);
        workers[at].seed = (unsigned)at;
        pthread_mutex_init(&workers[at].mutex, NULL);
        pthread_cond_init(&workers[at].changed, NULL);
        pthread_create(&threads[at], NULL, at < CLIENTS ? hand_over : work, &workers[at]);
    }
    hear();
    is_over = true;
    end_hand_over(clients[0], threads);
    for (int at = CLIENTS; at < CLIENTS * (WORKERS + 1); at++)
        pthread_join(threads[at], NULL);
    printf("steps %lu cancels %lu\n", (unsigned long)steps, (unsigned long)cancels);
    fflush(stdout);
    hear();
    for (int at = 0; at < CLIENTS; at++)
        CHECK(vlm_client_close(clients[at]) == VLM_NORMAL);
    tell("closed");
    hear();
}

/* The same, with waits that end too early. */
static void test_impatience(void) {
    is_impatient = true;
    test_cuts();
}

static atomic_int losses;

static void on_lost(void *none) {
    CHECK(none == NULL);
    losses++;
    tell("on_lost");
}

static void *wait_for(void *argument) {
    struct worker *worker = argument;
    vlm_threads_request request = wanted(worker->pid, VLM_EX, 0, NULL);
    request.milliseconds = 0;
    worker->status = enq(worker->client, &request, "A");
    return NULL;
}

/* A lock is held, a call waits, a start form waits: at the loss all end, each once, and the next calls too. */
static void test_loss(void) {
    options.on_lost = on_lost;
    vlm_client *client = opened();
    struct worker waiter = {.client = client, .pid = declared(client), .mutex = PTHREAD_MUTEX_INITIALIZER};
    vlm_threads_request held = wanted(declared(client), VLM_EX, 0, NULL),
                        started = wanted(declared(client), VLM_EX, 0, NULL);
    pthread_t thread;
    CHECK(enq(client, &held, "A") == VLM_NORMAL);
    started.completion = on_event;
    started.completion_context = &waiter;
    CHECK(vlm_client_start_enq(client, &started, (const uint8_t *)"A", 1) == VLM_NORMAL);
    pthread_create(&thread, NULL, wait_for, &waiter);
    tell("ready");
    pthread_join(thread, NULL);
    CHECK(waiter.status == VLM_LOST && deq(client, &held, NULL) == VLM_LOST);
    CHECK(enq(client, &held, "A") == VLM_LOST && vlm_client_settle(client) == VLM_NORMAL);
    hear();
    CHECK(losses == 1 && waiter.completions == 1);
    CHECK(vlm_client_reopen(client) == VLM_NORMAL);
    held.pid = declared(client);
    CHECK(enq(client, &held, "B") == VLM_NORMAL && deq(client, &held, NULL) == VLM_NORMAL);
    CHECK(vlm_client_close(client) == VLM_NORMAL && losses == 1);
    tell("closed");
    hear();
}

/* A call waits for a lock, and a start form for another: their ends are told. */
static void test_waits(void) {
    options.delivery = VLM_THREADS_BY_PROGRAM;
    vlm_client *client = opened();
    struct worker worker = {.mutex = PTHREAD_MUTEX_INITIALIZER};
    uint32_t delivered, pid = declared(client);
    vlm_threads_request request = wanted(pid, VLM_EX, 0, NULL), started = wanted(declared(client), VLM_EX, 0, NULL);
    started.completion = on_event;
    started.completion_context = &worker;
    CHECK(vlm_client_start_enq(client, &started, (const uint8_t *)"B", 1) == VLM_NORMAL);
    tell("ready");
    uint32_t status = enq(client, &request, "A");
    CHECK(vlm_client_dispatch(client, &delivered) == VLM_NORMAL && worker.completions == 1);
    printf("%s and %s\n", vlm_condition_name(status), vlm_condition_name(worker.status));
    fflush(stdout);
    hear();
    CHECK(vlm_client_close(client) == VLM_NORMAL);
}

static void *declare_one(void *argument) {
    struct worker *worker = argument;
    declared(worker->client);
    worker->status = VLM_NORMAL;
    return NULL;
}

static void *ask_shortly(void *argument) {
    struct worker *worker = argument;
    vlm_threads_request request = wanted(worker->pid, VLM_NL, 0, NULL);
    worker->status = enq(worker->client, &request, "many");
    return NULL;
}

/* Many threads ask at once. */
static void test_many(void) {
    static struct worker workers[CALLERS];
    pthread_t threads[CALLERS];
    vlm_client *client = opened();
    uint32_t pid = declared(client);
    tell("ready");
    hear();
    for (int at = 0; at < CALLERS; at++) {
        workers[at] = (struct worker){.client = client, .pid = pid};
        pthread_create(&threads[at], NULL, ask_shortly, &workers[at]);
    }
    tell("asked");
    for (int at = 0; at < CALLERS; at++) {
        pthread_join(threads[at], NULL);
        CHECK(workers[at].status == VLM_NORMAL);
    }
    tell("answered");
    hear();
    CHECK(vlm_client_close(client) == VLM_NORMAL);
}

/* At lines of the driver two threads ask for a lock, and one declares a process: the last one's answer is told
 * first. */
static void test_limit(void) {
    struct worker workers[3];
    pthread_t threads[3];
    vlm_client *client = opened();
    uint32_t pid = declared(client);
    tell("ready");
    for (int at = 0; at < 3; at++) {
        hear();
        workers[at] = (struct worker){.client = client, .pid = pid};
        pthread_create(&threads[at], NULL, at < 2 ? wait_for : declare_one, &workers[at]);
    }
    for (int at = 2; at >= 0; at--) {
        pthread_join(threads[at], NULL);
        tell(vlm_condition_name(workers[at].status));
    }
    CHECK(vlm_client_close(client) == VLM_NORMAL);
}

static atomic_bool is_late, has_slept;
static pthread_t late_thread;
int __real_clock_gettime(clockid_t clock, struct timespec *now);
int __wrap_clock_gettime(clockid_t clock, struct timespec *now);

/* The linker puts this in the place of clock_gettime: an hour has passed in a sleep, or only for a thread that was kept
 * from running. */
int __wrap_clock_gettime(clockid_t clock, struct timespec *now) {
    int done = __real_clock_gettime(clock, now);
    if (clock == CLOCK_BOOTTIME && (has_slept || (is_late && pthread_equal(pthread_self(), late_thread))))
        now->tv_sec += 3600;
    return done;
}

static void *be_late(void *none) {
    hear();
    is_late = true;
    tell("late");
    return none;
}

/* A thread comes too late to its grant. Then the machine sleeps. */
static void test_sleep(void) {
    options.on_lost = on_lost;
    vlm_client *client = opened();
    vlm_threads_request request = wanted(declared(client), VLM_EX, 0, NULL);
    pthread_t thread;
    late_thread = pthread_self();
    pthread_create(&thread, NULL, be_late, NULL);
    tell("ready");
    CHECK(enq(client, &request, "A") == VLM_LOST && request.lkid == 0 && request.status == VLM_LOST);
    pthread_join(thread, NULL);
    is_late = false;
    CHECK(enq(client, &request, "B") == VLM_NORMAL);
    has_slept = true;
    CHECK(deq(client, &request, NULL) == VLM_LOST && enq(client, &request, "C") == VLM_LOST);
    CHECK(vlm_client_reopen(client) == VLM_NORMAL);
    hear();
    CHECK(vlm_client_close(client) == VLM_NORMAL && losses == 1);
}

/* Waits for the end of its lease. */
static void test_lease(void) {
    options.on_lost = on_lost;
    vlm_client *client = opened();
    tell("ready");
    hear();
    CHECK(losses == 1 && vlm_client_close(client) == VLM_NORMAL);
}

/* Opens a client, if it can. */
static void test_opening(void) {
    vlm_client *client;
    uint32_t status = vlm_client_open(&options, &client);
    tell(vlm_condition_name(status));
    hear();
    CHECK(vlm_client_close(client) == VLM_NORMAL);
}

/* At each line makes a request, whose answer it tells, and gives the lock up. */
static void test_requests(void) {
    char line[64];
    vlm_client *client = opened();
    vlm_threads_request request = wanted(declared(client), VLM_EX, 0, NULL);
    tell("ready");
    while (fgets(line, sizeof line, stdin) != NULL && strcmp(line, "end\n") != 0) {
        uint32_t status = enq(client, &request, "A");
        if (status == VLM_NORMAL)
            status = deq(client, &request, NULL);
        tell(vlm_condition_name(status));
    }
    CHECK(vlm_client_close(client) == VLM_NORMAL);
}

int main(int count, char **words) {
    static const struct {
        const char *word;
        void (*run)(void);
    } tests[] = {{"cuts", test_cuts},   {"loss", test_loss},       {"waits", test_waits},
                 {"many", test_many},   {"opening", test_opening}, {"requests", test_requests},
                 {"limit", test_limit}, {"sleep", test_sleep},     {"impatience", test_impatience},
                 {"lease", test_lease}};
    if (count != 4)
        return 2;
    alarm(MOST_SECONDS);
    options.socket = words[2];
    options.lease_seconds = (uint32_t)strtoul(words[3], NULL, 10);
    for (size_t at = 0; at < sizeof tests / sizeof *tests; at++)
        if (strcmp(words[1], tests[at].word) == 0)
            tests[at].run();
    return 0;
}
