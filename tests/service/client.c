/* The client of the lock service: client VLMD CONFIG SOCKET starts daemons and makes each call of vlm_client.h. */
#define _GNU_SOURCE
#include "vlm_client.h"

#include <fcntl.h>
#include <poll.h>
#include <pthread.h>
#include <signal.h>
#include <stdatomic.h>
#include <stdio.h>
#include <stdlib.h>
#include <string.h>
#include <sys/prctl.h>
#include <sys/socket.h>
#include <sys/syscall.h>
#include <sys/time.h>
#include <sys/un.h>
#include <sys/wait.h>
#include <unistd.h>

enum { THREADS = 4, ROUNDS = 200, WAIT = 20000, SENDERS = 400, ASKERS = 64, MOST_SECONDS = 120, CHILD_SECONDS = 9 };

static const char *vlmd, *config, *path;
static pid_t daemon_pid;

#define CHECK(fact) check(fact, __LINE__, #fact)

static void check(bool fact, int line, const char *text) {
    if (fact)
        return;
    fprintf(stderr, "line %d: %s\n", line, text);
    kill(daemon_pid, SIGKILL);
    exit(1);
}

static void start_daemon(void) {
    daemon_pid = fork();
    if (daemon_pid == 0) {
        prctl(PR_SET_PDEATHSIG, SIGKILL);
        execl(vlmd, vlmd, "-s", path, "-c", config, (char *)NULL);
        _exit(1);
    }
}

static void kill_daemon(void) {
    kill(daemon_pid, SIGKILL);
    waitpid(daemon_pid, NULL, 0);
}

static vlm_client *opened(vlm_client_options options) {
    vlm_client *client;
    options.size = sizeof options;
    options.version = VLM_VERSION;
    options.socket = path;
    for (int tries = 0; tries < 1000; tries++) {
        if (vlm_client_open(&options, &client) == VLM_NORMAL)
            return client;
        usleep(10000);
    }
    CHECK(false);
    return NULL;
}

static uint32_t declared(vlm_client *client) {
    vlm_threads_declaration declaration = {.size = sizeof declaration, .quota = 9, .requests = 4};
    uint32_t pid;
    CHECK(vlm_client_declare(client, &declaration, &pid) == VLM_NORMAL && pid != 0);
    return pid;
}

static vlm_threads_request wanted(uint32_t pid, uint32_t mode, uint32_t flags) {
    return (vlm_threads_request){
        .size = sizeof(vlm_threads_request), .pid = pid, .mode = mode, .flags = flags, .milliseconds = WAIT};
}

static uint32_t enq(vlm_client *client, vlm_threads_request *request, const char *name) {
    return vlm_client_enq(client, request, (const uint8_t *)name, strlen(name));
}

static uint32_t deq(vlm_client *client, uint32_t pid, uint32_t lock, uint32_t flags) {
    vlm_threads_dequeue dequeue = {.size = sizeof dequeue, .pid = pid, .lock = lock, .flags = flags};
    return vlm_client_deq(client, &dequeue);
}

static void test_answers(void) {
    vlm_client *client = opened((vlm_client_options){0});
    uint32_t pid = declared(client), other = declared(client);
    vlm_threads_request held = wanted(pid, VLM_EX, 0), late = wanted(other, VLM_PR, 0);
    CHECK(enq(client, &held, "A") == VLM_NORMAL && held.lkid == 1 && held.status == VLM_NORMAL);
    late.milliseconds = 50;
    CHECK(enq(client, &late, "A") == VLM_TIMEOUT && late.lkid == 0 && late.status == VLM_TIMEOUT);
    late.flags = VLM_NOQUEUE;
    CHECK(enq(client, &late, "A") == VLM_NOTQUEUED && late.status == 0);
    held.lock = held.lkid;
    held.mode = VLM_PR;
    CHECK(vlm_client_convert(client, &held) == VLM_NORMAL && held.lkid == 1);
    CHECK(enq(client, &late, "A") == VLM_NORMAL);
    held.mode = VLM_EX;
    held.milliseconds = 50;
    CHECK(vlm_client_convert(client, &held) == VLM_TIMEOUT && held.lkid == 1 && held.status == VLM_TIMEOUT);
    CHECK(deq(client, other, 1, 0) == VLM_IVLOCKID && deq(client, 77, 1, 0) == VLM_NONEXPR);
    CHECK(deq(client, pid, 1, VLM_DEQ_CANCEL) == VLM_CANCELGRANT);
    vlm_threads_request below = wanted(pid, VLM_NL, 0);
    below.lock = 1;
    CHECK(enq(client, &below, "below") == VLM_NORMAL && deq(client, pid, 1, 0) == VLM_SUBLOCKS);
    CHECK(deq(client, pid, 1, VLM_DEQALL) == VLM_NORMAL && deq(client, pid, below.lkid, 0) == VLM_IVLOCKID);
    CHECK(enq(client, &below, "") == VLM_IVBUFLEN);
    CHECK(deq(client, pid, 0, VLM_DEQALL) == VLM_NORMAL && deq(client, pid, 1, 0) == VLM_IVLOCKID);
    held.lock = 1;
    CHECK(vlm_client_convert(client, &held) == VLM_IVLOCKID);
    vlm_threads_request many = wanted(pid, VLM_NL, 0);
    for (int count = 0; count < 9; count++)
        CHECK(enq(client, &many, "B") == VLM_NORMAL);
    CHECK(enq(client, &many, "B") == VLM_EXENQLM);
    CHECK(vlm_client_rundown(client, pid) == VLM_NORMAL && enq(client, &many, "B") == VLM_NONEXPR);
    CHECK(vlm_client_rundown(client, pid) == VLM_NONEXPR && vlm_client_rundown(client, 0) == VLM_NONEXPR);
    CHECK(vlm_client_close(client) == VLM_NORMAL && vlm_client_close(NULL) == VLM_NORMAL);
}

static void test_malformed(void) {
    vlm_client *client = opened((vlm_client_options){0}), *none;
    uint32_t pid = declared(client), made;
    vlm_client_options options = {.size = sizeof options, .version = VLM_VERSION, .delivery = 9};
    CHECK(vlm_client_open(&options, &none) == VLM_BADPARAM && none == NULL);
    options = (vlm_client_options){.size = sizeof options, .version = VLM_VERSION, .socket = "/nowhere"};
    CHECK(vlm_client_open(&options, &none) == VLM_LOST && none == NULL);
    const uint32_t sizes[] = {0, offsetof(vlm_client_options, certificate) - 1, sizeof options + 1, UINT32_MAX};
    for (size_t at = 0; at < sizeof sizes / sizeof *sizes; at++) {
        options.size = sizes[at];
        CHECK(vlm_client_open(&options, &none) == VLM_BADPARAM && none == NULL);
    }
    char reason[] = "unchanged";
    options = (vlm_client_options){.size = sizeof options,
                                   .version = VLM_VERSION,
                                   .socket = "tls:127.0.0.1:1",
                                   .certificate = "/",
                                   .reason = reason,
                                   .reason_len = 4};
    CHECK(vlm_client_open(&options, &none) == VLM_LOST && none == NULL && strcmp(reason, "TLS") == 0);
    vlm_threads_declaration declaration = {.size = sizeof declaration, .quota = 9, .requests = 0};
    CHECK(vlm_client_declare(client, &declaration, &made) == VLM_BADPARAM && made == 0);
    vlm_threads_request request = wanted(pid, VLM_EX, VLM_VALBLK);
    CHECK(enq(client, &request, "A") == VLM_BADPARAM);
    request = wanted(pid, 6, 0);
    CHECK(enq(client, &request, "A") == VLM_BADPARAM);
    request = wanted(pid, VLM_EX, 0);
    CHECK(vlm_client_start_enq(client, &request, (const uint8_t *)"A", 1) == VLM_BADPARAM);
    int descriptor;
    uint32_t delivered;
    CHECK(vlm_client_fd(client, &descriptor) == VLM_BADPARAM
          && vlm_client_dispatch(client, &delivered) == VLM_BADPARAM);
    CHECK(vlm_client_reopen(client) == VLM_BADPARAM);
    vlm_client_close(client);
}

static void test_values(void) {
    vlm_client *client = opened((vlm_client_options){0});
    uint32_t pid = declared(client);
    uint8_t value[64], read[64] = {0};
    for (int at = 0; at < 64; at++)
        value[at] = (uint8_t)(3 * at + 1);
    vlm_threads_request keeper = wanted(pid, VLM_NL, 0), held = wanted(pid, VLM_EX, 0);
    CHECK(enq(client, &keeper, "A") == VLM_NORMAL && enq(client, &held, "A") == VLM_NORMAL);
    vlm_threads_dequeue dequeue = {.size = sizeof dequeue, .pid = pid, .lock = held.lkid, .value = value, .wide = 1};
    CHECK(vlm_client_deq(client, &dequeue) == VLM_NORMAL);
    for (uint32_t flags = 0; flags <= VLM_SYNCSTS; flags += VLM_SYNCSTS) {
        vlm_threads_request reader = wanted(pid, VLM_PR, VLM_VALBLK | VLM_WIDE | flags);
        reader.value = memset(read, 0, sizeof read);
        CHECK(enq(client, &reader, "A") == (flags == 0 ? VLM_NORMAL : VLM_SYNCH) && reader.status == VLM_NORMAL);
        CHECK(memcmp(read, value, 64) == 0 && deq(client, pid, reader.lkid, 0) == VLM_NORMAL);
    }
    vlm_threads_request writer = wanted(pid, VLM_EX, VLM_VALBLK);
    writer.value = memset(read, 0, sizeof read);
    CHECK(enq(client, &writer, "A") == VLM_NORMAL && memcmp(read, value, 16) == 0 && read[16] == 0);
    read[0] = 99;
    writer.lock = writer.lkid;
    writer.mode = VLM_NL;
    CHECK(vlm_client_convert(client, &writer) == VLM_NORMAL);
    writer.mode = VLM_PR;
    read[0] = 0;
    CHECK(vlm_client_convert(client, &writer) == VLM_NORMAL && read[0] == 99);
    vlm_client_close(client);
}

/* What routines were told. */
static struct {
    atomic_int blockings, completions, losses;
    atomic_uint status;
    uint8_t value[64];
} told;

static void on_blocking(void *context, const vlm_threads_event *event) {
    CHECK(event->kind == VLM_BLOCKING && *(uint32_t *)context == event->pid);
    told.blockings++;
}

static void on_completion(void *context, const vlm_threads_event *event) {
    CHECK(event->kind == VLM_COMPLETION && context == &told);
    memcpy(told.value, event->value, sizeof told.value);
    told.status = event->status;
    told.completions++;
}

static void on_lost(void *context) {
    CHECK(context == &told);
    told.losses++;
}

static bool until(const atomic_int *count, int value) {
    for (int tries = 0; tries < 2000 && *count != value; tries++)
        usleep(5000);
    return *count == value;
}

static void test_routines(void) {
    vlm_client *client = opened((vlm_client_options){.delivery = VLM_THREADS_BY_PROGRAM});
    vlm_client *other = opened((vlm_client_options){0});
    uint32_t pid = declared(client), second = declared(other), delivered;
    uint8_t value[64] = {1};
    vlm_threads_request held = wanted(pid, VLM_EX, 0), late = wanted(second, VLM_PR, VLM_VALBLK | VLM_WIDE);
    held.blocking = on_blocking;
    held.blocking_context = &pid;
    late.value = value;
    late.completion = on_completion;
    late.completion_context = &told;
    memset(&told, 0, sizeof told);
    CHECK(enq(client, &held, "A") == VLM_NORMAL);
    CHECK(vlm_client_start_enq(other, &late, (const uint8_t *)"A", 1) == VLM_NORMAL && late.lkid != 0);
    struct pollfd ready = {.events = POLLIN};
    CHECK(vlm_client_fd(client, &ready.fd) == VLM_NORMAL && poll(&ready, 1, WAIT) == 1);
    CHECK(vlm_client_dispatch(client, &delivered) == VLM_NORMAL && delivered == 1 && told.blockings == 1);
    value[0] = 7;
    value[63] = 8;
    vlm_threads_dequeue dequeue = {.size = sizeof dequeue, .pid = pid, .lock = held.lkid, .value = value, .wide = 1};
    CHECK(told.completions == 0 && vlm_client_deq(client, &dequeue) == VLM_NORMAL && until(&told.completions, 1));
    CHECK(vlm_client_settle(other) == VLM_NORMAL);
    CHECK(told.status == VLM_NORMAL && told.value[0] == 7 && told.value[63] == 8);
    CHECK(poll(&ready, 1, 0) == 0 && vlm_client_dispatch(client, &delivered) == VLM_NORMAL && delivered == 0);
    vlm_client_close(client);
    vlm_client_close(other);
}

struct waiter {
    vlm_client *client;
    uint32_t pid, answer;
    const char *name;
};

static void *wait_for(void *argument) {
    struct waiter *waiter = argument;
    vlm_threads_request request = wanted(waiter->pid, VLM_EX, 0);
    waiter->answer = enq(waiter->client, &request, waiter->name);
    return NULL;
}

/* Two processes lock A and B in turn: one of them is the victim. A rundown ends the wait of the other. */
static void test_ends(void) {
    vlm_client *client = opened((vlm_client_options){0}), *other = opened((vlm_client_options){0});
    struct waiter one = {client, declared(client), 0, "B"}, two = {other, declared(other), 0, "A"};
    vlm_threads_request first = wanted(one.pid, VLM_EX, 0), second = wanted(two.pid, VLM_EX, 0);
    CHECK(enq(client, &first, "A") == VLM_NORMAL && enq(other, &second, "B") == VLM_NORMAL);
    pthread_t threads[2];
    pthread_create(&threads[0], NULL, wait_for, &one);
    usleep(500000);
    pthread_create(&threads[1], NULL, wait_for, &two);
    pthread_join(threads[1], NULL);
    CHECK(two.answer == VLM_DEADLOCK);
    CHECK(vlm_client_rundown(client, one.pid) == VLM_NORMAL);
    pthread_join(threads[0], NULL);
    CHECK(one.answer == VLM_NONEXPR);
    vlm_client_close(client);
    vlm_client_close(other);
}

static int counter; /* under the lock "count" */

static void *count_up(void *argument) {
    struct waiter *waiter = argument;
    for (int round = 0; round < ROUNDS; round++) {
        vlm_threads_request request = wanted(waiter->pid, VLM_EX, 0);
        request.milliseconds = round % 3 == 0 ? 1 : WAIT;
        uint32_t answer = enq(waiter->client, &request, "count");
        CHECK(answer == VLM_NORMAL || (answer == VLM_TIMEOUT && round % 3 == 0));
        if (answer != VLM_NORMAL)
            continue;
        __atomic_store_n(&counter, __atomic_load_n(&counter, __ATOMIC_RELAXED) + 1, __ATOMIC_RELAXED);
        waiter->answer++;
        CHECK(deq(waiter->client, waiter->pid, request.lkid, 0) == VLM_NORMAL);
    }
    return NULL;
}

/* Threads of two clients count under a lock, while some of their waits end too early: no count is lost. */
static void test_race(void) {
    vlm_client *clients[] = {opened((vlm_client_options){0}), opened((vlm_client_options){0})};
    struct waiter waiters[THREADS];
    pthread_t threads[THREADS];
    for (int at = 0; at < THREADS; at++) {
        waiters[at] = (struct waiter){clients[at % 2], declared(clients[at % 2]), 0, NULL};
        pthread_create(&threads[at], NULL, count_up, &waiters[at]);
    }
    int all = 0;
    for (int at = 0; at < THREADS; at++) {
        pthread_join(threads[at], NULL);
        all += (int)waiters[at].answer;
    }
    CHECK(all == counter && all > ROUNDS);
    vlm_client_close(clients[0]);
    vlm_client_close(clients[1]);
}

/* What getpid answers, if it is not 0. */
static pid_t shown;

pid_t getpid(void) { return shown != 0 ? shown : (pid_t)syscall(SYS_getpid); }

/* A child is refused, also one with the pid of its parent: the first process of a PID namespace may have such a child.
 */
static void test_fork(bool has_same_pid) {
    shown = has_same_pid ? getpid() : 0;
    vlm_client *client = opened((vlm_client_options){.delivery = VLM_THREADS_BY_PROGRAM});
    uint32_t pid = declared(client);
    pid_t child = fork();
    if (child == 0) {
        alarm(CHILD_SECONDS);
        vlm_threads_request request = wanted(pid, VLM_EX, 0);
        int descriptor;
        _exit(enq(client, &request, "A") == VLM_BADPARAM && vlm_client_close(client) == VLM_BADPARAM
                      && vlm_client_fd(client, &descriptor) == VLM_BADPARAM && descriptor == -1
                  ? 0
                  : 1);
    }
    int status;
    CHECK(waitpid(child, &status, 0) == child && status == 0);
    vlm_threads_request request = wanted(pid, VLM_EX, 0);
    CHECK(enq(client, &request, "A") == VLM_NORMAL);
    vlm_client_close(client);
    shown = 0;
}

/* A program that forks a child under a lock, and is killed. The child lives until the pipe ends. */
static void leave_heir(const int *ends) {
    vlm_client *client = opened((vlm_client_options){.delivery = VLM_THREADS_BY_PROGRAM});
    vlm_threads_request request = wanted(declared(client), VLM_EX, 0);
    char byte;
    CHECK(enq(client, &request, "heir") == VLM_NORMAL);
    close(ends[1]);
    if (fork() == 0)
        _exit((int)read(ends[0], &byte, 1));
    kill(getpid(), SIGKILL);
}

/* A child that lives on keeps no lock of a parent that has ended. */
static void test_heir(void) {
    int ends[2];
    CHECK(pipe(ends) == 0);
    pid_t parent = fork();
    if (parent == 0)
        leave_heir(ends);
    CHECK(waitpid(parent, NULL, 0) == parent);
    vlm_client *client = opened((vlm_client_options){.delivery = VLM_THREADS_BY_PROGRAM});
    vlm_threads_request request = wanted(declared(client), VLM_EX, 0);
    request.milliseconds = WAIT;
    CHECK(enq(client, &request, "heir") == VLM_NORMAL);
    vlm_client_close(client);
    close(ends[0]);
    close(ends[1]);
}

/* In a program without standard streams the client takes none of their numbers: it would get what is printed. */
static void test_streams(void) {
    pid_t child = fork();
    if (child == 0) {
        bool is_free = true;
        for (int stream = 0; stream <= STDERR_FILENO; stream++)
            close(stream);
        opened((vlm_client_options){.delivery = VLM_THREADS_BY_PROGRAM});
        for (int stream = 0; stream <= STDERR_FILENO; stream++)
            is_free &= fcntl(stream, F_GETFD) < 0;
        _exit(is_free ? 0 : 1);
    }
    int status;
    CHECK(waitpid(child, &status, 0) == child && status == 0);
}

/* A mutex of the program, which it takes for each fork. */
static pthread_mutex_t own = PTHREAD_MUTEX_INITIALIZER;
static atomic_bool has_own;

static void take_own(void) { pthread_mutex_lock(&own); }

static void give_own(void) { pthread_mutex_unlock(&own); }

static void *open_with_own(void *unused) {
    take_own();
    has_own = true;
    usleep(100000);
    vlm_client_close(opened((vlm_client_options){.delivery = VLM_THREADS_BY_LAYER}));
    give_own();
    return unused;
}

/* A fork waits for the mutex of the program, which another thread has while it opens a client. */
static void test_order(void) {
    pthread_t thread;
    CHECK(pthread_create(&thread, NULL, open_with_own, NULL) == 0);
    while (!has_own)
        usleep(1000);
    pid_t child = fork();
    if (child == 0)
        _exit(0);
    CHECK(waitpid(child, NULL, 0) == child && pthread_join(thread, NULL) == 0);
}

static void reopen(vlm_client *client) {
    int tries = 0;
    start_daemon();
    while (vlm_client_reopen(client) != VLM_NORMAL && tries++ < 1000)
        usleep(10000);
    CHECK(tries < 1000);
}

/* The daemon is killed while a lock is held, a call waits and a start form is under way. */
static void test_loss(void) {
    vlm_client *client = opened((vlm_client_options){.on_lost = on_lost, .lost_context = &told});
    struct waiter waiter = {client, declared(client), 0, "A"};
    uint32_t pid = declared(client);
    vlm_threads_request held = wanted(pid, VLM_EX, 0), started = wanted(declared(client), VLM_EX, 0);
    memset(&told, 0, sizeof told);
    started.completion = on_completion;
    started.completion_context = &told;
    CHECK(enq(client, &held, "A") == VLM_NORMAL);
    CHECK(vlm_client_start_enq(client, &started, (const uint8_t *)"A", 1) == VLM_NORMAL);
    pthread_t thread;
    pthread_create(&thread, NULL, wait_for, &waiter);
    usleep(100000);
    kill_daemon();
    pthread_join(thread, NULL);
    CHECK(waiter.answer == VLM_LOST && until(&told.completions, 1) && told.status == VLM_LOST);
    CHECK(until(&told.losses, 1) && deq(client, pid, held.lkid, 0) == VLM_LOST);
    CHECK(enq(client, &held, "A") == VLM_LOST && vlm_client_reopen(client) == VLM_LOST);
    reopen(client);
    CHECK(enq(client, &held, "A") == VLM_NONEXPR);
    held.pid = declared(client);
    CHECK(enq(client, &held, "A") == VLM_NORMAL && deq(client, held.pid, held.lkid, 0) == VLM_NORMAL);
    CHECK(told.losses == 1 && vlm_client_close(client) == VLM_NORMAL);
}

/* Waits until calls of a client answer that its locks are lost. */
static void await_loss(vlm_client *client) {
    int tries = 0;
    while (deq(client, 1, 1, 0) != VLM_LOST && tries++ < 1000)
        usleep(10000);
    CHECK(tries < 1000);
}

struct sender {
    vlm_client *client;
    uint32_t pid, answer;
    atomic_int completions;
};

static void on_sent(void *context, const vlm_threads_event *event) {
    CHECK(event->status == VLM_LOST);
    ++*(atomic_int *)context;
}

static void *send_request(void *argument) {
    struct sender *sender = argument;
    vlm_threads_request request = wanted(sender->pid, VLM_NL, 0);
    request.completion = on_sent;
    request.completion_context = &sender->completions;
    sender->answer = vlm_client_start_enq(sender->client, &request, (const uint8_t *)"A", 1);
    return NULL;
}

/* The daemon reads nothing, so that most threads can't send, and is killed: no routine of a call that answers VLM_LOST
 * is called. The records are sound: new requests get different ones. */
static void test_unsent(void) {
    static struct sender senders[SENDERS];
    static pthread_t threads[SENDERS];
    vlm_client *client = opened((vlm_client_options){0});
    vlm_threads_declaration declaration = {.size = sizeof declaration, .quota = 1000, .requests = SENDERS / 2};
    uint32_t pids[2];
    for (int at = 0; at < 2; at++)
        CHECK(vlm_client_declare(client, &declaration, &pids[at]) == VLM_NORMAL);
    kill(daemon_pid, SIGSTOP);
    for (int at = 0; at < SENDERS; at++) {
        senders[at].client = client;
        senders[at].pid = pids[at % 2];
        pthread_create(&threads[at], NULL, send_request, &senders[at]);
    }
    usleep(300000);
    kill_daemon();
    for (int at = 0; at < SENDERS; at++)
        pthread_join(threads[at], NULL);
    reopen(client);
    CHECK(vlm_client_settle(client) == VLM_NORMAL);
    for (int at = 0; at < SENDERS; at++)
        CHECK(senders[at].answer == VLM_LOST && senders[at].completions == 0);
    CHECK(vlm_client_declare(client, &declaration, &pids[0]) == VLM_NORMAL);
    uint32_t locks[SENDERS];
    for (int at = 0; at < SENDERS; at++) {
        vlm_threads_request request = wanted(pids[0], VLM_NL, 0);
        CHECK(enq(client, &request, "A") == VLM_NORMAL);
        locks[at] = request.lkid;
    }
    for (int at = 0; at < SENDERS; at++) {
        vlm_threads_request request = wanted(pids[0], VLM_CR, 0);
        request.lock = locks[at];
        CHECK(vlm_client_convert(client, &request) == VLM_NORMAL);
    }
    vlm_client_close(client);
}

static void *reopen_once(void *client) { return vlm_client_reopen(client) == VLM_NORMAL ? client : NULL; }

/* Of threads that reopen at once, one does. */
static void test_reopen(void) {
    vlm_client *client = opened((vlm_client_options){0}), *other;
    pthread_t threads[THREADS];
    int done = 0;
    kill_daemon();
    await_loss(client);
    start_daemon();
    other = opened((vlm_client_options){0});
    for (int at = 0; at < THREADS; at++)
        pthread_create(&threads[at], NULL, reopen_once, client);
    for (int at = 0; at < THREADS; at++) {
        void *reopened;
        pthread_join(threads[at], &reopened);
        done += reopened != NULL;
    }
    CHECK(done == 1 && declared(client) != 0);
    vlm_client_close(client);
    vlm_client_close(other);
}

/* Two losses before a dispatch: one call tells both. */
static void test_losses(void) {
    vlm_client_options options = {.delivery = VLM_THREADS_BY_PROGRAM, .on_lost = on_lost, .lost_context = &told};
    vlm_client *client = opened(options);
    uint32_t delivered;
    memset(&told, 0, sizeof told);
    for (int round = 0; round < 2; round++) {
        kill_daemon();
        await_loss(client);
        reopen(client);
    }
    CHECK(vlm_client_dispatch(client, &delivered) == VLM_NORMAL && delivered == 1 && told.losses == 1);
    CHECK(vlm_client_dispatch(client, &delivered) == VLM_NORMAL && delivered == 0);
    kill_daemon();
    await_loss(client);
    CHECK(vlm_client_dispatch(client, &delivered) == VLM_NORMAL && delivered == 1 && told.losses == 2);
    vlm_client_close(client);
    start_daemon();
}

static atomic_bool is_waiting;

static void *wait_shortly(void *argument) {
    struct waiter *waiter = argument;
    vlm_threads_request request = wanted(waiter->pid, VLM_EX, 0);
    request.milliseconds = 200;
    is_waiting = true;
    waiter->answer = enq(waiter->client, &request, waiter->name);
    pthread_testcancel();
    return NULL;
}

/* A thread that is cancelled during a call ends after it. On a busy machine a thread begins late. */
static void test_cancelled(void) {
    vlm_client *client = opened((vlm_client_options){0});
    struct waiter waiter = {client, declared(client), 0, "A"};
    uint32_t pid = declared(client);
    vlm_threads_request held = wanted(pid, VLM_EX, 0);
    void *end;
    pthread_t thread;
    CHECK(enq(client, &held, "A") == VLM_NORMAL);
    pthread_create(&thread, NULL, wait_shortly, &waiter);
    while (!is_waiting)
        usleep(1000);
    usleep(50000);
    pthread_cancel(thread);
    pthread_join(thread, &end);
    CHECK(end == PTHREAD_CANCELED && waiter.answer == VLM_TIMEOUT && deq(client, pid, held.lkid, 0) == VLM_NORMAL);
    vlm_client_close(client);
}

static void on_dispatched(void *context, const vlm_threads_event *event) {
    struct pollfd ready = {.fd = *(int *)context, .events = POLLIN};
    CHECK(event->kind == VLM_COMPLETION && poll(&ready, 1, 0) == 0);
    told.completions++;
}

/* The descriptor is not readable during a dispatch. A warning of a lock that has gone is not counted. A rundown drops
 * the pending events of its process, and no others. */
static void test_pending(void) {
    vlm_client *client = opened((vlm_client_options){.delivery = VLM_THREADS_BY_PROGRAM});
    uint32_t pid = declared(client), other = declared(client), delivered;
    struct pollfd ready = {.events = POLLIN};
    memset(&told, 0, sizeof told);
    CHECK(vlm_client_fd(client, &ready.fd) == VLM_NORMAL);
    for (uint32_t at = 0; at < 4; at++) {
        vlm_threads_request request = wanted(at % 2 == 0 ? pid : other, VLM_NL, 0);
        request.completion = on_dispatched;
        request.completion_context = &ready.fd;
        CHECK(vlm_client_start_enq(client, &request, (const uint8_t *)"A", 1) == VLM_NORMAL);
    }
    vlm_threads_request last = wanted(pid, VLM_EX, 0), late = wanted(other, VLM_EX, 0);
    last.blocking = on_blocking;
    CHECK(enq(client, &last, "B") == VLM_NORMAL);
    late.milliseconds = 100;
    CHECK(enq(client, &late, "B") == VLM_TIMEOUT && deq(client, pid, last.lkid, 0) == VLM_NORMAL);
    CHECK(vlm_client_rundown(client, other) == VLM_NORMAL && vlm_client_settle(client) == VLM_NORMAL);
    CHECK(poll(&ready, 1, 0) == 1);
    CHECK(vlm_client_dispatch(client, &delivered) == VLM_NORMAL && delivered == 2 && told.completions == 2);
    CHECK(poll(&ready, 1, 0) == 0 && told.blockings == 0);
    vlm_client_close(client);
}

static struct {
    vlm_client *client;
    atomic_bool is_over;
} chain;

/* Each routine starts the next request. */
static void on_chain(void *context, const vlm_threads_event *event) {
    vlm_threads_request request = wanted(event->pid, VLM_NL, 0);
    request.completion = on_chain;
    usleep(1000);
    if (!chain.is_over && deq(chain.client, event->pid, event->lkid, 0) == VLM_NORMAL)
        vlm_client_start_enq(chain.client, &request, (const uint8_t *)"A", 1);
    usleep(1000);
    CHECK(context == NULL);
}

/* A settle waits for the routine that runs, not for later ones. */
static void test_settle(void) {
    chain.client = opened((vlm_client_options){0});
    uint32_t pid = declared(chain.client);
    for (int at = 0; at < 3; at++) {
        vlm_threads_request request = wanted(pid, VLM_NL, 0);
        request.completion = on_chain;
        CHECK(vlm_client_start_enq(chain.client, &request, (const uint8_t *)"A", 1) == VLM_NORMAL);
    }
    usleep(20000);
    CHECK(vlm_client_settle(chain.client) == VLM_NORMAL);
    chain.is_over = true;
    vlm_client_close(chain.client);
}

static atomic_bool is_refused;
void *__real_malloc(size_t size);
void *__wrap_malloc(size_t size);

/* The linker puts this in the place of malloc. */
void *__wrap_malloc(size_t size) { return is_refused ? NULL : __real_malloc(size); }

static void *ask(void *argument) {
    struct waiter *waiter = argument;
    vlm_threads_declaration declaration = {.size = sizeof declaration, .quota = 9, .requests = 1};
    waiter->answer = vlm_client_declare(waiter->client, &declaration, &waiter->pid);
    return NULL;
}

/* The daemon hears nothing, memory is refused, and the queue is full: a rundown changes nothing, and a wait ends in
 * time all the same. */
static void test_memory(void) {
    vlm_client *client = opened((vlm_client_options){0});
    uint32_t holder = declared(client);
    struct waiter late = {client, declared(client), 0, "A"}, askers[ASKERS];
    vlm_threads_request held = wanted(holder, VLM_EX, 0);
    pthread_t thread, threads[ASKERS];
    CHECK(enq(client, &held, "A") == VLM_NORMAL);
    pthread_create(&thread, NULL, wait_shortly, &late);
    usleep(100000);
    kill(daemon_pid, SIGSTOP);
    is_refused = true;
    for (int at = 0; at < ASKERS; at++) {
        askers[at] = (struct waiter){client, 0, 0, NULL};
        pthread_create(&threads[at], NULL, ask, &askers[at]);
    }
    usleep(50000);
    CHECK(vlm_client_rundown(client, holder) == VLM_INSFMEM);
    usleep(200000);
    is_refused = false;
    kill(daemon_pid, SIGCONT);
    pthread_join(thread, NULL);
    CHECK(late.answer == VLM_TIMEOUT);
    for (int at = 0; at < ASKERS; at++)
        pthread_join(threads[at], NULL);
    CHECK(vlm_client_rundown(client, holder) == VLM_NORMAL && vlm_client_rundown(client, holder) == VLM_NONEXPR);
    vlm_client_close(client);
}

/* A service that answers each line by its first letters as a table says, and ends after the last row. With `stays` in
 * place of an answer there, it waits until its client ends the connection. */
struct row {
    const char *line, *answer;
};

static const char stays[] = "";

static struct {
    char path[128];
    int listener;
    const struct row *rows;
    atomic_int heard; /* lines */
} fake;

/* What comes for a granted request, which has a record of the client. */
#define BLOCK "p1: block 1 status 1 lock 1 value 000102030405060708090a0b0c0d0e0f\n"
#define COMPLETED(record, token) "p1: completion " record " param 0 lock 1\n" BLOCK "p1: token " token "\n"
#define GRANTED(record, token) "p1: NORMAL lock 1\n" COMPLETED(record, token)

static void *serve(void *none) {
    char line[1024];
    sigset_t all;
    sigfillset(&all);
    pthread_sigmask(SIG_SETMASK, &all, NULL);
    int descriptor = accept(fake.listener, NULL, NULL);
    FILE *lines = fdopen(descriptor, "r");
    usleep(100000);
    dprintf(descriptor, "vlm protocol 1 epoch 0\n");
    const struct row *row = fake.rows;
    for (; row->line != NULL; row++) {
        CHECK(fgets(line, sizeof line, lines) != NULL && strncmp(line, row->line, strlen(row->line)) == 0);
        fake.heard++;
        dprintf(descriptor, "%s", row->answer);
    }
    if (row->answer == stays)
        CHECK(fgets(line, sizeof line, lines) == NULL);
    shutdown(descriptor, SHUT_RDWR);
    fclose(lines);
    return none;
}

static pthread_t served(const struct row *rows, vlm_client **client) {
    struct sockaddr_un address = {.sun_family = AF_UNIX};
    pthread_t thread;
    fake.rows = rows;
    fake.heard = 0;
    snprintf(fake.path, sizeof fake.path, "%s.fake", path);
    memcpy(address.sun_path, fake.path, strlen(fake.path));
    unlink(fake.path);
    fake.listener = socket(AF_UNIX, SOCK_STREAM | SOCK_CLOEXEC, 0);
    CHECK(bind(fake.listener, (const struct sockaddr *)&address, sizeof address) == 0 && listen(fake.listener, 1) == 0);
    pthread_create(&thread, NULL, serve, NULL);
    vlm_client_options options = {.size = sizeof options, .version = VLM_VERSION, .socket = fake.path};
    CHECK(vlm_client_open(&options, client) == VLM_NORMAL);
    return thread;
}

static void end_service(pthread_t thread, vlm_client *client) {
    vlm_client_close(client);
    pthread_join(thread, NULL);
    close(fake.listener);
    unlink(fake.path);
}

static void *convert_shortly(void *context) {
    struct waiter *waiter = context;
    vlm_threads_request request = wanted(waiter->pid, VLM_PR, 0);
    request.lock = 1;
    request.milliseconds = 300;
    waiter->answer = vlm_client_convert(waiter->client, &request);
    return NULL;
}

#define OPEN \
    { "open tokens\n", "session fedcba9876543210 seconds 0 number 0 asts 0\n" }
#define DECLARE \
    { "declare", "p1: process 65537\n" }

/* The connection ends after the first, or the second of three answers, or with a line that says so: each time the call
 * answers VLM_LOST and there is no lock. */
static void test_half_answers(void) {
    static const struct row tables[][4] = {{OPEN, DECLARE, {"enq", "p1: SYNCH lock 1\n"}},
                                           {OPEN, DECLARE, {"enq", "p1: SYNCH lock 1\n" BLOCK}},
                                           {OPEN, DECLARE, {"enq", GRANTED("0", "7")}},
                                           {OPEN, DECLARE, {"enq", "session killed\n"}, {NULL, stays}},
                                           {OPEN, DECLARE, {"enq", "session moved\n"}, {NULL, stays}}};
    static const uint32_t flags[] = {VLM_SYNCSTS, VLM_SYNCSTS, 0, 0, 0};
    for (size_t at = 0; at < sizeof flags / sizeof *flags; at++) {
        vlm_client *client;
        pthread_t thread = served(tables[at], &client);
        uint8_t value[64] = {99};
        vlm_threads_request request = wanted(declared(client), VLM_EX, VLM_VALBLK | VLM_WIDE | flags[at]);
        request.value = value;
        CHECK(enq(client, &request, "A") == VLM_LOST && request.lkid == 0 && value[0] == 99);
        CHECK(deq(client, 1, 1, 0) == VLM_LOST);
        end_service(thread, client);
    }
}

/* The answer to a process that another thread has ended. */
#define ENDED "unknown name\n"

/* The connection or the process ends before the tail of a value comes, which the event of a grant brings: it tells
 * so. */
static void test_half_event(void) {
    static const struct row tables[][5] = {
        {OPEN, DECLARE, {"enq", GRANTED("0", "7")}},
        {OPEN, DECLARE, {"enq", GRANTED("0", "7")}, {"tail p1 1", ENDED}, {NULL, stays}}};
    static const uint32_t statuses[] = {VLM_LOST, VLM_NONEXPR};
    for (size_t at = 0; at < sizeof statuses / sizeof *statuses; at++) {
        vlm_client *client;
        pthread_t thread = served(tables[at], &client);
        uint8_t value[64] = {0};
        vlm_threads_request request = wanted(declared(client), VLM_EX, VLM_VALBLK | VLM_WIDE);
        request.value = value;
        request.completion = on_completion;
        request.completion_context = &told;
        memset(&told, 0, sizeof told);
        CHECK(vlm_client_start_enq(client, &request, (const uint8_t *)"A", 1) == VLM_NORMAL);
        CHECK(until(&told.completions, 1) && told.status == statuses[at]);
        end_service(thread, client);
    }
}

/* Another thread has ended the process before the request, or before the tail of its value: there is no lock. */
static void test_ended_process(void) {
    static const struct row tables[][5] = {
        {OPEN, DECLARE, {"enq", ENDED}, {NULL, stays}},
        {OPEN, DECLARE, {"enq", GRANTED("0", "7")}, {"tail p1 1", ENDED}, {NULL, stays}}};
    for (size_t at = 0; at < sizeof tables / sizeof *tables; at++) {
        vlm_client *client;
        pthread_t thread = served(tables[at], &client);
        uint8_t value[64] = {99};
        vlm_threads_request request = wanted(declared(client), VLM_EX, VLM_VALBLK | VLM_WIDE);
        request.value = value;
        CHECK(enq(client, &request, "A") == VLM_NONEXPR && request.lkid == 0 && value[0] == 99);
        end_service(thread, client);
    }
}

/* What the texts of the service's own say to a call: limits, IDs and memory that have run out, and a text that is not
 * known. */
static void test_texts(void) {
    static const struct row rows[] = {OPEN,
                                      DECLARE,
                                      {"enq", "no identifications left\n"},
                                      {"enq", "too many waiting requests\n"},
                                      {"enq", "old number\n"},
                                      {"enq", "no memory\n"},
                                      {"enq", "wrong word\n"},
                                      {NULL, stays}};
    static const uint32_t answers[] = {VLM_NOLOCKID, VLM_EXENQLM, VLM_EXENQLM, VLM_INSFMEM, VLM_BADPARAM};
    vlm_client *client;
    pthread_t thread = served(rows, &client);
    vlm_threads_request request = wanted(declared(client), VLM_EX, 0);
    for (size_t at = 0; at < sizeof answers / sizeof *answers; at++)
        CHECK(enq(client, &request, "A") == answers[at] && request.lkid == 0 && request.status == 0);
    end_service(thread, client);
}

/* While nothing was heard of the end of a conversion, another one of the lock is refused without a line: a wait for the
 * first that is too long would cancel it. */
static void test_two_conversions(void) {
    static const struct row rows[] = {OPEN,
                                      DECLARE,
                                      {"enq", GRANTED("0", "7")},
                                      {"cvt p1 1 PR", "p1: NORMAL lock 1\n"},
                                      {"deq p1 1 cancel", COMPLETED("1", "8") "p1: CANCELGRANT\n"},
                                      {"cvt p1 1 CR", GRANTED("1", "8")},
                                      {NULL, stays}};
    vlm_client *client;
    pthread_t thread = served(rows, &client);
    vlm_threads_request request = wanted(declared(client), VLM_EX, 0);
    CHECK(enq(client, &request, "A") == VLM_NORMAL);
    struct waiter first = {client, 1, 0, NULL};
    pthread_t converting;
    pthread_create(&converting, NULL, convert_shortly, &first);
    CHECK(until(&fake.heard, 4));
    request.lock = 1;
    request.mode = VLM_CR;
    CHECK(vlm_client_convert(client, &request) == VLM_CVTUNGRANT);
    pthread_join(converting, NULL);
    CHECK(first.answer == VLM_NORMAL && vlm_client_convert(client, &request) == VLM_NORMAL);
    end_service(thread, client);
}

static void *give_up_all(void *client) {
    CHECK(deq(client, 1, 0, VLM_DEQALL) == VLM_NORMAL);
    return NULL;
}

#define DEQUEUE \
    { "deq p1 0 bits=1", "" }
#define NORMAL "p1: NORMAL\n"

/* A lock that is granted after some DEQALL stays, though all answers come at once. */
static void test_late_lock(void) {
    static const struct row rows[] = {OPEN,
                                      DECLARE,
                                      DEQUEUE,
                                      DEQUEUE,
                                      DEQUEUE,
                                      DEQUEUE,
                                      {"enq", NORMAL NORMAL NORMAL NORMAL GRANTED("0", "7")},
                                      {"cvt p1 1 PR", GRANTED("1", "8")},
                                      {NULL, NULL}};
    vlm_client *client;
    pthread_t thread = served(rows, &client), threads[THREADS];
    vlm_threads_request request = wanted(declared(client), VLM_EX, 0);
    for (int at = 0; at < THREADS; at++)
        pthread_create(&threads[at], NULL, give_up_all, client);
    CHECK(until(&fake.heard, 2 + THREADS) && enq(client, &request, "A") == VLM_NORMAL);
    for (int at = 0; at < THREADS; at++)
        pthread_join(threads[at], NULL);
    request.lock = 1;
    request.mode = VLM_PR;
    CHECK(vlm_client_convert(client, &request) == VLM_NORMAL);
    end_service(thread, client);
}

static atomic_int signals;

static void on_signal(int number) { signals += number == SIGALRM; }

/* Signals interrupt an opening. */
static void test_signals(void) {
    static const struct row rows[] = {OPEN, DECLARE, {NULL, NULL}};
    const struct itimerval often = {{0, 10000}, {0, 10000}}, never = {{0, 0}, {0, 0}};
    struct sigaction action = {.sa_handler = on_signal}, before;
    vlm_client *client;
    alarm(0);
    sigaction(SIGALRM, &action, &before);
    setitimer(ITIMER_REAL, &often, NULL);
    pthread_t thread = served(rows, &client);
    setitimer(ITIMER_REAL, &never, NULL);
    sigaction(SIGALRM, &before, NULL);
    alarm(MOST_SECONDS);
    declared(client);
    CHECK(signals > 0);
    end_service(thread, client);
}

static bool is_read(vlm_client *client, const char *word, uint32_t lkid, const char *wanted) {
    char *text;
    bool is_right = vlm_client_read(client, word, lkid, &text) == VLM_NORMAL
                    && strncmp(text, wanted, strlen(wanted)) == 0 && (wanted[0] != 0 || text[0] == 0);
    free(text);
    return is_right;
}

static void *read_much(void *given) {
    for (int round = 0; round < ROUNDS; round++)
        CHECK(is_read(given, "locks", 0, "lock "));
    return NULL;
}

/* Readings, also beside other calls of the client. */
static void test_readings(void) {
    vlm_client *client = opened((vlm_client_options){0});
    uint32_t pid = declared(client);
    vlm_threads_request held = wanted(pid, VLM_EX, 0), other = wanted(pid, VLM_NL, 0);
    char row[80], *text, long_word[300] = "";
    CHECK(is_read(client, "locks", 0, "") && is_read(client, "who", 0, ""));
    CHECK(enq(client, &held, "A") == VLM_NORMAL);
    snprintf(row, sizeof row, " pid %d held EX want - granted\n", (int)getpid());
    CHECK(vlm_client_read(client, "lock", held.lkid, &text) == VLM_NORMAL && strstr(text, row) != NULL);
    CHECK(strstr(text, "\nresource ") != NULL && strstr(text, "\nparent 0 sublocks 0 granted 1 ") != NULL);
    free(text);
    /* (`lost N` is a line that clients get, too) */
    CHECK(enq(client, &other, "lost") == VLM_NORMAL && vlm_client_read(client, "who", 0, &text) == VLM_NORMAL);
    CHECK(strncmp(text, "lost ", 5) == 0 || strstr(text, "\nlost ") != NULL);
    CHECK(deq(client, pid, other.lkid, 0) == VLM_NORMAL);
    free(text);
    CHECK(is_read(client, "blocked", held.lkid, "") && is_read(client, "below", held.lkid, "below 0\n"));
    CHECK(is_read(client, "rows", 4000000000, "no such lock\n") && is_read(client, "frob", 0, "unknown command\n"));
    memset(long_word, 'x', sizeof long_word - 1);
    CHECK(vlm_client_read(client, "who\nwho", 0, &text) == VLM_BADPARAM && text == NULL);
    CHECK(vlm_client_read(client, long_word, 0, &text) == VLM_BADPARAM && text == NULL);
    /* (no answer that ends with a blank line would come) */
    static const char *const none[] = {"", " \t\r", "# who", " #", "7 who"};
    for (size_t at = 0; at < sizeof none / sizeof *none; at++)
        CHECK(vlm_client_read(client, none[at], 0, &text) == VLM_BADPARAM && text == NULL);
    pthread_t readers[THREADS];
    for (int at = 0; at < THREADS; at++)
        CHECK(pthread_create(&readers[at], NULL, read_much, client) == 0);
    for (int round = 0; round < ROUNDS; round++)
        CHECK(enq(client, &other, "B") == VLM_NORMAL && deq(client, pid, other.lkid, 0) == VLM_NORMAL);
    for (int at = 0; at < THREADS; at++)
        pthread_join(readers[at], NULL);
    kill_daemon();
    CHECK(vlm_client_read(client, "locks", 0, &text) == VLM_LOST && text == NULL);
    CHECK(vlm_client_close(client) == VLM_NORMAL);
    start_daemon();
}

/* Tokens of locks that have had one status block, of a conversion, and of requests without a grant. */
static void test_tokens(void) {
    vlm_client *client = opened((vlm_client_options){0});
    uint32_t pid = declared(client);
    uint64_t first = 0, second = 0, third = 0;
    vlm_threads_request one = wanted(pid, VLM_EX, 0), other = wanted(pid, VLM_PR, 0), waiting = wanted(pid, VLM_PR, 0);
    CHECK(enq(client, &one, "A") == VLM_NORMAL && vlm_client_token(client, one.lkid, &first) == VLM_NORMAL);
    CHECK(enq(client, &other, "B") == VLM_NORMAL && vlm_client_token(client, other.lkid, &second) == VLM_NORMAL);
    CHECK(first != 0 && second > first);
    waiting.completion = on_completion;
    waiting.completion_context = &told;
    CHECK(vlm_client_start_enq(client, &waiting, (const uint8_t *)"A", 1) == VLM_NORMAL);
    CHECK(vlm_client_token(client, waiting.lkid, &third) == VLM_IVLOCKID && third == 0);
    CHECK(vlm_client_token(client, one.lkid, &third) == VLM_NORMAL && third == first);
    one.lock = one.lkid;
    one.mode = VLM_CW;
    CHECK(vlm_client_convert(client, &one) == VLM_NORMAL);
    CHECK(vlm_client_token(client, one.lkid, &third) == VLM_NORMAL && third > second);
    CHECK(deq(client, pid, one.lkid, 0) == VLM_NORMAL);
    CHECK(vlm_client_token(client, one.lkid, &third) == VLM_IVLOCKID);
    CHECK(vlm_client_token(client, 0, &third) == VLM_IVLOCKID);
    kill_daemon();
    CHECK(vlm_client_token(client, 0, &third) == VLM_LOST);
    CHECK(vlm_client_token(client, other.lkid, &third) == VLM_LOST && third == 0);
    CHECK(vlm_client_close(client) == VLM_NORMAL);
    start_daemon();
}

static bool is_token(vlm_client *client, uint64_t wanted) {
    uint64_t token;
    uint32_t status = vlm_client_token(client, 1, &token);
    return wanted != 0 ? status == VLM_NORMAL && token == wanted : status == VLM_IVLOCKID && token == 0;
}

static void on_token(void *client, const vlm_threads_event *event) {
    CHECK(event->status == VLM_NORMAL && is_token(client, 10));
    told.completions++;
}

/* A grant brings its token, so no line asks for it: also after a conversion that fails, and in a routine. A grant at
 * once with SYNCSTS brings none, and a lock that has gone has none. */
static void test_known_tokens(void) {
    static const struct row rows[] = {
        OPEN,
        DECLARE,
        {"enq", GRANTED("0", "7")},
        {"cvt p1 1 PR", GRANTED("1", "8")},
        {"cvt p1 1 EX", "p1: NORMAL lock 1\np1: completion 1 param 0 lock 1\np1: block 1 status 6 lock 1 value 0\n"},
        {"cvt p1 1 CR", "p1: SYNCH lock 1\n"},
        {"token 1", "token 9\n\n"},
        {"cvt p1 1 NL", GRANTED("1", "10")},
        {"deq p1 1", "p1: NORMAL\n"},
        {"token 1", "no such lock\n\n"},
        {NULL, stays}};
    vlm_client *client;
    pthread_t thread = served(rows, &client);
    vlm_threads_request request = wanted(declared(client), VLM_EX, 0);
    memset(&told, 0, sizeof told);
    CHECK(enq(client, &request, "A") == VLM_NORMAL && is_token(client, 7) && is_token(client, 7));
    request.lock = 1;
    request.mode = VLM_PR;
    CHECK(vlm_client_convert(client, &request) == VLM_NORMAL && is_token(client, 8));
    request.mode = VLM_EX;
    CHECK(vlm_client_convert(client, &request) == VLM_DEADLOCK && is_token(client, 8));
    request.mode = VLM_CR;
    request.flags = VLM_SYNCSTS;
    CHECK(vlm_client_convert(client, &request) == VLM_SYNCH && is_token(client, 9));
    request = (vlm_threads_request){.size = sizeof request, .pid = 1, .lock = 1, .mode = VLM_NL};
    request.completion = on_token;
    request.completion_context = client;
    CHECK(vlm_client_start_convert(client, &request) == VLM_NORMAL && until(&told.completions, 1));
    CHECK(is_token(client, 10) && deq(client, 1, 1, 0) == VLM_NORMAL && is_token(client, 0));
    end_service(thread, client);
}

/* With a service that answers by a table. */
static void test_tables(void) {
    test_half_answers();
    test_half_event();
    test_ended_process();
    test_texts();
    test_two_conversions();
    test_late_lock();
    test_signals();
    test_known_tokens();
}

int main(int count, char **words) {
    if (count != 4)
        return 2;
    alarm(MOST_SECONDS);
    vlmd = words[1];
    config = words[2];
    path = words[3];
    CHECK(pthread_atfork(take_own, give_own, give_own) == 0);
    start_daemon();
    test_answers();
    test_malformed();
    test_values();
    test_routines();
    test_ends();
    test_race();
    test_fork(false);
    test_fork(true);
    test_heir();
    test_streams();
    test_order();
    test_loss();
    test_unsent();
    test_reopen();
    test_losses();
    test_cancelled();
    test_pending();
    test_settle();
    test_memory();
    test_tables();
    test_readings();
    test_tokens();
    kill(daemon_pid, SIGTERM);
    waitpid(daemon_pid, NULL, 0);
    puts("all calls answer as they should");
    return 0;
}
