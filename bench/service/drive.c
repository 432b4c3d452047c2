/* drive PROTOCOL SOCKET CLIENTS DEPTH SECONDS LOAD [POLL]: one thread drives many clients of a lock service.
 *
 * Each client locks and unlocks again and again, with DEPTH requests under way. LOAD is `own`, a resource for each
 * client; `same`, one resource; or `sleepy`, one resource that a client holds for 2 ms and then rests 1 ms. A client
 * of a service that refuses asks again after POLL microseconds. It prints pairs a second, how many pairs there were,
 * and the median and the 99th percentile of a lock and of a hand-over, in microseconds. A hand-over is from the send of
 * an unlock to the grant of the next client that waited. */
#define _GNU_SOURCE
#include "protocols.h"

#include <errno.h>
#include <fcntl.h>
#include <stdint.h>
#include <stdio.h>
#include <stdlib.h>
#include <string.h>
#include <sys/epoll.h>
#include <sys/socket.h>
#include <sys/un.h>
#include <time.h>
#include <unistd.h>

enum { HOLD = 2000000, REST = 1000000, WAIT = 100000000, EVENTS = 256, FINE = 16, POWERS = 64 };

enum state { IDLE, ASKED, QUEUED, HOLDS, GIVING, SLEEPS, RESTS };

struct client {
    int descriptor;
    unsigned id;
    enum state state;
    uint64_t since; /* the request was sent */
    uint64_t due;   /* HOLDS, SLEEPS and RESTS end */
    uint64_t freed; /* the first unlock while it waited */
    bool next_is_lock;
    size_t len;
    char in[IN_ROOM];
};

/* How often a time was so long, in powers of two and sixteenths of them. */
struct times {
    uint64_t count, at[POWERS * FINE];
};

static const struct protocol *protocol;
static struct client *clients;
static unsigned client_count, depth;
static bool is_same, is_sleepy;
static uint64_t poll_time, pairs;
static struct times locks, hands;
static char out[OUT_ROOM];
static size_t out_len;

static uint64_t now(void) {
    struct timespec time;
    clock_gettime(CLOCK_MONOTONIC, &time);
    return (uint64_t)time.tv_sec * 1000000000 + (uint64_t)time.tv_nsec;
}

static void add(struct times *times, uint64_t time) {
    unsigned power = time < FINE ? 0 : 60 - (unsigned)__builtin_clzll(time);
    times->at[(size_t)power * FINE + (time >> power) % FINE]++;
    times->count++;
}

static double quantile(const struct times *times, double part) {
    uint64_t wanted = (uint64_t)(part * (double)times->count), seen = 0;
    for (unsigned at = 0; at < POWERS * FINE; at++)
        if ((seen += times->at[at]) > wanted)
            return (double)((uint64_t)(at % FINE) << at / FINE) / 1000;
    return 0;
}

static void fail(const char *what) {
    perror(what);
    exit(1);
}

static void flush(const struct client *client) {
    for (size_t at = 0; at < out_len;) {
        ssize_t sent = send(client->descriptor, out + at, out_len - at, MSG_NOSIGNAL);
        if (sent > 0)
            at += (size_t)sent;
        else if (errno != EAGAIN)
            fail("send");
    }
    out_len = 0;
}

static void ask(const struct client *client, bool is_lock) {
    unsigned resource = is_same ? 0 : client->id;
    out_len += is_lock ? protocol->lock(out + out_len, client->id, resource, is_same)
                       : protocol->unlock(out + out_len, client->id, resource);
}

static void lock(struct client *client) {
    client->state = ASKED;
    client->since = now();
    ask(client, true);
    flush(client);
}

/* Gives a lock up. Those that wait are from here on waiting for the hand-over. */
static void unlock(struct client *client) {
    uint64_t time = now();
    client->state = GIVING;
    for (unsigned at = 0; is_same && at < client_count; at++) {
        struct client *other = &clients[at];
        bool is_waiting = other->state == ASKED || other->state == QUEUED || other->state == SLEEPS;
        if (is_waiting && (other->freed == 0 || !is_sleepy))
            other->freed = time;
    }
    ask(client, false);
    flush(client);
}

static void take_grant(struct client *client, uint64_t time) {
    add(&locks, time - client->since);
    if (client->freed != 0)
        add(&hands, time - client->freed);
    client->freed = 0;
    client->state = HOLDS;
    client->due = time + HOLD;
    if (!is_sleepy)
        unlock(client);
}

static void take_unlock(struct client *client, uint64_t time) {
    pairs++;
    client->state = RESTS;
    client->due = time + REST;
    if (!is_sleepy)
        lock(client);
}

static void ask_again(struct client *client) {
    client->state = ASKED;
    ask(client, true);
    flush(client);
}

/* An answer of a client with one request under way. */
static void take(struct client *client, enum answer answer, uint64_t time) {
    if (answer == REFUSED && client->state == ASKED) {
        client->state = SLEEPS;
        client->due = time + poll_time;
        if (poll_time == 0)
            ask_again(client);
    } else if (answer == ANSWER && client->state == ASKED && protocol->tells_grants && is_same) {
        client->state = QUEUED;
    } else if ((answer == ANSWER && client->state == ASKED) || (answer == GRANT && client->state == QUEUED)) {
        take_grant(client, time);
    } else if (answer == ANSWER && client->state == GIVING) {
        take_unlock(client, time);
    }
}

/* Sends as many requests as were answered, for a client with many under way. */
static void refill(struct client *client, unsigned answers) {
    for (; answers > 0; answers--) {
        pairs += !client->next_is_lock;
        ask(client, client->next_is_lock);
        client->next_is_lock = !client->next_is_lock;
    }
    flush(client);
}

static void hear(struct client *client) {
    ssize_t more = recv(client->descriptor, client->in + client->len, IN_ROOM - client->len, 0);
    if (more < 0 && errno == EAGAIN)
        return;
    if (more <= 0)
        fail("recv");
    client->len += (size_t)more;
    uint64_t time = now();
    size_t at = 0, len;
    unsigned answers = 0;
    enum answer answer = PART;
    while ((len = protocol->next(client->in + at, client->len - at, &answer)) != 0) {
        at += len;
        answers += answer == ANSWER;
        if (depth == 1)
            take(client, answer, time);
    }
    client->len -= at;
    memmove(client->in, client->in + at, client->len);
    if (depth > 1)
        refill(client, answers);
}

static void connect_client(struct client *client, unsigned id, const char *path, int epoll) {
    struct sockaddr_un address = {.sun_family = AF_UNIX};
    snprintf(address.sun_path, sizeof address.sun_path, "%s", path);
    client->id = id;
    client->next_is_lock = depth % 2 == 0;
    client->descriptor = socket(AF_UNIX, SOCK_STREAM, 0);
    if (connect(client->descriptor, (const struct sockaddr *)&address, sizeof address) != 0)
        fail("connect");
    if (!protocol->begin(client->descriptor))
        fail("begin");
    fcntl(client->descriptor, F_SETFL, O_NONBLOCK);
    struct epoll_event event = {.events = EPOLLIN, .data.ptr = client};
    epoll_ctl(epoll, EPOLL_CTL_ADD, client->descriptor, &event);
}

static void begin(struct client *client) {
    if (depth == 1) {
        lock(client);
        return;
    }
    for (unsigned request = 0; request < depth; request++)
        ask(client, request % 2 == 0);
    flush(client);
}

/* Does what is due, and returns when something is due next. */
static uint64_t do_due(uint64_t time) {
    uint64_t next = time + WAIT;
    for (unsigned at = 0; (is_sleepy || poll_time != 0) && at < client_count; at++) {
        struct client *client = &clients[at];
        if (client->state != HOLDS && client->state != SLEEPS && client->state != RESTS)
            continue;
        if (client->due > time)
            next = client->due < next ? client->due : next;
        else if (client->state == HOLDS)
            unlock(client);
        else if (client->state == RESTS)
            lock(client);
        else
            ask_again(client);
    }
    return next;
}

static void run(uint64_t end, int epoll) {
    struct epoll_event events[EVENTS];
    for (uint64_t time = now(); time < end; time = now()) {
        uint64_t left = do_due(time) - time;
        struct timespec wait = {0, (long)left};
        int count = epoll_pwait2(epoll, events, EVENTS, &wait, NULL);
        for (int at = 0; at < count; at++)
            hear(events[at].data.ptr);
    }
}

int main(int count, char **words) {
    if (count < 7 || (protocol = find_protocol(words[1])) == NULL)
        return 2;
    client_count = (unsigned)strtoul(words[3], NULL, 10);
    depth = (unsigned)strtoul(words[4], NULL, 10);
    double seconds = strtod(words[5], NULL);
    is_sleepy = strcmp(words[6], "sleepy") == 0;
    is_same = is_sleepy || strcmp(words[6], "same") == 0;
    poll_time = count > 7 ? strtoul(words[7], NULL, 10) * 1000 : 0;
    int epoll = epoll_create1(0);
    clients = calloc(client_count, sizeof *clients);
    if (clients == NULL)
        fail("memory");
    for (unsigned at = 0; at < client_count; at++)
        connect_client(&clients[at], at, words[2], epoll);
    uint64_t start = now();
    for (unsigned at = 0; at < client_count; at++)
        begin(&clients[at]);
    run(start + (uint64_t)(seconds * 1e9), epoll);
    printf("%.0f %llu %.1f %.1f %.1f %.1f\n", (double)pairs * 1e9 / (double)(now() - start), (unsigned long long)pairs,
           quantile(&locks, 0.5), quantile(&locks, 0.99), quantile(&hands, 0.5), quantile(&hands, 0.99));
    return 0;
}
