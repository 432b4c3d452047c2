/* How much time of the processor turns of a dispatcher take at most: a turn holds up all clients. A user has as many
 * locks and as many waiting requests as it may have, and asks for what costs most. It prints the longest turn of each
 * load in milliseconds, the shortest of five times, and fails where that is more than a slow machine explains. */
#include "check.h"
#include "parts.h"

#include <stdio.h>
#include <string.h>
#include <time.h>

enum { KEYS = 16, LONGEST = 512, LOCKS = 10000, WAITING = 2000, TIMES = 5, MOST_MILLISECONDS = 100, DUE = 10000 };

static struct dispatcher *dispatcher;
static struct client *one, *two;
static double longest; /* in milliseconds */

static void be_silent(const char *text) { (void)text; }

static double now(void) {
    struct timespec time;
    clock_gettime(CLOCK_THREAD_CPUTIME_ID, &time);
    return (double)time.tv_sec * 1e3 + (double)time.tv_nsec / 1e6;
}

static void note(double begun) {
    double took = now() - begun;
    longest = took > longest ? took : longest;
}

static void end_turns(void) {
    while (dispatcher_is_busy(dispatcher)) {
        double begun = now();
        dispatcher_run(dispatcher);
        note(begun);
    }
}

static void take(struct client *client) {
    size_t len;
    client_output(client, &len);
    client_sent(client, len);
}

static void send_line(struct client *client, const char *line) {
    double begun = now();
    client_hear(client, (const uint8_t *)line, strlen(line));
    note(begun);
    end_turns();
    take(client);
}

static struct client *joined(void) {
    const struct rights rights = {.group = 1};
    struct client *client = client_open(dispatcher, &rights, 0, dispatcher);
    send_line(client, "open\n");
    send_line(client, "declare P quota=65535\n");
    return client;
}

/* Has a client ask for a lock on each of so many resources. */
static void ask(struct client *client, int count) {
    char line[LONGEST];
    for (int lock = 0; lock < count; lock++) {
        snprintf(line, sizeof line, "enq P EX name=N%d block=1\n", lock);
        send_line(client, line);
    }
}

static void show_all(void) { send_line(two, "show\n"); }

static void show_tails(void) { send_line(two, "tails\n"); }

static void who_all(void) { send_line(two, "who\n"); }

static void release_all(void) { send_line(one, "deq P 0 deqall\n"); }

static void leave_all(void) {
    double begun = now();
    client_close(one);
    note(begun);
    end_turns();
}

/* Each client waits for the other one, so a search ends a request. */
static void search_all(void) {
    send_line(two, "enq P EX name=M block=1\n");
    send_line(one, "enq P EX name=M block=1\n");
    longest = 0;
    double begun = now();
    dispatcher_tick(dispatcher, DUE);
    note(begun);
    CHECK(dispatcher->counts.victims == 1);
}

/* One client has locks, and the other one waits for some of them. The load comes then. Returns its longest turn. */
static double timed(int waiting, void (*load)(void)) {
    static const uint8_t keys[KEYS] = {1, 2, 3};
    const struct limits limits = USUAL_LIMITS;
    dispatcher = dispatcher_open(&limits, 0, keys, be_silent);
    one = joined();
    two = joined();
    ask(one, LOCKS - waiting - 2);
    ask(two, waiting);
    CHECK(vlm_lock_count(&dispatcher->manager) == LOCKS - 2);
    longest = 0;
    load();
    dispatcher_close(dispatcher);
    return longest;
}

int main(void) {
    static const struct {
        const char *name;
        int waiting;
        void (*run)(void);
    } loads[] = {{"show", 0, show_all},
                 {"tails", 0, show_tails},
                 {"who", 0, who_all},
                 {"who, and many wait", WAITING, who_all},
                 {"deqall", WAITING, release_all},
                 {"close", WAITING, leave_all},
                 {"search", WAITING - 1, search_all}};
    for (size_t at = 0; at < sizeof loads / sizeof *loads; at++) {
        double least = timed(loads[at].waiting, loads[at].run);
        for (int count = 1; count < TIMES; count++) {
            double again = timed(loads[at].waiting, loads[at].run);
            least = again < least ? again : least;
        }
        printf("%s: %.1f ms\n", loads[at].name, least);
        CHECK(least > 0 && least <= MOST_MILLISECONDS);
    }
    return 0;
}
