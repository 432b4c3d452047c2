/* A dispatcher without a daemon, and clients that ask for much or do not read. A turn has 64 lines of a client, and no
 * more lines once they have read 10,000 locks. After 64 KiB of unread answers no line of a client is run until it
 * reads, and with more than 1 MiB it is cut off. vlmd(8) has these numbers. */
#include "check.h"
#include "parts.h"

#include <stdio.h>
#include <string.h>

enum { KEYS = 16, LINES = 20000, LONGEST = 512, PAUSED = 65536, CUT = 1048576, LOCKS = 24000 };

/* Lines of a turn, and how many a client sends at once; locks that a line reads. */
enum { TURN = 64, SENT = 200, READ = 6000 };

static struct dispatcher *dispatcher;

static void be_silent(const char *text) { (void)text; }

static void send_line(struct client *client, const char *line) {
    client_hear(client, (const uint8_t *)line, strlen(line));
    while (dispatcher_is_busy(dispatcher))
        dispatcher_run(dispatcher);
}

/* Reads all that waits for a client, and returns how many bytes and lines that were. */
static size_t take(struct client *client, size_t *lines) {
    size_t len;
    const uint8_t *bytes = client_output(client, &len);
    for (size_t at = 0; at < len; at++)
        *lines += bytes[at] == '\n';
    client_sent(client, len);
    return len;
}

static struct client *joined(const char *declaration) {
    const struct rights rights = {.group = 1};
    struct client *client = client_open(dispatcher, &rights, 0, dispatcher);
    size_t lines = 0;
    send_line(client, "open\n");
    send_line(client, declaration);
    take(client, &lines);
    CHECK(lines == 3);
    return client;
}

/* The lines that a client gets in a turn: those that were left, or those that it sends. */
static size_t turn(struct client *client, const char *sent) {
    size_t lines = 0;
    if (sent == NULL)
        dispatcher_run(dispatcher);
    else
        client_hear(client, (const uint8_t *)sent, strlen(sent));
    take(client, &lines);
    return lines;
}

static void test_turns(void) {
    static char many[10 * SENT + 1];
    char line[LONGEST];
    struct client *one = joined("declare P quota=65535\n"), *two = joined("declare Q\n");
    for (int at = 0; at < SENT; at++)
        memcpy(many + (size_t)10 * at, "block P 1\n", 11);
    CHECK(turn(one, many) == TURN && turn(one, NULL) == TURN && turn(one, NULL) == TURN);
    CHECK(turn(one, NULL) == SENT % TURN && !dispatcher_is_busy(dispatcher));
    for (int lock = 0; lock < READ; lock++) {
        snprintf(line, sizeof line, "enq P NL name=N%d block=1\n", lock);
        CHECK(turn(one, line) == 1);
    }
    dispatcher_run(dispatcher);
    CHECK(turn(one, "show\n") > READ && turn(two, "show\n") == 0 && turn(two, NULL) > READ);
    client_close(one);
    client_close(two);
}

/* The client gets an answer to each of its lines, 64 KiB of them and the last one at a time. */
static void test_answers(void) {
    struct client *client = joined("declare P\n");
    size_t lines = 0;
    for (int count = 0; count < LINES; count++)
        client_hear(client, (const uint8_t *)"block P 1\n", 10);
    while (lines < LINES) {
        while (dispatcher_is_busy(dispatcher))
            dispatcher_run(dispatcher);
        bool is_heard = client_is_heard(client);
        size_t len = take(client, &lines);
        CHECK(is_heard == (len <= PAUSED) && len < PAUSED + LONGEST);
        CHECK(len > PAUSED || lines == LINES);
    }
    CHECK(lines == LINES && !client_is_cut(client));
    client_close(client);
}

/* Each lock of the client is in the way of a request, which it is told by an AST. */
static void test_asts(void) {
    struct client *client = joined("declare P quota=65535\n"), *other = joined("declare Q quota=65535\n");
    char line[LONGEST];
    size_t lines = 0, len, before = 0;
    for (int lock = 0; lock < LOCKS; lock++) {
        snprintf(line, sizeof line, "enq P PR name=N%d block=1 bast=4000000000 param=4000000000\n", lock);
        send_line(client, line);
        take(client, &lines);
    }
    for (int lock = 0; lock < LOCKS && !client_is_cut(client); lock++) {
        client_output(client, &before);
        snprintf(line, sizeof line, "enq Q EX name=N%d block=1\n", lock);
        send_line(other, line);
        take(other, &lines);
    }
    client_output(client, &len);
    CHECK(client_is_cut(client) && client_is_over(client) && !client_is_cut(other));
    CHECK(before <= CUT && before + LONGEST > CUT && len <= CUT);
    client_close(client);
    client_close(other);
}

/* A client whose user has too many bytes gets the rest of a line that is sent in part, and why. Nobody gets more. */
static void test_queued(size_t sent) {
    static const char answer[] = "P: block 1 status 0 lock 0 value 00000000000000000000000000000000\n";
    static const char last[] = "too many bytes\n";
    struct client *client = joined("declare P\n"), *other = joined("declare P\n");
    size_t rest = sent != 0 ? strlen(answer) - sent : 0, len, waiting;
    send_line(client, "block P 1\n");
    client_sent(client, sent);
    while (!client_is_cut(client)) {
        send_line(other, "block P 1\n");
        send_line(client, "block P 1\n");
    }
    const char *bytes = (const char *)client_output(client, &len);
    CHECK(len == rest + strlen(last));
    CHECK(memcmp(bytes, answer + strlen(answer) - rest, rest) == 0 && memcmp(bytes + rest, last, strlen(last)) == 0);
    client_output(other, &waiting);
    CHECK(client->user->queued == len + waiting);
    client_close(client);
    client_close(other);
}

static void test_limits(const struct limits *limits, void (*test)(size_t number), size_t number) {
    static const uint8_t keys[KEYS] = {1, 2, 3};
    dispatcher = dispatcher_open(limits, 0, keys, be_silent);
    test(number);
    dispatcher_close(dispatcher);
}

static void test_usual(size_t number) {
    (void)number;
    test_turns();
    test_answers();
    test_asts();
}

int main(void) {
    struct limits usual = USUAL_LIMITS, few = USUAL_LIMITS;
    usual.locks = usual.waiting = 2 * LOCKS;
    few.queued = LONGEST;
    test_limits(&usual, test_usual, 0);
    test_limits(&few, test_queued, 0);
    test_limits(&few, test_queued, strlen("P: block"));
    return 0;
}
