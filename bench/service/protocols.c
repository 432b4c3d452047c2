/* vlmd and its replicas by lines, Redis by SET NX and a script, PostgreSQL by prepared advisory locks. */
#define _GNU_SOURCE
#include "protocols.h"

#include <arpa/inet.h>
#include <stdint.h>
#include <stdio.h>
#include <stdlib.h>
#include <string.h>
#include <sys/socket.h>
#include <unistd.h>

static bool send_all(int descriptor, const char *bytes, size_t len) {
    return send(descriptor, bytes, len, MSG_NOSIGNAL) == (ssize_t)len;
}

/* Reads until a text is there. */
static bool read_until(int descriptor, char *in, const char *text) {
    size_t len = 0;
    do {
        ssize_t more = recv(descriptor, in + len, IN_ROOM - 1 - len, 0);
        if (more <= 0)
            return false;
        len += (size_t)more;
        in[len] = 0;
    } while (memmem(in, len, text, strlen(text)) == NULL);
    return true;
}

static size_t fail(const char *in, size_t len) {
    fprintf(stderr, "refused: %.*s\n", (int)(len < 80 ? len : 80), in);
    exit(1);
}

/* vlmd */

static bool begin_lines(int descriptor, const char *lines) {
    char in[IN_ROOM];
    return send_all(descriptor, lines, strlen(lines)) && read_until(descriptor, in, "P: process");
}

static bool begin_vlmd(int descriptor) { return begin_lines(descriptor, "open\ndeclare P quota=100 blocks=9\n"); }

/* The lease lasts longer than a run, and longer than the connection. */
static bool begin_replica(int descriptor) {
    return begin_lines(descriptor, "open seconds=60\ndeclare P quota=100 blocks=9\n");
}

static size_t lock_vlmd(char *out, unsigned client, unsigned resource, bool may_wait) {
    (void)client;
    return (size_t)sprintf(out, "enq P EX name=r%u block=1%s\n", resource, may_wait ? " ast=1" : "");
}

/* Other drivers, and sessions that one has left, have other resources. */
static size_t lock_replica(char *out, unsigned client, unsigned resource, bool may_wait) {
    (void)client;
    return (size_t)sprintf(out, "enq P EX name=r%d-%u block=1%s\n", (int)getpid(), resource, may_wait ? " ast=1" : "");
}

static size_t unlock_vlmd(char *out, unsigned client, unsigned resource) {
    (void)client, (void)resource;
    return (size_t)sprintf(out, "deq P @1\n");
}

static size_t next_vlmd(const char *in, size_t len, enum answer *answer) {
    const char *feed = memchr(in, '\n', len);
    if (feed == NULL)
        return 0;
    size_t line = (size_t)(feed - in) + 1;
    /* (a grant is whole with the line of its status block) */
    *answer = strncmp(in, "P: c", 4) == 0 ? NOTHING : strncmp(in, "P: b", 4) == 0 ? GRANT : ANSWER;
    return *answer == ANSWER && strncmp(in, "P: NORMAL", 9) != 0 ? fail(in, line) : line;
}

/* Redis */

enum { SHA = 40 };

static char sha[SHA + 1];

/* Forgets all locks: a client that has gone leaves its own for 30 seconds. */
static bool begin_redis(int descriptor) {
    static const char flush[] = "*1\r\n$8\r\nFLUSHALL\r\n";
    static const char script[] = "if redis.call('get',KEYS[1])==ARGV[1] then return redis.call('del',KEYS[1]) "
                                 "else return 0 end";
    char out[1024], in[IN_ROOM];
    int len =
        snprintf(out, sizeof out, "*3\r\n$6\r\nSCRIPT\r\n$4\r\nLOAD\r\n$%zu\r\n%s\r\n", sizeof script - 1, script);
    if (!send_all(descriptor, flush, sizeof flush - 1) || !read_until(descriptor, in, "\r\n")
        || !send_all(descriptor, out, (size_t)len) || !read_until(descriptor, in, "\r\n") || strlen(in) < 5 + SHA)
        return false;
    memcpy(sha, in + 5, SHA);
    return true;
}

static size_t lock_redis(char *out, unsigned client, unsigned resource, bool may_wait) {
    (void)may_wait;
    return (size_t)sprintf(out,
                           "*6\r\n$3\r\nSET\r\n$6\r\nr%05u\r\n$6\r\nt%05u\r\n$2\r\nNX\r\n$2\r\nPX\r\n$5\r\n30000\r\n",
                           resource, client);
}

static size_t unlock_redis(char *out, unsigned client, unsigned resource) {
    return (size_t)sprintf(out, "*5\r\n$7\r\nEVALSHA\r\n$40\r\n%s\r\n$1\r\n1\r\n$6\r\nr%05u\r\n$6\r\nt%05u\r\n", sha,
                           resource, client);
}

static size_t next_redis(const char *in, size_t len, enum answer *answer) {
    const char *feed = memchr(in, '\n', len);
    if (feed == NULL)
        return 0;
    size_t line = (size_t)(feed - in) + 1;
    *answer = in[0] == '$' ? REFUSED : ANSWER;
    return in[0] == '-' || strncmp(in, ":0", 2) == 0 ? fail(in, line) : line;
}

/* PostgreSQL */

struct message {
    char *at;
};

static void put(struct message *message, const void *bytes, size_t len) {
    memcpy(message->at, bytes, len);
    message->at += len;
}

static void put_number(struct message *message, uint32_t number) {
    uint32_t big = htonl(number);
    put(message, &big, sizeof big);
}

static void put_short(struct message *message, uint16_t number) {
    uint16_t big = htons(number);
    put(message, &big, sizeof big);
}

static void prepare(struct message *message, const char *name, const char *text) {
    size_t len = strlen(text) + 1;
    put(message, "P", 1);
    put_number(message, (uint32_t)(4 + 2 + len + 2 + 4));
    put(message, name, 2);
    put(message, text, len);
    put_short(message, 1);
    put_number(message, 20); /* bigint */
}

static void add_sync(struct message *message) {
    put(message, "S", 1);
    put_number(message, 4);
}

/* Reads until the server says that it is ready. */
static bool read_ready(int descriptor) {
    static const char ready[] = "Z\0\0\0\5I";
    char in[IN_ROOM];
    for (size_t len = 0; len < 6 || memcmp(in + len - 6, ready, 6) != 0;) {
        ssize_t more = recv(descriptor, in + len, IN_ROOM - len, 0);
        if (more <= 0)
            return false;
        len += (size_t)more;
    }
    return true;
}

static bool begin_postgresql(int descriptor) {
    static const char start[] = "user\0postgres\0database\0postgres\0";
    char out[1024];
    struct message message = {out};
    put_number(&message, (uint32_t)(8 + sizeof start));
    put_number(&message, 196608); /* version 3.0 */
    put(&message, start, sizeof start);
    if (!send_all(descriptor, out, (size_t)(message.at - out)) || !read_ready(descriptor))
        return false;
    message.at = out;
    prepare(&message, "l", "SELECT pg_advisory_lock($1)");
    prepare(&message, "u", "SELECT pg_advisory_unlock($1)");
    add_sync(&message);
    return send_all(descriptor, out, (size_t)(message.at - out)) && read_ready(descriptor);
}

static size_t execute(char *out, const char *statement, unsigned resource) {
    char key[16];
    struct message message = {out};
    int len = snprintf(key, sizeof key, "%u", resource + 1);
    put(&message, "B", 1);
    put_number(&message, (uint32_t)(4 + 1 + 2 + 2 + 2 + 4 + len + 2));
    put(&message, "", 1);
    put(&message, statement, 2);
    put_short(&message, 0);
    put_short(&message, 1);
    put_number(&message, (uint32_t)len);
    put(&message, key, (size_t)len);
    put_short(&message, 0);
    put(&message, "E", 1);
    put_number(&message, 4 + 1 + 4);
    put(&message, "", 1);
    put_number(&message, 0);
    add_sync(&message);
    return (size_t)(message.at - out);
}

static size_t lock_postgresql(char *out, unsigned client, unsigned resource, bool may_wait) {
    (void)client, (void)may_wait;
    return execute(out, "l", resource);
}

static size_t unlock_postgresql(char *out, unsigned client, unsigned resource) {
    (void)client;
    return execute(out, "u", resource);
}

/* The messages up to the one that says that the server is ready are one answer. */
static size_t next_postgresql(const char *in, size_t len, enum answer *answer) {
    for (size_t at = 0; at + 5 <= len;) {
        uint32_t size;
        memcpy(&size, in + at + 1, sizeof size);
        size = ntohl(size) + 1;
        if (at + size > len)
            return 0;
        if (in[at] == 'E')
            fail(in + at + 5, size - 5);
        at += size;
        *answer = ANSWER;
        if (in[at - size] == 'Z')
            return at;
    }
    return 0;
}

const struct protocol *find_protocol(const char *name) {
    static const struct protocol protocols[] = {
        {"vlmd", true, begin_vlmd, lock_vlmd, unlock_vlmd, next_vlmd},
        {"replica", true, begin_replica, lock_replica, unlock_vlmd, next_vlmd},
        {"redis", false, begin_redis, lock_redis, unlock_redis, next_redis},
        {"postgresql", false, begin_postgresql, lock_postgresql, unlock_postgresql, next_postgresql}};
    for (size_t at = 0; at < sizeof protocols / sizeof *protocols; at++)
        if (strcmp(protocols[at].name, name) == 0)
            return &protocols[at];
    return NULL;
}
