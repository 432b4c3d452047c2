/* Tokens of a dispatcher without a daemon. The last one never gets smaller, and may go beyond the tokens of an epoch.
 * The table of tokens is spread well by all keys: a long row of taken places would be searched in each step. */
#include "parts.h"

#include <inttypes.h>
#include <stdio.h>
#include <stdlib.h>
#include <string.h>

enum { KEYS = 16, EPOCH = 3, TRIES = 400, LOCKS = 900, LONGEST = 64 };

static struct dispatcher *dispatcher;
static struct client *client;

static void be_silent(const char *text) { (void)text; }

/* Sends a line, and wants its answer. */
static void ask(const char *line, const char *wanted) {
    size_t len;
    client_hear(client, (const uint8_t *)line, strlen(line));
    client_hear(client, (const uint8_t *)"\n", 1);
    const uint8_t *answer = client_output(client, &len);
    if (len != strlen(wanted) || memcmp(answer, wanted, len) != 0) {
        fprintf(stderr, "%s: %.*s and not %s", line, (int)len, (const char *)answer, wanted);
        exit(1);
    }
    client_sent(client, len);
}

static void start(const uint8_t keys[KEYS]) {
    static const struct limits limits = USUAL_LIMITS;
    const struct rights rights = {.group = 1};
    dispatcher = dispatcher_open(&limits, EPOCH, keys, be_silent);
    client = client_open(dispatcher, &rights, 0, dispatcher);
    ask("# hello", "vlm protocol 1 epoch 3\n");
    ask("open", "session 0000000100000000 seconds 0 number 0 asts 0\n");
    ask("declare P", "P: process 65537\n");
}

/* Converts the lock, which then has this token. The daemon is to write this epoch down. */
static void convert(uint64_t token, uint32_t epoch) {
    char wanted[64];
    snprintf(wanted, sizeof wanted, "token %" PRIu64 "\n\n", token);
    ask("cvt P @1 EX block=1", "P: NORMAL lock 12884901889\n");
    ask("token 12884901889", wanted);
    if (dispatcher_epoch(dispatcher) != epoch) {
        fprintf(stderr, "epoch %" PRIu32 " and not %" PRIu32 "\n", dispatcher_epoch(dispatcher), epoch);
        exit(1);
    }
}

static void test_last_token(void) {
    static const uint8_t keys[KEYS] = {1, 2, 3};
    const uint64_t first = (uint64_t)EPOCH << TOKEN_BITS, next = (uint64_t)(EPOCH + 1) << TOKEN_BITS;
    start(keys);
    dispatcher_set_token(dispatcher, first);
    ask("enq P NL name=A block=1", "P: NORMAL lock 12884901889\n");
    convert(first + 2, EPOCH);
    dispatcher_set_token(dispatcher, 5);
    convert(first + 3, EPOCH);
    dispatcher_set_token(dispatcher, next - 2);
    convert(next - 1, EPOCH);
    convert(next, EPOCH + 1);
    dispatcher_set_token(dispatcher, next);
    convert(next + 1, EPOCH + 1);
    dispatcher_close(dispatcher);
}

/* The most places of the table that are taken in a row. */
static size_t longest_row(void) {
    size_t longest = 0, row = 0, room = dispatcher->token_room;
    for (size_t at = 0; at < 2 * room; at++) {
        row = dispatcher->tokens[at % room].lkid != 0 ? row + 1 : 0;
        longest = row > longest ? row : longest;
    }
    return longest;
}

/* Locks with IDs that follow each other, by many keys. */
static void test_spread(void) {
    uint64_t keys[2] = {0, 0};
    for (int at = 0; at < TRIES; at++) {
        for (size_t half = 0; half < 2; half++)
            keys[half] = (keys[half] + half + 1) * UINT64_C(6364136223846793005) + 1;
        start((const uint8_t *)keys);
        for (uint64_t lock = 1; lock <= LOCKS; lock++) {
            char wanted[64];
            snprintf(wanted, sizeof wanted, "P: NORMAL lock %" PRIu64 "\n", ((uint64_t)EPOCH << 32) + lock);
            ask("enq P NL name=A block=1", wanted);
        }
        if (longest_row() > LONGEST) {
            fprintf(stderr, "%zu places in a row are taken\n", longest_row());
            exit(1);
        }
        dispatcher_close(dispatcher);
    }
}

int main(void) {
    test_last_token();
    test_spread();
    return 0;
}
