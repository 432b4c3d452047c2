/* Bytes of a client become lines. A line that has not come whole is kept. A client whose lines are more than it may run
 * in a turn keeps them for the next turn. */
#include "parts.h"

#include <stdlib.h>
#include <string.h>

/* Keeps bytes of which no line was made yet. Without memory the client ends. */
static void keep(struct client *client, const uint8_t *bytes, size_t len) {
    if (client->in_from != 0 && client->in_from + client->in_len + len > client->in_room) {
        memmove(client->in, client->in + client->in_from, client->in_len);
        client->in_from = 0;
    }
    if (client->in_len + len > client->in_room) {
        uint8_t *in = realloc(client->in, client->in_len + len);
        if (in == NULL) {
            client_end(client);
            return;
        }
        client->in = in;
        client->in_room = client->in_len + len;
    }
    memcpy(client->in + client->in_from + client->in_len, bytes, len);
    client->in_len += len;
}

/* Drops kept bytes from the front. */
static void drop(struct client *client, size_t len) {
    client->in_from += len;
    client->in_len -= len;
    if (client->in_len == 0) {
        free(client->in);
        client->in = NULL;
        client->in_from = client->in_room = 0;
    }
}

static bool may_run(const struct client *client) {
    return !client->is_over && !client->is_waiting && unsent(client) <= PAUSE;
}

/* Runs whole lines, as many as a turn allows, and returns how many bytes they had. */
static size_t run_lines(struct client *client, const uint8_t *bytes, size_t len) {
    size_t done = 0;
    const struct dispatcher *dispatcher = client->dispatcher;
    for (uint32_t lines = 0; lines < dispatcher->limits.lines && may_run(client); lines++) {
        if (dispatcher_is_spent(dispatcher))
            break;
        const uint8_t *end = len > done ? memchr(bytes + done, '\n', len - done) : NULL;
        if (end == NULL)
            return done;
        size_t line = (size_t)(end - bytes) - done;
        if (!run_line(client, (const char *)bytes + done, line))
            return done;
        done += line + 1;
    }
    /* (a client that has to read first becomes ready when it has) */
    if (may_run(client) && len > done && memchr(bytes + done, '\n', len - done) != NULL)
        make_ready(client);
    return done;
}

/* Of a line that is too long in any case, keeps no more than tells so. */
static size_t without_excess(struct client *client, const uint8_t **bytes, size_t len) {
    if (!client->is_long)
        return len;
    const uint8_t *end = memchr(*bytes, '\n', len);
    if (end == NULL)
        return 0;
    len -= (size_t)(end - *bytes);
    *bytes = end;
    client->is_long = false;
    return len;
}

static void note_excess(struct client *client) {
    if (client->in_len <= NUMBERED || memchr(client->in + client->in_from, '\n', client->in_len) != NULL)
        return;
    client->in_len = NUMBERED + 1;
    client->is_long = true;
}

/* Once no more comes and all lines have run, the client is over. */
static void end_if_done(struct client *client) {
    if (client->is_ended && !client->is_ready && !client->is_waiting && !client->is_over && unsent(client) <= PAUSE)
        client_end(client);
}

void client_hear(struct client *client, const uint8_t *bytes, size_t len) {
    if (client->is_over)
        return;
    if (len == 0)
        client->is_ended = true;
    len = without_excess(client, &bytes, len);
    size_t done = 0;
    if (client->in_len == 0)
        done = run_lines(client, bytes, len);
    if (len > done && !client->is_over) {
        keep(client, bytes + done, len - done);
        if (done == 0)
            run_heard(client);
    }
    note_excess(client);
    end_if_done(client);
}

/* Runs lines that were kept. */
void run_heard(struct client *client) {
    if (client->in_len != 0 && !client->is_over)
        drop(client, run_lines(client, client->in + client->in_from, client->in_len));
    end_if_done(client);
}

bool client_is_heard(const struct client *client) {
    return !client->is_over && !client->is_ended && !client->is_ready && !client->is_waiting && unsent(client) <= PAUSE;
}
