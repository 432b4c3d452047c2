/* Bytes for clients, and printed lines with handles of 64 bits. */
#include "parts.h"

#include <inttypes.h>
#include <stdarg.h>
#include <stdio.h>
#include <stdlib.h>
#include <string.h>

enum { LONGEST_TEXT = 512 };

void say(const struct dispatcher *dispatcher, const char *format, ...) {
    char text[LONGEST_TEXT];
    va_list values;
    va_start(values, format);
    vsnprintf(text, sizeof text, format, values);
    va_end(values);
    dispatcher->log(text);
}

/* The daemon is to look at a client. */
void note_change(struct client *client) {
    if (client->is_changed || client->is_detached)
        return;
    struct client *next = client->dispatcher->changed;
    client->is_changed = true;
    client->next_changed = next;
    client->previous_changed = NULL;
    if (next != NULL)
        next->previous_changed = client;
    client->dispatcher->changed = client;
}

/* The daemon has looked at a client, or is not to. */
void drop_change(struct client *client) {
    struct client *next = client->next_changed, *previous = client->previous_changed;
    if (!client->is_changed)
        return;
    client->is_changed = false;
    if (next != NULL)
        next->previous_changed = previous;
    if (previous != NULL)
        previous->next_changed = next;
    else
        client->dispatcher->changed = next;
}

size_t unsent(const struct client *client) { return client->out_len - client->out_from; }

static bool make_room(struct client *client, size_t len) {
    if (client->out_len + len <= client->out_room)
        return true;
    size_t room = client->out_room != 0 ? client->out_room : KEPT_ROOM;
    while (room < client->out_len + len)
        room *= 2;
    uint8_t *out = realloc(client->out, room);
    if (out == NULL)
        return false;
    client->out = out;
    client->out_room = room;
    return true;
}

/* Drops what is not sent yet, except for the rest of a line that is sent in part. */
static void drop_unsent(struct client *client) {
    size_t kept = 0;
    if (client->is_amid) {
        const uint8_t *from = client->out + client->out_from, *end = memchr(from, '\n', unsent(client));
        kept = end != NULL ? (size_t)(end - from) + 1 : 0;
        client->is_amid = end == NULL;
    }
    client->user->queued -= unsent(client) - kept;
    client->out_len = client->out_from + kept;
}

static void add(struct client *client, const void *bytes, size_t len) {
    memcpy(client->out + client->out_len, bytes, len);
    client->out_len += len;
    client->user->queued += len;
}

/* Ends a client whose bytes can't be kept. It may have a last line, which its socket takes now or never. */
static void cut_off(struct client *client, const char *reason, const char *last) {
    if (client->is_cut)
        return;
    client->is_cut = true;
    drop_unsent(client);
    if (last != NULL && !client->is_amid && make_room(client, strlen(last)))
        add(client, last, strlen(last));
    /* (a replica runs the lines of a client until the others do not either) */
    client->is_over |= !client->dispatcher->is_replica;
    client->dispatcher->counts.cut_off++;
    say(client->dispatcher, "client with pid %" PRIu32 " of user %" PRIu32 " is cut off: %s", client->rights.pid,
        client->rights.uid, reason);
}

void put(struct client *client, const void *bytes, size_t len) {
    note_change(client);
    if (client->is_cut || client->is_detached || len == 0)
        return;
    if (!client->is_told_at_length && unsent(client) + len > MOST_UNSENT + client->out_long) {
        cut_off(client, "it does not read", NULL);
    } else if (client->user->queued + len > client->dispatcher->limits.queued) {
        cut_off(client, "too many bytes wait for its user", "too many bytes\n");
    } else if (!make_room(client, len)) {
        cut_off(client, "no memory", NULL);
    } else {
        add(client, bytes, len);
    }
}

/* Puts what a client did not ask for, such as a grant. The daemon looks at the client before all others, which only
 * have answers so far. */
void put_news(struct client *client, const void *bytes, size_t len) {
    drop_change(client);
    put(client, bytes, len);
}

void put_text(struct client *client, const char *text) { put(client, text, strlen(text)); }

void put_format(struct client *client, const char *format, ...) {
    char text[LONGEST_TEXT];
    va_list values;
    va_start(values, format);
    int len = vsnprintf(text, sizeof text, format, values);
    va_end(values);
    put(client, text, len < (int)sizeof text ? (size_t)len : sizeof text - 1);
}

/* Writes a number in decimal digits before `end`, and returns how many there are. Most lines and answers have some. */
size_t write_number(char *end, uint64_t number) {
    size_t count = 0;
    do {
        end[-1 - (ptrdiff_t)count++] = (char)('0' + number % 10);
        number /= 10;
    } while (number != 0);
    return count;
}

/* An answer begins with the number of its line. */
void begin_answer(struct client *client) {
    char text[NUMBER_DIGITS + 1];
    if (!client->has_number || client->is_detached) {
        note_change(client);
        return;
    }
    size_t count = write_number(text + NUMBER_DIGITS, client->line_number);
    text[NUMBER_DIGITS] = ' ';
    put(client, text + NUMBER_DIGITS - count, count + 1);
}

/* An answer with a line for each lock may be longer than what a client that does not read may leave unsent. */
void begin_long_answer(struct client *client) {
    begin_answer(client);
    client->is_told_at_length = true;
}

void end_long_answer(struct client *client, const char *text) {
    put_text(client, text);
    client->is_told_at_length = false;
    client->out_long = unsent(client);
}

void answer(struct client *client, const void *bytes, size_t len) {
    begin_answer(client);
    put(client, bytes, len);
}

void answer_text(struct client *client, const char *text) { answer(client, text, strlen(text)); }

/* Puts a number in the place of a word of a printed line, counted from 0. */
void replace_word(vlm_text *text, uint32_t place, uint64_t number) {
    char *from = (char *)text->bytes, *end = from + text->len, digits[NUMBER_DIGITS];
    while (from < end && *from == ' ')
        from++;
    for (; place > 0 && from < end; place--) {
        char *blank = memchr(from, ' ', (size_t)(end - from));
        from = blank != NULL ? blank + 1 : end;
    }
    char *to = from;
    while (to < end && *to != ' ' && *to != '\n')
        to++;
    size_t count = write_number(digits + NUMBER_DIGITS, number), len = text->len - (size_t)(to - from) + count;
    if (len > sizeof text->bytes)
        return;
    memmove(from + count, to, (size_t)(end - to));
    memcpy(from, digits + NUMBER_DIGITS - count, count);
    text->len = (uint32_t)len;
}

const uint8_t *client_output(const struct client *client, size_t *len) {
    *len = unsent(client);
    return client->out == NULL ? NULL : client->out + client->out_from;
}

void client_sent(struct client *client, size_t len) {
    bool was_paused = unsent(client) > PAUSE;
    client->out_from += len;
    client->is_amid = len != 0 ? client->out[client->out_from - 1] != '\n' : client->is_amid;
    client->user->queued -= len;
    client->out_long -= len < client->out_long ? len : client->out_long;
    if (client->out_from == client->out_len) {
        client->out_from = client->out_len = 0;
        if (client->out_room > KEPT_ROOM) {
            free(client->out);
            client->out = NULL;
            client->out_room = 0;
        }
    } else if (client->out_from > client->out_room / 2) {
        client->out_len -= client->out_from;
        memmove(client->out, client->out + client->out_from, client->out_len);
        client->out_from = 0;
    }
    if (was_paused && unsent(client) <= PAUSE)
        make_ready(client);
}
