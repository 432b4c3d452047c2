/* Lines that the dispatcher remembers: most of a hundred that are alike, wherever they differ. Their places can't be
 * foretold: other keys give others. Two lines that were made for it have one hash by none of a hundred keys. */
#include "parts.h"

#include <stdio.h>
#include <string.h>

enum { KEYS = 16, LINES = 100, WANTED = 95, ROOM = 64 };

static struct dispatcher *dispatcher;
static struct client *client;

static void be_silent(const char *text) { (void)text; }

/* The lines of a form: a number of two digits stands at its `#`. */
static struct word line_of(const char *form, int number, char text[ROOM]) {
    int before = (int)strcspn(form, "#");
    int len = snprintf(text, ROOM, "%.*s%02d%s", before, form, number, form + before + 1);
    return (struct word){text, (size_t)len};
}

static void start(uint8_t key) {
    static const struct limits limits = USUAL_LIMITS;
    const struct rights rights = {.group = 1};
    uint8_t keys[KEYS];
    for (size_t at = 0; at < KEYS; at++)
        keys[at] = (uint8_t)((key + at) * (key + at) * 157 >> 3);
    dispatcher = dispatcher_open(&limits, 0, keys, be_silent);
    client = client_open(dispatcher, &rights, 0, dispatcher);
}

static void send(struct word line) {
    size_t len;
    client_hear(client, (const uint8_t *)line.bytes, line.len);
    client_hear(client, (const uint8_t *)"\n", 1);
    client_output(client, &len);
    client_sent(client, len);
}

/* What is known of a line. */
static struct heard *known(struct word line) {
    client->line = line.bytes;
    client->line_len = line.len;
    client->line_hash = hash_line(client, line);
    return known_line(client);
}

/* How many lines of a form are known after all of them have come. */
static int known_of(const char *form) {
    char text[ROOM];
    int count = 0;
    for (int number = 0; number < LINES; number++)
        send(line_of(form, number, text));
    for (int number = 0; number < LINES; number++)
        count += known(line_of(form, number, text)) != NULL;
    return count;
}

/* Where a line is kept by a key. */
static ptrdiff_t place_by(uint8_t key) {
    char text[ROOM];
    struct word line = line_of("deq P @#", 1, text);
    start(key);
    send(line);
    ptrdiff_t place = (const char *)known(line) - (const char *)dispatcher->known;
    dispatcher_close(dispatcher);
    return place;
}

/* Whether a line and one with other high bits in three bytes, of two parts that follow each other, have one hash by a
 * key. */
static bool have_one_hash(uint8_t key, uint8_t bit) {
    char text[] = "enq P EX name=a0bbb0bbb0 block=1";
    const struct word line = {text, strlen(text)};
    start(key);
    uint64_t hash = hash_line(client, line);
    for (size_t at = 15; at <= 23; at += 4)
        text[at] = (char)(text[at] ^ bit);
    bool is_one = hash_line(client, line) == hash;
    dispatcher_close(dispatcher);
    return is_one;
}

int main(void) {
    static const char *const forms[] = {"deq P @#",
                                        "block P #",
                                        "cvt P @# EX block=1",
                                        "enq P EX name=A block=#",
                                        "enq P EX block=1 name=lock#",
                                        "enq P EX name=A#b block=1 ast=1",
                                        "enq P#P EX name=A block=1"};
    int wrong = 0;
    start(1);
    for (size_t at = 0; at < sizeof forms / sizeof *forms; at++) {
        int count = known_of(forms[at]);
        if (count < WANTED)
            printf("%d of %d lines %s are known\n", count, LINES, forms[at]);
        wrong += count < WANTED;
    }
    dispatcher_close(dispatcher);
    if (place_by(1) == place_by(2)) {
        puts("another key gives a line the same place");
        wrong++;
    }
    for (int key = 1; key <= LINES; key++)
        if (have_one_hash((uint8_t)key, 1 << 6) || have_one_hash((uint8_t)key, 1 << 7)) {
            printf("two lines have one hash by the key %d\n", key);
            wrong++;
        }
    return wrong != 0;
}
