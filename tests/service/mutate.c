/* Strange bytes for the dispatcher: mutate SECONDS FILE.. changes the lines of some files at random and has four
 * clients send them, who also close, stay away, do not read and let time pass. In every other run some allocations are
 * refused. The sanitizers judge, and each count has to be 0 at the end. Compiled with FUZZER it is a program of
 * libFuzzer, which chooses the bytes. */
#include "parts.h"

#include <stdio.h>
#include <stdlib.h>
#include <string.h>
#include <time.h>

enum { CLIENTS = 4, MOST_FILES = 256, MOST_BYTES = 8192, KEYS = 16, QUEUES = 3 };
/* A byte that chooses a client, from CHOICE on, and what does not happen besides. */
enum { CHOICE = 128, NOTHING = 7 };

static const struct limits limits = {.connections = 3,
                                     .processes = 12,
                                     .locks = 60,
                                     .waiting = 8,
                                     .queued = 1 << 17,
                                     .names = 9,
                                     .lines = 5,
                                     .shown = 40,
                                     .search = 30,
                                     .drain = 100,
                                     .ids = 10};

static struct dispatcher *dispatcher;
static struct client *clients[CLIENTS];
static uint64_t now;

static void be_silent(const char *text) { (void)text; }

static void join(uint32_t at) {
    struct rights rights = {.uid = at / 2, .pid = at, .group = at % 2, .has_syslck = at == 0, .is_admin = at == 0};
    do
        clients[at] = client_open(dispatcher, &rights, 0, dispatcher);
    while (clients[at] == NULL);
}

static void part(uint32_t at) {
    client_close(clients[at]);
    join(at);
}

/* Sends all output, except that of a client who does not read. */
static void send_all(uint32_t deaf) {
    while (dispatcher_changed(dispatcher) != NULL)
        continue;
    for (uint32_t at = 0; at < CLIENTS; at++) {
        size_t len;
        client_output(clients[at], &len);
        if (at != deaf && len != 0)
            client_sent(clients[at], len);
        if (client_is_cut(clients[at]) || (client_is_over(clients[at]) && at != deaf))
            part(at);
    }
}

/* What is counted for users is what the manager counts. */
static void check_counts(void) {
    uint64_t locks = 0, waiting = 0;
    for (uint32_t bucket = 0; bucket < USER_BUCKETS; bucket++)
        for (const struct user *user = dispatcher->users[bucket]; user != NULL; user = user->next) {
            locks += user->locks;
            waiting += user->waiting;
        }
    if (locks != vlm_lock_count(&dispatcher->manager) || waiting != vlm_queued_count(&dispatcher->manager)
        || waiting != dispatcher->waiting_count)
        abort();
}

/* A lock has a token from its first grant on, and a place in their table as long as it is there. */
static void check_tokens(void) {
    size_t count = 0;
    for (size_t at = 0; at < dispatcher->token_room; at++)
        count += dispatcher->tokens[at].lkid != 0;
    if (count != dispatcher->token_count || count < vlm_lock_count(&dispatcher->manager))
        abort();
    vlm_resource resource = {.size = sizeof resource};
    uint32_t found = vlm_next_resource(&dispatcher->manager, &resource);
    for (; found == VLM_NORMAL && resource.serial != 0; found = vlm_next_resource(&dispatcher->manager, &resource))
        for (uint32_t queue = 0; queue < QUEUES; queue++) {
            vlm_lock lock = {.size = sizeof lock};
            uint32_t status = vlm_first_row(&dispatcher->manager, &resource, queue, &lock);
            for (; status == VLM_NORMAL && lock.lkid != 0;
                 status = vlm_next_row(&dispatcher->manager, lock.lkid, &lock))
                if ((token_of(dispatcher, lock.lkid) == 0) != (queue == VLM_WAITING)
                    || token_of(dispatcher, lock.lkid) > dispatcher->token)
                    abort();
        }
}

/* A line of a client. A first byte that is no letter chooses the client, and what happens besides. */
static void play(const uint8_t *line, size_t len, bool is_whole) {
    uint32_t at = 0, what = NOTHING;
    if (line[0] >= CHOICE) {
        at = line[0] % CLIENTS;
        what = line[0] / CLIENTS % 8;
        line++;
        len--;
    }
    if (len > 0 && client_is_heard(clients[at])) {
        client_hear(clients[at], line, what == 0 ? len / 2 + 1 : len);
        if (what != 0 && is_whole)
            client_hear(clients[at], (const uint8_t *)"\n", 1);
    }
    if (what == 1)
        dispatcher_tick(dispatcher, now += 50);
    if (what == 2)
        dispatcher_be_quiet(dispatcher, now + 40);
    do
        dispatcher_run(dispatcher);
    while (dispatcher_is_busy(dispatcher));
    send_all(what == 3 ? at : CLIENTS);
    check_counts();
    check_tokens();
    if (what == 4)
        client_hear(clients[at], line, 0);
    if (what == 5)
        part(at);
}

static void begin(void) {
    static const uint8_t keys[KEYS] = {1, 2, 3};
    now = 1;
    do
        dispatcher = dispatcher_open(&limits, 0, keys, be_silent);
    while (dispatcher == NULL);
    dispatcher_tick(dispatcher, now);
    for (uint32_t at = 0; at < CLIENTS; at++)
        join(at);
}

/* Ends all clients, and what they may resume. Nothing must be left. */
static void end(void) {
    for (uint32_t at = 0; at < CLIENTS; at++)
        client_close(clients[at]);
    dispatcher_tick(dispatcher, now += (uint64_t)2 * MOST_SECONDS * 1000);
    for (uint32_t bucket = 0; bucket < USER_BUCKETS; bucket++)
        if (dispatcher->users[bucket] != NULL)
            abort();
    if (dispatcher_has_locks(dispatcher) || dispatcher->waiting_count != 0 || dispatcher->session_count != 0)
        abort();
    dispatcher_close(dispatcher);
}

int LLVMFuzzerTestOneInput(const uint8_t *bytes, size_t len);
int LLVMFuzzerTestOneInput(const uint8_t *bytes, size_t len) {
    begin();
    while (len > 0) {
        const uint8_t *feed = memchr(bytes, '\n', len);
        size_t line = feed == NULL ? len : (size_t)(feed - bytes);
        if (line > 0)
            play(bytes, line, feed != NULL);
        line += feed != NULL;
        bytes += line;
        len -= line;
    }
    end();
    return 0;
}

#ifndef FUZZER
static struct {
    uint8_t bytes[MOST_BYTES];
    size_t len;
} files[MOST_FILES];
static size_t file_count;

static uint64_t random_state = 88172645463325252ULL;

static size_t below(size_t most) {
    random_state ^= random_state << 13;
    random_state ^= random_state >> 7;
    random_state ^= random_state << 17;
    return (size_t)(random_state % most);
}

static bool is_refusing;

void *__real_malloc(size_t size);
void *__real_calloc(size_t count, size_t size);
void *__real_realloc(void *old, size_t size);
void *__wrap_malloc(size_t size);
void *__wrap_calloc(size_t count, size_t size);
void *__wrap_realloc(void *old, size_t size);

/* The allocations of the dispatcher and the library. */
void *__wrap_malloc(size_t size) { return is_refusing && below(16) == 0 ? NULL : __real_malloc(size); }

void *__wrap_calloc(size_t count, size_t size) {
    return is_refusing && below(16) == 0 ? NULL : __real_calloc(count, size);
}

void *__wrap_realloc(void *old, size_t size) {
    return is_refusing && below(16) == 0 ? NULL : __real_realloc(old, size);
}

/* The next line of a file, from some byte on. */
static size_t line_at(size_t file, size_t from) {
    const uint8_t *feed = memchr(files[file].bytes + from, '\n', files[file].len - from);
    return feed == NULL ? files[file].len - from : (size_t)(feed - files[file].bytes) - from + 1;
}

/* Gives each client a session with two processes. */
static size_t open_all(uint8_t *bytes) {
    size_t len = 0;
    for (int at = 0; at < CLIENTS; at++)
        for (int line = 0; line < 3; line++) {
            const char *const lines[] = {"open", "declare P quota=9 blocks=4", "declare Q"};
            len += (size_t)sprintf((char *)bytes + len, "%c%s\n", CHOICE + CLIENTS * NOTHING + at, lines[line]);
        }
    return len;
}

/* Lines of several files, half of them of the last one, some of them with other bytes. */
static size_t mix(uint8_t *bytes) {
    static const char marks[] = " @=:x09#\n\t\rEXP4294967296";
    size_t len = below(4) == 0 ? 0 : open_all(bytes);
    for (size_t lines = 20 + below(300); lines > 0; lines--) {
        size_t file = below(2) == 0 ? file_count - 1 : below(file_count), line = 0;
        for (size_t at = 0, wanted = below(40); at < files[file].len; at += line) {
            line = line_at(file, at);
            if (wanted-- != 0)
                continue;
            if (len + 1 + line > MOST_BYTES)
                return len;
            bytes[len++] =
                (uint8_t)(below(4) == 0 ? CHOICE + below(CHOICE) : CHOICE + CLIENTS * NOTHING + below(CLIENTS));
            memcpy(bytes + len, files[file].bytes + at, line);
            for (size_t changes = below(4) == 0 ? below(6) : 0; changes > 0; changes--)
                bytes[len + below(line)] = below(2) == 0 ? (uint8_t)below(256) : (uint8_t)marks[below(sizeof marks)];
            len += line;
            break;
        }
    }
    return len;
}

int main(int count, char **words) {
    static uint8_t bytes[MOST_BYTES];
    if (count < 3)
        return 2;
    for (int at = 2; at < count && file_count < MOST_FILES; at++) {
        FILE *file = fopen(words[at], "rb");
        if (file == NULL)
            return 2;
        files[file_count].len = fread(files[file_count].bytes, 1, MOST_BYTES, file);
        file_count += files[file_count].len != 0;
        fclose(file);
    }
    time_t until = time(NULL) + strtol(words[1], NULL, 10);
    size_t runs = 0;
    for (; time(NULL) < until; runs++) {
        is_refusing = runs % 2 == 1;
        LLVMFuzzerTestOneInput(bytes, mix(bytes));
    }
    printf("%zu runs\n", runs);
    return 0;
}
#endif
