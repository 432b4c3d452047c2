/* The list of a replica. A program of its own keeps it in etcd (service/list): so the daemon does not speak etcd's
 * protocol, and another list may take its place. The two exchange frames by pipes: the length of what follows in 4
 * bytes, a letter, and what it announces. All numbers are little-endian.
 *
 *     to the list      a BATCH                 to be appended
 *                      k REVISION BATCH        what a chunk keeps of the batch at a revision
 *     from the list    b REVISION BATCH        the next batch
 *                      p REVISION BATCH        the same, of a chunk: it is kept already
 *                      a                       the last batch to be appended is in the list
 *                      r                       all that was in the list has come
 *
 * Another list: vlmd starts the program that VLM_LIST names in the place of vlm-list, with the words that the head
 * of vlm-list has. It has to give each batch a revision, greater than those before it, and the same batches in the same
 * order to all. It may tell of a batch only when no fault can undo it.
 *
 * A list in the memory of its members, as by Corosync's closed process groups, tells of a batch only when a majority
 * has said that it has it. After a change of members it waits for a quorum. A member that comes back reads the list
 * from another one. If no majority has the list any more, it waits for the longest lease before it begins an empty one.
 * Corosync does not see a program that hangs, so a member that confirms nothing for two seconds counts as gone.
 */
#define _GNU_SOURCE
#include "daemon.h"

#include <signal.h>
#include <stdio.h>
#include <stdlib.h>
#include <string.h>
#include <unistd.h>

enum { HEAD = 4, MOST_FRAME = 64 << 20, LONGEST_PATH = 4096, FIRST_READ = 64 << 10 };

/* How long an append waits for the next lines of clients that the last one has answered, in nanoseconds. Without them
 * it would go at once, and they would wait for one more. */
enum { GATHERING = 300000 };

static struct {
    uv_process_t process;
    uv_pipe_t to, from;
    struct bytes heard;
    void (*is_ready)(void);
    uint64_t gathers_until;
} list;

static void fail(const char *text) {
    write_log(text);
    exit(LOST_LIST);
}

/* The list takes or tells nothing any more. How its program has ended says whether this replica may start again. */
static void lose_list(void) { uv_process_kill(&list.process, SIGKILL); }

static void on_written(uv_write_t *write, int status) {
    free(write->data);
    free(write);
    if (status != 0)
        lose_list();
}

/* Sends a frame. Its bytes go to the list, and are freed then. */
static void send_frame(struct bytes *frame) {
    uv_write_t *write = malloc(sizeof *write);
    if (write == NULL)
        fail("no memory");
    write->data = frame->all;
    uv_buf_t buffer = uv_buf_init((char *)frame->all, (unsigned)frame->len);
    if (uv_write(write, (uv_stream_t *)&list.to, &buffer, 1, on_written) != 0) {
        free(frame->all);
        free(write);
        lose_list();
    }
}

static void begin_frame(struct bytes *frame, char letter, size_t len) {
    *frame = (struct bytes){NULL, 0, 0};
    bytes_add_number(frame, 1 + len, HEAD);
    bytes_add(frame, &letter, 1);
}

bool list_append(void) {
    if (replica_expected(vlmd.replica) != 0 && uv_hrtime() < list.gathers_until)
        return true;
    struct bytes batch = replica_batch(vlmd.replica), frame;
    if (batch.len == 0)
        return false;
    begin_frame(&frame, 'a', batch.len);
    bytes_add(&frame, batch.all, batch.len);
    send_frame(&frame);
    return false;
}

/* An append may wait from here on: the last batch is in the list, or was answered. */
static void begin_gathering(void) { list.gathers_until = uv_hrtime() + GATHERING; }

static void end_append(void) {
    replica_appended(vlmd.replica);
    begin_gathering();
}

/* Runs a batch. What a chunk is to keep of it goes back. */
static void run_batch(struct reader *read, bool is_kept) {
    uint64_t revision = reader_number(read, 8);
    struct bytes batch = {(uint8_t *)read->at, read->left, 0}, kept = {NULL, 0, 0}, frame;
    if (replica_apply(vlmd.replica, revision, &batch, is_kept ? NULL : &kept))
        begin_gathering();
    if (kept.len == 0)
        return;
    begin_frame(&frame, 'k', 8 + kept.len);
    bytes_add_number(&frame, revision, 8);
    bytes_add(&frame, kept.all, kept.len);
    free(kept.all);
    send_frame(&frame);
}

static void run_frame(struct reader *read) {
    char letter = (char)reader_number(read, 1);
    if (letter == 'b' || letter == 'p')
        run_batch(read, letter == 'p');
    else if (letter == 'a')
        end_append();
    else if (letter == 'r')
        list.is_ready();
    else
        fail("the list says what no list says");
}

static void on_room(uv_handle_t *handle, size_t suggested, uv_buf_t *buffer) {
    (void)handle, (void)suggested;
    static char room[FIRST_READ];
    *buffer = uv_buf_init(room, sizeof room);
}

static void on_heard(uv_stream_t *stream, ssize_t len, const uv_buf_t *buffer) {
    if (len < 0) {
        uv_read_stop(stream);
        lose_list();
    }
    if (len <= 0)
        return;
    /* (a lease is counted from when its beat came by, not from before) */
    uv_update_time(&vlmd.loop);
    replica_tick(vlmd.replica, uv_now(&vlmd.loop));
    bytes_add(&list.heard, buffer->base, (size_t)len);
    struct reader all = {list.heard.all, list.heard.len, false};
    size_t done = 0;
    while (all.left >= HEAD) {
        size_t frame = (size_t)reader_number(&all, HEAD);
        if (frame == 0 || frame > MOST_FRAME)
            fail("the list says what no list says");
        if (all.left < frame)
            break;
        run_frame(&(struct reader){all.at, frame, false});
        all.at += frame;
        all.left -= frame;
        done += HEAD + frame;
    }
    bytes_drop(&list.heard, done);
}

static void on_end(uv_process_t *process, int64_t status, int number) {
    (void)process, (void)number;
    write_log("the list has ended");
    exit(status == BROKEN_LIST || status == WRONG_WORDS ? (int)status : LOST_LIST);
}

/* The program that keeps the list: that of VLM_LIST in the environment, else the one that is installed beside us. */
static bool find_program(char path[LONGEST_PATH]) {
    const char *named = getenv("VLM_LIST");
    if (named != NULL)
        return snprintf(path, LONGEST_PATH, "%s", named) < LONGEST_PATH;
    ssize_t len = readlink("/proc/self/exe", path, LONGEST_PATH - 1);
    if (len <= 0)
        return false;
    path[len] = 0;
    char *slash = strrchr(path, '/');
    size_t room = LONGEST_PATH - (size_t)(slash - path);
    return slash != NULL && (size_t)snprintf(slash, room, "/../libexec/vlm/list/vlm-list") < room;
}

static void tell_failure(const char *path, int failed) {
    char text[LONGEST_PATH + 64];
    snprintf(text, sizeof text, "%s can't be started: %s", path, uv_strerror(failed));
    write_log(text);
}

bool list_open(const struct config *config, void (*is_ready)(void)) {
    char path[LONGEST_PATH], chunk[WORD];
    struct config copy = *config;
    if (!find_program(path))
        return false;
    snprintf(chunk, WORD, "%u", (unsigned)config->chunk);
    /* (a list without TLS has no more than the first four) */
    char *words[] = {path, copy.etcd, copy.prefix, chunk, NULL, NULL, NULL, NULL};
    if (copy.etcd_authority[0] != 0)
        words[4] = copy.etcd_authority;
    if (copy.etcd_key[0] != 0) {
        words[5] = copy.etcd_certificate;
        words[6] = copy.etcd_key;
    }
    uv_pipe_init(&vlmd.loop, &list.to, 0);
    uv_pipe_init(&vlmd.loop, &list.from, 0);
    uv_stdio_container_t stdio[] = {
        {.flags = UV_CREATE_PIPE | UV_READABLE_PIPE, .data.stream = (uv_stream_t *)&list.to},
        {.flags = UV_CREATE_PIPE | UV_WRITABLE_PIPE, .data.stream = (uv_stream_t *)&list.from},
        {.flags = UV_INHERIT_FD, .data.fd = STDERR_FILENO}};
    uv_process_options_t options = {.file = path, .args = words, .stdio = stdio, .stdio_count = 3, .exit_cb = on_end};
    list.is_ready = is_ready;
    int failed = uv_spawn(&vlmd.loop, &list.process, &options);
    if (failed != 0)
        tell_failure(path, failed);
    return failed == 0 && uv_read_start((uv_stream_t *)&list.from, on_room, on_heard) == 0;
}
