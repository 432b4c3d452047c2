/* What a program reads of single locks: locks, lock, rows, blockers, blocked, below and token. Each answer ends with a
 * blank line. A client reads what `who` shows it. */
#include "parts.h"

#include <inttypes.h>
#include <string.h>

enum { QUEUES = 3 };

typedef uint32_t (*walk_step)(vlm *manager, uint32_t lkid, vlm_lock *lock);

/* A line, and the lock that it names. */
struct reading {
    struct client *client;
    vlm *manager;
    uint32_t lkid;
    vlm_lock lock;
    vlm_resource resource;
};

static const char *mode_name(uint32_t mode) {
    static const char *const names[] = {"NL", "CR", "CW", "PR", "PW", "EX"};
    return mode <= VLM_EX ? names[mode] : "-";
}

static void tell_row(struct client *client, const vlm_lock *lock) {
    static const char *const queues[] = {"granted", "converting", "waiting"};
    const struct dispatcher *dispatcher = client->dispatcher;
    const struct session *session = process_of(client->dispatcher, lock->pid)->session;
    put_format(client, "lock %" PRIu64 " pid %" PRIu32 " held %s want %s %s\n", handle_of(dispatcher, lock->lkid),
               session->rights.pid, mode_name(lock->held), mode_name(lock->want), queues[lock->queue]);
}

/* Tells the rest of a walk, or counts it only. `lock` is its first row. */
static uint64_t walk_rows(const struct reading *reading, uint32_t status, vlm_lock *lock, walk_step next,
                          bool is_told) {
    uint64_t count = 0;
    for (; status == VLM_NORMAL && lock->lkid != 0; status = next(reading->manager, lock->lkid, lock)) {
        count++;
        reading->client->dispatcher->walked++;
        if (is_told)
            tell_row(reading->client, lock);
    }
    return count;
}

static uint64_t queue_rows(const struct reading *reading, uint32_t queue, bool is_told) {
    vlm_lock lock = {.size = sizeof lock};
    uint32_t status = vlm_first_row(reading->manager, &reading->resource, queue, &lock);
    return walk_rows(reading, status, &lock, vlm_next_row, is_told);
}

static bool may_see(const struct client *client, const vlm_resource *resource) {
    return client->rights.is_admin || resource->is_system != 0 || resource->group == client->rights.group;
}

/* `locks`: a row for each lock that the client may see. */
static void tell_all(struct reading *reading) {
    vlm_resource *resource = &reading->resource;
    uint32_t status = vlm_next_resource(reading->manager, resource);
    for (; status == VLM_NORMAL && resource->serial != 0; status = vlm_next_resource(reading->manager, resource)) {
        reading->client->dispatcher->walked++;
        for (uint32_t queue = 0; queue < QUEUES && may_see(reading->client, resource); queue++)
            queue_rows(reading, queue, true);
    }
}

/* `lock L`: its row, its resource as `show` and `tails` print it, its parent lock and counts. */
static void tell_lock(struct reading *reading) {
    struct client *client = reading->client;
    vlm_text text = {.size = sizeof text};
    vlm_lock sublock = {.size = sizeof sublock};
    tell_row(client, &reading->lock);
    vlm_print_resource(reading->manager, &reading->resource, &text);
    put(client, text.bytes, text.len);
    vlm_print_resource_tail(reading->manager, &reading->resource, &text);
    put(client, text.bytes, text.len);
    uint32_t parent = reading->lock.parent, status = vlm_first_sublock(reading->manager, reading->lkid, &sublock);
    uint64_t sublocks = walk_rows(reading, status, &sublock, vlm_next_sublock, false);
    put_format(client, "parent %" PRIu64 " sublocks %" PRIu64, parent != 0 ? handle_of(client->dispatcher, parent) : 0,
               sublocks);
    put_format(client, " granted %" PRIu64 " converting %" PRIu64 " waiting %" PRIu64 "\n",
               queue_rows(reading, VLM_GRANTED, false), queue_rows(reading, VLM_CONVERSION, false),
               queue_rows(reading, VLM_WAITING, false));
}

/* `rows L`: the locks on its resource, in the order of `show`. */
static void tell_rows(struct reading *reading) {
    for (uint32_t queue = 0; queue < QUEUES; queue++)
        queue_rows(reading, queue, true);
}

/* Tells the locks on one side of a lock: those that it waits for, or those that wait for it. */
static void tell_side(const struct reading *reading, walk_step first,
                      uint32_t (*next)(vlm *manager, uint32_t lkid, uint32_t after, vlm_lock *lock)) {
    vlm_lock lock = {.size = sizeof lock};
    uint32_t status = first(reading->manager, reading->lkid, &lock);
    for (; status == VLM_NORMAL && lock.lkid != 0; status = next(reading->manager, reading->lkid, lock.lkid, &lock)) {
        reading->client->dispatcher->walked++;
        tell_row(reading->client, &lock);
    }
}

/* `blockers L`: the locks that its request waits for. */
static void tell_blockers(struct reading *reading) { tell_side(reading, vlm_first_blocker, vlm_next_blocker); }

/* `blocked L`: the locks whose requests wait for it. */
static void tell_blocked(struct reading *reading) { tell_side(reading, vlm_first_blocked, vlm_next_blocked); }

/* `below L`: how many resources have that of the lock as their parent. */
static void tell_below(struct reading *reading) {
    vlm_resource resource = {.size = sizeof resource};
    uint64_t count = 0;
    uint32_t status = vlm_next_resource(reading->manager, &resource);
    for (; status == VLM_NORMAL && resource.serial != 0; status = vlm_next_resource(reading->manager, &resource)) {
        reading->client->dispatcher->walked++;
        count += resource.parent == reading->resource.serial;
    }
    put_format(reading->client, "below %" PRIu64 "\n", count);
}

/* `token L`: its fencing token, which a waiting new request has not. */
static void tell_token(struct reading *reading) {
    uint64_t token = token_of(reading->client->dispatcher, reading->lkid);
    if (token != 0)
        put_format(reading->client, "token %" PRIu64 "\n", token);
    else
        put_text(reading->client, "no such lock\n");
}

static const struct {
    const char *word;
    void (*tell)(struct reading *reading);
    bool names_lock, is_limited;
} readings[] = {{"locks", tell_all, false, true},      {"lock", tell_lock, true, false},
                {"rows", tell_rows, true, true},       {"blockers", tell_blockers, true, true},
                {"blocked", tell_blocked, true, true}, {"below", tell_below, true, true},
                {"token", tell_token, true, false}};

/* Finds the lock of a line. A lock that the client may not see is not there. */
static bool find(struct reading *reading, uint64_t handle) {
    const struct dispatcher *dispatcher = reading->client->dispatcher;
    reading->lkid = handle >> 32 == dispatcher->epoch ? (uint32_t)handle : 0;
    return vlm_find_lock(reading->manager, reading->lkid, &reading->lock) == VLM_NORMAL
           && vlm_lock_resource(reading->manager, reading->lkid, &reading->resource) == VLM_NORMAL
           && may_see(reading->client, &reading->resource);
}

static void run_reading_of(struct client *client, size_t place, const struct word *words, size_t count) {
    struct dispatcher *dispatcher = client->dispatcher;
    struct reading reading = {.client = client,
                              .manager = &dispatcher->manager,
                              .lock = {.size = sizeof reading.lock},
                              .resource = {.size = sizeof reading.resource}};
    uint64_t handle = 0;
    bool names_lock = readings[place].names_lock;
    if (count != 1 + (size_t)names_lock || (names_lock && !decimal(words[1], UINT64_MAX, &handle))) {
        answer_text(client, "wrong word\n");
    } else if (readings[place].is_limited && vlm_lock_count(reading.manager) > dispatcher->limits.shown) {
        answer_text(client, "too many locks\n\n");
    } else if (names_lock && !find(&reading, handle)) {
        answer_text(client, "no such lock\n\n");
    } else {
        begin_long_answer(client);
        readings[place].tell(&reading);
        end_long_answer(client, "\n");
    }
}

/* Runs a line of this file: whether it is one. */
bool run_lock_line(struct client *client, const struct word *words, size_t count) {
    for (size_t place = 0; place < sizeof readings / sizeof *readings; place++)
        if (is_word(words[0], readings[place].word)) {
            run_reading_of(client, place, words, count);
            return true;
        }
    return false;
}
