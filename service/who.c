/* What an administrator asks: who has which lock, and counters. */
#include "parts.h"

#include <inttypes.h>
#include <stdio.h>
#include <string.h>

enum { NAME_TEXT = 72, ROW_TEXT = 512, QUEUES = 3, MOST_PASSED = 1000000 };

/* A walk over the locks. */
struct walk {
    struct client *client;
    const vlm_resource *resource;
    char name[NAME_TEXT]; /* of the resource, as `show` prints it */
    uint64_t rows;        /* of the resource, so far */
    uint64_t passed;      /* locks that searches for blockers may have passed over */
};

/* A line of a lock: words with a blank after each. (snprintf would take most of the time of a turn.) */
struct row {
    size_t len;
    char text[ROW_TEXT];
};

static void add_bytes(struct row *row, const char *bytes, size_t len) {
    memcpy(row->text + row->len, bytes, len);
    row->text[row->len + len] = ' ';
    row->len += len + 1;
}

static void add_word(struct row *row, const char *word) { add_bytes(row, word, strlen(word)); }

static void add_number(struct row *row, uint64_t number) {
    char digits[NUMBER_DIGITS];
    size_t count = write_number(digits + NUMBER_DIGITS, number);
    add_bytes(row, digits + NUMBER_DIGITS - count, count);
}

static void add_session(struct row *row, uint64_t name) {
    char digits[16];
    for (size_t at = 0; at < sizeof digits; at++)
        digits[at] = "0123456789abcdef"[name >> (60 - 4 * at) & 15];
    add_bytes(row, digits, sizeof digits);
}

static const char *mode_name(uint32_t mode) {
    static const char *const names[] = {"NL", "CR", "CW", "PR", "PW", "EX"};
    return mode <= VLM_EX ? names[mode] : "-";
}

/* The name of a resource, from the line that `show` has of it. */
static void take_name(struct walk *walk) {
    vlm_text text = {.size = sizeof text};
    vlm_print_resource(&walk->client->dispatcher->manager, walk->resource, &text);
    struct word words[8];
    size_t place = walk->resource->is_system != 0 ? 6 : 7;
    if (split((const char *)text.bytes, text.len, words, 8) > place && words[place].len < NAME_TEXT)
        snprintf(walk->name, sizeof walk->name, "%.*s", (int)words[place].len, words[place].bytes);
}

/* The session that a queued request waits for first. A search passes over the locks of the resource, so a walk with
 * very many of them tells no more blockers. */
static void add_blocker(struct row *row, struct walk *walk, const vlm_lock *lock) {
    struct dispatcher *dispatcher = walk->client->dispatcher;
    vlm_lock blocker = {.size = sizeof blocker};
    walk->passed += walk->rows;
    if (lock->queue != VLM_GRANTED && walk->passed <= MOST_PASSED)
        dispatcher->walked += walk->rows;
    if (lock->queue == VLM_GRANTED)
        add_word(row, "-");
    else if (walk->passed > MOST_PASSED || vlm_first_blocker(&dispatcher->manager, lock->lkid, &blocker) != VLM_NORMAL
             || blocker.lkid == 0)
        add_word(row, "?");
    else
        add_session(row, process_of(dispatcher, blocker.pid)->session->name);
}

static void add_session_facts(struct row *row, const struct session *session) {
    add_session(row, session->name);
    add_number(row, session->rights.pid);
    add_number(row, session->rights.uid);
    add_word(row, session->label[0] != 0 ? session->label : "-");
}

static void tell_lock(struct walk *walk, const vlm_lock *lock) {
    static const char *const queues[] = {"granted", "converting", "waiting"};
    struct dispatcher *dispatcher = walk->client->dispatcher;
    const struct process *process = process_of(dispatcher, lock->pid);
    const vlm_resource *resource = walk->resource;
    struct row row = {.len = 0};
    add_word(&row, walk->name);
    add_number(&row, resource->serial);
    add_number(&row, resource->parent);
    if (resource->is_system != 0)
        add_word(&row, "system");
    else
        add_number(&row, resource->group);
    add_word(&row, mode_name(lock->held));
    add_word(&row, mode_name(lock->want));
    add_word(&row, queues[lock->queue]);
    add_number(&row, handle_of(dispatcher, lock->lkid));
    add_session_facts(&row, process->session);
    add_number(&row, (dispatcher->now - process->uses[lock->block].since) / 1000);
    add_blocker(&row, walk, lock);
    row.text[row.len - 1] = '\n';
    put(walk->client, row.text, row.len);
}

static void tell_resource(struct walk *walk) {
    vlm *manager = &walk->client->dispatcher->manager;
    walk->rows = 0;
    for (uint32_t queue = 0; queue < QUEUES; queue++) {
        vlm_lock lock = {.size = sizeof lock};
        uint32_t status = vlm_first_row(manager, walk->resource, queue, &lock);
        for (; status == VLM_NORMAL && lock.lkid != 0; status = vlm_next_row(manager, lock.lkid, &lock)) {
            walk->rows++;
            walk->client->dispatcher->walked++;
            tell_lock(walk, &lock);
        }
    }
}

/* `who [NAME]`: a line for each lock that the client may see, of all resources or of those with a name, and a blank
 * line. The cost grows with all locks. */
void who(struct client *client, const struct word *words, size_t count) {
    struct dispatcher *dispatcher = client->dispatcher;
    if (count > 2) {
        answer_text(client, "wrong word\n");
        return;
    }
    if (vlm_lock_count(&dispatcher->manager) > dispatcher->limits.shown) {
        answer_text(client, "too many locks\n\n");
        return;
    }
    vlm_resource resource = {.size = sizeof resource};
    struct walk walk = {.client = client, .resource = &resource};
    begin_long_answer(client);
    uint32_t status = vlm_next_resource(&dispatcher->manager, &resource);
    for (; status == VLM_NORMAL && resource.serial != 0; status = vlm_next_resource(&dispatcher->manager, &resource)) {
        bool is_seen = client->rights.is_admin || resource.is_system != 0 || resource.group == client->rights.group;
        dispatcher->walked++;
        take_name(&walk);
        if (is_seen && (count == 1 || is_word(words[1], walk.name)))
            tell_resource(&walk);
    }
    end_long_answer(client, "\n");
}

/* `metrics`: counters in the text format of Prometheus, and a blank line. */
void metrics(struct client *client) {
    struct dispatcher *dispatcher = client->dispatcher;
    const struct counts *counts = &dispatcher->counts;
    const struct {
        const char *name, *kind;
        uint64_t value;
    } rows[] = {{"connections", "gauge", dispatcher->connections},
                {"sessions", "gauge", dispatcher->session_count},
                {"processes_made", "gauge", dispatcher->process_count},
                {"resources", "gauge", vlm_resource_count(&dispatcher->manager)},
                {"locks", "gauge", vlm_lock_count(&dispatcher->manager)},
                {"waiting_requests", "gauge", dispatcher->waiting_count},
                {"identifications_used", "gauge", dispatcher->last_lkid},
                {"epoch", "gauge", dispatcher->epoch},
                {"list_revision", "gauge", dispatcher->place >> PLACE_BITS},
                {"sessions_total", "counter", counts->sessions},
                {"steps_total", "counter", counts->steps},
                {"refused_steps_total", "counter", counts->refused},
                {"asts_total", "counter", counts->asts},
                {"deadlock_searches_total", "counter", counts->searches},
                {"deadlock_victims_total", "counter", counts->victims},
                {"clients_cut_off_total", "counter", counts->cut_off},
                {"clients_lost_total", "counter", counts->lost},
                {"manager_changes_total", "counter", counts->changes}};
    begin_answer(client);
    for (size_t at = 0; at < sizeof rows / sizeof *rows; at++)
        put_format(client, "# TYPE vlmd_%s %s\nvlmd_%s %" PRIu64 "\n", rows[at].name, rows[at].kind, rows[at].name,
                   rows[at].value);
    put_text(client, "\n");
}
