/* Connections of clients to a replica. */
#include "replica_parts.h"

#include <stdlib.h>
#include <string.h>

/* The longest line with its number that is not too long in any case; the bytes of a client that waits which are kept,
 * and its unsent ones; its lines that are under way; its lines that run here in a turn. */
enum {
    LONGEST = 275,
    MOST_HEARD = 64 << 10,
    MOST_UNSENT = 64 << 10,
    MOST_LINES = 64,
    MOST_READINGS = 64,
    FIRST_SLOTS = 64
};

struct link {
    struct replica *replica;
    void *context;
    struct client *client; /* null before its entry came by */
    uint32_t slot;
    uint32_t lines; /* under way: in the list, and not run yet */
    uint64_t beat;  /* the one that its `alive` waits for, or 0 */
    uint64_t turn;  /* in which it has run lines last, and how many */
    uint32_t readings;
    uint64_t batch;    /* the replica's newest one when a line of this client ran last */
    uint32_t answered; /* lines that have run since it was made, less those that the client has sent after them */
    struct bytes in;
    size_t from;   /* the bytes before it have become lines */
    bool is_ended; /* no more bytes come */
    bool is_long;  /* the bytes up to the next line feed are too many */
};

/* Makes more slots, and links them as free ones. */
static void grow(struct replica *replica) {
    uint32_t from = replica->slot_count, count = from != 0 ? 2 * from : FIRST_SLOTS;
    replica->slots = replica_need(realloc(replica->slots, count * sizeof *replica->slots));
    for (uint32_t slot = from; slot < count; slot++)
        replica->slots[slot] = (struct slot){NULL, slot + 1 < count ? slot + 1 : NO_SLOT};
    replica->slot_count = count;
    replica->free_slot = from;
}

struct link *link_open(struct replica *replica, const struct rights *rights, uint32_t salt, void *context) {
    if (replica->free_slot == NO_SLOT && replica->slot_count == MOST_SLOTS)
        return NULL;
    struct link *link = calloc(1, sizeof *link);
    if (link == NULL)
        return NULL;
    if (replica->free_slot == NO_SLOT)
        grow(replica);
    uint32_t slot = replica->free_slot;
    replica->free_slot = replica->slots[slot].next_free;
    replica->slots[slot].link = link;
    link->replica = replica;
    link->context = context;
    link->slot = slot;
    const uint32_t numbers[] = {slot,        rights->uid,
                                rights->pid, rights->group,
                                salt,        (rights->has_syslck ? HAS_SYSLCK : 0) | (rights->is_admin ? IS_ADMIN : 0)};
    entry_begin(&replica->next, ENTRY_CONNECTED, sizeof numbers);
    for (size_t at = 0; at < sizeof numbers / sizeof *numbers; at++)
        bytes_add_number(&replica->next, numbers[at], 4);
    return link;
}

void free_link(struct link *link) {
    free(link->in.all);
    free(link);
}

void free_slot(struct replica *replica, uint32_t slot) {
    if (slot >= replica->slot_count)
        return;
    replica->slots[slot] = (struct slot){NULL, replica->free_slot};
    replica->free_slot = slot;
}

struct link *link_of(const struct replica *replica, uint32_t slot) {
    return slot < replica->slot_count ? replica->slots[slot].link : NULL;
}

void *link_context(const struct link *link) { return link->context; }

struct client *link_client(const struct link *link) {
    return link->client;
}

void link_close(struct link *link) {
    struct replica *replica = link->replica;
    if (link->batch == replica->batches)
        replica->expected -= link->answered < replica->expected ? link->answered : replica->expected;
    if (link->client != NULL)
        client_detach(link->client);
    entry_begin(&replica->next, ENTRY_LEFT, 4);
    bytes_add_number(&replica->next, link->slot, 4);
    replica->slots[link->slot].link = NULL;
    free_link(link);
}

/* The session of an `alive` line is kept by the next beat. Returns whether that came by. */
static bool is_kept(struct link *link) {
    struct replica *replica = link->replica;
    uint64_t session = client_session(link->client);
    if (session == 0)
        return true;
    if (link->beat == 0) {
        bytes_add_number(&replica->asked, session, 8);
        link->beat = replica->beats + 1;
        return false;
    }
    if (replica->beat_heard < link->beat)
        return false;
    link->beat = 0;
    return true;
}

/* Whether a line more may run here in this turn: each client has one at least. If not, it has another turn. */
static bool has_turn(struct link *link) {
    if (link->turn != link->replica->turns) {
        link->turn = link->replica->turns;
        link->readings = 0;
    }
    if (link->readings == MOST_READINGS || (link->readings != 0 && dispatcher_is_spent(link->replica->dispatcher))) {
        client_call(link->client);
        return false;
    }
    link->readings++;
    return true;
}

/* Counts a line of the next batch. It may be one that is expected after the last batch. */
static void count_line(struct link *link) {
    struct replica *replica = link->replica;
    link->lines++;
    replica->lines++;
    if (link->batch == replica->batches && link->answered > 0 && replica->expected > 0) {
        link->answered--;
        replica->expected--;
    }
}

/* Runs a line, or makes an entry of it. Returns false, and has done nothing, if the line has to wait. */
static bool run(struct link *link, const char *line, size_t len) {
    struct bytes *next = &link->replica->next;
    enum line_kind kind = dispatcher_kind(line, len);
    if (kind == LINE_CHANGES) {
        if (link->lines == MOST_LINES)
            return false;
        count_line(link);
        entry_begin(next, ENTRY_LINE, 4 + len);
        bytes_add_number(next, link->slot, 4);
        bytes_add(next, line, len);
        return true;
    }
    if (link->lines != 0 || (kind == LINE_KEEPS ? !is_kept(link) : !has_turn(link)))
        return false;
    client_run(link->client, line, len);
    return true;
}

static bool may_go(const struct link *link) {
    size_t unsent;
    if (link->client == NULL || client_is_over(link->client))
        return false;
    client_output(link->client, &unsent);
    return unsent <= MOST_UNSENT;
}

/* The line at the front, or null. */
static const char *front_line(const struct link *link, size_t *len) {
    const uint8_t *front = link->in.all + link->from;
    const uint8_t *end = link->from == link->in.len ? NULL : memchr(front, '\n', link->in.len - link->from);
    *len = end == NULL ? 0 : (size_t)(end - front);
    return end == NULL ? NULL : (const char *)front;
}

static void drop_lines(struct link *link) {
    bytes_drop(&link->in, link->from);
    link->from = 0;
    if (link->in.len == 0) {
        free(link->in.all);
        link->in = (struct bytes){NULL, 0, 0};
    }
}

void link_go(struct link *link) {
    const char *line;
    size_t len;
    while (may_go(link) && (line = front_line(link, &len)) != NULL && run(link, line, len))
        link->from += len + 1;
    drop_lines(link);
}

void link_begin(struct link *link, struct client *client) {
    link->client = client;
    link_go(link);
}

void link_line_has_run(struct replica *replica, uint32_t slot) {
    struct link *link = link_of(replica, slot);
    if (link == NULL)
        return;
    link->lines--;
    if (link->batch != replica->batches) {
        link->batch = replica->batches;
        link->answered = 0;
    }
    link->answered++;
    if (link->lines == 0 || link->lines == MOST_LINES - 1)
        link_go(link);
}

void links_go(struct replica *replica) {
    for (uint32_t slot = 0; slot < replica->slot_count; slot++) {
        struct link *link = replica->slots[slot].link;
        if (link != NULL && link->beat != 0)
            link_go(link);
    }
}

/* Of a line that is too long in any case, keeps no more than tells so. */
static void note_excess(struct link *link) {
    size_t len;
    if (link->in.len - link->from <= LONGEST || front_line(link, &len) != NULL)
        return;
    link->in.len = link->from + LONGEST + 1;
    link->is_long = true;
}

void link_hear(struct link *link, const uint8_t *bytes, size_t len) {
    if (len == 0)
        link->is_ended = true;
    if (link->is_long) {
        const uint8_t *end = memchr(bytes, '\n', len);
        if (end == NULL)
            return;
        len -= (size_t)(end - bytes);
        bytes = end;
        link->is_long = false;
    }
    bytes_add(&link->in, bytes, len);
    link_go(link);
    note_excess(link);
}

bool link_is_heard(const struct link *link) {
    return !link->is_ended && !link->replica->is_leaving && may_go(link) && link->in.len < MOST_HEARD;
}

bool link_is_over(const struct link *link) {
    size_t len;
    if (link->client == NULL)
        return false;
    return client_is_over(link->client)
           || (link->is_ended && link->lines == 0 && link->beat == 0 && front_line(link, &len) == NULL);
}
