/* A replica: the entries that it makes, and the batches of the list that it runs. links.c has its connections. */
#include "replica_parts.h"

#include <stdio.h>
#include <stdlib.h>
#include <string.h>

/* In milliseconds: how often a beat is sent at the soonest, and at the latest while there are clients; how long a
 * replica may be silent before the others end its connections; how far its own beats come by apart while the silence of
 * others counts; by how much replicas that want a search differ, and when one asks again that has not heard of it. */
enum { SOONEST = 200, LATEST = 1000, SILENCE = 30000, GROWING = 5000, JITTER = 256, AGAIN = 5000 };

enum { LIMITS = 11 };

/* Bytes of the sessions that an entry has at most, and of the limits. */
static const size_t beat_room = (size_t)4096 * SESSION, limits_len = (size_t)LIMITS * sizeof(uint32_t);

struct replica *replica_open(struct dispatcher *dispatcher, uint64_t name) {
    struct replica *replica = calloc(1, sizeof *replica);
    if (replica == NULL)
        return NULL;
    replica->dispatcher = dispatcher;
    replica->name = name;
    replica->free_slot = NO_SLOT;
    dispatcher_follow(dispatcher);
    return replica;
}

void replica_close(struct replica *replica) {
    for (uint32_t at = 0; at < replica->peer_count; at++)
        free(replica->peers[at].clients);
    for (uint32_t slot = 0; slot < replica->slot_count; slot++)
        if (replica->slots[slot].link != NULL)
            free_link(replica->slots[slot].link);
    free(replica->peers);
    free(replica->slots);
    free(replica->next.all);
    free(replica->batch.all);
    free(replica->asked.all);
    free(replica);
}

/* Ends a replica that can't go on as the others do. */
void replica_fail(int status, const char *reason) {
    fprintf(stderr, "vlmd: %s: this replica ends\n", reason);
    exit(status);
}

void *replica_need(void *memory) {
    if (memory == NULL)
        replica_fail(LOST_LIST, "no memory");
    return memory;
}

/* Makes the next beat, of the sessions whose clients have asked for one. */
static void beat(struct replica *replica) {
    size_t left = replica->asked.len;
    const uint8_t *sessions = replica->asked.all;
    replica->beats++;
    replica->beat_at = replica->now;
    do {
        size_t len = left < beat_room ? left : beat_room;
        entry_begin(&replica->next, ENTRY_BEAT, 8 + len);
        /* (the last part of a beat has its number) */
        bytes_add_number(&replica->next, len == left ? replica->beats : 0, 8);
        bytes_add(&replica->next, sessions, len);
        sessions += len;
        left -= len;
    } while (left != 0);
    replica->asked.len = 0;
}

static uint64_t beat_due(const struct replica *replica) {
    if (replica->asked.len != 0 || replica->is_ending)
        return replica->beat_at + SOONEST;
    return dispatcher_count(replica->dispatcher) != 0 ? replica->beat_at + LATEST : UINT64_MAX;
}

/* When this replica makes an entry for what all replicas see is due. They do so at different times, so that mostly one
 * of them does. */
static uint64_t later(const struct replica *replica, uint64_t due, uint64_t sent) {
    if (due == UINT64_MAX)
        return due;
    due += replica->name % JITTER;
    return sent != 0 && due < sent + AGAIN ? sent + AGAIN : due;
}

static uint64_t search_due(const struct replica *replica) {
    return later(replica, dispatcher_search_due(replica->dispatcher), replica->searched);
}

static uint64_t drain_due(const struct replica *replica) {
    return later(replica, dispatcher_drain_due(replica->dispatcher), replica->drained);
}

static uint64_t earlier(uint64_t one, uint64_t other) { return one < other ? one : other; }

uint64_t replica_due(const struct replica *replica) {
    if (replica->is_leaving)
        return UINT64_MAX;
    return earlier(beat_due(replica), earlier(search_due(replica), drain_due(replica)));
}

/* Makes the entry by which the connections of a replica end after its batch of this number. */
static void end_connections(struct replica *replica, uint64_t name, uint64_t last) {
    entry_begin(&replica->next, ENTRY_GONE, 16);
    bytes_add_number(&replica->next, name, 8);
    bytes_add_number(&replica->next, last, 8);
}

void replica_leave(struct replica *replica) {
    replica->is_leaving = true;
    /* (without a batch it has no connections) */
    replica->has_left = replica->batches == 0;
}

bool replica_has_left(const struct replica *replica) { return replica->has_left; }

/* Makes the last entry of a replica that is to end, alone in its batch. */
static void leave(struct replica *replica) {
    if (replica->next.len == 0 && !replica->is_under_way)
        end_connections(replica, replica->name, replica->batches + 1);
}

void replica_tick(struct replica *replica, uint64_t now) {
    replica->now = now;
    replica->turns++;
    dispatcher_tick(replica->dispatcher, now);
    if (replica->is_leaving) {
        leave(replica);
        return;
    }
    if (beat_due(replica) <= now)
        beat(replica);
    if (search_due(replica) <= now) {
        replica->searched = now;
        entry_begin(&replica->next, ENTRY_SEARCH, 0);
    }
    if (drain_due(replica) <= now) {
        replica->drained = now;
        entry_begin(&replica->next, ENTRY_DRAINED, 0);
    }
}

struct bytes replica_batch(struct replica *replica) {
    if (replica->is_under_way || replica->next.len == 0)
        return (struct bytes){NULL, 0, 0};
    batch_make(&replica->batch, (struct batch_head){replica->name, ++replica->batches}, &replica->next);
    replica->expected = replica->lines;
    replica->lines = 0;
    replica->is_under_way = true;
    return replica->batch;
}

uint32_t replica_expected(const struct replica *replica) {
    return replica->is_under_way || replica->next.len == 0 ? 0 : replica->expected;
}

void replica_appended(struct replica *replica) { replica->is_under_way = false; }

void replica_limit(struct replica *replica, const struct limits *limits) {
    const uint32_t *numbers = (const uint32_t *)limits;
    _Static_assert(sizeof *limits == LIMITS * sizeof(uint32_t), "each limit goes into the list");
    entry_begin(&replica->next, ENTRY_LIMITS, limits_len);
    for (uint32_t at = 0; at < LIMITS; at++)
        bytes_add_number(&replica->next, numbers[at], 4);
}

bool replica_has_limits(const struct replica *replica) { return replica->has_limits; }

static struct peer *find_peer(struct replica *replica, uint64_t name) {
    for (uint32_t at = 0; at < replica->peer_count; at++)
        if (replica->peers[at].name == name)
            return &replica->peers[at];
    return NULL;
}

static struct peer *add_peer(struct replica *replica, uint64_t name) {
    size_t len = (replica->peer_count + 1) * sizeof *replica->peers;
    replica->peers = replica_need(realloc(replica->peers, len));
    struct peer *peer = &replica->peers[replica->peer_count++];
    *peer = (struct peer){.name = name};
    return peer;
}

/* The place of a peer's client, or null if the number can be none. */
static struct client **client_place(struct peer *peer, uint32_t slot) {
    if (slot >= MOST_SLOTS)
        return NULL;
    if (slot >= peer->room) {
        uint32_t room = peer->room != 0 ? peer->room : 64;
        while (room <= slot)
            room *= 2;
        peer->clients = replica_need(realloc(peer->clients, room * sizeof *peer->clients));
        memset(peer->clients + peer->room, 0, (room - peer->room) * sizeof *peer->clients);
        peer->room = room;
    }
    return &peer->clients[slot];
}

static bool run_connected(struct replica *replica, struct peer *peer, struct reader *payload) {
    uint32_t slot = (uint32_t)reader_number(payload, 4);
    struct rights rights = {.uid = (uint32_t)reader_number(payload, 4),
                            .pid = (uint32_t)reader_number(payload, 4),
                            .group = (uint32_t)reader_number(payload, 4)};
    uint32_t salt = (uint32_t)reader_number(payload, 4), flags = (uint32_t)reader_number(payload, 4);
    struct client **place = client_place(peer, slot);
    rights.has_syslck = (flags & HAS_SYSLCK) != 0;
    rights.is_admin = (flags & IS_ADMIN) != 0;
    if (payload->is_short || place == NULL || *place != NULL)
        replica_fail(LOST_LIST, "the list has a wrong connection");
    struct link *link = peer->name == replica->name ? link_of(replica, slot) : NULL;
    *place = replica_need(client_open(replica->dispatcher, &rights, salt, link));
    if (link != NULL)
        link_begin(link, *place);
    return true;
}

static bool run_line(struct replica *replica, struct peer *peer, struct reader *payload) {
    uint32_t slot = (uint32_t)reader_number(payload, 4);
    struct client **place = client_place(peer, slot);
    if (place == NULL || *place == NULL)
        return false;
    client_run(*place, (const char *)payload->at, payload->left);
    if (peer->name == replica->name)
        link_line_has_run(replica, slot);
    return true;
}

static bool run_left(struct replica *replica, struct peer *peer, struct reader *payload) {
    uint32_t slot = (uint32_t)reader_number(payload, 4);
    struct client **place = client_place(peer, slot);
    if (peer->name == replica->name)
        free_slot(replica, slot);
    if (place == NULL || *place == NULL)
        return false;
    client_close(*place);
    *place = NULL;
    return true;
}

/* Makes entries for what has ended: leases, and replicas. It is known that the list grows. */
static void end_what_is_over(struct replica *replica) {
    uint64_t session, beat;
    if (replica->now > replica->looked + GROWING)
        replica->speaking = replica->now;
    replica->looked = replica->now;
    replica->is_ending = dispatcher_look(replica->dispatcher);
    while (dispatcher_next_end(replica->dispatcher, &session, &beat)) {
        entry_begin(&replica->next, ENTRY_END, 16);
        bytes_add_number(&replica->next, session, 8);
        bytes_add_number(&replica->next, beat, 8);
    }
    for (uint32_t at = 0; at < replica->peer_count; at++) {
        const struct peer *peer = &replica->peers[at];
        if (peer->is_gone || peer->name == replica->name || replica->now <= peer->heard + SILENCE
            || replica->now <= replica->speaking + SILENCE)
            continue;
        end_connections(replica, peer->name, peer->last);
    }
}

static bool run_beat(struct replica *replica, const struct peer *peer, struct reader *payload) {
    uint64_t number = reader_number(payload, 8);
    bool has_sessions = payload->left != 0;
    while (payload->left >= 8)
        dispatcher_keep(replica->dispatcher, reader_number(payload, 8));
    if (number != 0 && peer->name == replica->name) {
        replica->beat_heard = number;
        end_what_is_over(replica);
        links_go(replica);
    }
    return has_sessions;
}

/* A replica that was silent, or that has left, has no connections any more. */
static bool run_gone(struct replica *replica, struct reader *payload) {
    uint64_t name = reader_number(payload, 8), last = reader_number(payload, 8);
    struct peer *peer = find_peer(replica, name);
    if (peer == NULL || peer->last != last || peer->is_gone)
        return false;
    if (name == replica->name && !replica->is_leaving)
        replica_fail(LOST_LIST, "the others have not heard of it for too long");
    peer->is_gone = true;
    if (name == replica->name) {
        /* (its clients still get what was answered) */
        replica->has_left = true;
        return true;
    }
    for (uint32_t slot = 0; slot < peer->room; slot++)
        if (peer->clients[slot] != NULL)
            client_close(peer->clients[slot]);
    free(peer->clients);
    peer->clients = NULL;
    peer->room = 0;
    return true;
}

static bool run_limits(struct replica *replica, struct reader *payload) {
    struct limits limits;
    uint32_t *numbers = (uint32_t *)&limits;
    for (uint32_t at = 0; at < LIMITS; at++)
        numbers[at] = (uint32_t)reader_number(payload, 4);
    if (!payload->is_short)
        dispatcher_limit(replica->dispatcher, &limits);
    replica->has_limits = true;
    return true;
}

static bool run_end(struct replica *replica, struct reader *payload) {
    uint64_t session = reader_number(payload, 8), beat = reader_number(payload, 8);
    return dispatcher_end(replica->dispatcher, session, beat);
}

static bool run_search(struct replica *replica) {
    replica->searched = 0;
    return dispatcher_search(replica->dispatcher);
}

static bool run_drained(struct replica *replica) {
    replica->drained = 0;
    dispatcher_end_epoch(replica->dispatcher);
    return true;
}

/* Runs an entry. Returns whether it may have changed anything. */
static bool run_entry(struct replica *replica, struct peer *peer, struct entry *entry) {
    struct reader *payload = &entry->payload;
    switch (entry->type) {
    case ENTRY_CONNECTED: return run_connected(replica, peer, payload);
    case ENTRY_LINE: return run_line(replica, peer, payload);
    case ENTRY_LEFT: return run_left(replica, peer, payload);
    case ENTRY_BEAT: return run_beat(replica, peer, payload);
    case ENTRY_END: return run_end(replica, payload);
    case ENTRY_SEARCH: return run_search(replica);
    case ENTRY_GONE: return run_gone(replica, payload);
    case ENTRY_LIMITS: return run_limits(replica, payload);
    case ENTRY_DRAINED: return run_drained(replica);
    }
    replica_fail(LOST_LIST, "the list has an entry of a later version");
    return false;
}

static struct peer *peer_of(struct replica *replica, struct batch_head head) {
    struct peer *peer = find_peer(replica, head.replica);
    return peer != NULL ? peer : add_peer(replica, head.replica);
}

bool replica_apply(struct replica *replica, uint64_t revision, const struct bytes *batch, struct bytes *kept) {
    struct reader reader = {batch->all, batch->len, false};
    struct batch_head head = batch_open(&reader);
    struct peer *peer = peer_of(replica, head);
    struct entry entry;
    /* (an append is repeated if its answer is lost, also after a chunk has taken it away) */
    bool is_new = head.number > peer->last && !peer->is_gone;
    /* (a chunk leaves batches out) */
    if (is_new && kept != NULL && head.number != peer->last + 1)
        replica_fail(BROKEN_LIST, "the list lacks a batch");
    if (is_new)
        peer->last = head.number;
    peer->heard = replica->now;
    dispatcher_set_token(replica->dispatcher, revision << PLACE_BITS);
    if (is_new && kept != NULL)
        bytes_add(kept, batch->all, BATCH_HEAD);
    while (is_new && !peer->is_gone && batch_next(&reader, &entry)) {
        dispatcher_pass(replica->dispatcher, revision << PLACE_BITS | entry.number);
        if (run_entry(replica, peer, &entry) && kept != NULL)
            bytes_add(kept, entry.head, entry.len);
    }
    if (reader.is_short)
        replica_fail(LOST_LIST, "the list has a batch that no replica has made");
    return head.replica == replica->name;
}
