/* What only replicas call: leases of sessions, and what else an entry of the list does.
 *
 * A beat is an entry by which the leases of sessions last their whole time again; `open` and `resume` are beats of
 * their own session. A client counts its lease from before it asked for a beat that was answered. A replica counts from
 * when the last beat came by, which is later. The end of a session names that beat, and does nothing if another one
 * came by first. So no session ends while its client counts on it. This rests on clocks that run equally fast and on
 * the order of the list, and on nothing else.
 *
 * Take an end that took effect, and the last beat B of the session before it. The end names B, since it would do
 * nothing otherwise. The replica that sent it had run B and then waited for the whole lease. A client that asks for a
 * beat after the end hears `session ended`; after a kill or the end of an epoch, `session killed` or `lost`. So the
 * last beat that was answered is B or an earlier one. The client counts from before it asked for that beat, and so from
 * before the replica ran B. So its count was over when the end was sent, and before another client was granted
 * anything.
 *
 * Each replica appends a beat each second while there are clients, and looks for leases that are over only when that
 * beat comes by. It sends their ends a second later. So after a time in which the list could not grow, the beats that
 * wait at all replicas come first. */
#include "parts.h"

#include <string.h>

/* In milliseconds: how long a session whose lease is over goes on while the list grows, so that beats which wait at
 * other replicas come first; and how far looks are apart at most while it does. */
enum { GRACE = 1000, GROWING = 1500 };

void dispatcher_follow(struct dispatcher *dispatcher) { dispatcher->is_replica = true; }

void dispatcher_pass(struct dispatcher *dispatcher, uint64_t place) {
    check_ids(dispatcher);
    dispatcher->place = place;
}

void client_run(struct client *client, const char *line, size_t len) {
    if (!client->is_over)
        run_line(client, line, len);
    note_change(client);
}

void client_call(struct client *client) { make_ready(client); }

void client_detach(struct client *client) {
    client->context = NULL;
    client->is_detached = true;
}

uint64_t client_session(const struct client *client) { return client->session == NULL ? 0 : client->session->name; }

static struct session *session_of(const struct dispatcher *dispatcher, uint64_t name) {
    uint32_t place = (uint32_t)name;
    struct session *session = place < dispatcher->session_room ? dispatcher->sessions[place].session : NULL;
    return session != NULL && session->name == name ? session : NULL;
}

/* A beat of a session comes by. */
void keep_lease(struct session *session) {
    /* (also of one that was killed: a chunk has the last beat of a session alone, so its end has to name that one) */
    session->beat = session->dispatcher->place;
    if (session->is_killed)
        return;
    session->heard = session->dispatcher->now;
    session->overdue = 0;
}

void dispatcher_keep(struct dispatcher *dispatcher, uint64_t name) {
    struct session *session = session_of(dispatcher, name);
    if (session != NULL)
        keep_lease(session);
}

bool dispatcher_end(struct dispatcher *dispatcher, uint64_t name, uint64_t beat) {
    struct session *session = session_of(dispatcher, name);
    if (session == NULL || session->beat != beat)
        return false;
    struct client *client = session->client;
    end_session(session);
    if (client != NULL) {
        put_text(client, "session ended\n");
        client->is_over = true;
    }
    return true;
}

bool dispatcher_look(struct dispatcher *dispatcher) {
    const uint64_t now = dispatcher->now;
    uint64_t growing = now <= dispatcher->looked + GROWING ? dispatcher->looked : now;
    bool has_overdue = false;
    for (uint32_t place = 0; place < dispatcher->session_room; place++) {
        struct session *session = dispatcher->sessions[place].session;
        if (session == NULL)
            continue;
        uint64_t end = session->heard + (uint64_t)session->seconds * 1000;
        if (session->overdue == 0 && now > end)
            session->overdue = end > growing ? end : growing;
        has_overdue |= session->overdue != 0;
    }
    dispatcher->looked = now;
    dispatcher->next_end = 0;
    return has_overdue;
}

bool dispatcher_next_end(struct dispatcher *dispatcher, uint64_t *name, uint64_t *beat) {
    while (dispatcher->next_end < dispatcher->session_room) {
        struct session *session = dispatcher->sessions[dispatcher->next_end++].session;
        if (session == NULL || session->overdue == 0 || dispatcher->now <= session->overdue + GRACE)
            continue;
        *name = session->name;
        *beat = session->beat;
        return true;
    }
    return false;
}

uint32_t dispatcher_count(const struct dispatcher *dispatcher) {
    return dispatcher->connections + dispatcher->session_count;
}

uint64_t dispatcher_search_due(const struct dispatcher *dispatcher) {
    return dispatcher->found_none == dispatcher->counts.steps ? UINT64_MAX : search_due(dispatcher);
}

bool dispatcher_search(struct dispatcher *dispatcher) {
    bool has_found = search(dispatcher);
    dispatcher->found_none = has_found ? UINT64_MAX : dispatcher->counts.steps;
    return has_found;
}

uint64_t dispatcher_drain_due(const struct dispatcher *dispatcher) {
    return dispatcher->drained != 0 ? dispatcher->drained : UINT64_MAX;
}

void dispatcher_end_epoch(struct dispatcher *dispatcher) {
    bool is_heard = dispatcher->drained == UINT64_MAX;
    if (dispatcher->drained != 0 && !is_heard && vlm_lock_count(&dispatcher->manager) != 0)
        lose_lock_holders(dispatcher);
}
