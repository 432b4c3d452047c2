/* The dispatcher as a whole, and its clients. */
#include "parts.h"

#include <inttypes.h>
#include <stdlib.h>
#include <string.h>

enum { LOOK = 1000 }; /* milliseconds between two looks at the sessions without a client */

struct dispatcher *dispatcher_open(const struct limits *limits, uint32_t epoch, const uint8_t keys[16], logger log) {
    struct dispatcher *dispatcher = calloc(1, sizeof *dispatcher);
    if (dispatcher == NULL)
        return NULL;
    vlm_options options = VLM_OPTIONS;
    options.has_keys = 1;
    memcpy(options.keys, keys, sizeof options.keys);
    if (vlm_open(&dispatcher->manager, &options) != VLM_NORMAL) {
        free(dispatcher);
        return NULL;
    }
    memcpy(dispatcher->keys, keys, sizeof dispatcher->keys);
    dispatcher_limit(dispatcher, limits);
    dispatcher->log = log;
    dispatcher->epoch = epoch;
    dispatcher->free_place = NOBODY;
    dispatcher->free_request = dispatcher->first_waiting = dispatcher->last_waiting = NOBODY;
    dispatcher->ready_end = &dispatcher->ready;
    dispatcher->shown.size = sizeof(vlm_line);
    return dispatcher;
}

void dispatcher_limit(struct dispatcher *dispatcher, const struct limits *limits) {
    dispatcher->limits = *limits;
    share_ids(dispatcher);
}

static void free_pools(struct dispatcher *dispatcher) {
    for (uint32_t bucket = 0; bucket < POOL_BUCKETS; bucket++)
        for (struct pool *pool = dispatcher->pools[bucket], *next; pool != NULL; pool = next) {
            next = pool->next;
            free(pool);
        }
    for (uint32_t at = 0; at < dispatcher->process_count; at++) {
        free(dispatcher->processes[at]->uses);
        free(dispatcher->processes[at]);
    }
}

void dispatcher_close(struct dispatcher *dispatcher) {
    for (struct client *client = dispatcher->clients, *next; client != NULL; client = next) {
        next = client->next;
        client_close(client);
    }
    for (uint32_t place = 0; place < dispatcher->session_room; place++)
        if (dispatcher->sessions[place].session != NULL)
            end_session(dispatcher->sessions[place].session);
    free_pools(dispatcher);
    vlm_close(&dispatcher->manager);
    free(dispatcher->processes);
    free(dispatcher->sessions);
    free(dispatcher->requests);
    free(dispatcher->tokens);
    free(dispatcher);
}

void dispatcher_be_quiet(struct dispatcher *dispatcher, uint64_t until) { dispatcher->quiet_until = until; }

void dispatcher_set_grace(struct dispatcher *dispatcher, uint32_t milliseconds) { dispatcher->grace = milliseconds; }

/* The quiet is over: requests that waited for it run. */
static void speak(struct dispatcher *dispatcher) {
    dispatcher->quiet_until = 0;
    for (struct client *client = dispatcher->clients; client != NULL; client = client->next)
        if (client->is_waiting) {
            client->is_waiting = false;
            make_ready(client);
        }
}

void dispatcher_tick(struct dispatcher *dispatcher, uint64_t now) {
    dispatcher->now = now;
    if (dispatcher->is_replica)
        return;
    if (dispatcher->quiet_until != 0 && now >= dispatcher->quiet_until)
        speak(dispatcher);
    if (dispatcher->left != NULL && now >= dispatcher->looked + LOOK) {
        dispatcher->looked = now;
        end_left_sessions(dispatcher);
    }
    search_if_due(dispatcher);
    check_ids(dispatcher);
}

static uint64_t earlier(uint64_t one, uint64_t other) { return one < other ? one : other; }

uint64_t dispatcher_due(const struct dispatcher *dispatcher) {
    uint64_t due = search_due(dispatcher);
    if (dispatcher->quiet_until != 0)
        due = earlier(due, dispatcher->quiet_until);
    if (dispatcher->left != NULL)
        due = earlier(due, dispatcher->looked + LOOK);
    return dispatcher->drained != 0 ? earlier(due, dispatcher->drained) : due;
}

void make_ready(struct client *client) {
    if (client->is_ready)
        return;
    client->is_ready = true;
    client->next_ready = NULL;
    *client->dispatcher->ready_end = client;
    client->dispatcher->ready_end = &client->next_ready;
}

bool dispatcher_is_spent(const struct dispatcher *dispatcher) { return dispatcher->walked >= MOST_WALKED; }

void dispatcher_run(struct dispatcher *dispatcher) {
    struct client *client = dispatcher->ready, **end = dispatcher->ready_end;
    dispatcher->ready = NULL;
    dispatcher->ready_end = &dispatcher->ready;
    dispatcher->walked = 0;
    for (struct client *next; client != NULL && !dispatcher_is_spent(dispatcher); client = next) {
        next = client->next_ready;
        client->is_ready = false;
        run_heard(client);
        /* (it may be heard again, also if nothing was answered) */
        note_change(client);
    }
    if (client == NULL)
        return;
    /* Those that had no turn come before those that have lines left. */
    *end = dispatcher->ready;
    if (dispatcher->ready == NULL)
        dispatcher->ready_end = end;
    dispatcher->ready = client;
}

bool dispatcher_is_busy(const struct dispatcher *dispatcher) { return dispatcher->ready != NULL; }

bool dispatcher_has_locks(struct dispatcher *dispatcher) { return vlm_lock_count(&dispatcher->manager) != 0; }

struct client *dispatcher_changed(struct dispatcher *dispatcher) {
    struct client *client = dispatcher->changed;
    if (client != NULL)
        drop_change(client);
    return client;
}

static void greet(struct client *client) {
    const struct dispatcher *dispatcher = client->dispatcher;
    client->user->connections++;
    put_format(client, "vlm protocol %d epoch %" PRIu32 "\n", PROTOCOL, dispatcher->epoch);
    if (client->user->connections > dispatcher->limits.connections) {
        put_text(client, "too many connections\n");
        client->is_over = true;
    }
}

struct client *client_open(struct dispatcher *dispatcher, const struct rights *rights, uint32_t salt, void *context) {
    struct client *client = calloc(1, sizeof *client);
    struct user *user = find_user(dispatcher, rights->uid);
    if (client == NULL || user == NULL) {
        free(client);
        return NULL;
    }
    client->dispatcher = dispatcher;
    client->rights = *rights;
    client->user = user;
    client->context = context;
    client->salt = salt;
    client->is_detached = context == NULL;
    client->next = dispatcher->clients;
    if (client->next != NULL)
        client->next->previous = client;
    dispatcher->clients = client;
    dispatcher->connections++;
    greet(client);
    return client;
}

/* A replica that lacks memory for a step would answer other than the others. */
void end_without_memory(const struct dispatcher *dispatcher) {
    if (!dispatcher->is_replica)
        return;
    say(dispatcher, "no memory: this replica ends");
    exit(EXIT_FAILURE);
}

void *client_context(const struct client *client) { return client->context; }

bool client_is_over(const struct client *client) { return client->is_over; }

bool client_is_cut(const struct client *client) { return client->is_cut; }

/* No more lines of a client are run. Its session ends, or waits for a resume. */
void client_end(struct client *client) {
    note_change(client);
    client->is_over = true;
    leave_session(client);
}

static void unlink_ready(struct client *client) {
    struct dispatcher *dispatcher = client->dispatcher;
    struct client **at = &dispatcher->ready;
    while (client->is_ready && *at != client)
        at = &(*at)->next_ready;
    if (client->is_ready)
        *at = client->next_ready;
    if (client->is_ready && client->next_ready == NULL)
        dispatcher->ready_end = at;
}

void client_close(struct client *client) {
    struct dispatcher *dispatcher = client->dispatcher;
    leave_session(client);
    unlink_ready(client);
    drop_change(client);
    if (client->previous != NULL)
        client->previous->next = client->next;
    else
        dispatcher->clients = client->next;
    if (client->next != NULL)
        client->next->previous = client->previous;
    client->user->queued -= unsent(client);
    client->user->connections--;
    drop_user(dispatcher, client->user);
    dispatcher->connections--;
    free(client->in);
    free(client->out);
    free(client);
}
