/* lists FIRST COUNT: replicas of the lock service over a list in this program, one run for each seed from FIRST on.
 *
 * Time, the list, the replicas and their clients are all made up here and driven by random numbers. Batches reach the
 * list late, now and then twice; replicas run it at their own pace, stop for a while, end in order or not and start
 * anew, from what a chunk would keep or from the whole list. Clients ask for locks with sessions that have leases, stop
 * for a while, and go on at another replica; now and then an administrator kills a session. A run fails
 * - if two clients believe to hold one resource at a time, each counting its lease from before it sent what was
 *   answered;
 * - if replicas that have run the same part of the list tell different resources, locks or sessions;
 * - if an answer is not that of the line whose turn it is. */
#include "replica.h"

#include <inttypes.h>
#include <stdio.h>
#include <stdlib.h>
#include <string.h>

enum {
    REPLICAS = 3,
    CLIENTS = 6,
    RESOURCES = 4,
    SECONDS = 5, /* of leases */
    STEPS = 6000,
    MOST_BATCHES = 1 << 16,
    MOST_SESSIONS = 4096,
    ROOM = 1 << 16,
    LINE = 128
};

/* A batch of the list, or what was kept of one. */
struct placed {
    uint64_t revision;
    struct bytes batch;
};

struct list {
    struct placed *all;
    size_t count;
};

struct node {
    struct dispatcher *dispatcher;
    struct replica *replica;
    size_t at;         /* how much of the list it has run */
    uint64_t stopped;  /* until then it does nothing */
    uint32_t delay;    /* of its batches, or 0: random ones */
    struct bytes sent; /* a batch that is on its way to the list, and when it comes there */
    uint64_t arrival;
    bool is_unheard;    /* it is in the list, and the replica does not know */
    struct link *admin; /* an administrator, or null */
};

/* The last beat of a session, before its end if that came: its batch, and its place there. */
struct beat {
    uint64_t session;
    size_t batch;
    uint32_t number;
    bool has_ended;
};

/* A resource that a client asks for or has. */
struct want {
    unsigned resource;
    bool is_waiting, is_held; /* for the end of its request; whether it was told that it has the resource */
    bool is_ended;            /* the end came again before the answer */
    unsigned status;
};

struct client {
    struct link *link;
    struct node *node;
    char session[32];
    uint64_t number, asts; /* of its last line; how many ASTs it was told */
    char line[LINE];       /* that waits for its answer, or nothing */
    uint64_t asked;        /* when that was sent */
    uint64_t lease;        /* until then its locks are its own */
    uint64_t stopped;      /* until then it neither reads nor writes */
    bool is_declared;      /* its process */
    struct want wants[2];  /* by status block: 1 and 2 */
    unsigned asking;       /* the status block for which the line asks for a lock, or 0 */
    char in[ROOM];
    size_t len;
};

static const uint64_t lease = (uint64_t)SECONDS * 1000; /* in milliseconds */
static struct list list, kept;
static struct node nodes[REPLICAS];
static struct client clients[CLIENTS];
static struct beat beats[MOST_SESSIONS];
static size_t beat_count;
static uint64_t now, seed;
static uint32_t delay_of_ends; /* of batches that end sessions, or 0 */
static unsigned long grants, resumes, ends, starts, victims;

static uint32_t pick(uint32_t most) {
    seed ^= seed << 13;
    seed ^= seed >> 7;
    seed ^= seed << 17;
    return (uint32_t)((seed * 0x2545F4914F6CDD1DU) >> 33) % most;
}

static void fail(const char *what) {
    printf("%s at %lu ms\n", what, (unsigned long)now);
    exit(1);
}

static void say_nothing(const char *text) { (void)text; }

static void add(struct list *to, uint64_t revision, const uint8_t *bytes, size_t len) {
    if (to->count == MOST_BATCHES)
        fail("the list is full");
    struct placed *placed = &to->all[to->count++];
    *placed = (struct placed){revision, {NULL, 0, 0}};
    bytes_add(&placed->batch, bytes, len);
}

static void empty(struct list *of) {
    for (size_t at = 0; at < of->count; at++)
        free(of->all[at].batch.all);
    of->count = 0;
}

static void apply_next(struct node *node) {
    const struct placed *next = &list.all[node->at++];
    struct bytes left = {NULL, 0, 0};
    replica_tick(node->replica, now);
    replica_apply(node->replica, next->revision, &next->batch, &left);
    if (kept.count < next->revision)
        add(&kept, next->revision, left.all, left.len);
    free(left.all);
}

static struct beat *beat_of(uint64_t session) {
    for (size_t at = 0; at < beat_count; at++)
        if (beats[at].session == session)
            return &beats[at];
    if (beat_count == MOST_SESSIONS)
        fail("too many sessions");
    beats[beat_count] = (struct beat){.session = session};
    return &beats[beat_count++];
}

static void note_sessions(size_t at, struct entry *entry) {
    for (reader_number(&entry->payload, 8); entry->payload.left >= 8;) {
        struct beat *beat = beat_of(reader_number(&entry->payload, 8));
        if (beat->has_ended)
            continue;
        beat->batch = at;
        beat->number = entry->number;
    }
}

/* Notes the last beat of each session in what was kept of a batch. */
static void note_beats(size_t at) {
    struct reader reader = {kept.all[at].batch.all, kept.all[at].batch.len, false};
    struct entry entry;
    batch_open(&reader);
    while (batch_next(&reader, &entry)) {
        if (entry.type == ENTRY_BEAT)
            note_sessions(at, &entry);
        else if (entry.type == ENTRY_END)
            beat_of(reader_number(&entry.payload, 8))->has_ended = true;
    }
}

/* Adds an entry as a chunk has it: a beat only with the sessions of which it is the last one. */
static void add_entry(struct bytes *to, size_t at, struct entry *entry) {
    struct bytes sessions = {NULL, 0, 0};
    if (entry->type != ENTRY_BEAT) {
        bytes_add(to, entry->head, entry->len);
        return;
    }
    for (reader_number(&entry->payload, 8); entry->payload.left >= 8;) {
        uint64_t session = reader_number(&entry->payload, 8);
        const struct beat *beat = beat_of(session);
        if (beat->batch == at && beat->number == entry->number)
            bytes_add_number(&sessions, session, 8);
    }
    if (sessions.len == 0)
        return;
    bytes_add_number(to, entry->number, 4);
    bytes_add_number(to, ENTRY_BEAT, 2);
    bytes_add_number(to, 8 + sessions.len, 2);
    bytes_add_number(to, 0, 8);
    bytes_add(to, sessions.all, sessions.len);
    free(sessions.all);
}

/* Runs a batch of a chunk. */
static void apply_kept(struct node *node, size_t at) {
    const struct placed *placed = &kept.all[at];
    struct reader reader = {placed->batch.all, placed->batch.len, false};
    struct bytes batch = {NULL, 0, 0};
    struct entry entry;
    batch_open(&reader);
    bytes_add(&batch, placed->batch.all, BATCH_HEAD);
    while (batch_next(&reader, &entry))
        add_entry(&batch, at, &entry);
    replica_apply(node->replica, placed->revision, &batch, NULL);
    free(batch.all);
}

/* Starts a node, from a chunk of what was kept up to some end or from nothing. */
static void start(struct node *node) {
    static const struct limits limits = USUAL_LIMITS;
    static const uint8_t keys[16];
    *node = (struct node){.dispatcher = dispatcher_open(&limits, 0, keys, say_nothing)};
    node->replica = replica_open(node->dispatcher, (uint64_t)pick(UINT32_MAX) << 32 | ++starts);
    replica_tick(node->replica, now);
    size_t end = kept.count == 0 || pick(3) == 0 ? 0 : pick((uint32_t)kept.count);
    beat_count = 0;
    for (size_t at = 0; at < end; at++)
        if (kept.all[at].batch.len != 0)
            note_beats(at);
    for (size_t at = 0; at < end; at++)
        if (kept.all[at].batch.len != 0)
            apply_kept(node, at);
    node->at = end;
    while (node->at < list.count)
        apply_next(node);
}

static void stop(struct node *node) {
    for (uint32_t at = 0; at < CLIENTS; at++)
        if (clients[at].node == node && clients[at].link != NULL)
            clients[at].link = NULL;
    free(node->sent.all);
    replica_close(node->replica);
    dispatcher_close(node->dispatcher);
}

/* Has a client run a line, and moves what it answers. */
static void tell_line(struct client *reader, const char *line, struct bytes *told) {
    size_t len;
    client_run(reader, line, strlen(line));
    const uint8_t *bytes = client_output(reader, &len);
    bytes_add(told, bytes, len);
    /* (so that it can be read as a text) */
    bytes_add(told, "", 1);
    told->len--;
    client_sent(reader, len);
}

/* All that a node tells of resources and locks, as an administrator sees it, and the token of each lock. */
static void tell(struct node *node, struct bytes *told) {
    static const struct rights rights = {.group = 1, .is_admin = true};
    struct client *reader = client_open(node->dispatcher, &rights, 0, told);
    tell_line(reader, "show", told);
    tell_line(reader, "tails", told);
    size_t from = told->len;
    tell_line(reader, "locks", told);
    for (size_t end = told->len; from < end; from++) {
        unsigned lkid;
        char line[LINE];
        if (sscanf((const char *)told->all + from, "lock %u pid", &lkid) != 1)
            continue;
        snprintf(line, sizeof line, "token %u", lkid);
        tell_line(reader, line, told);
    }
    client_close(reader);
}

static void compare(void) {
    struct bytes told[REPLICAS] = {{NULL, 0, 0}};
    for (uint32_t at = 0; at < REPLICAS; at++)
        tell(&nodes[at], &told[at]);
    for (uint32_t at = 1; at < REPLICAS; at++)
        if (nodes[at].at == nodes[0].at
            && (told[at].len != told[0].len || memcmp(told[at].all, told[0].all, told[0].len) != 0)) {
            printf("%.*s---\n%.*s", (int)told[0].len, (char *)told[0].all, (int)told[at].len, (char *)told[at].all);
            fail("replicas differ");
        }
    for (uint32_t at = 0; at < REPLICAS; at++)
        free(told[at].all);
}

static bool has_end(struct bytes batch) {
    struct reader reader = {batch.all, batch.len, false};
    struct entry entry;
    batch_open(&reader);
    while (batch_next(&reader, &entry))
        if (entry.type == ENTRY_END)
            return true;
    return false;
}

/* A batch goes on its way. One that has arrived is in the list, and its replica hears so later. Now and then it is
 * there twice: its append was repeated since no answer came, and a chunk had taken the first one away. */
static void carry(struct node *node) {
    struct bytes batch = replica_batch(node->replica);
    if (batch.len != 0) {
        uint32_t delay = node->delay != 0 ? node->delay : pick(pick(60) == 0 ? 8000 : 20);
        if (delay_of_ends != 0 && has_end(batch))
            delay = delay_of_ends;
        node->arrival = now + delay;
        bytes_add(&node->sent, batch.all, batch.len);
    }
    if (node->sent.len != 0 && node->arrival <= now) {
        for (uint32_t times = pick(100) == 0 ? 2 : 1; times != 0; times--)
            add(&list, list.count + 1, node->sent.all, node->sent.len);
        node->sent.len = 0;
        node->is_unheard = true;
    }
    if (node->is_unheard && pick(2) == 0) {
        node->is_unheard = false;
        replica_appended(node->replica);
    }
}

static void go(struct node *node) {
    carry(node);
    if (now < node->stopped)
        return;
    replica_tick(node->replica, now);
    while (node->at < list.count && pick(4) != 0)
        apply_next(node);
}

/* Has an administrator kill the session of a client, or of none. */
static void kill_session_of(struct node *node, const struct client *client) {
    static const struct rights rights = {.is_admin = true, .group = 1};
    char text[LINE];
    int len = snprintf(text, sizeof text, "kill %s\n", client->session);
    if (node->admin == NULL)
        node->admin = link_open(node->replica, &rights, pick(UINT32_MAX), node);
    link_hear(node->admin, (const uint8_t *)text, (size_t)len);
}

/* An administrator reads what it was answered. */
static void read_as_admin(struct node *node) {
    size_t len;
    if (node->admin == NULL || link_client(node->admin) == NULL)
        return;
    client_output(link_client(node->admin), &len);
    client_sent(link_client(node->admin), len);
    link_go(node->admin);
}

static void move_node(struct node *node) {
    go(node);
    read_as_admin(node);
    if (pick(1500) == 0)
        kill_session_of(node, &clients[pick(CLIENTS)]);
    if (pick(4000) == 0)
        node->stopped = now + pick(12000);
    if (pick(4000) == 0)
        replica_leave(node->replica);
    if (replica_has_left(node->replica) || pick(4000) == 0) {
        stop(node);
        start(node);
    }
}

static void send_line(struct client *client) {
    char text[LINE + 32];
    int len = snprintf(text, sizeof text, "%lu %s\n", (unsigned long)client->number, client->line);
    link_hear(client->link, (const uint8_t *)text, (size_t)len);
}

static void ask(struct client *client, const char *line) {
    client->number++;
    client->asked = now;
    snprintf(client->line, sizeof client->line, "%s", line);
    send_line(client);
}

/* Begins a session at a node, or goes on with the one that the client has. */
static void connect_to(struct client *client, struct node *node) {
    static const struct rights rights = {.uid = 1000, .group = 1};
    client->node = node;
    client->link = link_open(node->replica, &rights, pick(UINT32_MAX), client);
    client->len = 0;
    client->asked = now;
    char text[LINE];
    int len = client->session[0] == 0
                  ? snprintf(text, sizeof text, "open seconds=%d\n", SECONDS)
                  : snprintf(text, sizeof text, "resume %s asts=%lu\n", client->session, (unsigned long)client->asts);
    link_hear(client->link, (const uint8_t *)text, (size_t)len);
    if (client->session[0] != 0)
        resumes++;
    /* (what was not answered is asked again) */
    if (client->session[0] != 0 && client->line[0] != 0)
        send_line(client);
}

static void forget_session(struct client *client) {
    struct link *link = client->link;
    struct node *node = client->node;
    ends += client->session[0] != 0;
    *client = (struct client){.link = link, .node = node};
}

static bool holds(const struct client *client, unsigned resource) {
    return now < client->lease
           && ((client->wants[0].is_held && client->wants[0].resource == resource)
               || (client->wants[1].is_held && client->wants[1].resource == resource));
}

static void check_grant(const struct client *client, unsigned resource) {
    grants++;
    for (uint32_t at = 0; at < CLIENTS; at++)
        if (&clients[at] != client && holds(client, resource) && holds(&clients[at], resource))
            fail("two clients hold one resource");
}

static void end_request(struct client *client, struct want *want) {
    *want = (struct want){.resource = want->resource, .is_held = want->status == VLM_NORMAL, .status = want->status};
    victims += want->status == VLM_DEADLOCK;
    if (want->is_held)
        check_grant(client, want->resource);
    else if (want->status != VLM_DEADLOCK)
        fail("a request ends with another status");
}

/* A request has ended. If the line that made it was not answered yet, that comes first. */
static void hear_end(struct client *client, unsigned block, unsigned status) {
    struct want *want = &client->wants[block - 1];
    want->status = status;
    want->is_ended = client->asking == block;
    if (!want->is_ended && !want->is_waiting)
        fail("the end of a request that nobody made");
    if (!want->is_ended)
        end_request(client, want);
}

static void hear_answer(struct client *client, const char *text) {
    if (strcmp(client->line, "declare P") == 0)
        client->is_declared = true;
    else if (strcmp(client->line, "alive") == 0 && client->asked + lease > client->lease)
        client->lease = client->asked + lease;
    client->line[0] = 0;
    if (client->asking == 0)
        return;
    struct want *want = &client->wants[client->asking - 1];
    client->asking = 0;
    want->is_waiting = true;
    if (strncmp(text, "P: NORMAL", 9) != 0)
        fail(text);
    if (want->is_ended)
        end_request(client, want);
}

static void hear_line(struct client *client, const char *text) {
    char *rest;
    unsigned long number = strtoul(text, &rest, 10);
    unsigned block, status;
    if (strncmp(text, "vlm protocol", 12) == 0)
        return;
    if (strncmp(text, "session ended", 13) == 0 || strncmp(text, "session moved", 13) == 0
        || strncmp(text, "session killed", 14) == 0) {
        forget_session(client);
    } else if (sscanf(text, "session %31s seconds", client->session) == 1) {
        if (client->asked + lease > client->lease)
            client->lease = client->asked + lease;
    } else if (strstr(text, ": completion ") != NULL) {
        client->asts++;
    } else if (sscanf(text, "P: block %u status %u", &block, &status) == 2 && (block == 1 || block == 2)) {
        hear_end(client, block, status);
    } else if (rest != text && client->line[0] != 0 && number == client->number) {
        hear_answer(client, rest + 1);
    } else {
        fail(text);
    }
}

static void hear(struct client *client) {
    size_t len;
    const uint8_t *bytes = client_output(link_client(client->link), &len);
    if (client->len + len >= ROOM)
        fail("too much output");
    if (len != 0)
        memcpy(client->in + client->len, bytes, len);
    client->len += len;
    client_sent(link_client(client->link), len);
    link_go(client->link);
    for (char *end; (end = memchr(client->in, '\n', client->len)) != NULL;) {
        char text[512];
        size_t line = (size_t)(end - client->in);
        snprintf(text, sizeof text, "%.*s", (int)line, client->in);
        client->len -= line + 1;
        memmove(client->in, end + 1, client->len);
        hear_line(client, text);
    }
}

static void leave(struct client *client) {
    if (client->link != NULL)
        link_close(client->link);
    client->link = NULL;
}

static void want(struct client *client, unsigned block) {
    struct want *want = &client->wants[block - 1];
    char line[LINE];
    if (want->is_waiting)
        return;
    if (want->is_held && pick(30) == 0) {
        want->is_held = false;
        snprintf(line, sizeof line, "deq P @%u", block);
        ask(client, line);
    } else if (!want->is_held && pick(6) == 0) {
        want->resource = pick(RESOURCES);
        client->asking = block;
        snprintf(line, sizeof line, "enq P EX name=R%u block=%u ast=1", want->resource, block);
        ask(client, line);
    }
}

static void act(struct client *client) {
    if (client->lease < now + lease * 2 / 3)
        ask(client, "alive");
    else if (!client->is_declared)
        ask(client, "declare P");
    else
        want(client, 1 + pick(2));
}

static void move_client(struct client *client) {
    if (now < client->stopped)
        return;
    if (pick(3000) == 0) {
        client->stopped = now + pick(2 * (uint32_t)lease);
        return;
    }
    if (client->session[0] != 0 && now >= client->lease) {
        /* (what it holds is lost, and the session ends by itself) */
        leave(client);
        forget_session(client);
    }
    if (client->link == NULL)
        connect_to(client, &nodes[pick(REPLICAS)]);
    if (link_client(client->link) != NULL)
        hear(client);
    if (link_is_over(client->link) || (now > client->asked + 1500 && client->line[0] != 0))
        leave(client);
    else if (client->session[0] != 0 && client->line[0] == 0)
        act(client);
}

/* Lets all that is under way come to its end. */
static void settle(void) {
    for (uint32_t turn = 0; turn < 20000; turn += 20) {
        now += 20;
        for (uint32_t at = 0; at < REPLICAS; at++) {
            nodes[at].stopped = 0;
            go(&nodes[at]);
        }
    }
    for (uint32_t at = 0; at < REPLICAS; at++)
        while (nodes[at].at < list.count)
            apply_next(&nodes[at]);
    compare();
}

static void begin(uint64_t first) {
    seed = first * 0x9E3779B97F4A7C15U + 1;
    now = 1000;
    memset(clients, 0, sizeof clients);
    for (uint32_t at = 0; at < REPLICAS; at++)
        start(&nodes[at]);
}

static void end(void) {
    for (uint32_t at = 0; at < REPLICAS; at++)
        stop(&nodes[at]);
    empty(&list);
    empty(&kept);
}

static void run(uint64_t first) {
    begin(first);
    for (uint32_t step = 0; step < STEPS; step++) {
        now += 1 + pick(20);
        for (uint32_t at = 0; at < REPLICAS; at++)
            move_node(&nodes[at]);
        for (uint32_t at = 0; at < CLIENTS; at++)
            move_client(&clients[at]);
        if (step % 50 == 0)
            compare();
    }
    settle();
    end();
}

static void pass_time(struct client *client, uint64_t until) {
    for (; now < until; now += 10) {
        for (uint32_t at = 0; at < REPLICAS; at++)
            go(&nodes[at]);
        if (link_client(client->link) != NULL)
            hear(client);
    }
}

/* A client's beats come late, so a replica has its session ended. But that comes later still, after the client was
 * told of a beat: the session goes on. */
static void run_late_end(void) {
    struct client *client = &clients[0];
    begin(1);
    nodes[0].delay = nodes[1].delay = nodes[2].delay = 10;
    connect_to(client, &nodes[1]);
    pass_time(client, 4900);
    nodes[1].delay = 4500;
    pass_time(client, 5000);
    ask(client, "alive");
    delay_of_ends = 4000;
    pass_time(client, 8000);
    nodes[1].delay = 10;
    pass_time(client, 9900);
    ask(client, "alive");
    pass_time(client, 14800);
    if (client->session[0] == 0 || client->line[0] != 0 || now >= client->lease)
        fail("a session ends before its lease");
    delay_of_ends = 0;
    end();
}

/* After a time without clients a replica is a little late. It was not silent: it had nothing to say. */
static void run_idle(void) {
    begin(1);
    nodes[0].delay = nodes[1].delay = nodes[2].delay = 10;
    connect_to(&clients[0], &nodes[0]);
    connect_to(&clients[1], &nodes[1]);
    pass_time(&clients[0], 2000);
    link_close(clients[0].link);
    link_close(clients[1].link);
    for (; now < 60000; now += 10)
        for (uint32_t at = 0; at < REPLICAS; at++)
            go(&nodes[at]);
    nodes[1].stopped = now + 500;
    connect_to(&clients[2], &nodes[0]);
    pass_time(&clients[2], now + 3000);
    clients[0].link = clients[1].link = NULL;
    end();
}

/* Begins with a client that has a session at the first node. */
static void begin_with(struct client *client) {
    begin(1);
    nodes[0].delay = nodes[1].delay = nodes[2].delay = 10;
    connect_to(client, &nodes[0]);
    pass_time(client, now + 2000);
}

/* The list stands still for long, and then takes the batch of one replica first: the others go on. */
static void run_list_that_stands_still(void) {
    struct client *client = &clients[0];
    begin_with(client);
    nodes[0].delay = 40000;
    nodes[1].delay = nodes[2].delay = 41000;
    pass_time(client, now + 1500);
    nodes[0].delay = nodes[1].delay = nodes[2].delay = 10;
    pass_time(client, now + 45000);
    end();
}

/* A replica ends in order: the others know at once that its connections have ended. */
static void run_leaving(void) {
    struct client *client = &clients[0];
    begin_with(client);
    uint32_t before = dispatcher_count(nodes[1].dispatcher);
    replica_leave(nodes[0].replica);
    pass_time(client, now + 500);
    if (!replica_has_left(nodes[0].replica) || dispatcher_count(nodes[1].dispatcher) != before - 1)
        fail("connections of a replica that has left go on");
    end();
}

/* Clients of a replica that ask at once to keep their leases share one beat. */
static void run_one_beat(void) {
    enum { SHARERS = 3 };
    size_t all = 0, most = 0;
    begin_with(&clients[0]);
    for (size_t at = 1; at < SHARERS; at++) {
        connect_to(&clients[at], &nodes[0]);
        pass_time(&clients[at], now + 500);
    }
    size_t from = list.count;
    for (size_t at = 0; at < SHARERS; at++)
        ask(&clients[at], "alive");
    for (size_t at = 0; at < SHARERS; at++)
        pass_time(&clients[at], now + 500);
    for (; from < list.count; from++) {
        struct reader reader = {list.all[from].batch.all, list.all[from].batch.len, false};
        struct entry entry;
        batch_open(&reader);
        while (batch_next(&reader, &entry)) {
            size_t sessions = entry.type == ENTRY_BEAT ? entry.payload.left / 8 - 1 : 0;
            all += sessions;
            most = sessions > most ? sessions : most;
        }
    }
    if (most != SHARERS || all != SHARERS)
        fail("leases are not kept by one beat");
    end();
}

static void need_expected(const struct replica *replica, uint32_t expected) {
    if (replica_expected(replica) != expected)
        fail("a replica expects another number of lines");
}

static void send_text(struct link *link, const char *line) { link_hear(link, (const uint8_t *)line, strlen(line)); }

/* Before its next batch, a replica may wait for the next lines of the clients that the last one has answered. */
static void run_next_lines(void) {
    static const struct limits limits = USUAL_LIMITS;
    static const struct rights rights = {.group = 1};
    static const uint8_t keys[16];
    struct dispatcher *dispatcher = dispatcher_open(&limits, 0, keys, say_nothing);
    struct replica *replica = replica_open(dispatcher, 1);
    struct link *link = link_open(replica, &rights, 0, replica);
    struct bytes batch = replica_batch(replica);
    replica_appended(replica);
    replica_apply(replica, 1, &batch, NULL);
    send_text(link, "open\n");
    need_expected(replica, 0);
    batch = replica_batch(replica);
    send_text(link, "declare A\n");
    need_expected(replica, 0);
    replica_appended(replica);
    need_expected(replica, 1);
    if (!replica_apply(replica, 2, &batch, NULL))
        fail("a replica does not know its own batch");
    need_expected(replica, 1);
    send_text(link, "declare B\n");
    need_expected(replica, 0);
    batch = replica_batch(replica);
    replica_appended(replica);
    replica_apply(replica, 3, &batch, NULL);
    need_expected(replica, 0);
    send_text(link, "declare C\n");
    need_expected(replica, 1);
    send_text(link, "declare D\n");
    need_expected(replica, 0);
    replica_close(replica);
    dispatcher_close(dispatcher);
}

/* A client has many lines that its replica runs by itself: it runs a part of them in each turn. */
static void run_many_readings(void) {
    enum { READINGS = 1000, MOST = 200 };
    struct client *client = &clients[0];
    struct node *node = &nodes[0];
    size_t len, all = 0;
    begin_with(client);
    for (unsigned it = 0; it < READINGS; it++)
        link_hear(client->link, (const uint8_t *)"who none\n", 9);
    for (unsigned turn = 0; turn < READINGS && all < READINGS; turn++) {
        replica_tick(node->replica, now);
        dispatcher_run(node->dispatcher);
        while (dispatcher_changed(node->dispatcher) != NULL)
            link_go(client->link);
        client_output(link_client(client->link), &len);
        client_sent(link_client(client->link), len);
        if (len > MOST)
            fail("a client has all of a turn");
        all += len;
    }
    if (all != READINGS)
        fail("lines of a client are not run");
    end();
}

/* How many bytes a client of a dispatcher was told. */
static size_t told_to(struct client *client) {
    size_t len;
    client_output(client, &len);
    client_sent(client, len);
    return len;
}

/* Two clients have lines that pass over all locks. A turn runs as many as it may, and then the other client comes. */
static void run_costly_lines(void) {
    enum { LOCKS = 6000, LINES = 20 };
    static const struct limits limits = USUAL_LIMITS;
    static const struct rights rights = {.group = 1};
    static const uint8_t keys[16];
    struct dispatcher *dispatcher = dispatcher_open(&limits, 0, keys, say_nothing);
    struct client *readers[] = {client_open(dispatcher, &rights, 0, dispatcher),
                                client_open(dispatcher, &rights, 0, dispatcher)};
    client_run(readers[0], "open", 4);
    client_run(readers[0], "declare P quota=6000", 20);
    for (uint32_t lock = 0; lock < LOCKS; lock++) {
        char line[LINE];
        client_run(readers[0], line, (size_t)snprintf(line, sizeof line, "enq P NL name=A%u block=1", lock));
        told_to(readers[0]);
    }
    told_to(readers[1]);
    size_t told[2] = {0, 0};
    for (uint32_t line = 0; line < LINES; line++)
        for (uint32_t at = 0; at < 2; at++)
            client_hear(readers[at], (const uint8_t *)"who none\n", 9);
    for (uint32_t turn = 1; turn <= LINES; turn++) {
        for (uint32_t at = 0; at < 2; at++)
            told[at] += told_to(readers[at]);
        if (told[0] + told[1] > (size_t)2 * turn || (turn > 2 && (told[0] == 0 || told[1] == 0)))
            fail("costly lines take too long a turn, or one client has all turns");
        dispatcher_run(dispatcher);
    }
    if (told[0] + told[1] + told_to(readers[0]) + told_to(readers[1]) != (size_t)2 * LINES)
        fail("costly lines are not run");
    dispatcher_close(dispatcher);
}

/* All processes of the lock manager are made. A declaration more is refused, and no replica takes that for a want of
 * memory. */
static void run_all_processes(void) {
    enum { MOST = 8 * 65535, NAMES = 500 };
    static const struct rights rights = {.group = 1};
    static const uint8_t keys[16];
    struct limits limits = USUAL_LIMITS;
    limits.processes = limits.connections = UINT32_MAX;
    struct dispatcher *dispatcher = dispatcher_open(&limits, 0, keys, say_nothing);
    struct bytes told = {NULL, 0, 0};
    struct client *client = NULL;
    dispatcher_follow(dispatcher);
    for (unsigned count = 0; count <= MOST; count++) {
        char line[LINE];
        if (count % NAMES == 0) {
            client = client_open(dispatcher, &rights, count, &told);
            tell_line(client, "open", &told);
        }
        snprintf(line, sizeof line, "declare P%u", count % NAMES);
        told.len = 0;
        tell_line(client, line, &told);
    }
    if (strcmp((const char *)told.all, "too many processes\n") != 0)
        fail((const char *)told.all);
    free(told.all);
    dispatcher_close(dispatcher);
}

enum { FEW = 100 };

/* A client whose session has a lease of 10 seconds. */
static struct client *begin_client(struct dispatcher *dispatcher, uint32_t salt, struct bytes *told) {
    static const struct rights rights = {.group = 1};
    struct client *client = client_open(dispatcher, &rights, salt, told);
    tell_line(client, "open seconds=10", told);
    tell_line(client, "declare P", told);
    return client;
}

/* A replica's dispatcher whose IDs a client takes up. */
static struct dispatcher *run_out_of_ids(struct limits *limits, struct client **client, struct bytes *told) {
    static const uint8_t keys[16];
    limits->ids = FEW;
    struct dispatcher *dispatcher = dispatcher_open(limits, 0, keys, say_nothing);
    dispatcher_follow(dispatcher);
    dispatcher_tick(dispatcher, 1000);
    *client = begin_client(dispatcher, 0, told);
    for (unsigned count = 0; count < FEW; count++)
        tell_line(*client, "enq P NL name=A block=1", told);
    dispatcher_pass(dispatcher, 1);
    if (dispatcher_drain_due(dispatcher) == UINT64_MAX)
        fail("IDs do not run out");
    return dispatcher;
}

/* IDs run out, and then the limit is raised: the epoch goes on. */
static void run_raised_limit(void) {
    struct limits limits = USUAL_LIMITS;
    struct bytes told = {NULL, 0, 0};
    struct client *client;
    struct dispatcher *dispatcher = run_out_of_ids(&limits, &client, &told);
    limits.ids = UINT32_MAX;
    dispatcher_limit(dispatcher, &limits);
    dispatcher_pass(dispatcher, 2);
    if (dispatcher_drain_due(dispatcher) != UINT64_MAX)
        fail("an epoch ends that has IDs");
    free(told.all);
    dispatcher_close(dispatcher);
}

/* Whether the lease of a session is over at a moment, and ends it then. */
static bool is_ended(struct dispatcher *dispatcher, uint64_t moment) {
    uint64_t session, beat;
    dispatcher_tick(dispatcher, moment);
    dispatcher_look(dispatcher);
    return dispatcher_next_end(dispatcher, &session, &beat) && dispatcher_end(dispatcher, session, beat);
}

/* An epoch ends in which a lock is held to the last. Its holder is told, and no beat keeps the lease. But the lock
 * stays until that is over, and nobody gets another one before. A session without locks goes on. */
static void run_end_of_epoch(void) {
    struct limits limits = USUAL_LIMITS;
    struct bytes told = {NULL, 0, 0};
    struct client *holder;
    struct dispatcher *dispatcher = run_out_of_ids(&limits, &holder, &told);
    uint64_t session = client_session(holder);
    struct client *other = begin_client(dispatcher, 1, &told);
    told.len = 0;
    dispatcher_end_epoch(dispatcher);
    dispatcher_end_epoch(dispatcher);
    tell_line(holder, "deq P @1", &told);
    if (strcmp((const char *)told.all, "lost\n") != 0 || !client_is_over(holder) || client_is_over(other))
        fail((const char *)told.all);
    dispatcher_tick(dispatcher, 9000);
    dispatcher_keep(dispatcher, session);
    dispatcher_keep(dispatcher, client_session(other));
    dispatcher_pass(dispatcher, 2);
    told.len = 0;
    tell_line(other, "enq P EX name=A block=1", &told);
    if (strcmp((const char *)told.all, "no identifications left\n") != 0)
        fail((const char *)told.all);
    if (is_ended(dispatcher, 11000) || is_ended(dispatcher, 12000) || dispatcher_drain_due(dispatcher) != UINT64_MAX)
        fail("a session ends before its lease");
    if (!is_ended(dispatcher, 12100))
        fail("a lost session goes on");
    dispatcher_pass(dispatcher, 3);
    told.len = 0;
    tell_line(other, "enq P EX name=A block=1", &told);
    if (strcmp((const char *)told.all, "P: NORMAL lock 4294967297\n") != 0 || dispatcher_epoch(dispatcher) != 1)
        fail((const char *)told.all);
    free(told.all);
    dispatcher_close(dispatcher);
}

/* An administrator ends a session. Its client is told, and no beat keeps its lease. But its lock stays until that is
 * over. */
static void run_kill(void) {
    static const struct rights rights = {.group = 1}, admin = {.group = 1, .is_admin = true};
    static const struct limits limits = USUAL_LIMITS;
    static const uint8_t keys[16];
    struct dispatcher *dispatcher = dispatcher_open(&limits, 0, keys, say_nothing);
    struct bytes told = {NULL, 0, 0};
    dispatcher_follow(dispatcher);
    dispatcher_tick(dispatcher, 1000);
    struct client *client = client_open(dispatcher, &rights, 0, &told);
    struct client *other = client_open(dispatcher, &admin, 1, &told);
    tell_line(client, "open seconds=10", &told);
    tell_line(client, "declare P", &told);
    tell_line(client, "enq P EX name=A block=1", &told);
    uint64_t session = client_session(client);
    char line[LINE];
    snprintf(line, sizeof line, "kill %016" PRIx64, session);
    tell_line(other, line, &told);
    told.len = 0;
    tell_line(client, "deq P @1", &told);
    if (strcmp((const char *)told.all, "session killed\n") != 0 || !client_is_over(client))
        fail((const char *)told.all);
    snprintf(line, sizeof line, "resume %016" PRIx64, session);
    struct client *again = client_open(dispatcher, &rights, 2, &told);
    told.len = 0;
    tell_line(again, line, &told);
    if (strstr((const char *)told.all, "session ended\n") == NULL)
        fail((const char *)told.all);
    dispatcher_tick(dispatcher, 9000);
    dispatcher_keep(dispatcher, session);
    if (is_ended(dispatcher, 11000) || is_ended(dispatcher, 12000) || !dispatcher_has_locks(dispatcher))
        fail("a session ends before its lease");
    if (!is_ended(dispatcher, 12100) || dispatcher_has_locks(dispatcher))
        fail("a killed session goes on");
    free(told.all);
    dispatcher_close(dispatcher);
}

int main(int count, char **words) {
    if (count != 3)
        return 2;
    unsigned long first = strtoul(words[1], NULL, 10), runs = strtoul(words[2], NULL, 10);
    list.all = calloc(MOST_BATCHES, sizeof *list.all);
    kept.all = calloc(MOST_BATCHES, sizeof *kept.all);
    run_late_end();
    run_idle();
    run_list_that_stands_still();
    run_leaving();
    run_one_beat();
    run_next_lines();
    run_many_readings();
    run_costly_lines();
    run_all_processes();
    run_raised_limit();
    run_end_of_epoch();
    run_kill();
    for (unsigned long it = first; it < first + runs; it++) {
        printf("seed %lu: ", it);
        fflush(stdout);
        run(it);
        printf("%lu grants, %lu victims, %lu resumes, %lu sessions ended, %lu starts\n", grants, victims, resumes, ends,
               starts);
        grants = victims = resumes = ends = starts = 0;
    }
    free(list.all);
    free(kept.all);
    return 0;
}
