/* The first lines of a connection: the service greets, and a session is opened or resumed. */
#include "vlm_client_parts.h"

#include <errno.h>
#include <inttypes.h>
#include <poll.h>
#include <stdio.h>
#include <stdlib.h>
#include <string.h>
#include <sys/socket.h>
#include <unistd.h>

enum { NAME_DIGITS = SESSION_NAME - 1 };

/* What the service tells of a session, on a connection. */
struct told {
    struct channel channel; /* without a session there is none */
    bool is_asked;          /* the first line was sent */
    uint64_t epoch;
    char name[SESSION_NAME];
    uint64_t seconds, number, asts;
};

static const char greeting[] = "vlm protocol 1 ";

static bool read_byte(const vlm_client *client, const struct channel *channel, char *byte, uint64_t until) {
    ssize_t len;
    while ((len = vlmc_channel_receive(channel, byte, 1, 0)) < 0)
        if (errno != EINTR
            && (errno != EAGAIN || vlmc_now() >= until || !vlmc_wait_for(client, channel->descriptor, POLLIN, until)))
            return false;
    return len == 1;
}

/* Reads a line without its line feed, byte by byte, so that nothing is taken from the reader. */
static bool read_line(const vlm_client *client, const struct channel *channel, char *line, uint64_t until) {
    for (size_t len = 0; len < LINE_ROOM; len++) {
        if (!read_byte(client, channel, line + len, until))
            return false;
        if (line[len] != '\n')
            continue;
        line[len] = 0;
        return true;
    }
    return false;
}

/* A line that says that the session is over, or that more ASTs were missed than the service keeps. */
bool vlmc_is_end(const char *line) {
    static const char *const ends[] = {"lost", "session killed", "session moved", "session ended"};
    for (size_t at = 0; at < sizeof ends / sizeof *ends; at++)
        if (strcmp(line, ends[at]) == 0)
            return true;
    /* `lost 7` counts missed ASTs. (A row of `who` may begin so too, with the name of a lock, but goes on.) */
    static const char missed[] = "lost ";
    size_t len = strlen(missed);
    return strncmp(line, missed, len) == 0 && line[len + strspn(line + len, "0123456789")] == 0;
}

/* A line that says that the service ends the connection, and not the session. */
bool vlmc_is_cut_off(const char *line) { return strcmp(line, "too many bytes") == 0; }

/* A replica that hung may hear a `resume` after the client has gone on elsewhere. That moves the session to a
 * connection that has ended: the client goes on once more. */
bool vlmc_is_own_move(vlm_client *client, const char *line) {
    if (client->abandoned == 0 || strcmp(line, "session moved") != 0)
        return false;
    client->abandoned--;
    return true;
}

static bool read_session(const char *line, struct told *told) {
    static const char before[] = "session ";
    if (strncmp(line, before, strlen(before)) != 0)
        return false;
    const char *name = line + strlen(before);
    if (strspn(name, "0123456789abcdef") != NAME_DIGITS)
        return false;
    memcpy(told->name, name, NAME_DIGITS);
    told->name[NAME_DIGITS] = 0;
    told->seconds = vlmc_number_after(line, " seconds ");
    told->number = vlmc_number_after(line, " number ");
    told->asts = vlmc_number_after(line, " asts ");
    return true;
}

/* Whether the session has the lease that the client keeps. At a Unix socket it keeps none, and a replica's has one. */
static bool has_lease(const vlm_client *client, const struct told *told) {
    return client->lease != 0 ? told->seconds * 1000 >= client->lease : told->seconds == 0;
}

/* Notes why an address does not do. The other side may have sent any bytes. */
static int refused(vlm_client *client, int found, const char *why) {
    size_t len = 0;
    for (; why[len] != 0 && len < sizeof client->reason - 1; len++)
        client->reason[len] = (char)(why[len] >= ' ' && why[len] <= '~' ? why[len] : '?');
    client->reason[len] = 0;
    return found;
}

static int gone(vlm_client *client, const struct channel *channel) {
    const char *why = vlmc_channel_reason(channel);
    return refused(client, NOT_THERE, why != NULL ? why : "no answer");
}

/* Whether another address may do better after this line. */
static bool is_passing(const char *line) {
    return strcmp(line, "too many connections") == 0 || strcmp(line, "no rights") == 0;
}

/* Sends the first line and reads the two answers: WENT_ON with a session, OVER with another answer, also one with
 * another lease, and NOT_THERE if another address may do better. */
static int begin(vlm_client *client, const char *first, struct told *told, uint64_t until) {
    char line[LINE_ROOM];
    told->is_asked = vlmc_channel_send(&told->channel, first, strlen(first), 0);
    if (!told->is_asked || !read_line(client, &told->channel, line, until))
        return gone(client, &told->channel);
    if (strncmp(line, greeting, strlen(greeting)) != 0)
        return refused(client, is_passing(line) ? NOT_THERE : OVER, line);
    told->epoch = strtoull(line + strlen(greeting) + strlen("epoch "), NULL, 10);
    if (!read_line(client, &told->channel, line, until))
        return gone(client, &told->channel);
    if (read_session(line, told))
        return has_lease(client, told) ? WENT_ON : refused(client, OVER, "the session has another lease");
    return refused(client, is_passing(line) ? NOT_THERE : OVER, line);
}

/* Begins TLS, if the program asked for it. */
static bool is_secured(vlm_client *client, struct channel *channel, uint64_t until) {
    const struct handshake how = {client->keys, client->addresses[client->address].host, client->wake_descriptor, until,
                                  client->reason};
    return !vlmc_is_secured(client->path) || (client->keys != NULL && vlmc_shake_hands(channel, &how));
}

/* errno says why there is no connection. */
static int unreachable(vlm_client *client) {
    char why[VLM_TLS_REASON] = "no connection: ", text[VLM_TLS_REASON];
    strncat(why, strerror_r(errno, text, sizeof text), sizeof why - strlen(why) - 1);
    return refused(client, NOT_THERE, why);
}

/* Connects to the address whose turn it is, and begins with a line. */
static int begin_at(vlm_client *client, const char *first, struct told *told, uint64_t until) {
    if (!vlmc_connect_to(client, &told->channel, until))
        return unreachable(client);
    int found = is_secured(client, &told->channel, until) ? begin(client, first, told, until) : NOT_THERE;
    if (found != WENT_ON)
        vlmc_channel_close(&told->channel);
    return found;
}

/* Reads the files of TLS for the connections that follow: by now they may have new certificates. Wrong ones leave those
 * that were read. */
static bool has_keys(vlm_client *client) {
    const struct vlm_tls_files files = {client->files[0], client->files[1], client->files[2]};
    if (!vlmc_is_secured(client->path))
        return true;
    vlm_tls_keys *keys = vlmc_read_keys(&files, client->reason);
    if (keys == NULL)
        return client->keys != NULL;
    vlmc_free_keys(client->keys);
    client->keys = keys;
    return true;
}

/* A session without steps and ASTs, and a whole lease. */
static void begin_session(vlm_client *client, const struct told *told, uint64_t asked) {
    pthread_mutex_lock(&client->state);
    memcpy(client->session_name, told->name, SESSION_NAME);
    client->epoch = told->epoch;
    client->number = client->answered = client->asts = 0;
    client->is_asking = client->is_ruined = false;
    client->abandoned = 0;
    client->lease_end = asked + client->lease;
    vlmc_drop_early(client);
    vlmc_link(client, &told->channel, asked);
    pthread_mutex_unlock(&client->state);
}

/* Each address is tried once. */
uint32_t vlmc_connect(vlm_client *client) {
    char first[LINE_ROOM] = "open tokens\n";
    if (client->lease != 0)
        snprintf(first, sizeof first, "open seconds=%" PRIu32 " tokens\n", client->lease / 1000);
    refused(client, NOT_THERE, "no such address");
    if (!vlmc_find_addresses(client) || !has_keys(client))
        return VLM_LOST;
    for (; client->address < client->address_count; client->address++) {
        struct told told = {.channel = {-1, NULL}};
        uint64_t asked = vlmc_now(), until = client->lease != 0 ? asked + vlmc_patience(client) : NEVER;
        if (begin_at(client, first, &told, until) != WENT_ON)
            continue;
        begin_session(client, &told, asked);
        return VLM_NORMAL;
    }
    return VLM_LOST;
}

/* Half of the lease that is left, so that other addresses have their turn. */
static uint64_t turn_of(const vlm_client *client, uint64_t now) {
    uint64_t left = client->lease_end > now ? (client->lease_end - now) / 2 : 0, patience = vlmc_patience(client);
    return now + (left < patience ? left : patience);
}

/* A service that knows fewer steps or ASTs than the client has lost them, and with them locks. */
int vlmc_go_on(vlm_client *client) {
    char first[LINE_ROOM];
    struct told told = {.channel = {-1, NULL}};
    uint64_t asked = vlmc_now();
    snprintf(first, sizeof first, "resume %s asts=%" PRIu64 "\n", client->session_name, client->asts);
    has_keys(client);
    int found = begin_at(client, first, &told, turn_of(client, asked));
    client->abandoned += found == NOT_THERE && told.is_asked;
    if (found != WENT_ON)
        return found;
    pthread_mutex_lock(&client->state);
    bool is_same = told.number >= client->answered && told.asts >= client->asts && !vlmc_is_out(client);
    if (is_same)
        vlmc_link(client, &told.channel, asked);
    pthread_mutex_unlock(&client->state);
    if (is_same)
        return WENT_ON;
    vlmc_channel_close(&told.channel);
    return OVER;
}
