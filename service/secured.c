/* Connections with TLS. A client shows its certificate, and the name in it gives it its rights. Then its bytes go to
 * and from the dispatcher as those of others do. One that does not finish its handshake in time is cut off, and one
 * that is turned away has some time to read why. */
#define _GNU_SOURCE
#include "connections.h"

#include <errno.h>
#include <inttypes.h>
#include <netdb.h>
#include <stdio.h>
#include <stdlib.h>
#include <string.h>
#include <sys/socket.h>

enum {
    PLAIN = 64 << 10,
    RECORD = 16 << 10, /* what TLS is given at once, so that little waits outside of the client's limits */
    PATIENCE = 10000,
    GOODBYE = 2000,
    LOOK = 500,
    MOST_WAITING = 1000, /* connections that are not let in */
    MOST_STEPS = 16,     /* of handshakes in a turn of the loop: each takes about a millisecond */
    MOST_TOLD = 10,      /* lines of the log a second */
    SECOND = 1000,
    TEXT = 512,
    HOST = 64,
    PORT = 16
};

#ifdef VLM_WITHOUT_TLS
const struct vlm_tls_calls *const tls = NULL;
#else
const struct vlm_tls_calls *const tls = &vlm_tls_calls;
#endif

static struct {
    vlm_tls_keys *keys; /* null: no TLS */
    struct names names;
    struct connection *first, *last; /* that are not let in */
    uint32_t count;
    uv_timer_t timer;
    bool has_timer;
    uint32_t steps;     /* of this turn */
    uint64_t told_from; /* the lines of the log since then, and those that were left out */
    uint32_t told, untold;
} secured;

bool has_tls(void) { return secured.keys != NULL; }

/* The setting of TLS that has no value beside others that have, or null. */
static const char *missing(const struct config *config) {
    return config->tls_certificate[0] == 0 ? "tls-certificate"
           : config->tls_key[0] == 0       ? "tls-key"
           : config->tls_authority[0] == 0 ? "tls-authority"
           : config->rights[0] == 0        ? "rights"
                                           : NULL;
}

/* Reads the keys, or says why not. Says if clients will refuse the certificate because of its dates. */
static vlm_tls_keys *read_keys(const struct config *config) {
    const struct vlm_tls_files files = {config->tls_certificate, config->tls_key, config->tls_authority};
    char reason[VLM_TLS_REASON] = "", text[TEXT];
    vlm_tls_keys *keys = tls->read_keys(&files, reason);
    if (reason[0] != 0) {
        snprintf(text, sizeof text, "tls: %s", reason);
        write_log(text);
    }
    return keys;
}

bool read_tls(const struct config *config) {
    const char *absent = missing(config);
    char text[TEXT];
    bool is_asked = config->tls_certificate[0] != 0 || config->tls_key[0] != 0 || config->tls_authority[0] != 0
                    || config->rights[0] != 0 || has_tls();
    if (!is_asked)
        return true;
    if (tls == NULL || absent != NULL) {
        snprintf(text, sizeof text, "tls: %s%s", tls == NULL ? "this vlmd was built without OpenSSL" : absent,
                 tls == NULL ? "" : " is not set");
        write_log(text);
        return false;
    }
    vlm_tls_keys *keys = read_keys(config);
    if (keys == NULL)
        return false;
    if (!read_names(config->rights, &secured.names)) {
        tls->free_keys(keys);
        return false;
    }
    tls->free_keys(secured.keys);
    secured.keys = keys;
    return true;
}

void begin_turn(void) { secured.steps = 0; }

bool may_step(const struct connection *connection) { return !connection->is_shaking || secured.steps++ < MOST_STEPS; }

/* Whether the log takes one more line of what strangers do. */
static bool may_tell(void) {
    char text[TEXT];
    uint64_t now = uv_now(&vlmd.loop);
    if (now >= secured.told_from + SECOND) {
        uint32_t untold = secured.untold;
        secured.told_from = now;
        secured.told = secured.untold = 0;
        snprintf(text, sizeof text, "tls: %" PRIu32 " more", untold);
        if (untold != 0)
            write_log(text);
    }
    bool may = secured.told++ < MOST_TOLD;
    secured.untold += !may;
    return may;
}

/* Logs what becomes of a connection. */
static void tell(const struct connection *connection, const char *what) {
    char text[TEXT], host[HOST] = "?", port[PORT] = "?";
    struct sockaddr_storage peer;
    socklen_t len = sizeof peer;
    if (!may_tell())
        return;
    if (getpeername(connection->descriptor, (struct sockaddr *)&peer, &len) == 0)
        getnameinfo((const struct sockaddr *)&peer, len, host, sizeof host, port, sizeof port,
                    NI_NUMERICHOST | NI_NUMERICSERV);
    snprintf(text, sizeof text, "tls: the client at %s port %s: %s", host, port, what);
    write_log(text);
}

/* Takes a connection off the list of those that wait. */
static void forget_waiting(struct connection *connection) {
    if (connection->previous != NULL)
        connection->previous->next = connection->next;
    else
        secured.first = connection->next;
    if (connection->next != NULL)
        connection->next->previous = connection->previous;
    else
        secured.last = connection->previous;
    secured.count--;
    connection->is_shaking = connection->is_leaving = false;
}

/* Ends one that waits, without another word. */
static void cut_off(struct connection *connection, const char *what) {
    if (connection->is_shaking)
        tell(connection, what);
    hang_up(connection);
}

static void on_time(uv_timer_t *timer) {
    uint64_t now = uv_now(&vlmd.loop);
    for (struct connection *it = secured.first, *next; it != NULL; it = next) {
        next = it->next;
        if (it->until <= now)
            cut_off(it, "it has not finished its handshake in time");
    }
    if (secured.first == NULL)
        uv_timer_stop(timer);
}

/* Puts a connection on the list. If too many wait, the first one has to go. */
static void note_waiting(struct connection *connection) {
    if (secured.count == MOST_WAITING)
        cut_off(secured.first, "too many others have begun a handshake");
    connection->previous = secured.last;
    if (secured.last != NULL)
        secured.last->next = connection;
    else
        secured.first = connection;
    secured.last = connection;
    secured.count++;
    if (!secured.has_timer)
        secured.has_timer = uv_timer_init(&vlmd.loop, &secured.timer) == 0;
    if (!uv_is_active((const uv_handle_t *)&secured.timer))
        uv_timer_start(&secured.timer, on_time, LOOK, LOOK);
}

bool secure(struct connection *connection) {
    connection->tls = tls->open(secured.keys, NULL);
    if (connection->tls == NULL)
        return false;
    connection->is_shaking = true;
    connection->until = uv_now(&vlmd.loop) + PATIENCE;
    note_waiting(connection);
    flush(connection);
    return true;
}

/* Sends what TLS has made. Returns false if the connection has failed. */
static bool send_made(struct connection *connection, size_t *left) {
    const void *bytes;
    while (bytes = tls->output(connection->tls, left), *left != 0) {
        ssize_t sent = send(connection->descriptor, bytes, *left, MSG_NOSIGNAL | MSG_DONTWAIT);
        if (sent < 0 && errno == EINTR)
            continue;
        if (sent < 0)
            return errno == EAGAIN;
        tls->sent(connection->tls, (size_t)sent);
    }
    return true;
}

void end_secured(struct connection *connection) {
    size_t unsent;
    if (connection->is_shaking || connection->is_leaving)
        forget_waiting(connection);
    tls->end(connection->tls);
    send_made(connection, &unsent);
    tls->close(connection->tls);
    connection->tls = NULL;
}

bool send_secured(struct connection *connection, size_t *unsent) {
    struct client *client = connection->is_shaking || connection->is_leaving ? NULL : client_of(connection);
    for (;;) {
        size_t waiting = 0;
        const uint8_t *bytes = client != NULL ? client_output(client, &waiting) : NULL;
        if (!send_made(connection, unsent))
            return false;
        if (*unsent != 0 || waiting == 0) {
            *unsent += waiting;
            break;
        }
        size_t part = waiting < RECORD ? waiting : RECORD;
        if (!tls->write(connection->tls, bytes, part))
            return false;
        client_sent(client, part);
        if (connection->link != NULL)
            link_go(connection->link);
    }
    /* (the socket is closed once the client has read why, or its time is over) */
    if (connection->is_leaving && *unsent == 0)
        shutdown(connection->descriptor, SHUT_WR);
    return true;
}

/* Has a client that is not let in read why. Bytes of it that nobody reads would take that from it. */
static void turn_away(struct connection *connection, const char *what) {
    tell(connection, what);
    tls->end(connection->tls);
    connection->is_shaking = false;
    connection->is_leaving = true;
    connection->until = uv_now(&vlmd.loop) + GOODBYE;
    flush(connection);
}

/* Lets a client in whose certificate is right. Returns false if the connection waits or is closed. */
static bool welcome_named(struct connection *connection) {
    static const char refusal[] = "no rights\n";
    char name[VLM_TLS_NAME] = "", text[TEXT];
    bool has_name = tls->name(connection->tls, name);
    const struct rights *rights = has_name ? rights_of(&secured.names, name) : NULL;
    if (rights == NULL) {
        snprintf(text, sizeof text, "%s has no rights", has_name ? name : "a certificate without a proper name");
        tls->write(connection->tls, refusal, sizeof refusal - 1);
        turn_away(connection, text);
        return false;
    }
    forget_waiting(connection);
    if (let_in(connection, rights))
        return true;
    hang_up(connection);
    return false;
}

/* Goes on with a handshake. Returns false if the connection waits or is closed. */
static bool is_through(struct connection *connection, bool is_end) {
    int found = tls->shake(connection->tls);
    if (found > 0)
        return welcome_named(connection);
    if (found < 0)
        turn_away(connection, tls->reason(connection->tls));
    else if (is_end)
        cut_off(connection, "it has not finished its handshake");
    else
        flush(connection);
    return false;
}

/* Hands on what a client has sent. */
static bool hand_on_secured(struct connection *connection, bool is_end) {
    static uint8_t plain[PLAIN];
    long count;
    while ((count = tls->read(connection->tls, plain, sizeof plain)) > 0)
        hand_on(connection, plain, (size_t)count);
    if (count == VLM_TLS_FAILED) {
        tell(connection, tls->reason(connection->tls));
        hang_up(connection);
        return false;
    }
    if (is_end || count == VLM_TLS_ENDED)
        hand_on(connection, plain, 0);
    return true;
}

bool hear_secured(struct connection *connection, const uint8_t *bytes, size_t len) {
    if (connection->is_leaving && len != 0)
        return false;
    if (connection->is_leaving || !tls->hear(connection->tls, bytes, len)) {
        hang_up(connection);
        return false;
    }
    return (!connection->is_shaking || is_through(connection, len == 0)) && hand_on_secured(connection, len == 0);
}
