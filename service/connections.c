/* Connections of clients: accepted, read, sent to and closed. A daemon that is alone hands what it reads to the
 * dispatcher; a replica hands it to a link, whose lines come to the dispatcher by the list. */
#define _GNU_SOURCE
#include "connections.h"

#include <errno.h>
#include <netinet/in.h>
#include <netinet/tcp.h>
#include <stdlib.h>
#include <string.h>
#include <sys/random.h>
#include <sys/socket.h>
#include <unistd.h>

/* (what TLS has heard takes memory of the connection as long as that lasts) */
enum { READ = 64 << 10, READ_SECURED = 16 << 10, ACCEPTED = 64, PAUSE = 100, NOBODY = 65534, MOST_MADE = 64 << 10 };

struct listener {
    uv_poll_t poll;
    uv_timer_t pause;
    int descriptor;
    bool is_tcp;
};

static void forget(uv_handle_t *handle) { free(handle->data); }

static struct connection *connection_of(const struct client *client) {
    return vlmd.replica != NULL ? link_context(client_context(client)) : client_context(client);
}

struct client *client_of(const struct connection *connection) {
    return connection->link != NULL ? link_client(connection->link) : connection->client;
}

void hang_up(struct connection *connection) {
    if (connection->tls != NULL)
        end_secured(connection);
    if (connection->link != NULL)
        link_close(connection->link);
    else if (connection->client != NULL)
        client_close(connection->client);
    uv_poll_stop(&connection->poll);
    close(connection->descriptor);
    uv_close((uv_handle_t *)&connection->poll, forget);
}

static void on_events(uv_poll_t *poll, int status, int events);

/* Whether more should be read: also of a client that is not let in. What TLS answers by itself has a limit too. */
static bool is_heard(const struct connection *connection) {
    size_t made = 0;
    if (connection->tls != NULL)
        tls->output(connection->tls, &made);
    return made <= MOST_MADE
           && (connection->link != NULL     ? link_is_heard(connection->link)
               : connection->client != NULL ? client_is_heard(connection->client)
                                            : true);
}

/* Has the loop wait for what the client's state asks for. */
static void wait_for(struct connection *connection, size_t unsent) {
    int events = (is_heard(connection) ? UV_READABLE : 0) | (unsent != 0 ? UV_WRITABLE : 0);
    if (events == connection->events)
        return;
    connection->events = events;
    if (events == 0)
        uv_poll_stop(&connection->poll);
    else
        uv_poll_start(&connection->poll, events, on_events);
}

/* Sends what waits for a client, as far as its socket takes it. Returns false if the connection has failed. */
static bool send_output(struct connection *connection, size_t *len) {
    struct client *client = client_of(connection);
    const uint8_t *bytes;
    if (connection->tls != NULL)
        return send_secured(connection, len);
    while (bytes = client_output(client, len), *len != 0) {
        ssize_t sent = send(connection->descriptor, bytes, *len, MSG_NOSIGNAL | MSG_DONTWAIT);
        if (sent < 0 && errno == EINTR)
            continue;
        if (sent < 0 && errno == EAGAIN)
            return true;
        if (sent < 0)
            return false;
        client_sent(client, (size_t)sent);
        if (connection->link != NULL)
            link_go(connection->link);
    }
    return true;
}

static bool is_over(const struct connection *connection) {
    return connection->link != NULL     ? link_is_over(connection->link)
           : connection->client != NULL ? client_is_over(connection->client)
                                        : false;
}

void flush(struct connection *connection) {
    size_t len = 0;
    struct client *client = client_of(connection);
    if (client == NULL && connection->tls == NULL)
        return;
    if (connection->link != NULL)
        link_go(connection->link);
    if (!send_output(connection, &len) || (client != NULL && client_is_cut(client))
        || (is_over(connection) && len == 0))
        hang_up(connection);
    else
        wait_for(connection, len);
}

void flush_all(void) {
    for (struct client *client; (client = dispatcher_changed(vlmd.dispatcher)) != NULL;)
        if (client_context(client) != NULL)
            flush(connection_of(client));
}

void hand_on(struct connection *connection, const uint8_t *bytes, size_t len) {
    vlmd.has_line |= len != 0 && memchr(bytes, '\n', len) == bytes + len - 1;
    if (connection->link != NULL)
        link_hear(connection->link, bytes, len);
    else
        client_hear(connection->client, bytes, len);
}

/* After bytes were handed on. What they were answered is sent at the end of the turn; what TLS has to say, at once. */
static void go_on(struct connection *connection) {
    struct client *client = client_of(connection);
    size_t unsent = 0, made = 0;
    if (client != NULL)
        client_output(client, &unsent);
    if (connection->tls != NULL)
        tls->output(connection->tls, &made);
    if (made != 0 || (is_over(connection) && connection->link != NULL))
        flush(connection);
    else if (!is_over(connection))
        wait_for(connection, unsent != 0 && (connection->events & UV_WRITABLE) != 0);
}

static void hear(struct connection *connection) {
    static uint8_t bytes[READ];
    if (connection->tls != NULL && !may_step(connection))
        return; /* (the loop tells of the bytes again) */
    size_t room = connection->tls != NULL ? READ_SECURED : READ;
    ssize_t len = recv(connection->descriptor, bytes, room, MSG_DONTWAIT);
    if (len < 0 && (errno == EAGAIN || errno == EINTR))
        return;
    if (len < 0) {
        hang_up(connection);
        return;
    }
    if (connection->tls != NULL) {
        if (hear_secured(connection, bytes, (size_t)len))
            go_on(connection);
        return;
    }
    hand_on(connection, bytes, (size_t)len);
    go_on(connection);
}

/* Tells the time before anything is done. */
static void tick(void) {
    if (vlmd.replica != NULL)
        replica_tick(vlmd.replica, uv_now(&vlmd.loop));
    else
        dispatcher_tick(vlmd.dispatcher, uv_now(&vlmd.loop));
}

static void on_events(uv_poll_t *poll, int status, int events) {
    struct connection *connection = poll->data;
    tick();
    if (status < 0)
        hang_up(connection);
    else if ((events & UV_READABLE) != 0)
        hear(connection);
    else if ((events & UV_WRITABLE) != 0)
        flush(connection);
}

/* The rights of a client. One of TCP without TLS is nobody. */
static bool find_rights(const struct listener *listener, int descriptor, struct rights *rights) {
    static const char refusal[] = "no group\n";
    int yes = 1;
    if (!listener->is_tcp) {
        bool has_group = read_rights(&vlmd.config, descriptor, rights);
        if (!has_group)
            send(descriptor, refusal, sizeof refusal - 1, MSG_NOSIGNAL | MSG_DONTWAIT);
        return has_group;
    }
    *rights = (struct rights){.uid = NOBODY, .group = vlmd.config.tcp_group};
    setsockopt(descriptor, IPPROTO_TCP, TCP_NODELAY, &yes, sizeof yes);
    setsockopt(descriptor, SOL_SOCKET, SO_KEEPALIVE, &yes, sizeof yes);
    return true;
}

bool let_in(struct connection *connection, const struct rights *rights) {
    /* (so no session has the name that one of an earlier daemon had; the first epoch has no earlier daemon) */
    bool has_salt = vlmd.replica != NULL || dispatcher_epoch(vlmd.dispatcher) != 0;
    uint32_t salt = 0;
    if (has_salt && getrandom(&salt, sizeof salt, 0) != sizeof salt)
        return false;
    if (vlmd.replica == NULL) {
        connection->client = client_open(vlmd.dispatcher, rights, salt, connection);
        return connection->client != NULL;
    }
    connection->link = link_open(vlmd.replica, rights, salt, connection);
    if (connection->link != NULL)
        wait_for(connection, 0);
    return connection->link != NULL;
}

/* Closes a connection that the daemon can't serve. */
static void turn_away(int descriptor) {
    write_log("a connection is closed at once: there is no memory for it");
    close(descriptor);
}

static void welcome(const struct listener *listener, int descriptor) {
    struct rights rights;
    if (!find_rights(listener, descriptor, &rights)) {
        close(descriptor);
        return;
    }
    struct connection *connection = calloc(1, sizeof *connection);
    if (connection == NULL || uv_poll_init(&vlmd.loop, &connection->poll, descriptor) != 0) {
        turn_away(descriptor);
        free(connection);
        return;
    }
    connection->poll.data = connection;
    connection->descriptor = descriptor;
    if (listener->is_tcp && has_tls() ? !secure(connection) : !let_in(connection, &rights)) {
        turn_away(descriptor);
        uv_close((uv_handle_t *)&connection->poll, forget);
    }
}

static void on_connections(uv_poll_t *poll, int status, int events);

static void on_pause(uv_timer_t *timer) {
    struct listener *listener = timer->data;
    uv_poll_start(&listener->poll, UV_READABLE, on_connections);
}

static void on_connections(uv_poll_t *poll, int status, int events) {
    struct listener *listener = poll->data;
    (void)status, (void)events;
    tick();
    for (int count = 0; count < ACCEPTED; count++) {
        int descriptor = accept4(listener->descriptor, NULL, NULL, SOCK_CLOEXEC | SOCK_NONBLOCK);
        if (descriptor >= 0) {
            welcome(listener, descriptor);
            continue;
        }
        if (errno == EMFILE || errno == ENFILE || errno == ENOMEM || errno == ENOBUFS) {
            uv_poll_stop(&listener->poll);
            uv_timer_start(&listener->pause, on_pause, PAUSE, 0);
        }
        return;
    }
}

bool listen_to(int descriptor, bool is_tcp) {
    struct listener *listener = calloc(1, sizeof *listener);
    if (listener == NULL || uv_poll_init(&vlmd.loop, &listener->poll, descriptor) != 0) {
        free(listener);
        return false;
    }
    listener->descriptor = descriptor;
    listener->is_tcp = is_tcp;
    listener->poll.data = listener->pause.data = listener;
    uv_timer_init(&vlmd.loop, &listener->pause);
    listener->pause.data = listener;
    return uv_poll_start(&listener->poll, UV_READABLE, on_connections) == 0;
}
