/* What connections.c and secured.c share: a connection, from when it is accepted. */
#ifndef CONNECTIONS_H
#define CONNECTIONS_H

#include "names.h"

struct connection {
    uv_poll_t poll;
    int descriptor;
    int events;
    struct client *client; /* of a daemon that is alone */
    struct link *link;     /* of a replica; null before its client is let in */
    vlm_tls *tls;          /* or null */
    /* Of a client that is not let in: it is turned away, and the rest of what it sends is dropped; when its time is
     * over; its neighbours in the order of their coming. */
    bool is_shaking, is_leaving;
    uint64_t until;
    struct connection *previous, *next;
};

/* connections.c. Closes a connection at once. */
void hang_up(struct connection *connection);

/* Sends what waits, as far as the socket takes it, and has the loop wait for what the client's state asks for. The
 * connection may be closed then. */
void flush(struct connection *connection);

/* Begins a client, by a link if this is a replica. */
bool let_in(struct connection *connection, const struct rights *rights);

/* Hands bytes of a client on; no bytes: no more come. */
void hand_on(struct connection *connection, const uint8_t *bytes, size_t len);

/* The dispatcher's client; null while it is not let in, or a replica's connection waits for its entry. */
struct client *client_of(const struct connection *connection);

/* secured.c. Whether bytes of a connection may be read in this turn. Handshakes are costly, so a turn makes few steps
 * of them. */
bool may_step(const struct connection *connection);

/* Begins TLS on a connection; false without memory. */
bool secure(struct connection *connection);

/* Takes bytes of a connection with TLS; no bytes: no more come. Returns whether they were handed on: else the
 * connection may be closed. */
bool hear_secured(struct connection *connection, const uint8_t *bytes, size_t len);

/* Sends what waits, and counts what is left. Returns false if the connection has failed. */
bool send_secured(struct connection *connection, size_t *unsent);

/* Says that nothing more comes, and frees what TLS has. */
void end_secured(struct connection *connection);

#endif
