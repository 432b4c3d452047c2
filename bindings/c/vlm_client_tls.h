/* Connections of the client that may have TLS. The commands of the service use them too. Not a header of programs. */
#ifndef VLM_CLIENT_TLS_H
#define VLM_CLIENT_TLS_H

#include "tls/vlm_tls.h"

#include <sys/types.h>

/* A connection; without TLS its bytes go as they are. */
struct channel {
    int descriptor; /* -1: there is none */
    vlm_tls *tls;   /* or null */
};

/* How a connection begins TLS: by which keys, with which host, until when, and where the reason goes if it fails. While
 * it waits, a readable descriptor `wake` ends it, if that is not -1. */
struct handshake {
    const vlm_tls_keys *keys;
    const char *host;
    int wake;
    uint64_t until;
    char *reason; /* VLM_TLS_REASON bytes */
};

/* Whether an address is of replicas, and whether they are reached by TLS. */
bool vlmc_is_replicated(const char *address);
bool vlmc_is_secured(const char *address);

/* The files that are named, or where null is, those of VLM_TLS_CERTIFICATE, VLM_TLS_KEY and VLM_TLS_AUTHORITY. */
struct vlm_tls_files vlmc_files(const struct vlm_tls_files *named);

/* Reads files. The first call loads the library of TLS. Null, with the reason. */
vlm_tls_keys *vlmc_read_keys(const struct vlm_tls_files *named, char *reason);
void vlmc_free_keys(vlm_tls_keys *keys);

/* Begins TLS on a connection, and waits for the end of the handshake. */
bool vlmc_shake_hands(struct channel *channel, const struct handshake *how);

/* Sends bytes whole. `flags` are those of send: with MSG_DONTWAIT it is false if the connection does not take all. */
bool vlmc_channel_send(const struct channel *channel, const void *bytes, size_t len, int flags);

/* Receives what has come, by one call of recv with `flags` at most. The answers are those of recv. */
ssize_t vlmc_channel_receive(const struct channel *channel, void *bytes, size_t room, int flags);

/* Why TLS has failed on a connection, or null if it has not. */
const char *vlmc_channel_reason(const struct channel *channel);

/* Ends a connection in both directions, and closes it. */
void vlmc_channel_end(const struct channel *channel);
void vlmc_channel_close(struct channel *channel);

/* vlm_client_addresses.c, vlm_client_lease.c. Waits until a descriptor is ready for events of poll, `wake` is readable,
 * or a moment of vlmc_now has come: whether it is ready. */
bool vlmc_poll(int descriptor, int wake, short events, uint64_t until);
uint64_t vlmc_now(void);

/* vlm_client_sockets.c. Closes a socket, also one that vlmc_open_socket did not make. */
void vlmc_close_socket(int descriptor);

#endif
