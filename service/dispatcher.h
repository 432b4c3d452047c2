/* The dispatcher of the lock service: bytes of clients in, bytes to clients out. It owns the lock manager and has no
 * input and output of its own, so it can be tested alone. vlm-protocol(7) has its lines. Nothing here is proved.
 *
 * One thread calls it. A turn of the daemon is: dispatcher_tick with the time, client_hear for each client that has
 * sent something, dispatcher_run for the lines that are left, and then dispatcher_changed until it returns null: each
 * client that it returns has bytes to send, or is over. */
#ifndef DISPATCHER_H
#define DISPATCHER_H

#include "vlm.h"

/* How much a user, a session or a client may have. man/vlmd.8 has the meaning and the usual value of each. */
struct limits {
    uint32_t connections; /* of a user */
    uint32_t processes;   /* of a user */
    uint32_t locks;       /* of a user */
    uint32_t waiting;     /* requests of a user */
    uint32_t queued;      /* bytes that wait for the clients of a user */
    uint32_t names;       /* of a session */
    uint32_t lines;       /* of a client in a turn */
    uint32_t shown;       /* locks that `show`, `tails` and `who` print */
    uint32_t search;      /* milliseconds that a request waits before a search for deadlocks; 0: none is made */
    uint32_t drain;       /* milliseconds from the last ID to the end of the epoch */
    uint32_t ids;         /* of locks, of one lock manager */
};
/* clang-format off */
#define USUAL_LIMITS { 20000, 20000, 10000, 2000, 8 << 20, 1024, 64, 10000, 1000, 60000, UINT32_MAX }
/* clang-format on */

enum { TOKEN_BITS = 40 };

/* What a connection may do, as the system says who it is. */
struct rights {
    uint32_t uid;
    uint32_t pid;
    uint32_t group; /* the UIC group */
    bool has_syslck;
    bool is_admin; /* it sees all groups, and may kill sessions */
};

struct dispatcher;
struct client;

/* Where the dispatcher's messages for the log go, each without a line feed. */
typedef void (*logger)(const char *text);

/* Makes a dispatcher, or returns null without memory. `keys` are random. The first lock manager has this epoch, and
 * each later one the next. */
struct dispatcher *dispatcher_open(const struct limits *limits, uint32_t epoch, const uint8_t keys[16], logger log);

/* Ends all sessions and frees everything. */
void dispatcher_close(struct dispatcher *dispatcher);

/* Other limits count from here on. */
void dispatcher_limit(struct dispatcher *dispatcher, const struct limits *limits);

/* Has requests wait, unanswered, until this time. */
void dispatcher_be_quiet(struct dispatcher *dispatcher, uint64_t until);

/* Has requests wait for this many milliseconds after each end of an epoch. Clients that have lost their locks then have
 * time to stop what they do under them. */
void dispatcher_set_grace(struct dispatcher *dispatcher, uint32_t milliseconds);

/* Tells the time, in milliseconds of a clock that never goes back, and does what is due. */
void dispatcher_tick(struct dispatcher *dispatcher, uint64_t now);

/* When something is due next, or UINT64_MAX. */
uint64_t dispatcher_due(const struct dispatcher *dispatcher);

/* Runs lines that were heard and not run yet. */
void dispatcher_run(struct dispatcher *dispatcher);

/* Whether the lines of this turn have read so many locks that those that are left wait for the next turn. */
bool dispatcher_is_spent(const struct dispatcher *dispatcher);

/* Whether such lines are left. Sent output may let more lines run. */
bool dispatcher_is_busy(const struct dispatcher *dispatcher);

/* The last epoch of which a client may have a handle or a token: that of the lock manager, or a later one if more
 * tokens were taken than an epoch has. The next dispatcher has to begin with a later one. */
uint32_t dispatcher_epoch(const struct dispatcher *dispatcher);

/* Whether a client holds a lock or waits for one. */
bool dispatcher_has_locks(struct dispatcher *dispatcher);

/* Sets the last fencing token, unless that is greater already: each grant takes the next one. The tokens of an epoch
 * are those above `epoch << TOKEN_BITS`. */
void dispatcher_set_token(struct dispatcher *dispatcher, uint64_t token);

/* Tells all clients that their locks are lost, and ends them. */
void dispatcher_lose(struct dispatcher *dispatcher);

/* A client with output, or one that is over, each once until it changes again; null after the last one. */
struct client *dispatcher_changed(struct dispatcher *dispatcher);

/* A new connection. `context` belongs to the daemon. `salt` makes the names of its sessions hard to guess. Null without
 * memory. A client over the user's limit is over at once: it gets the reason as its only line. */
struct client *client_open(struct dispatcher *dispatcher, const struct rights *rights, uint32_t salt, void *context);
void *client_context(const struct client *client);

/* The connection has ended and the client is freed. */
void client_close(struct client *client);

/* Bytes that the client has sent. Calls with no bytes say that no more come. */
void client_hear(struct client *client, const uint8_t *bytes, size_t len);

/* Whether more should be read: not while lines are left, or while the client does not read its answers. */
bool client_is_heard(const struct client *client);

/* The bytes that wait to be sent, and that the first `len` of them were. */
const uint8_t *client_output(const struct client *client, size_t *len);
void client_sent(struct client *client, size_t len);

/* Whether the connection is to be closed once its output has been sent, or at once. */
bool client_is_over(const struct client *client);
bool client_is_cut(const struct client *client);

/* What follows is for replicas: each has a dispatcher, and all dispatchers take the same calls in the order of one list
 * (replica.h). A call that changes anything is made when its entry of the list comes by. */

/* Makes the dispatcher one of a replica. From here on it does nothing because of the time. A session has a lease of its
 * `seconds` and ends by dispatcher_end alone. Without memory the program ends: else this replica would go another way
 * than the others. */
void dispatcher_follow(struct dispatcher *dispatcher);

/* Tells the place in the list of the entry that comes by: the revision of its batch, and its number there. */
enum { PLACE_BITS = 20 };
void dispatcher_pass(struct dispatcher *dispatcher, uint64_t place);

/* What a line may do, by its first word: change something, keep the lease of its session, or only read. */
enum line_kind { LINE_CHANGES, LINE_KEEPS, LINE_READS };
enum line_kind dispatcher_kind(const char *line, size_t len);

/* Runs a line without its line feed. */
void client_run(struct client *client, const char *line, size_t len);

/* Has dispatcher_changed tell a client after the next dispatcher_run: it has lines left. */
void client_call(struct client *client);

/* The connection of a client is another replica's, or has ended: nothing is sent to it. It has no context. */
void client_detach(struct client *client);

/* The session of a client: its name, or 0. */
uint64_t client_session(const struct client *client);

/* A beat of a session comes by: its lease lasts its whole time again. Nothing happens if there is no such session. */
void dispatcher_keep(struct dispatcher *dispatcher, uint64_t session);

/* Ends a session, if the beat at this place was its last. Returns whether it did. */
bool dispatcher_end(struct dispatcher *dispatcher, uint64_t session, uint64_t beat);

/* Looks which leases are over by this replica's clock, and returns whether some are. The list is known to grow when it
 * is called. */
bool dispatcher_look(struct dispatcher *dispatcher);

/* A session whose lease has been over for a while, with the place of its last beat. Each is told once. False: none. */
bool dispatcher_next_end(struct dispatcher *dispatcher, uint64_t *session, uint64_t *beat);

/* How many clients and sessions there are. */
uint32_t dispatcher_count(const struct dispatcher *dispatcher);

/* When a search for deadlocks that may find one is due, or UINT64_MAX, and the search. It returns whether it has found
 * one. */
uint64_t dispatcher_search_due(const struct dispatcher *dispatcher);
bool dispatcher_search(struct dispatcher *dispatcher);

/* When the epoch has to end for want of IDs, or UINT64_MAX. Its end: the sessions that have locks are lost, and each
 * of them ends when its lease is over. */
uint64_t dispatcher_drain_due(const struct dispatcher *dispatcher);
void dispatcher_end_epoch(struct dispatcher *dispatcher);

#endif
