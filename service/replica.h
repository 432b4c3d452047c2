/* A replica of the lock service. Several daemons have equal dispatchers: what a client sends becomes an entry of one
 * list, and each replica runs the entries in the order of the list. The replica to which the client is connected sends
 * it the answer. docs/CLUSTER.md has the reasons why that is safe. Nothing here is proved.
 *
 * The replica has no input and output of its own: batches of entries go out to be appended, batches of the list come
 * in, each at its revision, and bytes of clients go in. So several replicas and a list can be tested in one program.
 *
 * One thread calls it. A turn of the daemon is: replica_tick with the time, replica_apply for each batch of the list,
 * link_hear for each client that has sent something, dispatcher_run, dispatcher_changed until it returns null, with
 * link_go for each client, and replica_batch for what is to be appended. */
#ifndef REPLICA_H
#define REPLICA_H

#include "dispatcher.h"
#include "entries.h"

struct replica;

/* Exit statuses: a replica that can't go on and may start again, and one whose list is not what it was. What is left of
 * that list may grant what others hold. */
enum { LOST_LIST = 1, BROKEN_LIST = 3 };

/* A connection of a client to this replica. */
struct link;

/* Makes a replica over a dispatcher that has run nothing. No other replica has the same name: it is random. Null
 * without memory. */
struct replica *replica_open(struct dispatcher *dispatcher, uint64_t name);

/* Frees everything but the dispatcher. */
void replica_close(struct replica *replica);

/* Tells the time, in milliseconds of a clock that never goes back, and makes the entries that are due. */
void replica_tick(struct replica *replica, uint64_t now);

/* When an entry is due next, or UINT64_MAX. */
uint64_t replica_due(const struct replica *replica);

/* What is to be appended to the list. From there it comes back by replica_apply. No bytes: nothing, or the last batch
 * is still under way. replica_appended says that it is in the list, so batches of a replica are there in their order.
 */
struct bytes replica_batch(struct replica *replica);
void replica_appended(struct replica *replica);

/* If there is something to be appended: how many lines of the last batch no other line of their clients has followed
 * yet. Clients that were answered often send the next line at once, and a batch with these lines spares an append. */
uint32_t replica_expected(const struct replica *replica);

/* Runs a batch of the list. Revisions rise. `kept`, if it is not null, gets the batch without what did nothing: that
 * rebuilds the same state. Returns whether this replica has made the batch. Without memory the program ends, as it does
 * for a batch that no replica has made. */
bool replica_apply(struct replica *replica, uint64_t revision, const struct bytes *batch, struct bytes *kept);

/* The replica is to end: it reads no more, and once what it has is in the list, it tells the others that its
 * connections have ended. Then it has left. */
void replica_leave(struct replica *replica);
bool replica_has_left(const struct replica *replica);

/* Has all replicas use other limits. The list keeps them. */
void replica_limit(struct replica *replica, const struct limits *limits);

/* Whether the list has said which limits there are. */
bool replica_has_limits(const struct replica *replica);

/* A new connection. The client is greeted when its entry comes by. Null without memory. */
struct link *link_open(struct replica *replica, const struct rights *rights, uint32_t salt, void *context);
void *link_context(const struct link *link);

/* The connection has ended. */
void link_close(struct link *link);

/* Bytes that the client has sent. No bytes: no more come. */
void link_hear(struct link *link, const uint8_t *bytes, size_t len);

/* Runs lines that waited, as far as they may. It is called when output of the client was sent. */
void link_go(struct link *link);

/* Whether more should be read. */
bool link_is_heard(const struct link *link);

/* Whether the connection is to be closed once its output has been sent. */
bool link_is_over(const struct link *link);

/* The dispatcher's client, or null before its entry came by. */
struct client *link_client(const struct link *link);

#endif
