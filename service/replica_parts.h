/* What the files of a replica share. Not a header of the daemon.
 *
 * replica.c  entries that are made, and batches that are run
 * links.c    connections of clients to this replica
 * entries.c  entries as bytes
 *
 * list.c has the pipes to service/list/vlm-list, the program that appends to the list, follows it and packs it.
 *
 * Each replica has the dispatcher's clients of all replicas. A client that is connected here has a link: its bytes
 * become lines, lines that may change something become entries, and a line that reads runs here once all earlier ones
 * have run. So a client's line goes to its replica, which appends it, sees it come by as all replicas do, runs it, and
 * answers. A replica has one append under way, since several at once were no faster. The lines that it gets meanwhile
 * go together in its next batch. */
#ifndef REPLICA_PARTS_H
#define REPLICA_PARTS_H

#include "replica.h"

#define NO_SLOT UINT32_MAX

enum { MOST_SLOTS = 1 << 20, HAS_SYSLCK = 1, IS_ADMIN = 2 };

/* A replica that has been heard of, this one too. */
struct peer {
    uint64_t name;
    uint64_t last;  /* the number of its last batch */
    uint64_t heard; /* when that came by */
    bool is_gone;
    struct client **clients; /* by slot */
    uint32_t room;
};

/* The number of a connection. It is free once all replicas know that the connection has ended. */
struct slot {
    struct link *link; /* or null */
    uint32_t next_free;
};

struct replica {
    struct dispatcher *dispatcher;
    uint64_t name, now, turns;
    struct peer *peers;
    uint32_t peer_count;
    struct slot *slots;
    uint32_t slot_count, free_slot;
    struct bytes next, batch; /* entries to be appended, and those that are under way */
    uint64_t batches;         /* that were made */
    uint32_t lines, expected; /* in `next`; of the last batch, those whose clients have sent no other line since */
    bool is_under_way, has_limits, is_ending;
    bool is_leaving, has_left;  /* it is to end; all others know that it has ended */
    uint64_t searched, drained; /* when it asked for a search, or for the end of the epoch; 0: it was heard */
    struct bytes asked;         /* sessions that the next beat keeps */
    uint64_t beats, beat_at, beat_heard;
    uint64_t looked; /* when its last beat came by */
    uint64_t
        speaking; /* since when they do: without clients there are none, and while the list stands still none come */
};

/* replica.c */
void replica_fail(int status, const char *reason) __attribute__((noreturn));
void *replica_need(void *memory);

/* links.c */
struct link *link_of(const struct replica *replica, uint32_t slot);
void link_begin(struct link *link, struct client *client);
void link_line_has_run(struct replica *replica, uint32_t slot);
void links_go(struct replica *replica);
void free_slot(struct replica *replica, uint32_t slot);
void free_link(struct link *link);

#endif
