/* The entries of the list, as bytes. A batch begins with the name of the replica that made it and with its number,
 * which counts from 1. Its entries follow, each with a number too, so that a batch without some of its entries has the
 * others at their places. All numbers are little-endian. Nothing here is proved.
 *
 * No entry has a time: replicas agree on an order and on nothing else. The revision that the list gives a batch and the
 * number of an entry are the entry's place. A revision has 2^20 places, and from the first of them the fencing tokens
 * of the batch's grants count. */
#ifndef ENTRIES_H
#define ENTRIES_H

#include <stdbool.h>
#include <stddef.h>
#include <stdint.h>

enum entry_type {
    ENTRY_CONNECTED = 1, /* slot, uid, pid, group, salt, flags: a connection of the replica begins */
    ENTRY_LINE,          /* slot, the line: a client's line */
    ENTRY_LEFT,          /* slot: the connection has ended */
    ENTRY_BEAT,          /* number, sessions: their leases last their whole time again */
    ENTRY_END,           /* session, beat: the lease is over */
    ENTRY_SEARCH,        /* a search for deadlocks */
    ENTRY_GONE,          /* replica, revision: the replica has appended nothing after that batch for long */
    ENTRY_LIMITS,        /* the limits, in the order of their struct */
    ENTRY_DRAINED        /* the epoch ends */
};

enum { BATCH_HEAD = 24, ENTRY_HEAD = 8, SESSION = 8, MOST_ENTRY = UINT16_MAX, MOST_BATCH = 512 << 10 };

/* Bytes that grow. */
struct bytes {
    uint8_t *all;
    size_t len, room;
};

/* Each of these ends the program without memory: a replica that leaves an entry out goes another way than others. */
void bytes_add(struct bytes *bytes, const void *added, size_t len);
void bytes_add_number(struct bytes *bytes, uint64_t number, size_t len);
void bytes_drop(struct bytes *bytes, size_t len);

/* Begins an entry, whose payload has this many bytes. Its number is given when it is put into a batch. */
void entry_begin(struct bytes *bytes, enum entry_type type, size_t len);

/* Whose a batch is. */
struct batch_head {
    uint64_t replica, number;
};

/* Makes a batch of the first entries, as many as fit, and drops them. */
void batch_make(struct bytes *batch, struct batch_head head, struct bytes *entries);

/* Reads bytes from the front: what is there, and whether all that was read was there. */
struct reader {
    const uint8_t *at;
    size_t left;
    bool is_short;
};

/* Inline and unrolled, since each entry has numbers, and one of a known length is a single load then. */
static inline uint64_t reader_number(struct reader *reader, size_t len) {
    uint64_t number = 0;
    if (reader->left < len) {
        reader->is_short = true;
        reader->left = 0;
        return 0;
    }
#pragma GCC unroll 8
    for (size_t at = 0; at < len; at++)
        number |= (uint64_t)reader->at[at] << (8 * at);
    reader->at += len;
    reader->left -= len;
    return number;
}

/* An entry that was read. */
struct entry {
    enum entry_type type;
    uint32_t number;
    struct reader payload;
    const uint8_t *head; /* the entry as a whole */
    size_t len;
};

/* Reads the head of a batch. */
struct batch_head batch_open(struct reader *batch);

/* The next entry of a batch. False after the last one, or if the bytes are no batch: then the reader is short. */
bool batch_next(struct reader *batch, struct entry *entry);

#endif
