/* Entries of the list as bytes. */
#include "entries.h"

#include <stdio.h>
#include <stdlib.h>
#include <string.h>

enum { MARK = 8, FIRST_ROOM = 256, BITS = 8 };

static const uint8_t mark[MARK] = "vlmlist1";

static void make_room(struct bytes *bytes, size_t len) {
    if (bytes->len + len <= bytes->room)
        return;
    size_t room = bytes->room != 0 ? bytes->room : FIRST_ROOM;
    while (room < bytes->len + len)
        room *= 2;
    uint8_t *all = realloc(bytes->all, room);
    if (all == NULL) {
        fputs("vlmd: no memory: this replica ends\n", stderr);
        exit(EXIT_FAILURE);
    }
    bytes->all = all;
    bytes->room = room;
}

void bytes_add(struct bytes *bytes, const void *added, size_t len) {
    make_room(bytes, len);
    if (len != 0)
        memcpy(bytes->all + bytes->len, added, len);
    bytes->len += len;
}

void bytes_add_number(struct bytes *bytes, uint64_t number, size_t len) {
    uint8_t digits[8];
    for (size_t at = 0; at < len; at++)
        digits[at] = (uint8_t)(number >> (BITS * at));
    bytes_add(bytes, digits, len);
}

void bytes_drop(struct bytes *bytes, size_t len) {
    bytes->len -= len;
    if (bytes->len != 0)
        memmove(bytes->all, bytes->all + len, bytes->len);
}

void entry_begin(struct bytes *bytes, enum entry_type type, size_t len) {
    bytes_add_number(bytes, 0, 4);
    bytes_add_number(bytes, type, 2);
    bytes_add_number(bytes, len, 2);
}

struct batch_head batch_open(struct reader *batch) {
    struct batch_head head = {0, 0};
    if (batch->left < BATCH_HEAD || memcmp(batch->at, mark, MARK) != 0) {
        batch->is_short = true;
        batch->left = 0;
        return head;
    }
    batch->at += MARK;
    batch->left -= MARK;
    head.replica = reader_number(batch, 8);
    head.number = reader_number(batch, 8);
    return head;
}

bool batch_next(struct reader *batch, struct entry *entry) {
    if (batch->left == 0)
        return false;
    entry->head = batch->at;
    entry->number = (uint32_t)reader_number(batch, 4);
    entry->type = (enum entry_type)reader_number(batch, 2);
    size_t len = (size_t)reader_number(batch, 2);
    if (batch->is_short || batch->left < len) {
        batch->is_short = true;
        return false;
    }
    entry->payload = (struct reader){batch->at, len, false};
    entry->len = ENTRY_HEAD + len;
    batch->at += len;
    batch->left -= len;
    return true;
}

void batch_make(struct bytes *batch, struct batch_head head, struct bytes *entries) {
    struct reader reader = {entries->all, entries->len, false};
    struct entry entry;
    size_t taken = 0;
    batch->len = 0;
    bytes_add(batch, mark, MARK);
    bytes_add_number(batch, head.replica, 8);
    bytes_add_number(batch, head.number, 8);
    for (uint32_t number = 0; taken < MOST_BATCH && batch_next(&reader, &entry); number++) {
        bytes_add_number(batch, number, 4);
        bytes_add(batch, entry.head + 4, entry.len - 4);
        taken += entry.len;
    }
    bytes_drop(entries, taken);
}
