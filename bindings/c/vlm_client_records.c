/* Records of requests and locks. A lock is found by its ID. */
#include "vlm_client_parts.h"

#include <stdlib.h>
#include <string.h>

enum { FIRST_RECORDS = 16 };

static uint32_t *bucket(const vlm_client *client, uint32_t lkid) {
    return &client->hashed[lkid & (client->record_room - 1)];
}

static bool is_lock(const struct record *record) {
    return record->is_used && record->lkid != 0 && record->lock == NO_RECORD;
}

static void link_lock(vlm_client *client, uint32_t place) {
    uint32_t *first = bucket(client, client->records[place].lkid);
    client->records[place].next = *first;
    *first = place;
}

static void unlink_lock(vlm_client *client, uint32_t place) {
    uint32_t *at = bucket(client, client->records[place].lkid);
    while (*at != place)
        at = &client->records[*at].next;
    *at = client->records[place].next;
}

/* Doubles the records, of which none is free, and hashes the locks anew. */
static bool grow(vlm_client *client) {
    uint32_t from = client->record_room, room = from != 0 ? 2 * from : FIRST_RECORDS;
    struct record *records = realloc(client->records, room * sizeof *records);
    if (records == NULL)
        return false;
    client->records = records;
    uint32_t *hashed = realloc(client->hashed, room * sizeof *hashed);
    if (hashed == NULL)
        return false;
    client->hashed = hashed;
    client->record_room = room;
    memset(hashed, UINT8_MAX, room * sizeof *hashed);
    for (uint32_t place = 0; place < from; place++)
        if (is_lock(&records[place]))
            link_lock(client, place);
    for (uint32_t place = room; place-- > from;) {
        records[place] = (struct record){.next = client->free_record};
        client->free_record = place;
    }
    return true;
}

/* A record that nobody uses, or NO_RECORD without memory. */
uint32_t vlmc_new_record(vlm_client *client) {
    if (client->free_record == NO_RECORD && !grow(client))
        return NO_RECORD;
    uint32_t place = client->free_record, generation = client->records[place].generation;
    client->free_record = client->records[place].next;
    client->records[place] =
        (struct record){.is_used = true, .generation = generation, .lock = NO_RECORD, .converted = NO_RECORD};
    return place;
}

static bool is_of(const struct record *record, uint32_t pid, uint32_t lkid) {
    return record->lkid == lkid && (pid == 0 || record->pid == pid);
}

uint32_t vlmc_find_lock(const vlm_client *client, uint32_t pid, uint32_t lkid) {
    if (client->record_room == 0)
        return NO_RECORD;
    uint32_t place = *bucket(client, lkid);
    while (place != NO_RECORD && !is_of(&client->records[place], pid, lkid))
        place = client->records[place].next;
    return place;
}

void vlmc_free_block(vlm_client *client, uint32_t pid, uint32_t block) { client->processes[pid - 1].blocks[block] = 0; }

/* Nobody uses a record any more. Its warnings are stale. */
void vlmc_free_record(vlm_client *client, uint32_t place) {
    struct record *record = &client->records[place];
    if (is_lock(record))
        unlink_lock(client, place);
    if (record->lock != NO_RECORD && client->records[record->lock].converted == place)
        client->records[record->lock].converted = NO_RECORD;
    *record = (struct record){.generation = record->generation + 1, .next = client->free_record};
    client->free_record = place;
}

void vlmc_accept(vlm_client *client, uint32_t place, uint32_t lkid) {
    struct record *record = &client->records[place];
    record->lkid = lkid;
    if (record->lock == NO_RECORD)
        link_lock(client, place);
}

static bool has_tail(const struct record *record) {
    return record->is_granted && (record->flags & VLM_VALBLK) != 0 && (record->flags & VLM_WIDE) != 0;
}

/* The record's request was granted. A conversion brings its token and blocking routine, and older warnings are
 * stale. */
static void grant(vlm_client *client, struct record *record) {
    record->is_granted = true;
    if (record->lock == NO_RECORD)
        return;
    struct record *lock = &client->records[record->lock];
    lock->token = record->token;
    lock->blocking = record->blocking;
    lock->blocking_context = record->blocking_context;
    lock->generation++;
}

/* A request that has ended needs its record only as a lock. */
static void keep_lock(vlm_client *client, uint32_t place) {
    struct record *record = &client->records[place];
    if (!record->is_granted || record->lock != NO_RECORD)
        vlmc_free_record(client, place);
}

/* A request was granted at once, with SYNCSTS: no completion comes. Its call frees the block. */
void vlmc_grant_at_once(vlm_client *client, uint32_t place) {
    struct record *record = &client->records[place];
    record->status = VLM_NORMAL;
    grant(client, record);
    keep_lock(client, place);
}

/* A request has ended. Its call or its routine is told. The block stays taken while a tail is to be read from it. */
void vlmc_end(vlm_client *client, uint32_t place, uint32_t status) {
    struct record *record = &client->records[place];
    record->status = status;
    if (is_grant(status))
        grant(client, record);
    if (!has_tail(record))
        vlmc_free_block(client, record->pid, record->block);
    if (record->call != NULL) {
        record->call->is_ended = true;
        record->call->status = status;
        memcpy(record->call->value, record->value, WHOLE_VALUE);
        pthread_cond_signal(&record->call->changed);
    } else {
        vlmc_tell_end(client, record);
    }
    record->call = NULL;
    keep_lock(client, place);
}
