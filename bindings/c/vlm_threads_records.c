/* Tables of records, and the room that a call makes before its step. */
#include "vlm_threads_parts.h"

#include <stdlib.h>

/* Tables. */

/* The number of the chain of an entry. While some chains are new, entries of the others go by one bit less. */
static uint32_t chain_of(const struct table *table, uint32_t id) {
    uint32_t hash = id * UINT32_C(2654435769);
    hash ^= hash >> 16;
    uint32_t chain = hash & (2 * table->half - 1);
    return chain < table->used ? chain : chain - table->half;
}

struct entry *vlmt_found(const struct table *table, uint32_t id) {
    struct entry *entry = table->chains[chain_of(table, id)];
    while (entry && entry->id != id)
        entry = entry->next;
    return entry;
}

static void push(struct entry **chain, struct entry *entry) {
    entry->next = *chain;
    *chain = entry;
}

void vlmt_put(struct table *table, struct entry *entry) {
    push(&table->chains[chain_of(table, entry->id)], entry);
    table->count++;
}

void vlmt_take_out(struct table *table, struct entry *entry) {
    struct entry **link = &table->chains[chain_of(table, entry->id)];
    while (*link != entry)
        link = &(*link)->next;
    *link = entry->next;
    table->count--;
}

bool vlmt_make_table(struct table *table, uint32_t bits) {
    table->room = table->used = UINT32_C(1) << bits;
    table->half = table->used / 2;
    table->chains = calloc(table->room, sizeof *table->chains);
    return table->chains;
}

/* Makes room for one more chain. Moving many chains costs little: the system moves their pages. */
static bool reserve_chain(struct table *table) {
    if (table->used < table->room)
        return true;
    struct entry **moved = realloc(table->chains, 2 * sizeof *moved * table->room);
    if (!moved)
        return false;
    table->chains = moved;
    table->room *= 2;
    return true;
}

/* Makes one more chain, and moves the entries that belong there from the one chain that has them. */
static bool grow_table(struct table *table) {
    if (!reserve_chain(table))
        return false;
    if (table->used == 2 * table->half)
        table->half = table->used;
    uint32_t made = table->used++;
    struct entry **link = &table->chains[made - table->half];
    table->chains[made] = NULL;
    for (struct entry *entry = *link; entry; entry = *link) {
        if (chain_of(table, entry->id) == made) {
            *link = entry->next;
            push(&table->chains[made], entry);
        } else {
            link = &entry->next;
        }
    }
    return true;
}

bool vlmt_reserve_entry(struct table *table) { return table->count < table->used || grow_table(table); }

/* Room. */

/* Makes room in the table of records for one more. */
static bool reserve_place(vlm_threads *layer) {
    if (layer->request_count < layer->request_room)
        return true;
    uint32_t room = layer->request_room ? 2 * layer->request_room : 16;
    struct request **moved = realloc(layer->requests, room * sizeof *moved);
    if (!moved)
        return false;
    layer->requests = moved;
    layer->request_room = room;
    return true;
}

bool vlmt_reserve_request(vlm_threads *layer) {
    if (layer->free_requests)
        return true;
    struct request *request = reserve_place(layer) ? calloc(1, sizeof *request) : NULL;
    if (!request)
        return false;
    request->index = layer->request_count;
    request->ended = (struct event){.request = request, .kind = VLM_COMPLETION};
    request->warned = (struct event){.request = request, .kind = VLM_BLOCKING};
    layer->requests[layer->request_count++] = request;
    layer->free_requests = request;
    return true;
}

static bool reserve_record(vlm_threads *layer) {
    if (!layer->free_locks)
        layer->free_locks = calloc(1, sizeof *layer->free_locks);
    return layer->free_locks;
}

bool vlmt_reserve_lock(vlm_threads *layer) { return reserve_record(layer) && vlmt_reserve_entry(&layer->locks); }
