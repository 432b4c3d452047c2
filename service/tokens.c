/* Fencing tokens: each request that ends well takes the next number, and its lock has it until another request of the
 * lock ends well. Tokens are found by the lock, since several locks may have had one status block. A table has a place
 * for each lock from its request on. After a DEQALL the places of the locks stay until the table is made anew. */
#include "parts.h"

#include <stdlib.h>
#include <string.h>

enum { FIRST_TOKENS = 256 };

void dispatcher_set_token(struct dispatcher *dispatcher, uint64_t token) {
    if (token > dispatcher->token)
        dispatcher->token = token;
}

uint32_t dispatcher_epoch(const struct dispatcher *dispatcher) {
    uint32_t reached = (uint32_t)(dispatcher->token >> TOKEN_BITS);
    return reached > dispatcher->epoch ? reached : dispatcher->epoch;
}

/* Where a search for a lock begins. IDs follow each other, and clients choose which ones stay: two random keys with a
 * mixing between them keep any of them from coming together. */
static size_t home_of(const struct dispatcher *dispatcher, uint32_t lkid) {
    uint64_t keys[2];
    memcpy(keys, dispatcher->keys, sizeof keys);
    return (size_t)(mix_in(lkid, keys[0]) * (keys[1] | 1) >> 32) & (dispatcher->token_room - 1);
}

/* The place of a lock, or the free one where it would be. */
static struct token *place_of(const struct dispatcher *dispatcher, uint32_t lkid) {
    size_t at = home_of(dispatcher, lkid);
    while (dispatcher->tokens[at].lkid != 0 && dispatcher->tokens[at].lkid != lkid)
        at = (at + 1) & (dispatcher->token_room - 1);
    return &dispatcher->tokens[at];
}

/* Takes a place, also one that a lock of an earlier manager has left. */
static void add(struct dispatcher *dispatcher, struct token token) {
    struct token *place = place_of(dispatcher, token.lkid);
    dispatcher->token_count += place->lkid == 0;
    *place = token;
}

/* A lock is gone: its place gets free. Locks that were put behind it because it was taken move up. */
void forget_token(struct dispatcher *dispatcher, uint32_t lkid) {
    struct token *tokens = dispatcher->tokens, *place = tokens != NULL ? place_of(dispatcher, lkid) : NULL;
    if (place == NULL || place->lkid == 0)
        return;
    size_t last = dispatcher->token_room - 1, gap = (size_t)(place - tokens);
    for (size_t at = (gap + 1) & last; tokens[at].lkid != 0; at = (at + 1) & last)
        if (((at - home_of(dispatcher, tokens[at].lkid)) & last) >= ((at - gap) & last)) {
            tokens[gap] = tokens[at];
            gap = at;
        }
    tokens[gap] = (struct token){0};
    dispatcher->token_count--;
}

/* The locks of a process are about to go. */
void forget_tokens_of(struct dispatcher *dispatcher, uint32_t pid) {
    vlm_lock lock = {.size = sizeof lock};
    uint32_t status = vlm_first_own(&dispatcher->manager, pid, &lock);
    for (; status == VLM_NORMAL && lock.lkid != 0; status = vlm_next_own(&dispatcher->manager, lock.lkid, &lock))
        forget_token(dispatcher, lock.lkid);
}

/* Makes the table anew, at most half full. */
static bool make_anew(struct dispatcher *dispatcher) {
    struct token *old = dispatcher->tokens;
    size_t old_room = dispatcher->token_room, room = FIRST_TOKENS, locks = vlm_lock_count(&dispatcher->manager);
    bool are_there = dispatcher->token_count == locks;
    while (room / 2 <= locks)
        room *= 2;
    struct token *tokens = calloc(room, sizeof *tokens);
    if (tokens == NULL)
        return false;
    dispatcher->tokens = tokens;
    dispatcher->token_room = room;
    dispatcher->token_count = 0;
    for (size_t at = 0; at < old_room; at++) {
        vlm_lock lock = {.size = sizeof lock};
        if (old[at].lkid != 0 && (are_there || vlm_find_lock(&dispatcher->manager, old[at].lkid, &lock) == VLM_NORMAL))
            add(dispatcher, old[at]);
    }
    free(old);
    return true;
}

/* Has a place for one lock more, so that no grant needs memory. False without memory. */
bool reserve_token(struct dispatcher *dispatcher) {
    return dispatcher->token_count < dispatcher->token_room / 4 * 3 || make_anew(dispatcher);
}

/* A new lock, for which a place was reserved. It takes a token if its request is granted, and has none until then. */
void note_lock(struct dispatcher *dispatcher, uint32_t lkid, bool is_granted) {
    add(dispatcher, (struct token){.lkid = lkid, .number = is_granted ? ++dispatcher->token : 0});
}

/* Gives a lock the next token: its request has ended well. */
void give_token(struct dispatcher *dispatcher, struct request *record) {
    record->has_token = true;
    place_of(dispatcher, record->lkid)->number = ++dispatcher->token;
}

/* Gives a lock the next token if its request has ended well, and forgets a lock that is gone. A conversion that waits
 * wants another mode than its lock holds, so the held mode tells how it ended. A status block may tell of another
 * request that the same step has ended. */
void take_token(struct dispatcher *dispatcher, struct request *record) {
    vlm_lock lock = {.size = sizeof lock};
    if (vlm_find_lock(&dispatcher->manager, record->lkid, &lock) != VLM_NORMAL)
        forget_token(dispatcher, record->lkid);
    else if (lock.queue == VLM_GRANTED && lock.held == record->mode)
        give_token(dispatcher, record);
}

/* The token of a lock of the manager; 0 if it was not granted yet. */
uint64_t token_of(const struct dispatcher *dispatcher, uint32_t lkid) {
    return dispatcher->token_room != 0 ? place_of(dispatcher, lkid)->number : 0;
}
