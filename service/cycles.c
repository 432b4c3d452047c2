/* Searches for deadlocks. A search ends the request of its victim, and the victim's edges with it. So who waits for
 * whom is written down before, if few requests wait, and the cycle is found in that for the log. */
#include "parts.h"

#include <inttypes.h>

enum { MOST_WAITS = 64, MOST_BLOCKERS = 16, MOST_VICTIMS = 64, NOWHERE = -1 };

/* A request that waits, with the processes that it waits for. */
struct wait {
    uint32_t lkid;
    const struct process *process;
    const struct process *blockers[MOST_BLOCKERS];
    uint32_t count;
    int before; /* on the way from the victim: the wait before this one */
    bool is_seen;
};

struct waits {
    struct wait all[MOST_WAITS];
    uint32_t count;
};

/* When a search is due: a request has waited long enough, and the last search is as long ago. */
uint64_t search_due(const struct dispatcher *dispatcher) {
    if (dispatcher->first_waiting == NOBODY || dispatcher->limits.search == 0)
        return UINT64_MAX;
    uint64_t since = dispatcher->requests[dispatcher->first_waiting].since;
    return (since > dispatcher->searched ? since : dispatcher->searched) + dispatcher->limits.search;
}

static void write_down(struct dispatcher *dispatcher, struct waits *waits) {
    waits->count = 0;
    if (dispatcher->waiting_count > MOST_WAITS)
        return;
    for (uint32_t at = dispatcher->first_waiting; at != NOBODY; at = dispatcher->requests[at].next) {
        const struct request *request = &dispatcher->requests[at];
        struct wait *wait = &waits->all[waits->count++];
        *wait = (struct wait){.lkid = request->lkid, .process = request->process, .before = NOWHERE};
        vlm_lock lock = {.size = sizeof lock};
        uint32_t status = vlm_first_blocker(&dispatcher->manager, wait->lkid, &lock);
        while (status == VLM_NORMAL && lock.lkid != 0 && wait->count < MOST_BLOCKERS) {
            wait->blockers[wait->count++] = process_of(dispatcher, lock.pid);
            status = vlm_next_blocker(&dispatcher->manager, wait->lkid, lock.lkid, &lock);
        }
    }
}

/* The wait of a chain from the victim that waits for the victim's process, or NOWHERE. */
static int find_cycle(struct waits *waits, uint32_t victim) {
    uint32_t queue[MOST_WAITS], from = 0, to = 0;
    queue[to++] = victim;
    waits->all[victim].is_seen = true;
    while (from < to) {
        const uint32_t here = queue[from++];
        const struct wait *wait = &waits->all[here];
        for (uint32_t at = 0; at < wait->count; at++) {
            if (wait->blockers[at] == waits->all[victim].process)
                return (int)here;
            for (uint32_t next = 0; next < waits->count; next++) {
                if (waits->all[next].is_seen || waits->all[next].process != wait->blockers[at])
                    continue;
                waits->all[next].is_seen = true;
                waits->all[next].before = (int)here;
                queue[to++] = next;
            }
        }
    }
    return NOWHERE;
}

static void log_wait(const struct dispatcher *dispatcher, const struct process *process, uint32_t lkid,
                     const char *what) {
    const struct session *session = process->session;
    if (session == NULL)
        return;
    say(dispatcher, "deadlock: %s: request for lock %" PRIu64 " of session %016" PRIx64 ", pid %" PRIu32, what,
        handle_of(dispatcher, lkid), session->name, session->rights.pid);
}

/* (its record is there until it is told of its end) */
static void log_victim(const struct dispatcher *dispatcher, uint32_t lkid) {
    for (uint32_t at = dispatcher->first_waiting; at != NOBODY; at = dispatcher->requests[at].next)
        if (dispatcher->requests[at].lkid == lkid)
            log_wait(dispatcher, dispatcher->requests[at].process, lkid, "the victim");
}

static void log_cycle(const struct dispatcher *dispatcher, struct waits *waits, uint32_t lkid) {
    uint32_t victim = 0;
    while (victim < waits->count && waits->all[victim].lkid != lkid)
        victim++;
    if (victim == waits->count)
        return;
    for (int at = find_cycle(waits, victim); at != NOWHERE && at != (int)victim; at = waits->all[at].before)
        log_wait(dispatcher, waits->all[at].process, waits->all[at].lkid, "in its circle");
}

/* Searches for deadlocks until there is none. Returns whether there was one. */
bool search(struct dispatcher *dispatcher) {
    struct waits waits;
    uint32_t victims = 0;
    dispatcher->searched = dispatcher->now;
    for (; victims < MOST_VICTIMS; victims++) {
        uint32_t victim;
        write_down(dispatcher, &waits);
        dispatcher->counts.searches++;
        if (vlm_search(&dispatcher->manager, 1, &victim) != VLM_NORMAL || victim == 0)
            break;
        dispatcher->counts.victims++;
        log_victim(dispatcher, victim);
        log_cycle(dispatcher, &waits, victim);
        tell(dispatcher);
    }
    return victims != 0;
}

void search_if_due(struct dispatcher *dispatcher) {
    if (search_due(dispatcher) <= dispatcher->now)
        search(dispatcher);
}
