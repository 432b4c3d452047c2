/* IDs of locks run out: a lock manager has 4,294,967,295. A handle of a client is an epoch and an ID of that epoch.
 * From 90 % on the dispatcher changes to a new lock manager at a moment without locks, which no client sees. At 99 %
 * it refuses new requests, and some time after that it ends all sessions; among replicas those that have locks, since
 * the others do not need the lock manager. */
#include "parts.h"

#include <inttypes.h>
#include <stdlib.h>
#include <string.h>

/* The handle of a lock; 0 stays 0. */
uint64_t handle_of(const struct dispatcher *dispatcher, uint32_t lkid) {
    return lkid == 0 ? 0 : (uint64_t)dispatcher->epoch << 32 | lkid;
}

/* Computes from the limits when IDs are short. */
void share_ids(struct dispatcher *dispatcher) {
    dispatcher->short_of = (uint32_t)((uint64_t)dispatcher->limits.ids * 90 / 100);
    dispatcher->out_of = (uint32_t)((uint64_t)dispatcher->limits.ids * 99 / 100);
}

bool has_ids(const struct dispatcher *dispatcher) { return dispatcher->last_lkid < dispatcher->out_of; }

static bool open_manager(struct dispatcher *dispatcher, vlm *manager) {
    vlm_options options = VLM_OPTIONS;
    options.has_keys = 1;
    memcpy(options.keys, dispatcher->keys, sizeof options.keys);
    return vlm_open(manager, &options) == VLM_NORMAL;
}

/* Writes down the status blocks of a process that a request has named. Their locks are gone. False without memory. */
static bool remember_blocks(struct dispatcher *dispatcher, struct process *process) {
    struct old_block *old = process->old;
    if (old == NULL)
        old = calloc(process->pool->blocks + 1, sizeof *old);
    if (old == NULL)
        return false;
    process->old = old;
    for (uint32_t block = 1; block <= process->blocks; block++) {
        vlm_lksb read = {.size = sizeof read};
        if (has_bit(process->named, block) && vlm_block(&dispatcher->manager, process->pid, block, &read) == VLM_NORMAL)
            old[block] = (struct old_block){read.status, handle_of(dispatcher, read.lkid)};
    }
    return true;
}

/* Declares a process in a new manager, with the value parts of its status blocks. */
static bool copy_process(struct dispatcher *dispatcher, struct process *process, vlm *manager, uint32_t index) {
    uint32_t pid;
    if (!remember_blocks(dispatcher, process) || make_process(manager, process->pool, index, &pid) != VLM_NORMAL)
        return false;
    for (uint32_t block = 1; block <= process->blocks; block++) {
        vlm_lksb read = {.size = sizeof read};
        vlm_setting setting = {.size = sizeof setting, .pid = pid, .block = block, .has_tail = 1};
        if (vlm_block(&dispatcher->manager, process->pid, block, &read) != VLM_NORMAL)
            continue;
        memcpy(setting.value, read.value, sizeof setting.value);
        memcpy(setting.tail, read.tail, sizeof setting.tail);
        vlm_set_value(manager, &setting);
    }
    return true;
}

static void empty_pools(struct dispatcher *dispatcher) {
    for (uint32_t bucket = 0; bucket < POOL_BUCKETS; bucket++)
        for (struct pool *pool = dispatcher->pools[bucket]; pool != NULL; pool = pool->next)
            pool->free = NULL;
}

/* The processes that sessions have are those of the new manager, in the order in which they were copied; the others are
 * freed. */
static void renumber(struct dispatcher *dispatcher) {
    uint32_t kept = 0;
    empty_pools(dispatcher);
    for (uint32_t at = 0; at < dispatcher->process_count; at++) {
        struct process *process = dispatcher->processes[at];
        if (process->session == NULL) {
            free(process->uses);
            free(process);
            continue;
        }
        process->index = kept;
        process->pid = (kept / NODE_PROCESSES + 1) << 16 | (kept % NODE_PROCESSES + 1);
        memset(process->set, UINT8_MAX, sizeof process->set);
        memset(process->named, 0, sizeof process->named);
        dispatcher->processes[kept++] = process;
    }
    dispatcher->process_count = kept;
}

static void use_manager(struct dispatcher *dispatcher, vlm *manager) {
    renumber(dispatcher);
    vlm_close(&dispatcher->manager);
    dispatcher->manager = *manager;
    dispatcher->last_lkid = 0;
    dispatcher->drained = 0;
    dispatcher->epoch++;
    dispatcher_set_token(dispatcher, (uint64_t)dispatcher->epoch << TOKEN_BITS);
}

/* Changes to a new manager at a moment without locks. Its cost grows with the processes. */
static void change_manager(struct dispatcher *dispatcher) {
    vlm manager = VLM_CLOSED;
    uint32_t index = 0;
    bool is_copied = open_manager(dispatcher, &manager);
    for (uint32_t at = 0; is_copied && at < dispatcher->process_count; at++)
        if (dispatcher->processes[at]->session != NULL)
            is_copied = copy_process(dispatcher, dispatcher->processes[at], &manager, index++);
    if (!is_copied) {
        end_without_memory(dispatcher);
        vlm_close(&manager);
        return;
    }
    use_manager(dispatcher, &manager);
    dispatcher->counts.changes++;
    say(dispatcher, "epoch %" PRIu32 " begins: identifications were short, and no lock was held", dispatcher->epoch);
}

/* Ends all sessions: their locks are lost. */
void dispatcher_lose(struct dispatcher *dispatcher) {
    for (struct client *client = dispatcher->clients; client != NULL; client = client->next) {
        if (client->is_over)
            continue;
        put_text(client, "lost\n");
        client->is_over = true;
        dispatcher->counts.lost++;
    }
    for (uint32_t place = 0; place < dispatcher->session_room; place++)
        if (dispatcher->sessions[place].session != NULL)
            end_session(dispatcher->sessions[place].session);
}

static void end_epoch(struct dispatcher *dispatcher) {
    vlm manager = VLM_CLOSED;
    if (!open_manager(dispatcher, &manager)) {
        end_without_memory(dispatcher);
        return;
    }
    say(dispatcher, "epoch %" PRIu32 " ends with %" PRIu32 " sessions: identifications have run out", dispatcher->epoch,
        dispatcher->session_count);
    dispatcher_lose(dispatcher);
    use_manager(dispatcher, &manager);
    if (dispatcher->grace != 0)
        dispatcher_be_quiet(dispatcher, dispatcher->now + dispatcher->grace);
}

static bool has_locks(const struct session *session) {
    for (uint32_t at = 0; at < session->binding_count; at++)
        if (session->bindings[at].process != NULL && session->bindings[at].process->locks != 0)
            return true;
    return false;
}

/* Ends the sessions that have locks, among replicas: each when its lease is over. After the last one no lock is held,
 * and the lock manager is changed. */
void lose_lock_holders(struct dispatcher *dispatcher) {
    say(dispatcher,
        "no identifications left: sessions with locks are lost, and epoch %" PRIu32 " ends with their leases",
        dispatcher->epoch);
    dispatcher->drained = UINT64_MAX;
    for (uint32_t place = 0; place < dispatcher->session_room; place++) {
        struct session *session = dispatcher->sessions[place].session;
        if (session == NULL || session->is_killed || !has_locks(session))
            continue;
        dispatcher->counts.lost += session->client != NULL;
        kill_session(session, "lost\n");
    }
}

/* Looks whether IDs are short, at a moment between two turns. */
void check_ids(struct dispatcher *dispatcher) {
    if (dispatcher->last_lkid < dispatcher->out_of)
        /* (the limit may have been raised since) */
        dispatcher->drained = 0;
    if (dispatcher->last_lkid < dispatcher->short_of)
        return;
    if (vlm_lock_count(&dispatcher->manager) == 0) {
        change_manager(dispatcher);
    } else if (!has_ids(dispatcher) && dispatcher->drained == 0) {
        dispatcher->drained = dispatcher->now + dispatcher->limits.drain;
        say(dispatcher,
            "no identifications left: new requests are refused, and epoch %" PRIu32 " ends in %" PRIu32
            " ms unless all locks are given up",
            dispatcher->epoch, dispatcher->limits.drain);
    } else if (!dispatcher->is_replica && dispatcher->drained != 0 && dispatcher->now >= dispatcher->drained) {
        end_epoch(dispatcher);
    }
}
