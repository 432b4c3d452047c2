/* Which request a search would end, and the cycle in which it waits.
 *
 * The core tells the victim of a search that is not made yet. A process waits for another if one of its queued requests
 * waits for a lock of the other. A breadth-first walk over these waits, from the victim's process back to it, finds a
 * shortest cycle. What the walk notes is in the records of the processes, so it needs no memory. */
#include "vlm_threads_parts.h"

struct request *vlmt_victim(vlm_threads *layer) {
    uint32_t lkid = 0;
    vlm_find_victim(&layer->handle, &lkid);
    return lkid ? lock_of(layer, lkid)->queued : NULL;
}

/* The processes that a walk has reached, in that order. */
struct reached {
    struct process *first, *last;
};

/* Reaches the processes for whose locks a request waits. */
static void reach(vlm_threads *layer, struct reached *reached, struct request *request) {
    vlm_lock lock = {.size = sizeof lock};
    uint32_t status = vlm_first_blocker(&layer->handle, request->lkid, &lock);
    for (; status == VLM_NORMAL && lock.lkid;
         status = vlm_next_blocker(&layer->handle, request->lkid, lock.lkid, &lock)) {
        struct process *process = process_of(layer, lock.pid);
        if (process->visit.walk == layer->walk)
            continue;
        process->visit.walk = layer->walk;
        process->visit.reached_by = request;
        process->visit.reached_for = lock.lkid;
        process->visit.below = NULL;
        *(reached->last ? &reached->last->visit.below : &reached->first) = process;
        reached->last = process;
    }
}

/* Walks until the home of the victim is reached by a shortest way. */
static void walk_home(vlm_threads *layer, struct request *victim) {
    struct reached reached = {.first = NULL};
    layer->walk++;
    reach(layer, &reached, victim);
    for (struct process *at = reached.first; at && victim->process->visit.walk != layer->walk; at = at->visit.below)
        for (struct request *request = at->queued; request; request = request->next_own)
            reach(layer, &reached, request);
}

/* Copies the name of the resource of a lock. */
static void read_name(vlm_threads *layer, uint32_t lkid, vlm_threads_wait *wait) {
    vlm_resource resource = {.size = sizeof resource};
    vlm_lock_resource(&layer->handle, lkid, &resource);
    wait->name_len = resource.name_len;
    memcpy(wait->name, resource.name, sizeof wait->name);
}

void vlmt_read_wait(vlm_threads *layer, const struct request *request, uint32_t blocker, vlm_threads_wait *wait) {
    *wait = (vlm_threads_wait){.size = sizeof *wait, .waits.size = sizeof wait->waits};
    wait->blocks = (vlm_lock){.size = sizeof wait->blocks, .held = VLM_NO_MODE, .want = VLM_NO_MODE};
    wait->milliseconds = (uint32_t)((now() - request->since) / 1000000);
    vlm_find_lock(&layer->handle, request->lkid, &wait->waits);
    read_name(layer, request->lkid, wait);
    memcpy(wait->waits_label, request->process->label, sizeof wait->waits_label);
    if (blocker && vlm_find_lock(&layer->handle, blocker, &wait->blocks) == VLM_NORMAL)
        memcpy(wait->blocks_label, process_of(layer, wait->blocks.pid)->label, sizeof wait->blocks_label);
}

/* The way home is known from its end, so its length is counted first. */
void vlmt_read_cycle(vlm_threads *layer, struct request *victim, vlm_threads_deadlock *deadlock) {
    uint32_t length = 1;
    walk_home(layer, victim);
    for (const struct process *at = victim->process; at->visit.reached_by != victim; at = at->visit.reached_by->process)
        length++;
    *deadlock = (vlm_threads_deadlock){
        .size = sizeof *deadlock, .victim = victim->lkid, .pid = victim->process->entry.id, .length = length};
    const struct process *at = victim->process;
    for (uint32_t place = length; place-- > 0; at = at->visit.reached_by->process)
        if (place < VLM_THREADS_CYCLE)
            vlmt_read_wait(layer, at->visit.reached_by, at->visit.reached_for, &deadlock->waits[place]);
}
