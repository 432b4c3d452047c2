/* Processes: their beginning and end, and the threads that they are tied to. */
#include "vlm_threads_parts.h"

#include <stdlib.h>
#include <sys/eventfd.h>

/* The core's answer about a process that does not live: NONEXPR or DEPARTED. */
uint32_t vlmt_refusal(vlm_threads *layer, uint32_t pid) {
    vlm_ast ast = {.size = sizeof ast};
    return vlm_take(&layer->handle, pid, &ast);
}

/* Drops the events in a queue of the processes whose number equals `pid` in the bits of the mask. The process of a
 * RELEASED event may have gone. */
static void drop_events(vlm_threads *layer, const struct queue *queue, uint32_t pid, uint32_t mask) {
    for (struct event *event = queue->first, *next; event; event = next) {
        next = event->next;
        if (event->kind == RELEASED || (event->request->process->entry.id & mask) != pid)
            continue;
        vlmt_drop_event(layer, event);
        vlmt_release(layer, event->request);
    }
}

/* Ends a request of a process that has ended. Wakes the thread that waits for it; calls no routine. */
static void run_down_request(vlm_threads *layer, struct request *request, uint32_t status) {
    vlmt_leave_queue(layer, request);
    layer->counters.run_down++;
    request->status = status;
    if (request->waiter)
        vlmt_tell(layer, request);
    vlmt_release(layer, request);
}

static void untie(struct process *process) {
    if (!process->bond)
        return;
    struct process **link = &process->bond->processes;
    while (*link != process)
        link = &(*link)->next_tied;
    *link = process->next_tied;
}

/* The queue of a process that has ended. The delivery that runs there frees it later. */
static void leave_queue(vlm_threads *layer, struct queue *queue) {
    queue->is_left = true;
    if (!queue->is_delivering)
        vlmt_free_queue(layer, queue);
}

/* Removes what the layer has of a process that has ended in the core and has no events in the layer's queue. */
static void forget(vlm_threads *layer, struct process *process, uint32_t status) {
    if (process->queue != &layer->queue)
        drop_events(layer, process->queue, process->entry.id, UINT32_MAX);
    while (process->locks) {
        struct lock *lock = lowest(process->locks);
        if (lock->queued)
            run_down_request(layer, lock->queued, status);
        vlmt_remove_lock(layer, lock);
    }
    if (process->queue != &layer->queue)
        leave_queue(layer, process->queue);
    untie(process);
    vlmt_take_out(&layer->processes, &process->entry);
    free(process);
}

static uint32_t run_down(vlm_threads *layer, uint32_t pid) {
    uint32_t status = vlm_rundown(&layer->handle, pid);
    if (status != VLM_NORMAL)
        return status;
    drop_events(layer, &layer->queue, pid, UINT32_MAX);
    forget(layer, process_of(layer, pid), VLM_NONEXPR);
    vlmt_take_asts(layer);
    return VLM_NORMAL;
}

uint32_t vlm_threads_rundown(vlm_threads *layer, uint32_t pid) {
    vlmt_lock(layer);
    uint32_t status = run_down(layer, pid);
    vlmt_unlock(layer);
    return status;
}

/* Forgets the processes of a node, or of all nodes with 0. The upper half of a process's number is its node. */
void vlmt_forget_node(vlm_threads *layer, uint32_t node) {
    drop_events(layer, &layer->queue, node << 16, node ? UINT32_MAX << 16 : 0);
    for (uint32_t chain = 0; chain < layer->processes.used; chain++)
        for (struct entry *entry = layer->processes.chains[chain], *next; entry; entry = next) {
            next = entry->next;
            if (!node || entry->id >> 16 == node)
                forget(layer, (struct process *)entry, VLM_DEPARTED);
        }
}

uint32_t vlm_threads_leave(vlm_threads *layer, uint32_t node) {
    vlmt_lock(layer);
    uint32_t status = vlm_leave(&layer->handle, node);
    if (status == VLM_NORMAL) {
        layer->departed |= UINT32_C(1) << node;
        vlmt_forget_node(layer, node);
        vlmt_take_asts(layer);
    }
    vlmt_unlock(layer);
    return status;
}

/* A thread with tied processes has ended. */
static void thread_ended(void *given) {
    struct bond *bond = given;
    vlm_threads *layer = bond->layer;
    vlmt_lock(layer);
    while (bond->processes)
        run_down(layer, bond->processes->entry.id);
    *bond->link = bond->next;
    if (bond->next)
        bond->next->link = bond->link;
    vlmt_unlock(layer);
    free(bond);
}

/* The bond of the calling thread, or null if memory or the key is refused. */
static struct bond *bond_of_thread(vlm_threads *layer) {
    if (!layer->has_key)
        layer->has_key = !pthread_key_create(&layer->key, thread_ended);
    if (!layer->has_key)
        return NULL;
    struct bond *bond = pthread_getspecific(layer->key);
    if (bond)
        return bond;
    bond = calloc(1, sizeof *bond);
    if (!bond || pthread_setspecific(layer->key, bond)) {
        free(bond);
        return NULL;
    }
    *bond = (struct bond){.layer = layer, .next = layer->bonds, .link = &layer->bonds};
    if (bond->next)
        bond->next->link = &bond->next;
    layer->bonds = bond;
    return bond;
}

/* A queue for a process, or null if memory or an eventfd is refused. */
static struct queue *made_queue(void) {
    struct queue *queue = calloc(1, sizeof *queue);
    if (!queue)
        return NULL;
    queue->descriptor = clear_of_streams(eventfd(0, EFD_CLOEXEC | EFD_NONBLOCK));
    if (queue->descriptor >= 0)
        return queue;
    free(queue);
    return NULL;
}

/* A process that the core does not know yet, with its status blocks, its queue and, if it is tied, its bond; or
 * null. */
static struct process *made_process(vlm_threads *layer, const vlm_threads_declaration *words) {
    struct bond *bond = words->tied ? bond_of_thread(layer) : NULL;
    if ((words->tied && !bond) || !vlmt_reserve_entry(&layer->processes))
        return NULL;
    struct process *process = calloc(1, sizeof *process + words->requests);
    struct queue *queue = process && words->own_queue ? made_queue() : &layer->queue;
    if (!process || !queue) {
        free(process);
        return NULL;
    }
    process->bond = bond;
    process->queue = queue;
    memcpy(process->label, words->label, sizeof process->label);
    while (process->free_count < words->requests) {
        process->free_blocks[process->free_count] = (uint8_t)(words->requests - process->free_count);
        process->free_count++;
    }
    return process;
}

static uint32_t declare(vlm_threads *layer, const vlm_threads_declaration *words, uint32_t *pid) {
    vlm_declaration step = {.size = sizeof step,
                            .node = words->node,
                            .group = words->group,
                            .syslck = words->syslck,
                            .quota = words->quota,
                            .blocks = words->requests};
    struct process *process = made_process(layer, words);
    if (!process)
        return VLM_INSFMEM;
    uint32_t status = vlm_declare(&layer->handle, &step, pid);
    if (status != VLM_NORMAL) {
        if (process->queue != &layer->queue)
            leave_queue(layer, process->queue);
        free(process);
        return status;
    }
    process->entry.id = *pid;
    vlmt_put(&layer->processes, &process->entry);
    if (process->bond) {
        process->next_tied = process->bond->processes;
        process->bond->processes = process;
    }
    return VLM_NORMAL;
}

/* The core checks the other members. */
static bool is_right_declaration(const vlm_threads_declaration *words) {
    return words->requests >= 1 && words->requests <= VLM_MAX_BLOCKS && words->tied <= 1 && words->own_queue <= 1
           && !words->label[VLM_THREADS_LABEL - 1];
}

uint32_t vlm_threads_declare(vlm_threads *layer, const vlm_threads_declaration *declaration, uint32_t *pid) {
    vlm_threads_declaration words;
    *pid = 0;
    if (!is_copied(&words, sizeof words, declaration, FIRST_DECLARATION) || !is_right_declaration(&words))
        return VLM_BADPARAM;
    vlmt_lock(layer);
    uint32_t status = declare(layer, &words, pid);
    vlmt_unlock(layer);
    return status;
}

/* The thread that looks has the mutex. */
uint32_t vlm_threads_label(vlm_threads *layer, uint32_t pid, uint8_t *label) {
    bool has_mutex = vlmt_looks(layer);
    if (!has_mutex)
        vlmt_lock(layer);
    const struct process *process = process_of(layer, pid);
    uint32_t status = process ? VLM_NORMAL : vlmt_refusal(layer, pid);
    memset(label, 0, VLM_THREADS_LABEL);
    if (process)
        memcpy(label, process->label, VLM_THREADS_LABEL);
    if (!has_mutex)
        vlmt_unlock(layer);
    return status;
}
