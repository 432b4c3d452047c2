/* The ends of requests, grants and locks; the core's ASTs, which report them; the queue of events. */
#include "vlm_threads_parts.h"

#include <stdlib.h>
#include <sys/eventfd.h>
#include <unistd.h>

/* Events. */

void vlmt_set_readable(const struct queue *queue, bool is_readable) {
    eventfd_t count;
    if (queue->descriptor < 0)
        return;
    int before = cancels_off();
    if (is_readable)
        eventfd_write(queue->descriptor, 1);
    else
        eventfd_read(queue->descriptor, &count);
    cancels_back(before);
}

static void append(vlm_threads *layer, struct queue *queue, struct event *event) {
    event->queue = queue;
    event->next = NULL;
    event->previous = queue->last;
    *(queue->last ? &queue->last->next : &queue->first) = event;
    queue->last = event;
    layer->counters.events++;
    if (queue->count++ || queue->is_delivering)
        return;
    vlmt_set_readable(queue, true);
    if (queue->descriptor < 0)
        vlmt_wake(layer, &layer->pending);
}

void vlmt_queue_event(vlm_threads *layer, struct event *event) { append(layer, event->request->process->queue, event); }

void vlmt_unqueue_event(vlm_threads *layer, struct event *event) {
    struct queue *queue = event->queue;
    event->queue = NULL;
    if (queue->due == event)
        queue->due = event->previous;
    *(event->previous ? &event->previous->next : &queue->first) = event->next;
    *(event->next ? &event->next->previous : &queue->last) = event->previous;
    layer->counters.events--;
    if (--queue->count == 0 && !queue->is_delivering)
        vlmt_set_readable(queue, false);
}

void vlmt_drop_event(vlm_threads *layer, struct event *event) {
    if (!event->queue)
        return;
    vlmt_unqueue_event(layer, event);
    layer->counters.dropped++;
}

void vlmt_free_queue(vlm_threads *layer, struct queue *queue) {
    while (queue->first) {
        struct event *event = queue->first;
        vlmt_unqueue_event(layer, event);
        append(layer, &layer->queue, event);
    }
    int before = cancels_off();
    close(queue->descriptor);
    cancels_back(before);
    free(queue);
}

/* Ends of requests. */

/* Gives a record back if nothing uses it any more. Its `released` routine is called before. */
void vlmt_release(vlm_threads *layer, struct request *request) {
    if (request->is_queued || request->is_held || request->ended.queue || request->warned.queue)
        return;
    if (request->released) {
        request->ended.kind = RELEASED;
        vlmt_queue_event(layer, &request->ended);
        return;
    }
    request->next_free = layer->free_requests;
    layer->free_requests = request;
}

/* A grant is over: its lock has gone, or has another mode. */
static void retire(vlm_threads *layer, struct request *request) {
    request->is_held = false;
    vlmt_drop_event(layer, &request->warned);
    vlmt_release(layer, request);
}

void vlmt_hold(vlm_threads *layer, struct request *request) {
    struct lock *lock = request->lock;
    if (lock->held)
        retire(layer, lock->held);
    lock->held = request;
    request->is_held = true;
}

void vlmt_remove_lock(vlm_threads *layer, struct lock *lock) {
    vlmt_take_out(&layer->locks, &lock->entry);
    *lock->link = lock->next;
    if (lock->next)
        lock->next->link = lock->link;
    if (lock->held)
        retire(layer, lock->held);
    lock->next = layer->free_locks;
    layer->free_locks = lock;
}

/* Removes a list of locks with all their sublocks. */
void vlmt_remove_locks(vlm_threads *layer, struct lock **locks) {
    while (*locks)
        vlmt_remove_lock(layer, lowest(*locks));
}

uint32_t vlmt_value_len(const struct request *request) {
    if (!(request->flags & VLM_VALBLK) || !is_grant(request->status))
        return 0;
    return request->flags & VLM_WIDE ? WHOLE_VALUE : SHORT_VALUE;
}

/* Reads how a request ended from its status block. */
void vlmt_read_block(vlm_threads *layer, struct request *request) {
    vlm_lksb lksb = {.size = sizeof lksb};
    vlm_block(&layer->handle, request->process->entry.id, request->block, &lksb);
    request->status = lksb.status;
    memcpy(request->value, lksb.value, SHORT_VALUE);
    memcpy(request->value + SHORT_VALUE, lksb.tail, WHOLE_VALUE - SHORT_VALUE);
}

void vlmt_write_words(const struct request *request, const struct asked *asked) {
    asked->given->status = request->status;
    if (vlmt_value_len(request))
        memcpy(asked->words.value, request->value, vlmt_value_len(request));
}

/* Tells the thread that waits, or the completion routine. */
void vlmt_tell(vlm_threads *layer, struct request *request) {
    struct waiter *waiter = request->waiter;
    if (!waiter) {
        vlmt_queue_event(layer, &request->ended);
        return;
    }
    request->waiter = NULL;
    vlmt_write_words(request, waiter->asked);
    waiter->status = request->status;
    vlmt_wake(layer, &waiter->ended);
}

static void count_time(vlm_threads *layer, const struct request *request) {
    uint64_t microseconds = (now() - request->since) / 1000;
    uint32_t entry = 0;
    while (entry < VLM_THREADS_TIMES - 1 && microseconds >> entry)
        entry++;
    layer->counters.times[entry]++;
    layer->counters.microseconds += microseconds;
    if (microseconds >= LOOK_MICROSECONDS)
        layer->short_waits -= layer->short_waits > 0;
    else
        layer->short_waits += layer->short_waits < MOST_SHORT;
}

/* Takes a request out of the lists of queued ones. */
static void unlist(vlm_threads *layer, struct request *request) {
    if (layer->untold == request)
        layer->untold = request->newer;
    *(request->older ? &request->older->newer : &layer->oldest) = request->newer;
    *(request->newer ? &request->newer->older : &layer->newest) = request->older;
    *request->link = request->next_own;
    if (request->next_own)
        request->next_own->link = request->link;
}

void vlmt_leave_queue(vlm_threads *layer, struct request *request) {
    request->is_queued = false;
    request->lock->queued = NULL;
    unlist(layer, request);
    layer->counters.waiting--;
    count_time(layer, request);
}

static void count_end(vlm_threads *layer, const struct request *request) {
    if (is_grant(request->status))
        layer->counters.granted_later++;
    else if (request->status == VLM_DEADLOCK)
        layer->counters.victims++;
    else if (request->is_late)
        layer->counters.timed_out++;
    else
        layer->counters.cancelled++;
}

/* The core has ended a queued request. A new request that was not granted has lost its lock. A converting lock that the
 * step gives up is removed after the ASTs of the step. */
static void end_request(vlm_threads *layer, struct request *request) {
    vlmt_read_block(layer, request);
    request->process->free_blocks[request->process->free_count++] = request->block;
    vlmt_leave_queue(layer, request);
    count_end(layer, request);
    if (is_grant(request->status))
        vlmt_hold(layer, request);
    else if (!request->lock->held)
        vlmt_remove_lock(layer, request->lock);
    if (request->is_late && !is_grant(request->status))
        request->status = VLM_TIMEOUT;
    vlmt_tell(layer, request);
    vlmt_release(layer, request);
}

/* ASTs of the core. */

/* Takes all ASTs that a step has queued. If no request was queued before the step, there are none: the core tells of a
 * grant at once only by its answer, and warns only for a queued request. A warning is of the grant that its lock holds
 * by: the core warns once for a grant, after its completion, and never for a lock that the step gives up. */
void vlmt_take_asts(vlm_threads *layer) {
    vlm_ast ast = {.size = sizeof ast};
    uint32_t pid;
    if (!layer->counters.waiting)
        return;
    while (vlm_take_any(&layer->handle, &pid, &ast) == VLM_NORMAL && pid) {
        struct request *request = layer->requests[ast.param];
        if (ast.kind == VLM_COMPLETION)
            end_request(layer, request);
        else
            vlmt_queue_event(layer, &request->warned);
    }
}
