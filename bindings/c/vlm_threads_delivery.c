/* Delivery: calls of routines, by the layer's thread or by the program. */
#include "vlm_threads_parts.h"

struct call {
    vlm_threads_routine routine;
    vlm_threads_released released; /* if there is no routine */
    void *completion_context, *blocking_context;
    vlm_threads_event event;
};

/* The modes that fit each mode, as bits. */
static const uint8_t fitting[] = {
    [VLM_NL] = 1 << VLM_NL | 1 << VLM_CR | 1 << VLM_CW | 1 << VLM_PR | 1 << VLM_PW | 1 << VLM_EX,
    [VLM_CR] = 1 << VLM_NL | 1 << VLM_CR | 1 << VLM_CW | 1 << VLM_PR | 1 << VLM_PW,
    [VLM_CW] = 1 << VLM_NL | 1 << VLM_CR | 1 << VLM_CW,
    [VLM_PR] = 1 << VLM_NL | 1 << VLM_CR | 1 << VLM_PR,
    [VLM_PW] = 1 << VLM_NL | 1 << VLM_CR,
    [VLM_EX] = 1 << VLM_NL,
};

/* The mode that the first request wants in whose way a lock is. It walks past the requests before that one. */
static uint32_t wanted_mode(vlm_threads *layer, uint32_t lkid) {
    vlm_lock lock = {.size = sizeof lock}, row = {.size = sizeof row};
    vlm_resource resource = {.size = sizeof resource};
    vlm_find_lock(&layer->handle, lkid, &lock);
    vlm_lock_resource(&layer->handle, lkid, &resource);
    for (uint32_t queue = VLM_CONVERSION; queue <= VLM_WAITING; queue++) {
        uint32_t status = vlm_first_row(&layer->handle, &resource, queue, &row);
        for (; status == VLM_NORMAL && row.lkid; status = vlm_next_row(&layer->handle, row.lkid, &row))
            if (row.lkid != lkid && !(fitting[lock.held] >> row.want & 1))
                return row.want;
    }
    return VLM_NO_MODE;
}

static void tell_end(const struct request *request, vlm_threads_event *event) {
    event->status = request->status;
    event->value_len = vlmt_value_len(request);
    memcpy(event->value, request->value, event->value_len);
}

/* The call of an event of a request. An event other than RELEASED has a living process. */
static struct call call_of(vlm_threads *layer, const struct event *event) {
    const struct request *request = event->request;
    struct call call = {.completion_context = request->completion_context,
                        .blocking_context = request->blocking_context,
                        .event = {.size = sizeof call.event, .kind = event->kind, .lkid = request->lkid}};
    if (event->kind == RELEASED) {
        call.released = request->released;
        return call;
    }
    call.event.pid = request->process->entry.id;
    call.event.wanted = VLM_NO_MODE;
    if (event->kind == VLM_COMPLETION) {
        call.routine = request->completion;
        tell_end(request, &call.event);
        layer->counters.completions++;
    } else {
        call.routine = request->blocking;
        call.event.wanted = wanted_mode(layer, request->lkid);
        layer->counters.blockings++;
    }
    return call;
}

/* Takes the oldest event from a queue: the call that it asks for. */
static struct call next_call(vlm_threads *layer, const struct queue *queue) {
    struct event *event = queue->first;
    struct request *request = event->request;
    struct call call = call_of(layer, event);
    vlmt_unqueue_event(layer, event);
    if (event->kind == RELEASED) {
        request->released = NULL;
        event->kind = VLM_COMPLETION;
    }
    vlmt_release(layer, request);
    return call;
}

void vlmt_begin_running(vlm_threads *layer, struct running *running) {
    *running = (struct running){
        .next = layer->running, .link = &layer->running, .thread = pthread_self(), .number = ++layer->begun};
    if (running->next)
        running->next->link = &running->next;
    layer->running = running;
    vlmt_unlock(layer);
}

void vlmt_end_running(vlm_threads *layer, struct running *running) {
    vlmt_lock(layer);
    *running->link = running->next;
    if (running->next)
        running->next->link = running->link;
    if (layer->settling)
        vlmt_wake_all(&layer->calm);
}

static void make_call(vlm_threads *layer, struct call *call) {
    struct running running;
    vlmt_begin_running(layer, &running);
    if (call->routine)
        call->routine(call->event.kind == VLM_COMPLETION ? call->completion_context : call->blocking_context,
                      &call->event);
    else if (call->released)
        call->released(call->completion_context, call->blocking_context);
    vlmt_end_running(layer, &running);
}

/* Calls the routines of the events that are pending in a queue, and counts them. Holds the mutex, except during a
 * routine. The descriptor is not readable meanwhile: other threads that poll it would find nothing to do. */
static uint32_t deliver(vlm_threads *layer, struct queue *queue) {
    uint32_t delivered = 0;
    if (!queue->first)
        return 0;
    queue->is_delivering = true;
    vlmt_set_readable(queue, false);
    for (queue->due = queue->last; queue->due && !layer->is_closing; delivered++) {
        struct call call = next_call(layer, queue);
        make_call(layer, &call);
    }
    queue->is_delivering = false;
    if (queue->is_left)
        vlmt_free_queue(layer, queue);
    else if (queue->first)
        vlmt_set_readable(queue, true);
    return delivered;
}

void vlmt_release_rest(vlm_threads *layer) {
    while (layer->queue.first) {
        struct call call = next_call(layer, &layer->queue);
        make_call(layer, &call);
    }
}

bool vlmt_is_in_routine(const vlm_threads *layer) {
    const struct running *running = layer->running;
    while (running && !pthread_equal(running->thread, pthread_self()))
        running = running->next;
    return running;
}

int vlmt_begin_sleep(vlm_threads *layer) {
    layer->sleepers++;
    return cancels_off();
}

void vlmt_end_sleep(vlm_threads *layer, int before) {
    layer->sleepers--;
    if (layer->is_closing)
        vlmt_wake_all(&layer->calm);
    cancels_back(before);
}

/* Whether one of the first calls runs. */
static bool is_running(const vlm_threads *layer, uint64_t first) {
    const struct running *running = layer->running;
    while (running && running->number > first)
        running = running->next;
    return running;
}

void vlmt_settle(vlm_threads *layer) {
    uint64_t begun = layer->begun;
    layer->settling++;
    while (is_running(layer, begun))
        vlmt_sleep(layer, &layer->calm, NULL);
    layer->settling--;
}

void *vlmt_dispatch(void *given) {
    vlm_threads *layer = given;
    vlmt_lock(layer);
    while (!layer->is_closing) {
        if (!layer->queue.first)
            vlmt_sleep(layer, &layer->pending, NULL);
        deliver(layer, &layer->queue);
    }
    vlmt_unlock(layer);
    return NULL;
}

uint32_t vlm_threads_fd(vlm_threads *layer, int *descriptor) {
    *descriptor = layer->queue.descriptor;
    return *descriptor < 0 ? VLM_BADPARAM : VLM_NORMAL;
}

uint32_t vlm_threads_dispatch(vlm_threads *layer, uint32_t *delivered) {
    *delivered = 0;
    if (layer->queue.descriptor < 0)
        return VLM_BADPARAM;
    int before = cancels_off();
    vlmt_lock(layer);
    if (!layer->queue.is_delivering)
        *delivered = deliver(layer, &layer->queue);
    vlmt_unlock(layer);
    cancels_back(before);
    return VLM_NORMAL;
}

/* The queue of a process that has its own, or null with a refusal. */
static struct queue *own_queue(vlm_threads *layer, uint32_t pid, uint32_t *status) {
    const struct process *process = process_of(layer, pid);
    struct queue *queue = process && process->queue != &layer->queue ? process->queue : NULL;
    *status = queue ? VLM_NORMAL : process ? VLM_BADPARAM : vlmt_refusal(layer, pid);
    return queue;
}

uint32_t vlm_threads_process_fd(vlm_threads *layer, uint32_t pid, int *descriptor) {
    uint32_t status;
    vlmt_lock(layer);
    const struct queue *queue = own_queue(layer, pid, &status);
    *descriptor = queue ? queue->descriptor : -1;
    vlmt_unlock(layer);
    return status;
}

uint32_t vlm_threads_process_dispatch(vlm_threads *layer, uint32_t pid, uint32_t *delivered) {
    uint32_t status;
    int before = cancels_off();
    vlmt_lock(layer);
    struct queue *queue = own_queue(layer, pid, &status);
    *delivered = queue && !queue->is_delivering ? deliver(layer, queue) : 0;
    vlmt_unlock(layer);
    cancels_back(before);
    return status;
}

uint32_t vlm_threads_settle(vlm_threads *layer) {
    vlmt_lock(layer);
    bool is_allowed = !vlmt_is_in_routine(layer);
    if (is_allowed) {
        int before = vlmt_begin_sleep(layer);
        vlmt_settle(layer);
        vlmt_end_sleep(layer, before);
    }
    vlmt_unlock(layer);
    return is_allowed ? VLM_NORMAL : VLM_BADPARAM;
}
