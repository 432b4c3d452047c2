/* Searches for deadlocks, the thread that watches, and the hooks. */
#include "vlm_threads_parts.h"

/* The first node that has not departed, or the last one. */
static uint32_t living_node(const vlm_threads *layer) {
    uint32_t node = 1;
    while (node < VLM_MAX_NODES && layer->departed >> node & 1)
        node++;
    return node;
}

/* Calls the hook, without the mutex. */
static void tell_deadlock(vlm_threads *layer, struct request *victim) {
    vlm_threads_deadlock deadlock;
    struct running running;
    victim->is_told = true;
    vlmt_read_cycle(layer, victim, &deadlock);
    vlmt_begin_running(layer, &running);
    layer->options.deadlock(layer->options.deadlock_context, &deadlock);
    vlmt_end_running(layer, &running);
}

/* Tells of the deadlock whose victim a search would end. Whether it may end that request: not if it is too young. The
 * hook may change everything, so all is read again after it. */
static bool may_search(vlm_threads *layer) {
    const vlm_threads_options *options = &layer->options;
    if (!options->deadlock && !options->victim_milliseconds)
        return true;
    for (;;) {
        struct request *victim = vlmt_victim(layer);
        if (!victim)
            return true;
        if (now() < victim->since + milliseconds(options->victim_milliseconds))
            return false;
        if (!options->deadlock || victim->is_told)
            return true;
        tell_deadlock(layer, victim);
    }
}

/* Searches until there is no victim. Between two searches others have the mutex, and the victim wakes. */
static uint32_t search(vlm_threads *layer, uint32_t *victims) {
    uint32_t victim = 0;
    for (*victims = 0; may_search(layer); ++*victims) {
        uint32_t status = vlm_search(&layer->handle, living_node(layer), &victim);
        if (status != VLM_NORMAL)
            return status;
        layer->counters.searches++;
        if (!victim)
            return VLM_NORMAL;
        vlmt_take_asts(layer);
        vlmt_let_others(layer);
    }
    return VLM_NORMAL;
}

uint32_t vlm_threads_search(vlm_threads *layer, uint32_t *victims) {
    vlmt_lock(layer);
    int before = vlmt_begin_sleep(layer);
    uint32_t status = search(layer, victims);
    vlmt_end_sleep(layer, before);
    vlmt_unlock(layer);
    return status;
}

/* Calls the hook for a request that has waited for long. */
static void tell_long_wait(vlm_threads *layer, const struct request *request) {
    vlm_lock blocker = {.size = sizeof blocker};
    vlm_threads_wait wait;
    struct running running;
    vlm_first_blocker(&layer->handle, request->lkid, &blocker);
    vlmt_read_wait(layer, request, blocker.lkid, &wait);
    vlmt_begin_running(layer, &running);
    layer->options.long_wait(layer->options.long_wait_context, &wait);
    vlmt_end_running(layer, &running);
}

/* When the first wait that was not told will have lasted for long. A later request is no sooner. */
static uint64_t next_long_wait(const vlm_threads *layer) {
    uint64_t since = layer->untold ? layer->untold->since : now();
    return since + milliseconds(layer->options.long_milliseconds);
}

static void tell_long_waits(vlm_threads *layer) {
    while (layer->untold && now() >= next_long_wait(layer)) {
        const struct request *request = layer->untold;
        layer->untold = request->newer;
        tell_long_wait(layer, request);
    }
}

/* Sleeps until a moment, or until the layer is closed. */
static void sleep_until(vlm_threads *layer, uint64_t moment) {
    struct timespec end = moment_at(moment);
    while (!layer->is_closing && vlmt_sleep(layer, &layer->watched, &end)) {
    }
}

void *vlmt_watch(void *given) {
    vlm_threads *layer = given;
    const vlm_threads_options *options = &layer->options;
    uint32_t victims;
    vlmt_lock(layer);
    uint64_t next = now() + milliseconds(options->search_milliseconds);
    while (!layer->is_closing) {
        uint64_t told = options->long_milliseconds ? next_long_wait(layer) : UINT64_MAX;
        sleep_until(layer, options->search_milliseconds && next < told ? next : told);
        if (options->long_milliseconds && !layer->is_closing)
            tell_long_waits(layer);
        if (!options->search_milliseconds || layer->is_closing || now() < next)
            continue;
        if (layer->counters.waiting)
            search(layer, &victims);
        next = now() + milliseconds(options->search_milliseconds);
    }
    vlmt_unlock(layer);
    return NULL;
}
