/* The layer for threads, vlm_threads.h: opening and closing, readers and counters. Not proved. */
#include "vlm_threads_parts.h"

#include <stdlib.h>
#include <sys/eventfd.h>
#include <unistd.h>

/* Readers. */

/* The layer at which this thread looks, or null. */
static _Thread_local const vlm_threads *looked_at;

bool vlmt_looks(const vlm_threads *layer) { return looked_at == layer; }

uint32_t vlm_threads_look(vlm_threads *layer, vlm_threads_reader reader, void *context) {
    int before = cancels_off();
    vlmt_lock(layer);
    looked_at = layer;
    reader(context, &layer->handle);
    looked_at = NULL;
    vlmt_unlock(layer);
    cancels_back(before);
    return VLM_NORMAL;
}

/* Opening and closing. */

static void make_primitives(vlm_threads *layer) {
    vlmt_make_mutex(&layer->mutex);
    vlmt_make_condition(&layer->pending);
    vlmt_make_condition(&layer->watched);
    vlmt_make_condition(&layer->calm);
}

static bool open_manager(vlm_threads *layer) {
    vlm_options core = VLM_OPTIONS;
    core.has_keys = layer->options.has_keys;
    memcpy(core.keys, layer->options.keys, sizeof core.keys);
    return vlm_open(&layer->handle, &core) == VLM_NORMAL && vlmt_make_table(&layer->processes, 4)
           && vlmt_make_table(&layer->locks, 4);
}

static bool open_delivery(vlm_threads *layer) {
    if (layer->options.delivery == VLM_THREADS_BY_PROGRAM) {
        layer->queue.descriptor = clear_of_streams(eventfd(0, EFD_CLOEXEC | EFD_NONBLOCK));
        return layer->queue.descriptor >= 0;
    }
    layer->has_dispatcher = start_thread(&layer->dispatcher, vlmt_dispatch, layer);
    return layer->has_dispatcher;
}

static bool start_watch(vlm_threads *layer) {
    if (!layer->options.search_milliseconds && !layer->options.long_milliseconds)
        return true;
    layer->has_watchdog = start_thread(&layer->watchdog, vlmt_watch, layer);
    return layer->has_watchdog;
}

static bool is_right_choice(const vlm_threads_options *options) {
    return is_of_version(options->version) && options->delivery <= VLM_THREADS_BY_PROGRAM && options->has_keys <= 1
           && (options->long_wait || !options->long_milliseconds);
}

uint32_t vlm_threads_open(const vlm_threads_options *options, vlm_threads **made) {
    vlm_threads_options whole;
    *made = NULL;
    if (!is_copied(&whole, sizeof whole, options, FIRST_OPTIONS) || !is_right_choice(&whole))
        return VLM_BADPARAM;
    vlm_threads *layer = calloc(1, sizeof *layer);
    if (!layer)
        return VLM_INSFMEM;
    layer->options = whole;
    layer->queue.descriptor = -1;
    layer->processors = vlmt_processors();
    make_primitives(layer);
    if (!open_manager(layer) || !open_delivery(layer) || !start_watch(layer)) {
        vlm_threads_close(layer);
        return VLM_INSFMEM;
    }
    *made = layer;
    return VLM_NORMAL;
}

static void stop(vlm_threads *layer) {
    if (layer->processes.chains)
        vlmt_forget_node(layer, 0);
    for (uint32_t node = 1; node <= VLM_MAX_NODES; node++) {
        vlm_leave(&layer->handle, node);
        layer->departed |= UINT32_C(1) << node;
    }
}

uint32_t vlm_threads_stop(vlm_threads *layer) {
    vlmt_lock(layer);
    stop(layer);
    vlmt_unlock(layer);
    return VLM_NORMAL;
}

static void join_threads(vlm_threads *layer) {
    if (layer->has_dispatcher)
        pthread_join(layer->dispatcher, NULL);
    if (layer->has_watchdog)
        pthread_join(layer->watchdog, NULL);
}

static void free_records(vlm_threads *layer) {
    for (uint32_t index = 0; index < layer->request_count; index++)
        free(layer->requests[index]);
    for (struct lock *lock = layer->free_locks, *next; lock; lock = next) {
        next = lock->next;
        free(lock);
    }
    for (struct bond *bond = layer->bonds, *next; bond; bond = next) {
        next = bond->next;
        free(bond);
    }
    free(layer->requests);
    free(layer->processes.chains);
    free(layer->locks.chains);
}

static void free_primitives(vlm_threads *layer) {
    if (layer->has_key)
        pthread_key_delete(layer->key);
    if (layer->queue.descriptor >= 0)
        close(layer->queue.descriptor);
    vlmt_free_condition(&layer->pending);
    vlmt_free_condition(&layer->watched);
    vlmt_free_condition(&layer->calm);
    vlmt_free_mutex(&layer->mutex);
}

/* Stops the layer, and waits until no routine runs and no call sleeps. */
static void empty(vlm_threads *layer) {
    stop(layer);
    layer->is_closing = true;
    vlmt_wake(layer, &layer->pending);
    vlmt_wake(layer, &layer->watched);
    vlmt_settle(layer);
    while (layer->sleepers)
        vlmt_sleep(layer, &layer->calm, NULL);
    vlmt_release_rest(layer);
}

static void free_layer(vlm_threads *layer) {
    join_threads(layer);
    vlm_close(&layer->handle);
    free_records(layer);
    free_primitives(layer);
    free(layer);
}

uint32_t vlm_threads_close(vlm_threads *layer) {
    if (!layer)
        return VLM_NORMAL;
    int before = cancels_off();
    vlmt_lock(layer);
    bool is_allowed = !vlmt_is_in_routine(layer);
    if (is_allowed)
        empty(layer);
    vlmt_unlock(layer);
    if (is_allowed)
        free_layer(layer);
    cancels_back(before);
    return is_allowed ? VLM_NORMAL : VLM_BADPARAM;
}

/* Counters. */

uint32_t vlm_threads_read_counters(vlm_threads *layer, vlm_threads_counters *counters) {
    uint32_t size = counters->size;
    if (!is_sized(size, FIRST_COUNTERS, sizeof *counters))
        return VLM_BADPARAM;
    vlmt_lock(layer);
    layer->counters.size = size;
    layer->counters.processes = layer->processes.count;
    layer->counters.locks = layer->locks.count;
    memcpy(counters, &layer->counters, size);
    vlmt_unlock(layer);
    return VLM_NORMAL;
}
