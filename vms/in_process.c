/* The lock manager in this process, by vlm_threads.h. The process of the operating system is its only process. */
#define _GNU_SOURCE /* strtod_l */
#include "parts.h"

#include <locale.h>
#include <stdlib.h>
#include <string.h>
#include <unistd.h>

enum { USUAL_WAIT = 10, THOUSAND = 1000, SHARES = 10, SHORTEST = 10, QUEUES = 3 };

static vlm_threads *layer;
static uint32_t own_pid;

/* Reads seconds, perhaps with a fraction, with a decimal point in every locale. Returns the usual wait for a value that
 * is not a number. */
static double seconds_of(const char *text) {
    locale_t plain = newlocale(LC_NUMERIC_MASK, "C", (locale_t)0);
    char *end;
    if (plain == (locale_t)0)
        return USUAL_WAIT;
    double seconds = strtod_l(text, &end, plain);
    freelocale(plain);
    return end != text && *end == 0 && seconds >= 0 ? seconds : USUAL_WAIT;
}

/* The deadlock wait in milliseconds, rounded up, of VLM$DEADLOCK_WAIT. With 0 none is searched for. */
static uint32_t deadlock_wait(void) {
    const char *text = vms_setting("DEADLOCK_WAIT");
    double wait = THOUSAND * (text != NULL ? seconds_of(text) : USUAL_WAIT);
    return wait < UINT32_MAX ? (uint32_t)wait + ((uint32_t)wait < wait) : 0;
}

/* How often it searches: ten times in a deadlock wait, and each second at least. */
static uint32_t period(uint32_t wait) {
    uint32_t share = wait / SHARES;
    return share > THOUSAND ? THOUSAND : share < SHORTEST ? SHORTEST : share;
}

static uint32_t open_layer(const char *address, uint32_t quota) {
    (void)address;
    uint32_t wait = deadlock_wait();
    vlm_threads_options options = {.size = sizeof options,
                                   .version = VLM_VERSION,
                                   .search_milliseconds = wait != 0 ? period(wait) : 0,
                                   .victim_milliseconds = wait};
    vlm_threads_declaration declaration = {
        .size = sizeof declaration, .node = 1, .group = 1, .syslck = 1, .quota = quota, .requests = MOST_REQUESTS};
    uint32_t status = vlm_threads_open(&options, &layer);
    if (status == VLM_NORMAL)
        status = vlm_threads_declare(layer, &declaration, &own_pid);
    if (status != VLM_NORMAL && layer != NULL)
        vlm_threads_close(layer);
    return status;
}

static uint32_t ask(vlm_threads_request *request, const uint8_t *name, size_t name_len) {
    request->pid = own_pid;
    return name != NULL ? vlm_threads_start_enq(layer, request, name, name_len)
                        : vlm_threads_start_convert(layer, request);
}

static uint32_t give_up(vlm_threads_dequeue *dequeue) {
    dequeue->pid = own_pid;
    return vlm_threads_deq(layer, dequeue);
}

/* Readings. Each is made at one moment, while no step is. */

struct look {
    uint32_t lkid, status, count;
    enum list list;
    struct reading *reading;
    struct rows *rows;
};

static struct row row_of(const vlm_lock *lock) {
    return (struct row){lock->lkid, (uint32_t)getpid(), lock->held, lock->want, lock->queue};
}

/* Adds the rest of a walk, of which `lock` is the first row. Without rows it counts. */
static void add(struct look *look, vlm *handle, vlm_lock *lock, uint32_t (*next)(vlm *, uint32_t, vlm_lock *)) {
    while (look->status == VLM_NORMAL && lock->lkid != 0) {
        struct row row = row_of(lock);
        look->count++;
        look->status =
            look->rows == NULL || vms_add_row(look->rows, &row) ? next(handle, lock->lkid, lock) : VLM_INSFMEM;
    }
}

static void add_queue(struct look *look, vlm *handle, const vlm_resource *resource, uint32_t queue) {
    vlm_lock lock = {.size = sizeof lock};
    look->status = vlm_first_row(handle, resource, queue, &lock);
    add(look, handle, &lock, vlm_next_row);
}

/* Adds a walk over the blockers of a lock, or over the locks that it blocks. */
static void add_related(struct look *look, vlm *handle, uint32_t (*first)(vlm *, uint32_t, vlm_lock *),
                        uint32_t (*next)(vlm *, uint32_t, uint32_t, vlm_lock *)) {
    vlm_lock lock = {.size = sizeof lock};
    look->status = first(handle, look->lkid, &lock);
    while (look->status == VLM_NORMAL && lock.lkid != 0) {
        struct row row = row_of(&lock);
        look->status = vms_add_row(look->rows, &row) ? next(handle, look->lkid, lock.lkid, &lock) : VLM_INSFMEM;
    }
}

static void look_at_list(void *context, vlm *handle) {
    struct look *look = context;
    vlm_resource resource = {.size = sizeof resource};
    vlm_lock lock = {.size = sizeof lock};
    look->status = look->list == ALL ? VLM_NORMAL : vlm_lock_resource(handle, look->lkid, &resource);
    if (look->status != VLM_NORMAL) {
        look->status = VLM_IVLOCKID;
    } else if (look->list == ALL) {
        look->status = vlm_first_own(handle, own_pid, &lock);
        add(look, handle, &lock, vlm_next_own);
    } else if (look->list == BLOCKERS) {
        add_related(look, handle, vlm_first_blocker, vlm_next_blocker);
    } else if (look->list == BLOCKED) {
        add_related(look, handle, vlm_first_blocked, vlm_next_blocked);
    }
    for (uint32_t queue = 0; queue < QUEUES && look->list == ON_RESOURCE && look->status == VLM_NORMAL; queue++)
        add_queue(look, handle, &resource, queue);
}

static uint32_t list(enum list list, uint32_t lkid, struct rows *rows) {
    struct look look = {.lkid = lkid, .list = list, .rows = rows};
    vlm_threads_look(layer, look_at_list, &look);
    return look.status;
}

static void fill(struct reading *reading, const vlm_lock *lock, const vlm_resource *resource) {
    reading->row = row_of(lock);
    reading->parent = lock->parent;
    reading->is_system = resource->is_system;
    reading->group = resource->group;
    reading->name_len = resource->name_len;
    reading->value_valid = resource->value_valid;
    reading->tail_valid = resource->tail_valid;
    memcpy(reading->name, resource->name, sizeof resource->name);
    memcpy(reading->value, resource->value, sizeof resource->value);
    memcpy(reading->value + SHORT_VALUE, resource->tail, sizeof resource->tail);
}

static void look_at_lock(void *context, vlm *handle) {
    struct look *look = context;
    vlm_lock lock = {.size = sizeof lock};
    vlm_resource resource = {.size = sizeof resource};
    if (vlm_find_lock(handle, look->lkid, &lock) != VLM_NORMAL
        || vlm_lock_resource(handle, look->lkid, &resource) != VLM_NORMAL) {
        look->status = VLM_IVLOCKID;
        return;
    }
    fill(look->reading, &lock, &resource);
    for (uint32_t queue = 0; queue < QUEUES; queue++) {
        look->count = 0;
        add_queue(look, handle, &resource, queue);
        look->reading->counts[queue] = look->count;
    }
    look->count = 0;
    look->status = vlm_first_sublock(handle, look->lkid, &lock);
    add(look, handle, &lock, vlm_next_sublock);
    look->reading->sublocks = look->count;
}

static uint32_t read_lock(uint32_t lkid, struct reading *reading) {
    struct look look = {.lkid = lkid, .reading = reading};
    vlm_threads_look(layer, look_at_lock, &look);
    return look.status;
}

static void look_below(void *context, vlm *handle) {
    struct look *look = context;
    vlm_resource above = {.size = sizeof above}, resource = {.size = sizeof resource};
    if (vlm_lock_resource(handle, look->lkid, &above) != VLM_NORMAL) {
        look->status = VLM_IVLOCKID;
        return;
    }
    look->status = vlm_next_resource(handle, &resource);
    for (; look->status == VLM_NORMAL && resource.serial != 0; look->status = vlm_next_resource(handle, &resource))
        look->count += resource.parent == above.serial;
}

static uint32_t below(uint32_t lkid, uint32_t *count) {
    struct look look = {.lkid = lkid};
    vlm_threads_look(layer, look_below, &look);
    *count = look.count;
    return look.status;
}

const struct engine vms_in_process = {open_layer, ask, give_up, read_lock, list, below};
