/* Requests and dequeues. */
#include "vlm_threads_parts.h"

/* Requests. */

/* The routines of the core's ASTs. The layer tells ASTs apart by kind: these numbers are for a debugger. */
enum { COMPLETION_ROUTINE = 1, BLOCKING_ROUTINE = 2 };

static bool is_right_request(const struct asked *asked) {
    const vlm_threads_request *words = &asked->words;
    return (words->value || !(words->flags & VLM_VALBLK)) && !words->completion == asked->waits;
}

/* A conversion may write the value block from its status block. */
static void set_value(vlm_threads *layer, const vlm_threads_request *words, uint32_t block) {
    vlm_setting setting = {.size = sizeof setting, .pid = words->pid, .block = block};
    setting.has_tail = (words->flags & VLM_WIDE) != 0;
    memcpy(setting.value, words->value, sizeof setting.value);
    if (setting.has_tail)
        memcpy(setting.tail, words->value + SHORT_VALUE, sizeof setting.tail);
    vlm_set_value(&layer->handle, &setting);
}

/* The core's step: SYNCH if it is granted at once, NORMAL if it is queued, or a refusal. */
static uint32_t core_step(vlm_threads *layer, const struct asked *asked, struct request *request) {
    const vlm_threads_request *words = &asked->words;
    vlm_request step = {.size = sizeof step,
                        .pid = words->pid,
                        .mode = words->mode,
                        .flags = words->flags | VLM_SYNCSTS,
                        .block = request->block,
                        .lock = words->lock,
                        .has_ast = 1,
                        .ast = COMPLETION_ROUTINE,
                        .has_bast = words->blocking != NULL,
                        .bast = BLOCKING_ROUTINE,
                        .param = request->index};
    if (!asked->is_conversion)
        return vlm_enq(&layer->handle, &step, asked->name, asked->name_len, &request->lkid);
    if (words->flags & VLM_VALBLK)
        set_value(layer, words, request->block);
    return vlm_convert(&layer->handle, &step, &request->lkid);
}

static struct lock *made_lock(vlm_threads *layer, const struct request *request, uint32_t parent) {
    struct lock *lock = layer->free_locks;
    struct lock *above = parent ? lock_of(layer, parent) : NULL;
    struct lock **head = above ? &above->sublocks : &request->process->locks;
    layer->free_locks = lock->next;
    *lock = (struct lock){.entry.id = request->lkid, .process = request->process, .next = *head, .link = head};
    if (lock->next)
        lock->next->link = &lock->next;
    *head = lock;
    vlmt_put(&layer->locks, &lock->entry);
    return lock;
}

static void fill(struct request *request, const vlm_threads_request *words) {
    request->flags = words->flags;
    request->status = 0;
    request->is_late = request->is_told = false;
    request->waiter = NULL;
    request->completion = words->completion;
    request->completion_context = words->completion_context;
    request->blocking = words->blocking;
    request->blocking_context = words->blocking_context;
    request->released = words->released;
}

static void grant_at_once(vlm_threads *layer, struct request *request, const struct asked *asked) {
    request->status = VLM_NORMAL;
    if (request->flags & VLM_VALBLK)
        vlmt_read_block(layer, request);
    vlmt_hold(layer, request);
    layer->counters.granted_at_once++;
    asked->given->status = request->status;
    if (asked->waits || request->flags & VLM_SYNCSTS)
        vlmt_write_words(request, asked);
    else
        vlmt_queue_event(layer, &request->ended);
}

/* Puts a request into the lists of queued ones. */
static void list(vlm_threads *layer, struct request *request) {
    struct request **own = &request->process->queued;
    request->older = layer->newest;
    request->newer = NULL;
    *(layer->newest ? &layer->newest->newer : &layer->oldest) = request;
    layer->newest = request;
    if (!layer->untold)
        layer->untold = request;
    request->next_own = *own;
    request->link = own;
    if (*own)
        (*own)->link = &request->next_own;
    *own = request;
}

static void join_queue(vlm_threads *layer, struct request *request, struct waiter *waiter) {
    vlm_threads_counters *counters = &layer->counters;
    request->process->free_count--;
    request->is_queued = true;
    request->lock->queued = request;
    request->since = now();
    list(layer, request);
    counters->waited++;
    if (++counters->waiting > counters->most_waiting)
        counters->most_waiting = counters->waiting;
    if (!waiter)
        return;
    request->waiter = waiter;
    waiter->request = request;
    vlmt_make_condition(&waiter->ended);
}

/* Makes the step and does all that follows from it, except the wait. */
static uint32_t make_request(vlm_threads *layer, const struct asked *asked, struct waiter *waiter) {
    const vlm_threads_request *words = &asked->words;
    struct process *process = process_of(layer, words->pid);
    if (!process)
        return vlmt_refusal(layer, words->pid);
    if (!process->free_count)
        return VLM_EXENQLM;
    if (!vlmt_reserve_request(layer) || !(asked->is_conversion || vlmt_reserve_lock(layer)))
        return VLM_INSFMEM;
    struct request *request = layer->free_requests;
    request->process = process;
    request->block = process->free_blocks[process->free_count - 1];
    uint32_t status = core_step(layer, asked, request);
    if (status != VLM_NORMAL && status != VLM_SYNCH)
        return status;
    layer->free_requests = request->next_free;
    fill(request, words);
    asked->given->lkid = request->lkid;
    request->lock = asked->is_conversion ? lock_of(layer, words->lock) : made_lock(layer, request, words->lock);
    if (status == VLM_SYNCH)
        grant_at_once(layer, request, asked);
    else
        join_queue(layer, request, asked->waits ? waiter : NULL);
    if (status == VLM_NORMAL || asked->is_conversion)
        vlmt_take_asts(layer);
    return words->flags & VLM_SYNCSTS ? status : VLM_NORMAL;
}

/* Cancels the request of a lock: whether it has one. Its end wakes the waiter. */
static bool cancel(vlm_threads *layer, uint32_t pid, uint32_t lkid) {
    vlm_dequeue dequeue = {.size = sizeof dequeue, .pid = pid, .flags = VLM_DEQ_CANCEL, .lock = lkid};
    bool had_one = vlm_deq(&layer->handle, &dequeue) == VLM_NORMAL;
    if (had_one)
        vlmt_take_asts(layer);
    return had_one;
}

/* Cancels a request whose time is over. */
static void cancel_late(vlm_threads *layer, struct request *request) {
    request->is_late = true;
    cancel(layer, request->process->entry.id, request->lkid);
}

/* Whether most of the last waits were short, and each thread that waits may have a processor, and one works. */
static bool is_soon_over(const vlm_threads *layer) {
    return layer->short_waits > MOST_SHORT / 2 && layer->counters.waiting < layer->processors;
}

static void sleep_until_ended(vlm_threads *layer, struct waiter *waiter) {
    if (is_soon_over(layer))
        vlmt_look(layer, &waiter->ended);
    uint32_t longest = waiter->asked->words.milliseconds;
    struct timespec deadline = moment_at(waiter->request->since + milliseconds(longest));
    while (!waiter->status) {
        if (!longest) {
            vlmt_sleep(layer, &waiter->ended, NULL);
        } else if (!vlmt_sleep(layer, &waiter->ended, &deadline) && !waiter->status) {
            longest = 0;
            cancel_late(layer, waiter->request);
        }
    }
}

/* Waits for the end of a queued request. */
static uint32_t awaited(vlm_threads *layer, struct waiter *waiter) {
    int before = vlmt_begin_sleep(layer);
    sleep_until_ended(layer, waiter);
    vlmt_free_condition(&waiter->ended);
    vlmt_end_sleep(layer, before);
    return is_grant(waiter->status) ? VLM_NORMAL : waiter->status;
}

/* Whether a lock is still there after its request ended without a grant. */
static bool has_lock(const struct asked *asked, uint32_t status) {
    return asked->is_conversion && (status == VLM_TIMEOUT || status == VLM_DEADLOCK || status == VLM_CANCEL);
}

/* Makes a request and waits for its end. Counts a refusal. */
static uint32_t ask_and_wait(vlm_threads *layer, const struct asked *asked) {
    struct waiter waiter = {.asked = asked};
    uint32_t status = is_right_request(asked) ? make_request(layer, asked, &waiter) : VLM_BADPARAM;
    if (status != VLM_NORMAL && status != VLM_SYNCH && status < VLM_THREADS_CONDITIONS)
        layer->counters.refused[status]++;
    if (!waiter.request)
        return status;
    status = awaited(layer, &waiter);
    if (status != VLM_NORMAL && !has_lock(asked, status))
        asked->given->lkid = 0;
    return status;
}

/* The forms of a request. */
enum { WAITS = 1, CONVERTS = 2 };

static uint32_t ask(vlm_threads *layer, vlm_threads_request *given, const uint8_t *name, size_t name_len, int form) {
    struct asked asked; /* (its members are set one by one: zeros for all would cost more) */
    bool is_sized = is_copied(&asked.words, sizeof asked.words, given, FIRST_REQUEST);
    uint32_t status = VLM_BADPARAM;
    asked.given = given;
    asked.name = name;
    asked.name_len = name_len;
    asked.is_conversion = form & CONVERTS;
    asked.waits = form & WAITS;
    vlmt_lock(layer);
    layer->counters.requests++;
    if (is_sized) {
        given->lkid = given->status = 0;
        status = ask_and_wait(layer, &asked);
    } else {
        layer->counters.refused[VLM_BADPARAM]++;
    }
    vlmt_unlock(layer);
    return status;
}

uint32_t vlm_threads_enq(vlm_threads *layer, vlm_threads_request *request, const uint8_t *name, size_t name_len) {
    return ask(layer, request, name, name_len, WAITS);
}

uint32_t vlm_threads_start_enq(vlm_threads *layer, vlm_threads_request *request, const uint8_t *name, size_t name_len) {
    return ask(layer, request, name, name_len, 0);
}

uint32_t vlm_threads_convert(vlm_threads *layer, vlm_threads_request *request) {
    return ask(layer, request, NULL, 0, CONVERTS | WAITS);
}

uint32_t vlm_threads_start_convert(vlm_threads *layer, vlm_threads_request *request) {
    return ask(layer, request, NULL, 0, CONVERTS);
}

uint32_t vlm_threads_lkid(vlm_threads *layer, const vlm_threads_request *request, uint32_t *lkid) {
    vlmt_lock(layer);
    *lkid = request->lkid;
    vlmt_unlock(layer);
    return VLM_NORMAL;
}

/* Dequeues. */

static vlm_dequeue core_dequeue(const vlm_threads_dequeue *words) {
    vlm_dequeue step = {.size = sizeof step,
                        .pid = words->pid,
                        .flags = words->flags,
                        .lock = words->lock,
                        .has_value = words->value != NULL,
                        .has_tail = words->wide};
    if (words->value)
        memcpy(step.value, words->value, sizeof step.value);
    if (words->value && words->wide)
        memcpy(step.tail, words->value + SHORT_VALUE, sizeof step.tail);
    return step;
}

/* Removes the locks that a dequeue has given up and that did not go with their requests. Lock 0 comes only with
 * DEQALL. */
static void remove_given_up(vlm_threads *layer, const vlm_threads_dequeue *words) {
    struct lock *lock = lock_of(layer, words->lock);
    if (!words->lock)
        vlmt_remove_locks(layer, &process_of(layer, words->pid)->locks);
    else if (lock && words->flags & VLM_DEQALL)
        vlmt_remove_locks(layer, &lock->sublocks);
    else if (lock)
        vlmt_remove_lock(layer, lock);
}

static uint32_t give_up(vlm_threads *layer, const vlm_threads_dequeue *words) {
    if (!process_of(layer, words->pid))
        return vlmt_refusal(layer, words->pid);
    vlm_dequeue step = core_dequeue(words);
    uint32_t status = vlm_deq(&layer->handle, &step);
    if (status != VLM_NORMAL)
        return status;
    layer->counters.dequeues++;
    vlmt_take_asts(layer);
    if (!(words->flags & VLM_DEQ_CANCEL))
        remove_given_up(layer, words);
    return VLM_NORMAL;
}

uint32_t vlm_threads_deq(vlm_threads *layer, const vlm_threads_dequeue *dequeue) {
    vlm_threads_dequeue words;
    if (!is_copied(&words, sizeof words, dequeue, FIRST_DEQUEUE))
        return VLM_BADPARAM;
    vlmt_lock(layer);
    uint32_t status = give_up(layer, &words);
    vlmt_unlock(layer);
    return status;
}

/* Cancels all requests of a process, and tells how many there were. The next lock is read before a lock goes with its
 * request. */
static uint32_t cancel_all(vlm_threads *layer, uint32_t pid) {
    vlm_lock lock = {.size = sizeof lock}, next = {.size = sizeof next};
    uint32_t cancelled = 0;
    uint32_t status = vlm_first_own(&layer->handle, pid, &lock);
    for (; status == VLM_NORMAL && lock.lkid; lock = next) {
        status = vlm_next_own(&layer->handle, lock.lkid, &next);
        if (lock.queue != VLM_GRANTED)
            cancelled += cancel(layer, pid, lock.lkid);
    }
    return cancelled;
}

uint32_t vlm_threads_cancel(vlm_threads *layer, uint32_t pid, uint32_t *cancelled) {
    vlmt_lock(layer);
    bool is_there = process_of(layer, pid);
    uint32_t status = is_there ? VLM_NORMAL : vlmt_refusal(layer, pid);
    *cancelled = is_there ? cancel_all(layer, pid) : 0;
    vlmt_unlock(layer);
    return status;
}
