/* Requests: enq, convert and deq. */
#include "vlm_client_parts.h"

#include <errno.h>
#include <inttypes.h>
#include <stdio.h>
#include <string.h>

enum { MOST_LINES = 4, MOST_BITS = 65535, NAME_BYTES = 32 };

/* The lines of a request, and what is taken from each answer. */
struct lines {
    char text[LINES_ROOM];
    int len;
    struct pending wanted[MOST_LINES];
    uint32_t count;
    uint32_t block; /* the status block of the request */
};

static bool is_valid(const vlm_threads_request *request, bool is_start) {
    return is_sized(request->size, FIRST_REQUEST, sizeof *request) && request->mode <= VLM_EX
           && request->flags <= MOST_BITS && ((request->flags & VLM_VALBLK) == 0 || request->value != NULL)
           && (request->completion != NULL) == is_start
           && (request->size == FIRST_REQUEST || request->released == NULL);
}

uint32_t vlmc_standing(const vlm_client *client, uint32_t pid) {
    if (vlmc_is_lost(client))
        return VLM_LOST;
    bool is_living = pid != 0 && pid <= client->process_count && client->processes[pid - 1].is_living;
    return is_living ? VLM_NORMAL : VLM_NONEXPR;
}

/* A status block that no request under way has, or 0. */
static uint32_t take_block(struct process *process) {
    for (uint32_t block = 1; block <= process->requests; block++) {
        if (process->blocks[block] != 0)
            continue;
        process->blocks[block] = 1;
        return block;
    }
    return 0;
}

static void fill(vlm_client *client, uint32_t place, const vlm_threads_request *request, struct call *call) {
    struct record *record = &client->records[place];
    bool writes_value = (request->flags & VLM_VALBLK) != 0;
    record->pid = request->pid;
    record->flags = request->flags;
    record->call = call;
    record->completion = request->completion;
    record->completion_context = request->completion_context;
    record->blocking = request->blocking;
    record->blocking_context = request->blocking_context;
    if (writes_value)
        memcpy(record->value, request->value, (request->flags & VLM_WIDE) != 0 ? WHOLE_VALUE : SHORT_VALUE);
}

/* Finds the record of a lock that is to be converted: NORMAL, IVLOCKID. CVTUNGRANT while the end of another conversion
 * was not heard of: so a wait for that one that is too long cancels no other. */
static uint32_t find_converted(const vlm_client *client, const vlm_threads_request *request, uint32_t *lock) {
    *lock = vlmc_find_lock(client, request->pid, request->lock);
    if (*lock == NO_RECORD)
        return VLM_IVLOCKID;
    return client->records[*lock].converted == NO_RECORD ? VLM_NORMAL : VLM_CVTUNGRANT;
}

/* Makes a record for a request, with a status block. */
static uint32_t prepare(vlm_client *client, const vlm_threads_request *request, struct call *call, bool is_conversion,
                        uint32_t *place) {
    uint32_t status = vlmc_standing(client, request->pid), lock = NO_RECORD;
    if (status == VLM_NORMAL && is_conversion)
        status = find_converted(client, request, &lock);
    if (status != VLM_NORMAL)
        return status;
    *place = vlmc_new_record(client);
    if (*place == NO_RECORD)
        return VLM_INSFMEM;
    uint32_t block = take_block(&client->processes[request->pid - 1]);
    if (block == 0) {
        vlmc_free_record(client, *place);
        return VLM_EXENQLM;
    }
    fill(client, *place, request, call);
    client->records[*place].block = block;
    client->records[*place].lock = lock;
    if (is_conversion)
        client->records[lock].converted = *place;
    client->records[*place].parent = is_conversion ? 0 : request->lock;
    return VLM_NORMAL;
}

static void want(struct lines *lines, struct call *call, uint32_t taken, uint32_t record) {
    lines->wanted[lines->count++] = (struct pending){taken, call, record, 0};
}

static uint64_t handle_of(const vlm_client *client, uint32_t lkid) {
    return lkid == 0 ? 0 : client->epoch << 32 | lkid;
}

/* A conversion may write the value block from the status block, which gets the value before. */
static void write_value(struct lines *lines, const struct record *record, struct call *call) {
    lines->len += snprintf(lines->text + lines->len, LINES_ROOM, "set p%u block=%u value=", record->pid, record->block);
    lines->len += vlmc_write_hex(lines->text + lines->len, record->value, SHORT_VALUE);
    lines->len += snprintf(lines->text + lines->len, 8, " tail=");
    lines->len += vlmc_write_hex(lines->text + lines->len, record->value + SHORT_VALUE, WHOLE_VALUE - SHORT_VALUE);
    lines->len += snprintf(lines->text + lines->len, 2, "\n");
    want(lines, call, NOTHING, NO_RECORD);
}

static void write_end(vlm_client *client, struct lines *lines, const vlm_threads_request *request, uint32_t place) {
    const struct record *record = &client->records[place];
    struct call *call = record->call;
    char *text = lines->text;
    lines->block = record->block;
    lines->len +=
        snprintf(text + lines->len, LINE_ROOM, " block=%u ast=%u bits=%u", record->block, place, request->flags);
    if (request->blocking != NULL)
        lines->len +=
            snprintf(text + lines->len, LINE_ROOM, " bast=%u", record->lock != NO_RECORD ? record->lock : place);
    lines->len += snprintf(text + lines->len, 2, "\n");
    want(lines, call, STATUS, place);
    /* (a request that is granted at once with SYNCSTS has no completion, which would bring the value) */
    if ((request->flags & VLM_SYNCSTS) != 0 && (request->flags & VLM_VALBLK) != 0) {
        lines->len += snprintf(text + lines->len, LINE_ROOM, "block p%u %u\ntail p%u %u\n", record->pid, record->block,
                               record->pid, record->block);
        want(lines, call, VALUE, NO_RECORD);
        want(lines, call, TAIL, NO_RECORD);
    }
}

static const char *const modes[] = {"NL", "CR", "CW", "PR", "PW", "EX"};

static void write_enq(vlm_client *client, struct lines *lines, const vlm_threads_request *request, const uint8_t *name,
                      size_t name_len) {
    lines->len = snprintf(lines->text, LINES_ROOM, "enq p%u %s name=", request->pid, modes[request->mode]);
    if (name_len > 0) {
        lines->len += snprintf(lines->text + lines->len, 3, "x:");
        lines->len += vlmc_write_hex(lines->text + lines->len, name, name_len < NAME_BYTES ? name_len : NAME_BYTES);
    }
    if (request->lock != 0)
        lines->len +=
            snprintf(lines->text + lines->len, LINE_ROOM, " parent=%" PRIu64, handle_of(client, request->lock));
}

static void write_cvt(vlm_client *client, struct lines *lines, const vlm_threads_request *request, uint32_t place) {
    const struct record *record = &client->records[place];
    if ((request->flags & VLM_VALBLK) != 0)
        write_value(lines, record, record->call);
    lines->len += snprintf(lines->text + lines->len, LINE_ROOM, "cvt p%u %" PRIu64 " %s", request->pid,
                           handle_of(client, request->lock), modes[request->mode]);
}

/* Waits until the request of a call has ended, or until a moment. */
static bool wait_for_end(vlm_client *client, struct call *call, const struct timespec *until) {
    int waited = 0;
    while (!call->is_ended && waited != ETIMEDOUT)
        waited = until != NULL ? pthread_cond_timedwait(&call->changed, &client->state, until)
                               : pthread_cond_wait(&call->changed, &client->state);
    return call->is_ended;
}

/* Whatever the answer, the request ends: if the locks are lost, with VLM_LOST. */
static void cancel(vlm_client *client, const vlm_threads_request *request, const struct call *cancelled) {
    char line[LINE_ROOM];
    struct call call = {.session = cancelled->session, .is_reserved = true, .cancelled = cancelled};
    snprintf(line, sizeof line, "deq p%u %" PRIu64 " cancel\n", request->pid, cancelled->handle);
    vlmc_ask(client, &call, line, STATUS);
}

/* Waits for the end of an accepted request. A wait that is too long cancels it; a grant that came before counts. */
static uint32_t await_end(vlm_client *client, const vlm_threads_request *request, struct call *call) {
    struct timespec until = moment_at(now() + milliseconds(request->milliseconds));
    pthread_mutex_lock(&client->state);
    bool is_ended = wait_for_end(client, call, request->milliseconds != 0 ? &until : NULL);
    pthread_mutex_unlock(&client->state);
    if (!is_ended) {
        cancel(client, request, call);
        pthread_mutex_lock(&client->state);
        wait_for_end(client, call, NULL);
        pthread_mutex_unlock(&client->state);
    }
    if (is_grant(call->status))
        return VLM_NORMAL;
    if (is_ended || call->status == VLM_LOST || call->status == VLM_NONEXPR)
        return call->status;
    if (call->status == VLM_ABORT)
        call->handle = 0; /* the lock of a conversion has gone too */
    call->status = VLM_TIMEOUT;
    return VLM_TIMEOUT;
}

/* Reads the tail of a value from a status block, and frees the block: NORMAL, VLM_LOST, or NONEXPR if another thread
 * has ended the process meanwhile. */
static uint32_t read_tail(vlm_client *client, uint32_t session, uint32_t pid, uint32_t block, uint8_t *value) {
    char line[LINE_ROOM];
    struct call call = {.session = session, .is_reserved = true};
    snprintf(line, sizeof line, "tail p%u %u\n", pid, block);
    uint32_t status = vlmc_ask(client, &call, line, TAIL);
    memcpy(value + SHORT_VALUE, call.value + SHORT_VALUE, WHOLE_VALUE - SHORT_VALUE);
    pthread_mutex_lock(&client->state);
    vlmc_free_block(client, pid, block);
    pthread_mutex_unlock(&client->state);
    return status;
}

/* Without the tail the event tells why: the locks are lost, or the process has ended. */
void vlmc_read_tail(vlm_client *client, struct event *event) {
    vlm_threads_event *told = &event->told;
    uint32_t status = read_tail(client, event->session, told->pid, event->tail_of, told->value);
    if (status == VLM_NORMAL)
        return;
    told->status = status;
    told->value_len = 0;
}

/* Writes what a request returns. */
static void give(vlm_threads_request *request, const struct call *call, bool is_conversion) {
    bool is_granted = is_grant(call->status),
         is_gone = call->status == VLM_ABORT || call->status == VLM_LOST || call->status == VLM_NONEXPR;
    request->status = call->status;
    request->lkid = is_granted || (is_conversion && !is_gone) ? (uint32_t)call->handle : 0;
    if (is_granted && (request->flags & VLM_VALBLK) != 0)
        memcpy(request->value, call->value, (request->flags & VLM_WIDE) != 0 ? WHOLE_VALUE : SHORT_VALUE);
}

/* A grant that would be told after the locks were lost is none. */
static bool is_too_late(vlm_client *client, const struct call *call) {
    pthread_mutex_lock(&client->state);
    bool is_gone = vlmc_is_gone(client, call->session);
    pthread_mutex_unlock(&client->state);
    return is_gone;
}

/* What a request that was sent comes to. `block` is its status block. */
static uint32_t follow(vlm_client *client, vlm_threads_request *request, struct call *call, uint32_t block,
                       bool is_conversion) {
    pthread_mutex_lock(&client->state);
    while (call->left > 0)
        pthread_cond_wait(&call->changed, &client->state);
    if (call->answer == VLM_SYNCH)
        vlmc_free_block(client, request->pid, block);
    pthread_mutex_unlock(&client->state);
    if (call->answer == VLM_SYNCH && !is_too_late(client, call)) {
        call->status = (request->flags & VLM_VALBLK) != 0 ? call->status : VLM_NORMAL;
        give(request, call, is_conversion);
        return VLM_SYNCH;
    }
    if (call->answer != VLM_NORMAL && call->answer != VLM_SYNCH)
        return call->answer;
    if (request->completion != NULL && call->answer == VLM_NORMAL) {
        request->lkid = (uint32_t)call->handle;
        return VLM_NORMAL;
    }
    uint32_t answer = call->answer == VLM_NORMAL ? await_end(client, request, call) : VLM_LOST;
    bool is_wide = (request->flags & VLM_VALBLK) != 0 && (request->flags & VLM_WIDE) != 0;
    if (answer == VLM_NORMAL && is_wide)
        answer = read_tail(client, call->session, request->pid, block, call->value);
    if (is_too_late(client, call))
        answer = VLM_LOST;
    if (answer == VLM_LOST || answer == VLM_NONEXPR)
        call->status = answer;
    give(request, call, is_conversion);
    return answer;
}

/* A request was not sent. */
static void take_back(vlm_client *client, uint32_t pid, uint32_t block, uint32_t place) {
    pthread_mutex_lock(&client->state);
    vlmc_free_block(client, pid, block);
    vlmc_free_record(client, place);
    pthread_mutex_unlock(&client->state);
}

static void end_call(vlm_client *client, struct call *call) {
    pthread_mutex_lock(&client->state);
    client->callers--;
    pthread_mutex_unlock(&client->state);
    pthread_cond_destroy(&call->changed);
}

/* Makes a request: `name` is null for a conversion. */
static uint32_t make(vlm_client *client, vlm_threads_request *request, const uint8_t *name, size_t name_len) {
    struct lines lines = {.len = 0};
    struct call call = {0};
    uint32_t place = NO_RECORD;
    int before = cancels_off();
    request->lkid = request->status = 0;
    vlmc_begin_call(&call, 0);
    pthread_mutex_lock(&client->state);
    client->callers++;
    call.session = client->session;
    uint32_t status = prepare(client, request, &call, name == NULL, &place);
    if (status == VLM_NORMAL) {
        if (name != NULL)
            write_enq(client, &lines, request, name, name_len);
        else
            write_cvt(client, &lines, request, place);
        write_end(client, &lines, request, place);
        call.left = lines.count;
        if (request->completion != NULL)
            client->records[place].call = NULL;
    }
    pthread_mutex_unlock(&client->state);
    if (status == VLM_NORMAL) {
        status = vlmc_send(client, lines.text, lines.wanted, lines.count);
        if (status == VLM_NORMAL)
            status = follow(client, request, &call, lines.block, name == NULL);
        else
            take_back(client, request->pid, lines.block, place);
    }
    end_call(client, &call);
    cancels_back(before);
    return status;
}

static uint32_t ask(vlm_client *client, vlm_threads_request *request, const uint8_t *name, size_t len, bool is_start) {
    return vlmc_is_usable(client) && is_valid(request, is_start) ? make(client, request, name, len) : VLM_BADPARAM;
}

uint32_t vlm_client_enq(vlm_client *client, vlm_threads_request *request, const uint8_t *name, size_t name_len) {
    return ask(client, request, name, name_len, false);
}

uint32_t vlm_client_convert(vlm_client *client, vlm_threads_request *request) {
    return ask(client, request, NULL, 0, false);
}

uint32_t vlm_client_start_enq(vlm_client *client, vlm_threads_request *request, const uint8_t *name, size_t name_len) {
    return ask(client, request, name, name_len, true);
}

uint32_t vlm_client_start_convert(vlm_client *client, vlm_threads_request *request) {
    return ask(client, request, NULL, 0, true);
}

static bool is_valid_dequeue(const vlm_threads_dequeue *dequeue) {
    return is_sized(dequeue->size, FIRST_DEQUEUE, sizeof *dequeue) && dequeue->flags <= MOST_BITS && dequeue->wide <= 1;
}

/* Whether a granted lock is below a lock of the same process. All are below 0. Trees have at most 16 levels. */
static bool is_below(const vlm_client *client, const struct record *record, uint32_t lock) {
    uint32_t above = record->parent;
    while (lock != 0 && above != 0 && above != lock) {
        uint32_t place = vlmc_find_lock(client, record->pid, above);
        above = place != NO_RECORD ? client->records[place].parent : 0;
    }
    return above == lock || lock == 0;
}

/* Forgets the granted locks of a process below a lock, or all of them. All are found before one of them goes. */
static void forget_below(vlm_client *client, uint32_t pid, uint32_t lock) {
    for (uint32_t place = 0; place < client->record_room; place++) {
        struct record *record = &client->records[place];
        record->is_going =
            record->is_used && record->pid == pid && record->is_granted && is_below(client, record, lock);
    }
    for (uint32_t place = 0; place < client->record_room; place++)
        if (client->records[place].is_going)
            vlmc_free_record(client, place);
}

void vlmc_forget(vlm_client *client, const vlm_threads_dequeue *dequeue) {
    if ((dequeue->flags & VLM_DEQ_CANCEL) != 0)
        return;
    if ((dequeue->flags & VLM_DEQALL) != 0) {
        forget_below(client, dequeue->pid, dequeue->lock);
        return;
    }
    uint32_t place = vlmc_find_lock(client, dequeue->pid, dequeue->lock);
    if (place != NO_RECORD && client->records[place].is_granted)
        vlmc_free_record(client, place);
}

static uint32_t give_up(vlm_client *client, const vlm_threads_dequeue *dequeue) {
    char line[LINE_ROOM];
    struct call call = {.dequeue = dequeue};
    pthread_mutex_lock(&client->state);
    uint32_t status = vlmc_standing(client, dequeue->pid);
    call.session = client->session;
    int len = snprintf(line, sizeof line, "deq p%u %" PRIu64 " bits=%u", dequeue->pid, handle_of(client, dequeue->lock),
                       dequeue->flags);
    pthread_mutex_unlock(&client->state);
    if (status != VLM_NORMAL)
        return status;
    if (dequeue->value != NULL) {
        len += snprintf(line + len, 8, " value=");
        len += vlmc_write_hex(line + len, dequeue->value, SHORT_VALUE);
    }
    if (dequeue->value != NULL && dequeue->wide != 0) {
        len += snprintf(line + len, 8, " tail=");
        len += vlmc_write_hex(line + len, dequeue->value + SHORT_VALUE, WHOLE_VALUE - SHORT_VALUE);
    }
    snprintf(line + len, 2, "\n");
    return vlmc_ask(client, &call, line, STATUS);
}

uint32_t vlm_client_deq(vlm_client *client, const vlm_threads_dequeue *dequeue) {
    if (!vlmc_is_usable(client) || !is_valid_dequeue(dequeue))
        return VLM_BADPARAM;
    int before = cancels_off();
    uint32_t status = give_up(client, dequeue);
    cancels_back(before);
    return status;
}
