/* The steps of a session: declare, enq, cvt, deq, set and end. A process of the manager may have more status blocks
 * than its session declared, and a greater quota; here the declared ones count. */
#include "parts.h"

#include <stdlib.h>
#include <string.h>

enum { FIRST_NAMES = 4 };

struct binding *find_binding(struct session *session, const uint8_t *name) {
    for (uint32_t at = 0; at < session->binding_count; at++)
        if (memcmp(session->bindings[at].name, name, NAME) == 0)
            return &session->bindings[at];
    return NULL;
}

/* Prints the answer to a line, without the number of a lock or a process at its end: 1 is printed there, and cut off.
 * The same line mostly gets the same answer, so the last one is kept. */
static const vlm_text *print_answer(struct heard *heard, uint32_t status, bool has_number) {
    vlm_text *answer = &heard->answer;
    if (answer->len != 0 && heard->status == status && heard->has_number == has_number)
        return answer;
    heard->status = status;
    heard->has_number = has_number;
    *answer = (vlm_text){.size = sizeof *answer};
    if (vlm_print_answer(&heard->line, status, has_number ? 1 : 0, answer) == VLM_NORMAL && has_number)
        answer->len -= strlen("1\n");
    return answer;
}

/* Sends the answer to the step of the line that is run. It names the handle of a lock, the number of a process, or
 * nothing: 0. */
void tell_answer(struct client *client, uint32_t status, uint64_t given) {
    if (client->is_detached)
        return;
    const vlm_text *printed = print_answer(client->dispatcher->heard, status, given != 0);
    char text[sizeof printed->bytes + NUMBER_DIGITS], digits[NUMBER_DIGITS];
    size_t len = printed->len, count = given != 0 ? write_number(digits + NUMBER_DIGITS, given) : 0;
    memcpy(text, printed->bytes, len);
    if (given != 0) {
        memcpy(text + len, digits + NUMBER_DIGITS - count, count);
        len += count;
        text[len++] = '\n';
    }
    answer(client, text, len);
}

/* A step was made or refused: it is kept, and its client is told. */
static void answer_step(struct client *client, uint32_t status, uint64_t given) {
    if (status == VLM_INSFMEM)
        end_without_memory(client->dispatcher);
    client->dispatcher->counts.refused += status != VLM_NORMAL && status != VLM_SYNCH;
    keep_step(client, status, given);
    tell_answer(client, status, given);
}

/* Makes room for one name more. */
static bool grow(struct session *session) {
    if (session->binding_count < session->binding_room)
        return true;
    uint32_t room = session->binding_room != 0 ? 2 * session->binding_room : FIRST_NAMES;
    struct binding *bindings = realloc(session->bindings, room * sizeof *bindings);
    if (bindings == NULL)
        return false;
    session->bindings = bindings;
    session->binding_room = room;
    return true;
}

static void declare(struct client *client, const vlm_line *line) {
    struct session *session = client->session;
    const struct limits *limits = &client->dispatcher->limits;
    if (session->user->processes >= limits->processes) {
        answer_text(client, "too many processes\n");
        return;
    }
    if (session->binding_count >= limits->names) {
        answer_text(client, "too many names\n");
        return;
    }
    bool has_room = grow(session);
    struct process *process = has_room ? take_process(session, line) : NULL;
    if (process == NULL && has_room && client->dispatcher->process_count == MOST_PROCESSES) {
        answer_text(client, "too many processes\n");
        return;
    }
    if (process == NULL) {
        answer_step(client, VLM_INSFMEM, 0);
        return;
    }
    struct binding *binding = &session->bindings[session->binding_count++];
    memcpy(binding->name, line->name, NAME);
    binding->process = process;
    answer_step(client, VLM_NORMAL, process->number);
}

/* A status block as the manager is to see it: one above the declared ones is block 0, which does not exist. */
static uint32_t declared_block(const struct process *process, uint32_t block) {
    return block <= process->blocks ? block : 0;
}

/* A lock that is named by a status block. A block that no request has named since the process was given to its session
 * has no lock; one that was named in an earlier lock manager has a lock that is gone. */
static void resolve_lock(const struct process *process, uint32_t *lock, uint32_t *kind) {
    if (*kind != VLM_BY_BLOCK)
        return;
    *lock = declared_block(process, *lock);
    if (*lock == 0 || has_bit(process->named, *lock))
        return;
    *lock = process->old != NULL && process->old[*lock].handle != 0 ? NO_LOCK : 0;
    *kind = VLM_BY_ID;
}

/* The text of the service's own for a request that it does not make, or null. */
static const char *own_refusal(const struct client *client, const vlm_line *line) {
    if (client->user->waiting >= client->dispatcher->limits.waiting)
        return "too many waiting requests\n";
    if (line->kind == VLM_LINE_ENQ && !has_ids(client->dispatcher))
        return "no identifications left\n";
    return NULL;
}

static bool is_over_quota(const struct process *process) {
    const struct session *session = process->session;
    return process->locks >= process->quota || session->user->locks >= session->dispatcher->limits.locks;
}

/* What a client is told: SYNCH only if its request was to answer that. */
static uint32_t told_status(const vlm_line *line, uint32_t status) {
    return status == VLM_SYNCH && (line->request.flags & VLM_SYNCSTS) == 0 ? VLM_NORMAL : status;
}

/* The request of a line. Its reserved words are zeros, and are not fetched. */
static vlm_request request_of(const vlm_line *line) {
    vlm_request request = {0};
    memcpy(&request, &line->request, offsetof(vlm_request, reserved));
    return request;
}

/* Asks for a new lock or converts one. */
static void ask(struct client *client, const vlm_line *line, struct process *process) {
    struct dispatcher *dispatcher = client->dispatcher;
    const char *refusal = own_refusal(client, line);
    if (refusal != NULL) {
        dispatcher->counts.refused++;
        answer_text(client, refusal);
        return;
    }
    vlm_request request = request_of(line);
    bool is_new = line->kind == VLM_LINE_ENQ;
    uint32_t lkid = 0, status = is_new && is_over_quota(process) ? VLM_EXENQLM : VLM_INSFMEM;
    request.pid = process->pid;
    request.block = declared_block(process, request.block);
    resolve_lock(process, &request.lock, &request.lock_kind);
    bool is_made = status == VLM_INSFMEM && (!is_new || reserve_token(dispatcher));
    uint32_t place = is_made ? new_request(process, &request) : NOBODY;
    if (place != NOBODY && is_new)
        status = vlm_enq(&dispatcher->manager, &request, line->resource, line->resource_len, &lkid);
    else if (place != NOBODY)
        status = vlm_convert(&dispatcher->manager, &request, &lkid);
    bool is_accepted = status == VLM_NORMAL || status == VLM_SYNCH;
    if (is_accepted && is_new)
        accept_new(dispatcher, place, lkid, status == VLM_SYNCH);
    else if (is_accepted)
        accept_conversion(dispatcher, place, lkid);
    if (place != NOBODY && status != VLM_NORMAL)
        drop_request(dispatcher, place);
    answer_step(client, told_status(line, status), handle_of(dispatcher, lkid));
    /* (a new lock that is granted at once causes no AST) */
    if (!is_new || status != VLM_SYNCH)
        tell(dispatcher);
    if (status == VLM_NORMAL)
        wait_if_queued(dispatcher, place, lkid);
}

/* The only lock that a dequeue may give up, or 0. A status block has the lock of its last request. */
static uint32_t only_lock(const struct process *process, const vlm_dequeue *dequeue) {
    if ((dequeue->flags & (VLM_DEQALL | VLM_DEQ_CANCEL)) != 0)
        return 0;
    return dequeue->lock_kind == VLM_BY_BLOCK ? process->uses[dequeue->lock].lkid : dequeue->lock;
}

static void give_up(struct client *client, const vlm_line *line, struct process *process) {
    struct dispatcher *dispatcher = client->dispatcher;
    vlm_dequeue dequeue = line->dequeue;
    dequeue.pid = process->pid;
    resolve_lock(process, &dequeue.lock, &dequeue.lock_kind);
    uint32_t lkid = only_lock(process, &dequeue), status = vlm_deq(&dispatcher->manager, &dequeue);
    bool is_one = status == VLM_NORMAL && lkid != 0;
    if (is_one) {
        forget_token(dispatcher, lkid);
        count_lock(process, false);
    }
    answer_step(client, status, 0);
    tell(dispatcher);
    if (!is_one)
        count_locks(process);
}

static void set_value(struct client *client, const vlm_line *line, struct process *process) {
    vlm_setting setting = line->setting;
    setting.pid = process->pid;
    setting.block = declared_block(process, setting.block);
    uint32_t status = vlm_set_value(&client->dispatcher->manager, &setting);
    if (status == VLM_NORMAL)
        set_bit(process->set, setting.block);
    answer_step(client, status, 0);
}

static void end(struct client *client, struct binding *binding) {
    struct process *process = binding->process;
    binding->process = NULL;
    answer_step(client, VLM_NORMAL, 0);
    release_process(process);
}

/* Makes a step of the client's session. The name of the line has this binding, that of a declaration none. */
void run_step(struct client *client, const vlm_line *line, struct binding *binding) {
    client->dispatcher->counts.steps++;
    if (binding == NULL)
        declare(client, line);
    else if (binding->process == NULL)
        answer_step(client, VLM_NONEXPR, 0);
    else if (line->kind == VLM_LINE_ENQ || line->kind == VLM_LINE_CVT)
        ask(client, line, binding->process);
    else if (line->kind == VLM_LINE_DEQ)
        give_up(client, line, binding->process);
    else if (line->kind == VLM_LINE_SET)
        set_value(client, line, binding->process);
    else if (line->kind == VLM_LINE_END)
        end(client, binding);
    else
        answer_text(client, "unknown command\n");
}
