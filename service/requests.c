/* Records of requests. Each request names a completion AST of the service's own, whose routine is the place of the
 * record, so the service knows when a request that waited has ended. A client hears of it if it asked for an AST. */
#include "parts.h"

#include <inttypes.h>
#include <stdio.h>
#include <stdlib.h>
#include <string.h>

enum { FIRST_REQUESTS = 64 };

/* Makes more records, and links them as free ones. */
static bool grow(struct dispatcher *dispatcher) {
    uint32_t from = dispatcher->request_room, room = from != 0 ? 2 * from : FIRST_REQUESTS;
    struct request *requests = realloc(dispatcher->requests, room * sizeof *requests);
    if (requests == NULL)
        return false;
    for (uint32_t place = from; place < room; place++)
        requests[place] = (struct request){.next = place + 1 < room ? place + 1 : NOBODY};
    dispatcher->requests = requests;
    dispatcher->request_room = room;
    dispatcher->free_request = from;
    return true;
}

/* A record for a request of a process. The request gets the record's place as its completion routine. If its client
 * wants no AST, a grant at once needs none either: the answer tells it. NOBODY without memory. */
uint32_t new_request(struct process *process, vlm_request *request) {
    struct dispatcher *dispatcher = process->session->dispatcher;
    if (dispatcher->free_request == NOBODY && !grow(dispatcher))
        return NOBODY;
    uint32_t place = dispatcher->free_request;
    struct request *record = &dispatcher->requests[place];
    dispatcher->free_request = record->next;
    *record = (struct request){.process = process,
                               .mode = request->mode,
                               .block = request->block,
                               .ast = request->ast,
                               .has_ast = request->has_ast != 0,
                               .since = dispatcher->now,
                               .previous = NOBODY,
                               .next = NOBODY};
    request->flags |= record->has_ast ? 0 : VLM_SYNCSTS;
    request->has_ast = 1;
    request->ast = place;
    return place;
}

void drop_request(struct dispatcher *dispatcher, uint32_t place) {
    dispatcher->requests[place] = (struct request){.next = dispatcher->free_request};
    dispatcher->free_request = place;
}

/* The manager has accepted a request: from here on its status block is its own. */
static struct request *accept(struct dispatcher *dispatcher, uint32_t place, uint32_t lkid) {
    struct request *record = &dispatcher->requests[place];
    record->lkid = lkid;
    record->process->uses[record->block] = (struct block_use){dispatcher->now, lkid};
    set_bit(record->process->named, record->block);
    return record;
}

/* The manager has made a lock. A grant without a completion AST takes its token here, and one with it when the AST is
 * taken. The step of a new lock grants no other, so tokens keep their order. */
void accept_new(struct dispatcher *dispatcher, uint32_t place, uint32_t lkid, bool is_granted) {
    struct request *record = accept(dispatcher, place, lkid);
    if (lkid > dispatcher->last_lkid)
        dispatcher->last_lkid = lkid;
    count_lock(record->process, true);
    note_lock(dispatcher, lkid, is_granted);
    record->has_token = is_granted;
}

/* The manager has accepted a conversion. If it was granted at once, it takes its token before those that its step has
 * granted as well. */
void accept_conversion(struct dispatcher *dispatcher, uint32_t place, uint32_t lkid) {
    take_token(dispatcher, accept(dispatcher, place, lkid));
}

/* Once all ASTs of its step were taken, a request that has its record still is queued. */
void wait_if_queued(struct dispatcher *dispatcher, uint32_t place, uint32_t lkid) {
    struct request *record = &dispatcher->requests[place];
    if (record->process == NULL || record->lkid != lkid)
        return;
    record->user = record->process->session->user;
    record->user->waiting++;
    record->previous = dispatcher->last_waiting;
    *(record->previous == NOBODY ? &dispatcher->first_waiting : &dispatcher->requests[record->previous].next) = place;
    dispatcher->last_waiting = place;
    dispatcher->waiting_count++;
}

static void wait_no_more(struct dispatcher *dispatcher, struct request *record) {
    if (record->user == NULL)
        return;
    record->user->waiting--;
    dispatcher->waiting_count--;
    *(record->previous == NOBODY ? &dispatcher->first_waiting : &dispatcher->requests[record->previous].next) =
        record->next;
    *(record->next == NOBODY ? &dispatcher->last_waiting : &dispatcher->requests[record->next].previous) =
        record->previous;
}

/* Keeps an AST of a session that may be resumed. Without memory it is lost to a resume. */
static void keep_ast(struct session *session, const char *text, size_t len) {
    uint8_t **kept = &session->kept[session->asts % KEPT_ASTS];
    free(*kept);
    *kept = malloc(len + 1);
    if (*kept != NULL)
        memcpy(*kept, text, len + 1);
    else
        end_without_memory(session->dispatcher);
}

static void tell_session(struct session *session, const char *text, size_t len) {
    if (session->kept != NULL)
        keep_ast(session, text, len);
    session->asts++;
    session->dispatcher->counts.asts++;
    /* (`lost` is the last line of a client) */
    if (session->client != NULL && !session->client->is_over)
        put_news(session->client, text, len);
}

/* The line of a process's AST in `text`. */
static void print_ast(struct process *process, const vlm_ast *ast, vlm_text *text) {
    struct dispatcher *dispatcher = process->session->dispatcher;
    dispatcher->shown.kind = VLM_LINE_AST;
    dispatcher->shown.name_len = process->name_len;
    dispatcher->shown.number = 0;
    memcpy(dispatcher->shown.name, process->name, NAME);
    vlm_print_ast(&dispatcher->shown, VLM_NORMAL, ast, text);
    if (dispatcher->epoch != 0)
        replace_word(text, 6, handle_of(dispatcher, ast->lkid));
}

/* Tells a completion, with the line of its status block: how the request ended, and the value. A session that wants
 * tokens is told that of a grant too. */
static void tell_completion(struct process *process, const struct request *record, vlm_ast *ast) {
    struct dispatcher *dispatcher = process->session->dispatcher;
    vlm_text text = {.size = sizeof text}, block = {.size = sizeof block};
    char told[TOLD];
    ast->routine = record->ast;
    print_ast(process, ast, &text);
    dispatcher->shown.kind = VLM_LINE_BLOCK;
    dispatcher->shown.number = record->block;
    vlm_print_block(&dispatcher->manager, process->pid, &dispatcher->shown, &block);
    if (dispatcher->epoch != 0)
        replace_word(&block, 6, handle_of(dispatcher, record->lkid));
    int len = snprintf(told, sizeof told, "%.*s%.*s", (int)text.len, text.bytes, (int)block.len, block.bytes);
    if (process->session->tells_tokens && record->has_token)
        len += snprintf(told + len, sizeof told - (size_t)len, "%.*s: token %" PRIu64 "\n", (int)process->name_len,
                        process->name, token_of(dispatcher, record->lkid));
    tell_session(process->session, told, (size_t)len);
}

static void complete(struct dispatcher *dispatcher, vlm_ast *ast) {
    uint32_t place = ast->routine;
    struct request *record = &dispatcher->requests[place];
    struct process *process = record->process;
    wait_no_more(dispatcher, record);
    if (record->user != NULL)
        take_token(dispatcher, record);
    else if (!record->has_token)
        give_token(dispatcher, record);
    process->uses[record->block].since = dispatcher->now;
    if (process->session != NULL) {
        /* (the lock of a request that waited may be gone) */
        if (record->user != NULL)
            count_locks(process);
        if (record->has_ast)
            tell_completion(process, record, ast);
    }
    drop_request(dispatcher, place);
}

static void warn(struct process *process, const vlm_ast *ast) {
    vlm_text text = {.size = sizeof text};
    char line[sizeof text.bytes + 1];
    if (process->session == NULL)
        return;
    print_ast(process, ast, &text);
    memcpy(line, text.bytes, text.len);
    line[text.len] = 0;
    tell_session(process->session, line, text.len);
}

/* Takes all pending ASTs, and tells each to the session of its process. */
void tell(struct dispatcher *dispatcher) {
    vlm_ast ast = {.size = sizeof ast};
    uint32_t pid;
    while (vlm_take_any(&dispatcher->manager, &pid, &ast) == VLM_NORMAL && ast.kind != VLM_NO_AST) {
        if (ast.kind == VLM_COMPLETION)
            complete(dispatcher, &ast);
        else
            warn(process_of(dispatcher, pid), &ast);
    }
}
