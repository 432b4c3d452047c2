/* Processes that are kept for reuse, and what each user has. A process that its session gives back has no lock and no
 * pending AST, and its value parts are zeros. What else a later session could see of an earlier one, the status and the
 * lock in a status block, readings and steps hide until a request names the block. */
#include "parts.h"

#include <stdlib.h>
#include <string.h>

enum { FIRST_PROCESSES = 64, FIRST_NAMES = 4 };

bool has_bit(const uint8_t *bits, uint32_t number) { return (bits[number / 8] >> number % 8 & 1) != 0; }

void set_bit(uint8_t *bits, uint32_t number) { bits[number / 8] |= (uint8_t)(1U << number % 8); }

/* The user with a uid, who may be new; null without memory. */
struct user *find_user(struct dispatcher *dispatcher, uint32_t uid) {
    struct user **bucket = &dispatcher->users[uid % USER_BUCKETS];
    for (struct user *user = *bucket; user != NULL; user = user->next)
        if (user->uid == uid)
            return user;
    struct user *user = calloc(1, sizeof *user);
    if (user == NULL)
        return NULL;
    user->uid = uid;
    user->next = *bucket;
    *bucket = user;
    return user;
}

/* Frees a user who has nothing left. */
void drop_user(struct dispatcher *dispatcher, struct user *user) {
    if (user->connections != 0 || user->sessions != 0)
        return;
    struct user **at = &dispatcher->users[user->uid % USER_BUCKETS];
    while (*at != user)
        at = &(*at)->next;
    *at = user->next;
    free(user);
}

/* The process of the manager that was made at a place in the order of making. */
static uint32_t pid_of(uint32_t index) { return (index / NODE_PROCESSES + 1) << 16 | (index % NODE_PROCESSES + 1); }

struct process *process_of(struct dispatcher *dispatcher, uint32_t pid) {
    return dispatcher->processes[((pid >> 16) - 1) * NODE_PROCESSES + (pid & 0xffff) - 1];
}

/* Counts the locks of a process anew. A reading of a process names the one before it: none of them ends. */
void count_locks(struct process *process) {
    struct dispatcher *dispatcher = process->session->dispatcher;
    vlm_process read = {.size = sizeof read};
    uint32_t before = process->index == 0 ? 0 : pid_of(process->index - 1);
    if (vlm_next_process(&dispatcher->manager, before, &read) != VLM_NORMAL || read.pid != process->pid)
        return;
    process->session->user->locks += read.locks - process->locks;
    process->locks = (uint32_t)read.locks;
}

/* A process has one lock more, or one less. */
void count_lock(struct process *process, bool is_new) {
    struct user *user = process->session->user;
    user->locks = is_new ? user->locks + 1 : user->locks - 1;
    process->locks = is_new ? process->locks + 1 : process->locks - 1;
}

/* The pool of processes with the rights of a session and enough status blocks; null without memory. */
static struct pool *find_pool(struct session *session, uint32_t blocks) {
    static const uint32_t sizes[] = {4, 16, 64, VLM_MAX_BLOCKS};
    size_t size = 0;
    while (sizes[size] < blocks)
        size++;
    uint32_t group = session->rights.group;
    bool has_syslck = session->rights.has_syslck;
    struct pool **bucket = &session->dispatcher->pools[group % POOL_BUCKETS];
    for (struct pool *pool = *bucket; pool != NULL; pool = pool->next)
        if (pool->group == group && pool->has_syslck == has_syslck && pool->blocks == sizes[size])
            return pool;
    struct pool *pool = calloc(1, sizeof *pool);
    if (pool == NULL)
        return NULL;
    *pool = (struct pool){.group = group, .blocks = sizes[size], .has_syslck = has_syslck, .next = *bucket};
    *bucket = pool;
    return pool;
}

/* Declares a process with the rights of a pool, on the first node that is not full. */
uint32_t make_process(vlm *manager, const struct pool *pool, uint32_t index, uint32_t *pid) {
    vlm_declaration declaration = {.size = sizeof declaration,
                                   .node = index / NODE_PROCESSES + 1,
                                   .group = pool->group,
                                   .syslck = pool->has_syslck,
                                   .quota = VLM_MAX_QUOTA,
                                   .blocks = pool->blocks};
    return vlm_declare(manager, &declaration, pid);
}

static bool grow(struct dispatcher *dispatcher) {
    if (dispatcher->process_count < dispatcher->process_room)
        return true;
    uint32_t room = dispatcher->process_room != 0 ? 2 * dispatcher->process_room : FIRST_PROCESSES;
    struct process **processes = realloc(dispatcher->processes, room * sizeof(struct process *));
    if (processes == NULL)
        return false;
    dispatcher->processes = processes;
    dispatcher->process_room = room;
    return true;
}

/* Makes one process more for a pool. */
static struct process *new_process(struct dispatcher *dispatcher, struct pool *pool) {
    struct process *process = calloc(1, sizeof *process);
    struct block_use *uses = calloc(pool->blocks + 1, sizeof *uses);
    uint32_t index = dispatcher->process_count, pid;
    if (process == NULL || uses == NULL || !grow(dispatcher)
        || make_process(&dispatcher->manager, pool, index, &pid) != VLM_NORMAL) {
        free(process);
        free(uses);
        return NULL;
    }
    *process = (struct process){.pid = pid, .index = index, .pool = pool, .uses = uses};
    dispatcher->processes[dispatcher->process_count++] = process;
    return process;
}

/* Gives a session a process for a declaration, or null without memory. */
struct process *take_process(struct session *session, const vlm_line *line) {
    struct dispatcher *dispatcher = session->dispatcher;
    struct pool *pool = find_pool(session, line->declaration.blocks);
    if (pool == NULL)
        return NULL;
    struct process *process = pool->free != NULL ? pool->free : new_process(dispatcher, pool);
    if (process == NULL)
        return NULL;
    if (process == pool->free)
        pool->free = process->next_free;
    process->session = session;
    memcpy(process->name, line->name, NAME);
    process->name_len = line->name_len;
    process->number = (1 << 16) + ++dispatcher->last_process;
    process->quota = line->declaration.quota;
    process->blocks = line->declaration.blocks;
    process->locks = 0;
    session->user->processes++;
    return process;
}

/* Sets the value parts of a process's status blocks to zeros. */
static void clear_values(struct process *process, vlm *manager) {
    for (uint32_t block = 1; block <= process->pool->blocks; block++) {
        if (!has_bit(process->named, block) && !has_bit(process->set, block))
            continue;
        vlm_setting zeros = {.size = sizeof zeros, .pid = process->pid, .block = block, .has_tail = 1};
        vlm_set_value(manager, &zeros);
    }
    memset(process->named, 0, sizeof process->named);
    memset(process->set, 0, sizeof process->set);
}

/* Ends a process for its session: all its locks go, and it waits for another session. To all other processes that is a
 * rundown: law_giving_up_all_is_a_rundown_to_others, docs/LAWS.md. Their ASTs are pending then: `tell` takes them. */
void release_process(struct process *process) {
    struct session *session = process->session;
    struct dispatcher *dispatcher = session->dispatcher;
    vlm_dequeue all = {.size = sizeof all, .pid = process->pid, .flags = VLM_DEQALL | VLM_INVVALBLK};
    session->user->locks -= process->locks;
    session->user->processes--;
    process->session = NULL;
    forget_tokens_of(dispatcher, process->pid);
    vlm_deq(&dispatcher->manager, &all);
    tell(dispatcher);
    clear_values(process, &dispatcher->manager);
    free(process->old);
    process->old = NULL;
    process->next_free = process->pool->free;
    process->pool->free = process;
}
