/* sys$getlki: a lock, or the next one of a walk, and its items. */
#include "parts.h"

#include "iledef.h"
#include "iosbdef.h"
#include "ssdef.h"

#include <stdlib.h>

enum { EACH_SHIFT = 16 };

#define OVERFLOWED UINT32_C(0x80000000)

/* A walk over all locks, known by the program's longword and what was written there last. */
struct walk {
    struct walk *next;
    const uint32_t *address;
    uint32_t last;
    struct rows rows;
    size_t at; /* the next row */
};

/* Guarded by the mutex. */
static struct walk *walks;

/* Takes the walk of a longword out of the list, or null. */
static struct walk *take_walk(const uint32_t *address) {
    struct walk **at = &walks;
    vms_lock();
    while (*at != NULL && (*at)->address != address)
        at = &(*at)->next;
    struct walk *walk = *at;
    if (walk != NULL)
        *at = walk->next;
    vms_unlock();
    return walk;
}

static void keep_walk(struct walk *walk) {
    vms_lock();
    walk->next = walks;
    walks = walk;
    vms_unlock();
}

static void free_walk(struct walk *walk) {
    if (walk != NULL)
        free(walk->rows.rows);
    free(walk);
}

/* Begins a walk: null without memory. */
static uint32_t begin_walk(const struct engine *engine, const uint32_t *address, struct walk **walk) {
    *walk = calloc(1, sizeof **walk);
    if (*walk == NULL)
        return VLM_INSFMEM;
    (*walk)->address = address;
    return engine->list(ALL, 0, &(*walk)->rows);
}

/* Reads the next lock of a walk that is still there. */
static uint32_t read_next(const struct engine *engine, struct walk *walk, uint32_t *lkid, struct reading *reading) {
    while (walk->at < walk->rows.count) {
        uint32_t next = walk->rows.rows[walk->at++].lkid, status = engine->read(next, reading);
        if (status == VLM_IVLOCKID)
            continue;
        *lkid = walk->last = next;
        return vms_condition(status);
    }
    return SS$_NOMORELOCK;
}

static uint32_t walk_on(const struct engine *engine, struct walk *walk, uint32_t *lkid, struct reading *reading) {
    uint32_t status = read_next(engine, walk, lkid, reading);
    if (status == SS$_NORMAL)
        keep_walk(walk);
    else
        free_walk(walk);
    return status;
}

/* Reads the lock that a longword names, or the next one of its walk. */
static uint32_t read_named(const struct engine *engine, uint32_t *lkid, struct reading *reading) {
    struct walk *walk = take_walk(lkid);
    if (walk != NULL && walk->last == *lkid)
        return walk_on(engine, walk, lkid, reading);
    free_walk(walk);
    if (*lkid != 0 && *lkid != UINT32_MAX)
        return vms_condition(engine->read(*lkid, reading));
    uint32_t status = begin_walk(engine, lkid, &walk);
    if (status == VLM_NORMAL)
        return walk_on(engine, walk, lkid, reading);
    free_walk(walk);
    return vms_condition(status);
}

static void tell_length(const struct item *item, const struct answer *answer) {
    uint32_t length = answer->written | answer->each << EACH_SHIFT;
    if (item->returned != NULL)
        *item->returned = length | (answer->whole > answer->written ? OVERFLOWED : 0);
}

static uint32_t read_items(const struct engine *engine, const struct reading *reading, const ILE3 *entry) {
    uint32_t status = SS$_NORMAL;
    for (; status == SS$_NORMAL && (entry->ile3$w_length != 0 || entry->ile3$w_code != 0); entry++) {
        const struct item item = {entry->ile3$w_length, entry->ile3$w_code, entry->ile3$ps_bufaddr,
                                  entry->ile3$ps_retlen_addr};
        struct answer answer = {0, 0, 0};
        if (item.buffer == NULL && item.length != 0)
            return SS$_ACCVIO;
        status = vms_read_item(engine, reading, &item, &answer);
        if (status == SS$_NORMAL)
            tell_length(&item, &answer);
    }
    return status;
}

static uint32_t read_lock(const struct engine *engine, uint32_t *lkid, const ILE3 *items) {
    struct reading reading = {0};
    uint32_t status = read_named(engine, lkid, &reading);
    return status == SS$_NORMAL ? read_items(engine, &reading, items) : status;
}

/* Ends the service. The status block is written, the flag is set and the AST comes also if the reading failed. */
static void tell_end(uint32_t efn, IOSB *block, struct ast *ast, uint32_t status) {
    vms_lock();
    if (block != NULL)
        *block = (IOSB){.iosb$w_status = (unsigned short)status};
    vms_set_flag(efn);
    if (ast != NULL)
        vms_queue_ast(ast);
    vms_unlock();
    vms_leave();
}

int sys$getlki(unsigned int efn, unsigned int *lkidadr, void *itmlst, void *iosb, VMS$AST astadr, VMS$PARAMETER astprm,
               unsigned int nullarg) {
    (void)nullarg;
    uint32_t status = vms_check_flag(efn);
    if (status != SS$_NORMAL)
        return (int)status;
    if (lkidadr == NULL || itmlst == NULL)
        return SS$_ACCVIO;
    const struct engine *engine;
    status = vms_open(&engine); /* (before the mutex is taken: in the child after a fork it may be taken for ever) */
    if (status != SS$_NORMAL)
        return (int)status;
    struct ast *ast = astadr != NULL ? vms_new_ast(astadr, astprm) : NULL;
    if (astadr != NULL && ast == NULL)
        return SS$_INSFMEM;
    vms_enter();
    status = read_lock(engine, lkidadr, itmlst);
    tell_end(efn, iosb, ast, status);
    return (int)status;
}

int sys$getlkiw(unsigned int efn, unsigned int *lkidadr, void *itmlst, void *iosb, VMS$AST astadr, VMS$PARAMETER astprm,
                unsigned int nullarg) {
    return sys$getlki(efn, lkidadr, itmlst, iosb, astadr, astprm, nullarg);
}
