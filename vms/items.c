/* What each item of sys$getlki has. */
#include "parts.h"

#include "lkidef.h"
#include "psldef.h"
#include "ssdef.h"

#include <stdlib.h>
#include <string.h>
#include <unistd.h>

enum { MODE_SHIFT = 16, SYSTEM_NAME = 15 };

/* The queue of a lock as lkidef.h has it. */
static int8_t queue_of(const struct row *row) {
    static const int8_t queues[] = {
        [VLM_GRANTED] = LKI$C_GRANTED, [VLM_CONVERSION] = LKI$C_CONVERT, [VLM_WAITING] = LKI$C_WAITING};
    return queues[row->queue];
}

/* A granted lock wants what it holds, and a waiting one holds NL. */
static uint8_t wanted(const struct row *row) { return (uint8_t)(row->want != VLM_NO_MODE ? row->want : row->held); }

static uint8_t held(const struct row *row) { return (uint8_t)(row->held != VLM_NO_MODE ? row->held : VLM_NL); }

static void put(const struct item *item, struct answer *answer, const void *bytes, uint32_t len) {
    answer->whole = len;
    answer->written = len < item->length ? len : item->length;
    if (answer->written > 0)
        memcpy(item->buffer, bytes, answer->written);
}

static uint32_t put_number(const struct item *item, struct answer *answer, uint32_t number) {
    put(item, answer, &number, sizeof number);
    return SS$_NORMAL;
}

static uint32_t put_state(const struct item *item, struct answer *answer, const struct row *row) {
    const LKISTATE state = {wanted(row), held(row), queue_of(row)};
    put(item, answer, &state, sizeof state);
    return SS$_NORMAL;
}

static uint32_t put_system(const struct item *item, struct answer *answer) {
    char name[SYSTEM_NAME + 1] = "";
    gethostname(name, sizeof name - 1);
    put(item, answer, name, (uint32_t)strlen(name));
    return SS$_NORMAL;
}

static uint32_t put_namespace(const struct item *item, struct answer *answer, const struct reading *reading) {
    uint32_t number = (uint32_t)PSL$C_USER << MODE_SHIFT;
    return put_number(item, answer, number | (reading->is_system != 0 ? LKI$M_SYSNAM : reading->group & LKI$M_GROUP));
}

/* Puts as many whole entries as there is room for. */
static uint32_t put_list(const struct engine *engine, const struct item *item, struct answer *answer, enum list list,
                         uint32_t lkid) {
    struct rows rows = {0};
    uint32_t status = engine->list(list, lkid, &rows);
    answer->each = sizeof(LKIDEF);
    answer->whole = (uint32_t)(rows.count * sizeof(LKIDEF));
    for (size_t at = 0; at < rows.count && answer->written + sizeof(LKIDEF) <= item->length; at++) {
        const struct row *row = &rows.rows[at];
        const LKIDEF entry = {.lki$l_mstlkid = row->lkid,
                              .lki$l_pid = row->pid,
                              .lki$b_rqmode = wanted(row),
                              .lki$b_grmode = held(row),
                              .lki$b_queue = queue_of(row),
                              .lki$l_lkid = row->lkid};
        memcpy(item->buffer + answer->written, &entry, sizeof entry);
        answer->written += sizeof entry;
    }
    free(rows.rows);
    return vms_condition(status);
}

static uint32_t put_below(const struct engine *engine, const struct item *item, struct answer *answer, uint32_t lkid) {
    uint32_t count, status = engine->below(lkid, &count);
    return status == VLM_NORMAL ? put_number(item, answer, count) : vms_condition(status);
}

static uint32_t put_bytes(const struct item *item, struct answer *answer, const uint8_t *bytes, uint32_t len) {
    put(item, answer, bytes, len);
    return SS$_NORMAL;
}

uint32_t vms_read_item(const struct engine *engine, const struct reading *reading, const struct item *item,
                       struct answer *answer) {
    uint32_t lkid = reading->row.lkid;
    switch (item->code) {
    case LKI$_BLOCKEDBY: return put_list(engine, item, answer, BLOCKERS, lkid);
    case LKI$_BLOCKING: return put_list(engine, item, answer, BLOCKED, lkid);
    case LKI$_LOCKS: return put_list(engine, item, answer, ON_RESOURCE, lkid);
    case LKI$_CSID:
    case LKI$_MSTCSID: return put_number(item, answer, 0);
    case LKI$_CVTCOUNT: return put_number(item, answer, reading->counts[VLM_CONVERSION]);
    case LKI$_GRANTCOUNT: return put_number(item, answer, reading->counts[VLM_GRANTED]);
    case LKI$_WAITCOUNT: return put_number(item, answer, reading->counts[VLM_WAITING]);
    case LKI$_LCKREFCNT: return put_number(item, answer, reading->sublocks);
    case LKI$_LKID:
    case LKI$_LOCKID:
    case LKI$_MSTLKID:
    case LKI$_REMLKID: return put_number(item, answer, lkid);
    case LKI$_NAMSPACE: return put_namespace(item, answer, reading);
    case LKI$_PARENT: return put_number(item, answer, reading->parent);
    case LKI$_PID: return put_number(item, answer, reading->row.pid);
    case LKI$_REMSYSTEM:
    case LKI$_SYSTEM: return put_system(item, answer);
    case LKI$_RESNAM: return put_bytes(item, answer, reading->name, reading->name_len);
    case LKI$_RSBREFCNT: return put_below(engine, item, answer, lkid);
    case LKI$_STATE: return put_state(item, answer, &reading->row);
    case LKI$_VALBLK: return put_bytes(item, answer, reading->value, SHORT_VALUE);
    case LKI$_XVALBLK: return put_bytes(item, answer, reading->value, WHOLE_VALUE);
    default: return SS$_BADPARAM;
    }
}
