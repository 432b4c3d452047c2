/* Which lock manager this process has, and its settings in the environment. */
#include "parts.h"

#include "ssdef.h"

#include <stdatomic.h>
#include <stdio.h>
#include <stdlib.h>
#include <string.h>
#include <unistd.h>

enum { USUAL_QUOTA = VLM_MAX_QUOTA, DECIMAL = 10, SETTING = 64, FIRST_ROWS = 16, NOBODY = -1 };

static pthread_mutex_t opening = PTHREAD_MUTEX_INITIALIZER;
/* Guarded by `opening`. */
static const struct engine *opened;
/* 0 until a process has claimed the layer, and NOBODY in a child of that process. */
static _Atomic pid_t owner;

const char *vms_setting(const char *name) {
    static const char *const prefixes[] = {"VLM$", "VLM_"}; /* (a shell has no names with a dollar) */
    char text[SETTING];
    for (size_t at = 0; at < sizeof prefixes / sizeof *prefixes; at++) {
        snprintf(text, sizeof text, "%s%s", prefixes[at], name);
        const char *value = getenv(text);
        if (value != NULL && value[0] != 0)
            return value;
    }
    return NULL;
}

static bool begins(const char *text, const char *with) { return strncmp(text, with, strlen(with)) == 0; }

/* The lock manager that VLM$SERVICE names, with its address, or null. */
static const struct engine *named(const char **address) {
    const char *service = vms_setting("SERVICE");
    *address = service;
    if (service == NULL)
        return &vms_in_process;
    if (begins(service, "unix:"))
        *address = service + strlen("unix:");
    bool is_address = begins(service, "unix:") || begins(service, "tcp:") || begins(service, "tls:");
    return is_address || strchr(service, '/') != NULL ? &vms_by_vlmd : NULL;
}

/* A value that is not a number is ignored. */
static uint32_t quota(void) {
    const char *text = vms_setting("ENQLM");
    bool is_number = text != NULL && text[strspn(text, "0123456789")] == 0;
    unsigned long asked = is_number ? strtoul(text, NULL, DECIMAL) : USUAL_QUOTA;
    return asked < VLM_MAX_QUOTA ? (uint32_t)asked : VLM_MAX_QUOTA;
}

static uint32_t open_named(void) {
    const char *address;
    const struct engine *engine = named(&address);
    if (engine == NULL)
        return SS$_UNSUPPORTED;
    if (!vms_start())
        return SS$_INSFMEM;
    uint32_t status = engine->open(address, quota());
    if (status == VLM_LOST)
        return SS$_UNREACHABLE;
    if (status == VLM_NORMAL)
        opened = engine;
    return vms_condition(status);
}

/* A child may have the pid of its parent: in another PID namespace, or once its parent has ended. */
static void begin_child(void) {
    if (atomic_load(&owner) != 0)
        atomic_store(&owner, NOBODY);
}

__attribute__((constructor)) static void watch_forks(void) { pthread_atfork(NULL, NULL, begin_child); }

bool vms_claim(void) {
    pid_t claimed = 0, own = getpid();
    return atomic_load(&owner) == own || atomic_compare_exchange_strong(&owner, &claimed, own) || claimed == own;
}

/* In the child after a fork the mutex may be taken for ever. */
uint32_t vms_open(const struct engine **engine) {
    if (!vms_claim())
        return SS$_UNSUPPORTED;
    pthread_mutex_lock(&opening);
    uint32_t status = opened == NULL ? open_named() : SS$_NORMAL;
    *engine = opened;
    pthread_mutex_unlock(&opening);
    return status;
}

bool vms_add_row(struct rows *rows, const struct row *row) {
    if (rows->count == rows->room) {
        size_t room = rows->room != 0 ? 2 * rows->room : FIRST_ROWS;
        struct row *more = realloc(rows->rows, room * sizeof *more);
        if (more == NULL)
            return false;
        rows->rows = more;
        rows->room = room;
    }
    rows->rows[rows->count++] = *row;
    return true;
}
