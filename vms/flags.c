/* Event flags: 64 of the process, in two clusters. */
#include "parts.h"

#include "efndef.h"
#include "ssdef.h"

enum { LOCAL_FLAGS = 64, ALL_FLAGS = 128, CLUSTER = 32 };

/* Guarded by the mutex. */
static uint64_t flags;

struct mask {
    uint64_t flags;
    bool is_all;
};

static uint64_t bit(uint32_t efn) { return UINT64_C(1) << efn; }

uint32_t vms_check_flag(uint32_t efn) {
    if (efn < LOCAL_FLAGS || efn == EFN$C_ENF)
        return SS$_NORMAL;
    return efn < ALL_FLAGS ? SS$_UNASEFC : SS$_ILLEFC;
}

void vms_set_flag(uint32_t efn) {
    if (efn < LOCAL_FLAGS)
        flags |= bit(efn);
    vms_changed();
}

void vms_clear_flag(uint32_t efn) {
    if (efn < LOCAL_FLAGS)
        flags &= ~bit(efn);
}

/* What a flag was, before it is changed. EFN$C_ENF counts as set. */
static int state_of(uint32_t efn) { return efn >= LOCAL_FLAGS || flags & bit(efn) ? SS$_WASSET : SS$_WASCLR; }

/* Sets or clears a flag, and answers what it was. */
static int change(uint32_t efn, void (*make)(uint32_t efn)) {
    uint32_t status = vms_check_flag(efn);
    if (status != SS$_NORMAL)
        return (int)status;
    vms_enter();
    vms_lock();
    int was = state_of(efn);
    make(efn);
    vms_unlock();
    vms_leave();
    return was;
}

int sys$setef(unsigned int efn) { return change(efn, vms_set_flag); }

int sys$clref(unsigned int efn) { return change(efn, vms_clear_flag); }

int sys$readef(unsigned int efn, unsigned int *state) {
    uint32_t status = vms_check_flag(efn);
    if (status != SS$_NORMAL)
        return (int)status;
    if (state == NULL)
        return SS$_ACCVIO;
    vms_enter();
    vms_lock();
    int was = state_of(efn);
    *state = efn < LOCAL_FLAGS ? (unsigned int)(flags >> (efn / CLUSTER * CLUSTER)) : 0;
    vms_unlock();
    vms_leave();
    return was;
}

static bool are_set(const void *argument) {
    const struct mask *mask = argument;
    return mask->is_all ? (flags & mask->flags) == mask->flags : (flags & mask->flags) != 0;
}

/* Waits for flags of a cluster. With no flag in the mask there is nothing to wait for. */
static int wait_for(uint32_t efn, uint32_t bits, bool is_all) {
    uint32_t status = vms_check_flag(efn);
    struct mask mask = {efn < LOCAL_FLAGS ? (uint64_t)bits << (efn / CLUSTER * CLUSTER) : 0, is_all};
    if (status == SS$_NORMAL && mask.flags != 0)
        vms_wait(are_set, &mask);
    return (int)status;
}

int sys$waitfr(unsigned int efn) { return wait_for(efn, UINT32_C(1) << efn % CLUSTER, true); }

int sys$wflor(unsigned int efn, unsigned int mask) { return wait_for(efn, mask, false); }

int sys$wfland(unsigned int efn, unsigned int mask) { return wait_for(efn, mask, true); }

static bool is_ended(const void *argument) {
    const uint16_t *status = argument;
    return *status != 0;
}

int sys$synch(unsigned int efn, void *iosb) {
    uint32_t status = vms_check_flag(efn);
    if (status != SS$_NORMAL || iosb == NULL)
        return iosb == NULL ? sys$waitfr(efn) : (int)status;
    vms_wait(is_ended, iosb);
    vms_lock();
    vms_set_flag(efn);
    vms_unlock();
    return SS$_NORMAL;
}
