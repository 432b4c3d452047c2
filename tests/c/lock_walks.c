/* The calls that read single locks: each answer, in a tree with locks in every queue. */
#include "vlm.h"

#include <stdio.h>
#include <string.h>

static unsigned calls, wrong;

static void hold_at(int line, int fact, const char *text) {
    calls++;
    if (!fact) {
        wrong++;
        fprintf(stderr, "line %d: not %s\n", line, text);
    }
}
#define HOLD(fact) hold_at(__LINE__, (fact), #fact)
#define MADE(call) HOLD((call) == VLM_NORMAL)

static vlm handle = VLM_CLOSED;

static uint32_t declared(void) {
    vlm_declaration declaration = {.size = sizeof declaration, .node = 1, .group = 1, .quota = 99, .blocks = 9};
    uint32_t pid = 0;
    MADE(vlm_declare(&handle, &declaration, &pid));
    return pid;
}

/* A request for a new lock, with its status block and flags. */
static uint32_t asked(uint32_t pid, const char *name, uint32_t parent, uint32_t mode, uint32_t block, uint32_t flags) {
    vlm_request request = {
        .size = sizeof request, .pid = pid, .mode = mode, .flags = flags, .block = block, .lock = parent};
    uint32_t lkid = 0;
    MADE(vlm_enq(&handle, &request, (const uint8_t *)name, strlen(name), &lkid));
    return lkid;
}

static void converted(uint32_t pid, uint32_t lock, uint32_t mode, uint32_t block) {
    vlm_request request = {.size = sizeof request, .pid = pid, .mode = mode, .block = block, .lock = lock};
    uint32_t lkid;
    MADE(vlm_convert(&handle, &request, &lkid));
}

static int is_lock(const vlm_lock *lock, uint32_t lkid, uint32_t pid, uint32_t held, uint32_t want, uint32_t queue) {
    return lock->size == sizeof *lock && lock->lkid == lkid && lock->pid == pid && lock->held == held
           && lock->want == want && lock->queue == queue;
}

/* What a walk writes after the last lock. */
static int is_none(const vlm_lock *lock) { return is_lock(lock, 0, 0, VLM_NO_MODE, VLM_NO_MODE, VLM_GRANTED); }

/* A walk gives exactly these locks, by its first call and its next calls. */
#define WALKS(first_call, next_call, ...)                               \
    do {                                                                \
        const uint32_t expected[] = {__VA_ARGS__, 0};                   \
        vlm_lock lock = {.size = sizeof lock};                          \
        uint32_t status = (first_call);                                 \
        for (size_t i = 0; expected[i] != 0; i++, status = (next_call)) \
            HOLD(status == VLM_NORMAL && lock.lkid == expected[i]);     \
        HOLD(status == VLM_NORMAL && is_none(&lock));                   \
    } while (0)

/* A walk gives no lock. */
#define EMPTY(first_call)                      \
    do {                                       \
        vlm_lock lock = {.size = sizeof lock}; \
        MADE(first_call);                      \
        HOLD(is_none(&lock));                  \
    } while (0)

static void rows(uint32_t p, uint32_t q, uint32_t r) {
    vlm_resource a = {.size = sizeof a, .group = 1, .name = "A", .name_len = 1}, b = a;
    b.name[0] = 'B';
    WALKS(vlm_first_row(&handle, &a, VLM_GRANTED, &lock), vlm_next_row(&handle, lock.lkid, &lock), 1);
    WALKS(vlm_first_row(&handle, &a, VLM_CONVERSION, &lock), vlm_next_row(&handle, lock.lkid, &lock), 2, 3);
    WALKS(vlm_first_row(&handle, &a, VLM_WAITING, &lock), vlm_next_row(&handle, lock.lkid, &lock), 4, 5);
    WALKS(vlm_first_row(&handle, &b, VLM_GRANTED, &lock), vlm_next_row(&handle, lock.lkid, &lock), 9);
    EMPTY(vlm_first_row(&handle, &b, VLM_WAITING, &lock));
    vlm_lock lock = {.size = sizeof lock};
    HOLD(vlm_first_row(&handle, &b, 3, &lock) == VLM_BADPARAM);
    b.name[0] = 'C';
    HOLD(vlm_first_row(&handle, &b, VLM_GRANTED, &lock) == VLM_BADPARAM);
    MADE(vlm_find_lock(&handle, 1, &lock));
    HOLD(is_lock(&lock, 1, p, VLM_CR, VLM_NO_MODE, VLM_GRANTED) && lock.block == 1 && lock.parent == 0
         && lock.resource == 1);
    MADE(vlm_find_lock(&handle, 2, &lock));
    HOLD(is_lock(&lock, 2, p, VLM_CR, VLM_EX, VLM_CONVERSION) && lock.block == 3);
    MADE(vlm_find_lock(&handle, 5, &lock));
    HOLD(is_lock(&lock, 5, r, VLM_NO_MODE, VLM_PR, VLM_WAITING) && lock.block == 1);
    MADE(vlm_find_lock(&handle, 7, &lock));
    HOLD(is_lock(&lock, 7, p, VLM_NL, VLM_NO_MODE, VLM_GRANTED) && lock.parent == 1 && lock.resource == 2);
    HOLD(vlm_find_lock(&handle, 99, &lock) == VLM_BADPARAM && lock.lkid == 7);
    MADE(vlm_lock_resource(&handle, 7, &a));
    HOLD(a.serial == 2 && a.parent == 1 && a.name_len == 3 && memcmp(a.name, "SUB", 3) == 0);
    (void)q;
}

static void kin(uint32_t p, uint32_t q, uint32_t r) {
    WALKS(vlm_first_own(&handle, p, &lock), vlm_next_own(&handle, lock.lkid, &lock), 1, 2, 6, 7, 8, 9);
    WALKS(vlm_first_own(&handle, q, &lock), vlm_next_own(&handle, lock.lkid, &lock), 3, 4);
    WALKS(vlm_first_own(&handle, r, &lock), vlm_next_own(&handle, lock.lkid, &lock), 5);
    WALKS(vlm_first_sublock(&handle, 1, &lock), vlm_next_sublock(&handle, lock.lkid, &lock), 6, 7);
    WALKS(vlm_first_sublock(&handle, 7, &lock), vlm_next_sublock(&handle, lock.lkid, &lock), 8);
    EMPTY(vlm_first_sublock(&handle, 9, &lock));
    EMPTY(vlm_next_sublock(&handle, 1, &lock));
    EMPTY(vlm_first_own(&handle, declared(), &lock));
    vlm_lock lock = {.size = sizeof lock};
    HOLD(vlm_first_own(&handle, 1, &lock) == VLM_BADPARAM);
    HOLD(vlm_next_own(&handle, 99, &lock) == VLM_BADPARAM);
    HOLD(vlm_first_sublock(&handle, 99, &lock) == VLM_BADPARAM);
    HOLD(vlm_next_sublock(&handle, 99, &lock) == VLM_BADPARAM);
}

static void blockers(void) {
    EMPTY(vlm_first_blocker(&handle, 1, &lock));
    WALKS(vlm_first_blocker(&handle, 2, &lock), vlm_next_blocker(&handle, 2, lock.lkid, &lock), 1, 3);
    WALKS(vlm_first_blocker(&handle, 3, &lock), vlm_next_blocker(&handle, 3, lock.lkid, &lock), 1, 2);
    WALKS(vlm_first_blocker(&handle, 4, &lock), vlm_next_blocker(&handle, 4, lock.lkid, &lock), 2, 3);
    WALKS(vlm_first_blocker(&handle, 5, &lock), vlm_next_blocker(&handle, 5, lock.lkid, &lock), 2, 3, 4);
    vlm_lock lock = {.size = sizeof lock};
    HOLD(vlm_first_blocker(&handle, 99, &lock) == VLM_BADPARAM);
    HOLD(vlm_next_blocker(&handle, 5, 99, &lock) == VLM_BADPARAM);
    HOLD(vlm_next_blocker(&handle, 5, 9, &lock) == VLM_BADPARAM);
}

/* The other side: each lock shows the requests that have it among their blockers. */
static void blocked(void) {
    WALKS(vlm_first_blocked(&handle, 1, &lock), vlm_next_blocked(&handle, 1, lock.lkid, &lock), 2, 3);
    WALKS(vlm_first_blocked(&handle, 2, &lock), vlm_next_blocked(&handle, 2, lock.lkid, &lock), 3, 4, 5);
    WALKS(vlm_first_blocked(&handle, 3, &lock), vlm_next_blocked(&handle, 3, lock.lkid, &lock), 2, 4, 5);
    WALKS(vlm_first_blocked(&handle, 4, &lock), vlm_next_blocked(&handle, 4, lock.lkid, &lock), 5);
    EMPTY(vlm_first_blocked(&handle, 5, &lock));
    EMPTY(vlm_next_blocked(&handle, 1, 4, &lock));
    vlm_lock lock = {.size = sizeof lock};
    HOLD(vlm_first_blocked(&handle, 99, &lock) == VLM_BADPARAM);
    HOLD(vlm_next_blocked(&handle, 5, 99, &lock) == VLM_BADPARAM);
    HOLD(vlm_next_blocked(&handle, 5, 9, &lock) == VLM_BADPARAM);
}

/* A search ends the request that a look for a victim has found. The look changes nothing. P waits for itself too. */
static void victims(void) {
    const uint32_t expected[] = {4, 3, 2, 0};
    for (size_t i = 0; i < sizeof expected / sizeof *expected; i++) {
        uint32_t found = 99, ended = 99;
        size_t queued = vlm_queued_count(&handle);
        MADE(vlm_find_victim(&handle, &found));
        HOLD(found == expected[i] && vlm_queued_count(&handle) == queued);
        MADE(vlm_search(&handle, 1, &ended));
        HOLD(ended == found);
    }
}

int main(void) {
    vlm_options options = VLM_OPTIONS;
    MADE(vlm_open(&handle, &options));
    uint32_t p = declared(), q = declared(), r = declared();
    asked(p, "A", 0, VLM_CR, 1, 0); /* 1 */
    asked(p, "A", 0, VLM_CR, 2, 0); /* 2, converts to EX */
    asked(q, "A", 0, VLM_CR, 1, 0); /* 3, converts to EX after it */
    converted(p, 2, VLM_EX, 3);
    converted(q, 3, VLM_EX, 2);
    asked(q, "A", 0, VLM_CR, 3, 0);    /* 4 waits for the conversions */
    asked(r, "A", 0, VLM_PR, 1, 0);    /* 5 waits for it too */
    asked(p, "SUB", 1, VLM_NL, 4, 0);  /* 6 */
    asked(p, "SUB", 1, VLM_NL, 5, 0);  /* 7 */
    asked(p, "DEEP", 7, VLM_NL, 6, 0); /* 8 */
    asked(p, "B", 0, VLM_NL, 7, 0);    /* 9 */
    HOLD(vlm_lock_count(&handle) == 9 && vlm_queued_count(&handle) == 4);
    rows(p, q, r);
    kin(p, q, r);
    blockers();
    blocked();
    victims();
    vlm_close(&handle);
    printf("%u checks, %u wrong\n", calls, wrong);
    return wrong != 0;
}
