/* What the tests of a hub share. */
#ifndef HUB_TEST_H
#define HUB_TEST_H

#ifndef _POSIX_C_SOURCE
#define _POSIX_C_SOURCE 200809L
#endif

#include "vlm_hub.h"

#include <stdatomic.h>
#include <stdio.h>
#include <stdlib.h>
#include <string.h>

static atomic_uint calls, wrong;

static inline void expect_at(int line, uint32_t got, uint32_t want) {
    atomic_fetch_add(&calls, 1);
    if (got == want)
        return;
    atomic_fetch_add(&wrong, 1);
    const char *got_name = vlm_condition_name(got), *want_name = vlm_condition_name(want);
    fprintf(stderr, "line %d: %u %s, not %u %s\n", line, (unsigned)got, got_name ? got_name : "", (unsigned)want,
            want_name ? want_name : "");
}
#define EXPECT(call, want) expect_at(__LINE__, (call), (want))

static inline void hold_at(int line, int fact, const char *text) {
    if (fact)
        return;
    atomic_fetch_add(&wrong, 1);
    fprintf(stderr, "line %d: not %s\n", line, text);
}
#define HOLD(fact) hold_at(__LINE__, (fact), #fact)

/* How many rounds a long test does: all, or one VLM_TEST_SHARE-th of them, under a sanitizer or valgrind. */
static inline long rounds(long all) {
    const char *share = getenv("VLM_TEST_SHARE");
    return share && all / atol(share) ? all / atol(share) : share ? 1 : all;
}

static inline void open_hub(vlm_hub *hub, uint32_t nodes) {
    vlm_options options = VLM_OPTIONS;
    EXPECT(vlm_hub_open(hub, nodes, &options), VLM_NORMAL);
}

/* The first process of a node, once it is declared. */
static inline uint32_t first_of(uint32_t node) { return node << 16 | 1; }

static inline vlm_declaration declaration_of(uint32_t node) {
    return (vlm_declaration){.size = sizeof(vlm_declaration), .node = node, .group = 1, .quota = 200, .blocks = 4};
}

static inline vlm_request request_of(uint32_t pid, uint32_t mode) {
    return (vlm_request){.size = sizeof(vlm_request), .pid = pid, .mode = mode, .block = 1};
}

static inline vlm_dequeue dequeue_of(uint32_t pid, uint32_t lock) {
    return (vlm_dequeue){.size = sizeof(vlm_dequeue), .pid = pid, .lock = lock};
}

static inline vlm_item taken(vlm_port *port) {
    vlm_item item = {.size = sizeof item};
    EXPECT(vlm_port_take(port, &item), VLM_NORMAL);
    HOLD(item.size == sizeof item && !(item.reserved[0] | item.reserved[1] | item.reserved[2]));
    return item;
}

/* Turns until a turn makes nothing: how many entries they made. */
static inline size_t turns(vlm_hub *hub) {
    size_t made, all = 0;
    do {
        HOLD(vlm_hub_turn(hub, &made) == VLM_NORMAL);
        all += made;
    } while (made);
    return all;
}

/* The next item is an answer with this status and this number. */
static inline void expect_answer_at(int line, vlm_port *port, uint32_t status, uint32_t number) {
    vlm_item item = taken(port);
    hold_at(line, item.kind == VLM_ANSWER, "an answer");
    expect_at(line, item.status, status);
    hold_at(line, item.number == number, "the number of the answer");
    hold_at(line, item.pid == 0, "no process of an answer");
}
#define ANSWER(port, status, number) expect_answer_at(__LINE__, (port), (status), (number))

static inline void expect_ast_at(int line, vlm_port *port, uint32_t pid, uint32_t kind, uint32_t lkid) {
    vlm_item item = taken(port);
    hold_at(line, item.kind == VLM_AST, "an AST");
    hold_at(line, item.status == 0 && item.number == 0, "no answer with an AST");
    hold_at(line, item.pid == pid && item.ast.kind == kind && item.ast.lkid == lkid, "the AST");
}
#define AST(port, pid, kind, lkid) expect_ast_at(__LINE__, (port), (pid), (kind), (lkid))

static inline void expect_nothing_at(int line, vlm_port *port) {
    vlm_item item = taken(port);
    hold_at(line, item.kind == VLM_NO_ITEM && !item.status && !item.number && !item.pid && !item.ast.kind, "no item");
}
#define NOTHING(port) expect_nothing_at(__LINE__, (port))

#endif
