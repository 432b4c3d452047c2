/* Completion and blocking ASTs, a value block and a deadlock. Routines are numbers: here the places of functions in a
 * table, which the program calls for each AST that vlm_take_any gives it. */
#include "vlm.h"

#include <stdio.h>
#include <string.h>

static vlm handle = VLM_CLOSED;
static const vlm_options options = VLM_OPTIONS;

static void is_granted(uint32_t pid, const vlm_ast *ast) {
    printf("process %u: lock %u, the request of %u has ended\n", (unsigned)pid, (unsigned)ast->lkid,
           (unsigned)ast->param);
}

static void is_in_the_way(uint32_t pid, const vlm_ast *ast) {
    printf("process %u: lock %u is in the way\n", (unsigned)pid, (unsigned)ast->lkid);
}

static void (*const routines[])(uint32_t pid, const vlm_ast *ast) = {is_granted, is_in_the_way};

/* Takes all pending ASTs, and calls the routines. */
static void deliver(void) {
    vlm_ast ast = {.size = sizeof ast};
    uint32_t pid = 0;
    while (vlm_take_any(&handle, &pid, &ast) == VLM_NORMAL && ast.kind != VLM_NO_AST)
        routines[ast.routine](pid, &ast);
}

static void tell(const char *what, uint32_t status) { printf("%s: %s\n", what, vlm_condition_name(status)); }

static uint32_t enq(uint32_t pid, const char *name, uint32_t block, uint32_t flags) {
    vlm_request request = {.size = sizeof request,
                           .pid = pid,
                           .mode = VLM_EX,
                           .flags = flags,
                           .block = block,
                           .has_ast = 1,
                           .ast = 0,
                           .has_bast = 1,
                           .bast = 1,
                           .param = block};
    uint32_t lkid = 0;
    tell(name, vlm_enq(&handle, &request, (const uint8_t *)name, strlen(name), &lkid));
    return lkid;
}

int main(void) {
    vlm_declaration declaration = {.size = sizeof declaration, .node = 1, .group = 1, .quota = 9, .blocks = 2};
    vlm_dequeue dequeue = {.size = sizeof dequeue, .has_value = 1, .value = "fifteen letters"};
    vlm_lksb lksb = {.size = sizeof lksb};
    uint32_t p = 0, q = 0, victim = 0;
    tell("open", vlm_open(&handle, &options));
    tell("declare", vlm_declare(&handle, &declaration, &p));
    tell("declare", vlm_declare(&handle, &declaration, &q));
    dequeue.pid = p;
    dequeue.lock = enq(p, "A", 1, VLM_VALBLK);
    enq(q, "B", 1, 0);
    enq(q, "A", 2, VLM_VALBLK);
    enq(p, "B", 2, 0);
    deliver();
    tell("search", vlm_search(&handle, 1, &victim));
    vlm_block(&handle, p, 2, &lksb);
    printf("victim %u: %s\n", (unsigned)victim, vlm_condition_name(lksb.status));
    tell("deq", vlm_deq(&handle, &dequeue));
    deliver();
    vlm_block(&handle, q, 2, &lksb);
    printf("value block: %.15s\n", (const char *)lksb.value);
    vlm_close(&handle);
    return 0;
}
