#include <stdio.h>
#include <string.h>
#include <vlm.h>

static void is_granted(const vlm_ast *ast) { printf("lock %u, request %u has ended\n", ast->lkid, ast->param); }
static void is_in_the_way(const vlm_ast *ast) { printf("lock %u is in the way\n", ast->lkid); }
static void (*const routines[])(const vlm_ast *) = {is_granted, is_in_the_way};

static void deliver(vlm *handle, uint32_t pid) {
    vlm_ast ast = {.size = sizeof ast};
    while (vlm_take(handle, pid, &ast) == VLM_NORMAL && ast.kind != VLM_NO_AST)
        routines[ast.routine](&ast);
}

int main(void) {
    vlm handle = VLM_CLOSED;
    vlm_options options = VLM_OPTIONS;
    uint32_t p, q, lkid;
    vlm_lksb lksb = {.size = sizeof lksb};
    if (vlm_open(&handle, &options) != VLM_NORMAL)
        return 1;
    vlm_declaration declaration = {.size = sizeof declaration, .node = 1, .group = 1, .quota = 9, .blocks = 1};
    vlm_declare(&handle, &declaration, &p);
    vlm_declare(&handle, &declaration, &q);
    vlm_request request = {.size = sizeof request,
                           .pid = p,
                           .mode = VLM_EX,
                           .flags = VLM_VALBLK,
                           .block = 1,
                           .has_ast = 1,
                           .ast = 0,
                           .has_bast = 1,
                           .bast = 1,
                           .param = 1};
    vlm_dequeue dequeue = {.size = sizeof dequeue, .pid = p, .has_value = 1};
    memcpy(dequeue.value, "from P", 6);
    vlm_enq(&handle, &request, (const uint8_t *)"A", 1, &dequeue.lock);
    request.pid = q;
    request.param = 2;
    vlm_enq(&handle, &request, (const uint8_t *)"A", 1, &lkid);
    deliver(&handle, p);
    vlm_deq(&handle, &dequeue);
    deliver(&handle, q);
    vlm_block(&handle, q, 1, &lksb);
    printf("value block: %s\n", (const char *)lksb.value);
    vlm_close(&handle);
    return 0;
}
