/* P holds EX on a resource, Q asks for it and waits, P gives it up, and Q is granted. */
#include "vlm.h"

#include <stdio.h>

static const char *mode_name(uint32_t mode) {
    static const char *const names[] = {"NL", "CR", "CW", "PR", "PW", "EX"};
    return mode <= VLM_EX ? names[mode] : "-";
}

static void tell(const char *what, uint32_t status) {
    const char *name = vlm_condition_name(status);
    printf("%s: %s\n", what, name != NULL ? name : "-");
}

static void show_queue(vlm *handle, const vlm_resource *resource, uint32_t queue) {
    static const char *const queues[] = {"granted", "conversion", "waiting"};
    vlm_lock lock = {.size = sizeof lock};
    uint32_t status = vlm_first_row(handle, resource, queue, &lock);
    for (; status == VLM_NORMAL && lock.lkid != 0; status = vlm_next_row(handle, lock.lkid, &lock))
        printf("    %s: lock %u of %08x holds %s wants %s\n", queues[queue], (unsigned)lock.lkid, (unsigned)lock.pid,
               mode_name(lock.held), mode_name(lock.want));
}

static void show(vlm *handle) {
    vlm_resource resource = {.size = sizeof resource};
    while (vlm_next_resource(handle, &resource) == VLM_NORMAL && resource.serial != 0) {
        printf("  resource %u %.*s\n", (unsigned)resource.serial, (int)resource.name_len, (const char *)resource.name);
        for (uint32_t queue = VLM_GRANTED; queue <= VLM_WAITING; queue++)
            show_queue(handle, &resource, queue);
    }
}

static void show_block(vlm *handle, const char *who, uint32_t pid) {
    vlm_lksb lksb = {.size = sizeof lksb};
    if (vlm_block(handle, pid, 1, &lksb) == VLM_NORMAL)
        printf("%s's status block: %s, lock %u\n", who, lksb.status == 0 ? "pending" : vlm_condition_name(lksb.status),
               (unsigned)lksb.lkid);
}

int main(void) {
    static const uint8_t name[] = {'A'};
    vlm handle = VLM_CLOSED;
    vlm_options options = VLM_OPTIONS;
    uint32_t p = 0, q = 0, p_lock = 0, q_lock = 0;

    tell("open", vlm_open(&handle, &options));
    vlm_declaration declaration = {.size = sizeof declaration, .node = 1, .group = 1, .quota = 9, .blocks = 1};
    tell("declare P", vlm_declare(&handle, &declaration, &p));
    declaration.node = 2;
    tell("declare Q", vlm_declare(&handle, &declaration, &q));

    vlm_request request = {.size = sizeof request, .pid = p, .mode = VLM_EX, .block = 1};
    tell("P asks for EX", vlm_enq(&handle, &request, name, sizeof name, &p_lock));
    request.pid = q;
    request.has_ast = 1;
    request.ast = 7;
    request.param = 70;
    tell("Q asks for EX", vlm_enq(&handle, &request, name, sizeof name, &q_lock));
    show_block(&handle, "Q", q);
    show(&handle);

    vlm_dequeue dequeue = {.size = sizeof dequeue, .pid = p, .lock = p_lock};
    tell("P gives its lock up", vlm_deq(&handle, &dequeue));
    show_block(&handle, "Q", q);
    show(&handle);

    vlm_ast ast = {.size = sizeof ast};
    tell("Q takes an AST", vlm_take(&handle, q, &ast));
    printf("  kind %u routine %u param %u lock %u\n", (unsigned)ast.kind, (unsigned)ast.routine, (unsigned)ast.param,
           (unsigned)ast.lkid);
    tell("P gives its lock up again", vlm_deq(&handle, &dequeue));
    vlm_close(&handle);
    tell("a call on a closed handle", vlm_deq(&handle, &dequeue));
    return 0;
}
