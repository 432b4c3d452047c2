#include <stdio.h>
#include <vlm.h>

int main(void) {
    vlm handle = VLM_CLOSED;
    vlm_options options = VLM_OPTIONS;
    uint32_t p, q, p_lock, q_lock;
    const uint8_t name[] = {'A'};
    vlm_lksb lksb = {.size = sizeof lksb};
    if (vlm_open(&handle, &options) != VLM_NORMAL)
        return 1;
    vlm_declaration declaration = {.size = sizeof declaration, .node = 1, .group = 1, .quota = 9, .blocks = 1};
    vlm_declare(&handle, &declaration, &p);
    vlm_declare(&handle, &declaration, &q);
    vlm_request request = {.size = sizeof request, .pid = p, .mode = VLM_EX, .block = 1};
    printf("P: %s\n", vlm_condition_name(vlm_enq(&handle, &request, name, sizeof name, &p_lock)));
    request.pid = q;
    printf("Q: %s\n", vlm_condition_name(vlm_enq(&handle, &request, name, sizeof name, &q_lock)));
    vlm_block(&handle, q, 1, &lksb);
    printf("Q's lock %u: %s\n", q_lock, lksb.status == 0 ? "pending" : vlm_condition_name(lksb.status));
    vlm_dequeue dequeue = {.size = sizeof dequeue, .pid = p, .lock = p_lock};
    printf("P: %s\n", vlm_condition_name(vlm_deq(&handle, &dequeue)));
    vlm_block(&handle, q, 1, &lksb);
    printf("Q's lock %u: %s\n", q_lock, lksb.status == 0 ? "pending" : vlm_condition_name(lksb.status));
    vlm_close(&handle);
    return 0;
}
