/* A wait with a time-out. P holds A in EX. Q waits 20 milliseconds for A in vain. Then a thread of P gives A up while
 * Q waits again, and Q gets it. */
#include <vlm_threads.h>

#include <pthread.h>

static vlm_threads *layer;

static uint32_t declared(void) {
    vlm_threads_declaration declaration = {.size = sizeof declaration, .node = 1, .quota = 9, .requests = 1};
    uint32_t pid;
    return vlm_threads_declare(layer, &declaration, &pid) == VLM_NORMAL ? pid : 0;
}

static void ask(const char *who, vlm_threads_request *request) {
    uint32_t status = vlm_threads_enq(layer, request, (const uint8_t *)"A", 1);
    printf("%s: %s%s\n", who, vlm_condition_name(status), request->lkid ? ", has A" : ", has no lock");
}

static void *give_up(void *given) {
    vlm_threads_request *request = given;
    vlm_threads_dequeue dequeue = {.size = sizeof dequeue, .pid = request->pid, .lock = request->lkid};
    vlm_threads_deq(layer, &dequeue);
    return NULL;
}

int main(void) {
    vlm_threads_options options = VLM_THREADS_OPTIONS;
    pthread_t thread;
    if (vlm_threads_open(&options, &layer) != VLM_NORMAL)
        return 1;
    vlm_threads_request p = {.size = sizeof p, .pid = declared(), .mode = VLM_EX};
    vlm_threads_request q = {.size = sizeof q, .pid = declared(), .mode = VLM_EX, .milliseconds = 20};
    ask("P", &p);
    ask("Q", &q);
    if (pthread_create(&thread, NULL, give_up, &p))
        return 2;
    q.milliseconds = 60000;
    ask("Q", &q);
    pthread_join(thread, NULL);
    vlm_threads_close(layer);
    return 0;
}
