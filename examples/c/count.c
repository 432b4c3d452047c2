#include <pthread.h>
#include <vlm_threads.h>

static vlm_threads *layer;
static int counted; /* guarded by EX on A */

static void *run(void *given) {
    vlm_threads_declaration declaration = {.size = sizeof declaration, .node = 1, .quota = 9, .requests = 1, .tied = 1};
    vlm_threads_request request = {.size = sizeof request, .mode = VLM_EX, .milliseconds = 10000};
    if (vlm_threads_declare(layer, &declaration, &request.pid) != VLM_NORMAL)
        return given;
    for (int i = 0; i < 1000; i++) {
        if (vlm_threads_enq(layer, &request, (const uint8_t *)"A", 1) != VLM_NORMAL)
            break;
        counted++;
        vlm_threads_dequeue dequeue = {.size = sizeof dequeue, .pid = request.pid, .lock = request.lkid};
        vlm_threads_deq(layer, &dequeue);
    }
    return given;
}

int main(void) {
    vlm_threads_options options = VLM_THREADS_OPTIONS;
    pthread_t threads[2];
    if (vlm_threads_open(&options, &layer) != VLM_NORMAL)
        return 1;
    for (int i = 0; i < 2; i++)
        if (pthread_create(&threads[i], NULL, run, NULL))
            return 2;
    for (int i = 0; i < 2; i++)
        pthread_join(threads[i], NULL);
    vlm_threads_close(layer);
    printf("%d\n", counted);
    return 0;
}
