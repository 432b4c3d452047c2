/* Two threads share a lock manager under a mutex of the program's own. Each asks for EX on one resource, sleeps on a
 * condition variable until its status block tells of the grant, counts, and gives the lock up. */
#include "vlm.h"

#include <pthread.h>
#include <stdio.h>

enum { ROUNDS = 2000 };

static vlm handle = VLM_CLOSED;
static const vlm_options options = VLM_OPTIONS;
static pthread_mutex_t mutex = PTHREAD_MUTEX_INITIALIZER;
static pthread_cond_t ended = PTHREAD_COND_INITIALIZER;

/* What the lock guards. */
static int counted;

/* Waits, with the mutex, until the request of the process's first status block has ended, and answers how. */
static uint32_t awaited(uint32_t pid) {
    vlm_lksb lksb = {.size = sizeof lksb};
    while (vlm_block(&handle, pid, 1, &lksb) == VLM_NORMAL && lksb.status == 0)
        pthread_cond_wait(&ended, &mutex);
    return lksb.status;
}

/* Counts, and how often an answer was not the one that was due. */
static void *run(void *given) {
    static const uint8_t name[] = {'C', 'O', 'U', 'N', 'T', 'E', 'R'};
    uint32_t pid = *(uint32_t *)given;
    intptr_t wrong = 0;
    vlm_request request = {.size = sizeof request, .pid = pid, .mode = VLM_EX, .block = 1};
    vlm_dequeue dequeue = {.size = sizeof dequeue, .pid = pid};
    for (int round = 0; round < ROUNDS; round++) {
        pthread_mutex_lock(&mutex);
        wrong += vlm_enq(&handle, &request, name, sizeof name, &dequeue.lock) != VLM_NORMAL;
        wrong += awaited(pid) != VLM_NORMAL;
        pthread_mutex_unlock(&mutex);
        counted++;
        pthread_mutex_lock(&mutex);
        wrong += vlm_deq(&handle, &dequeue) != VLM_NORMAL;
        pthread_cond_broadcast(&ended);
        pthread_mutex_unlock(&mutex);
    }
    return (void *)wrong;
}

int main(void) {
    pthread_t threads[2];
    uint32_t pids[2];
    intptr_t wrong = vlm_open(&handle, &options) != VLM_NORMAL;
    vlm_declaration declaration = {.size = sizeof declaration, .node = 1, .group = 1, .quota = 9, .blocks = 1};
    for (int i = 0; i < 2; i++)
        wrong += vlm_declare(&handle, &declaration, &pids[i]) != VLM_NORMAL;
    for (int i = 0; i < 2; i++)
        if (pthread_create(&threads[i], NULL, run, &pids[i]))
            return 2;
    for (int i = 0; i < 2; i++) {
        void *one = NULL;
        pthread_join(threads[i], &one);
        wrong += (intptr_t)one;
    }
    printf("%d rounds, %d wrong answers, %zu resources left\n", counted, (int)wrong, vlm_resource_count(&handle));
    vlm_close(&handle);
    return wrong != 0 || counted != 2 * ROUNDS;
}
