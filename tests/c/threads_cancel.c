/* All queued requests of a process are cancelled at once: those that threads wait for, a started one, and a conversion,
 * whose lock stays. What it holds stays, and what others wait for too. */
#include "threads_test.h"

enum { THREADS = 3 };

static vlm_threads *layer;
static uint32_t holder, session;
static atomic_uint ended;

static void end(void *context, const vlm_threads_event *event) {
    (void)context;
    EXPECT(event->status, VLM_ABORT);
    atomic_fetch_add(&ended, 1);
}

static void *wait_for(void *name) {
    vlm_threads_request request = asked(session, VLM_EX);
    EXPECT(enq(layer, &request, name), VLM_ABORT);
    HOLD(request.lkid == 0 && request.status == VLM_ABORT);
    return NULL;
}

static void *convert(void *lock) {
    vlm_threads_request request = asked(session, VLM_EX);
    request.lock = *(uint32_t *)lock;
    EXPECT(vlm_threads_convert(layer, &request), VLM_CANCEL);
    HOLD(request.lkid == *(uint32_t *)lock);
    return NULL;
}

static uint32_t held(uint32_t pid, uint32_t mode, const char *name) {
    vlm_threads_request request = asked(pid, mode);
    EXPECT(enq(layer, &request, name), VLM_NORMAL);
    return request.lkid;
}

static void cancelled_at_once(void) {
    static char names[THREADS][2] = {"A", "B", "C"};
    pthread_t threads[THREADS], converter;
    uint32_t own = held(session, VLM_CR, "D"), cancelled = 9;
    held(session, VLM_EX, "own");
    held(holder, VLM_PW, "D");
    for (int i = 0; i < THREADS; i++) {
        held(holder, VLM_EX, names[i]);
        threads[i] = started(wait_for, names[i]);
    }
    vlm_threads_request request = asked(session, VLM_PR);
    request.completion = end;
    EXPECT(start_enq(layer, &request, "A"), VLM_NORMAL);
    converter = started(convert, &own);
    await_waiting(layer, THREADS + 2);
    EXPECT(vlm_threads_cancel(layer, session, &cancelled), VLM_NORMAL);
    HOLD(cancelled == THREADS + 2);
    for (int i = 0; i < THREADS; i++)
        pthread_join(threads[i], NULL);
    pthread_join(converter, NULL);
    while (counters_of(layer).completions == 0)
        nanosleep(&(struct timespec){.tv_nsec = 100000}, NULL);
    HOLD(counters_of(layer).waiting == 0 && counters_of(layer).cancelled == THREADS + 2);
    HOLD(counters_of(layer).locks == THREADS + 3);
    EXPECT(vlm_threads_cancel(layer, session, &cancelled), VLM_NORMAL);
    HOLD(cancelled == 0);
}

int main(void) {
    uint32_t cancelled = 9;
    layer = opened(VLM_THREADS_BY_LAYER, 0);
    holder = declared(layer, 1);
    session = declared(layer, 2);
    EXPECT(vlm_threads_cancel(layer, 12345, &cancelled), VLM_NONEXPR);
    HOLD(cancelled == 0);
    cancelled_at_once();
    expect_sums(layer);
    EXPECT(vlm_threads_stop(layer), VLM_NORMAL);
    EXPECT(vlm_threads_cancel(layer, session, &cancelled), VLM_DEPARTED);
    EXPECT(vlm_threads_close(layer), VLM_NORMAL);
    HOLD(atomic_load(&ended) == 1);
    printf("%u wrong\n", atomic_load(&wrong));
    return wrong != 0;
}
