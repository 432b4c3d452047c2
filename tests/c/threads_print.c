/* Counters as text. Programs with an older header print them too: their structs may be shorter than the library's. */
#include "threads_test.h"

/* A counter of each kind, and a condition that does not exist. */
static vlm_threads_counters some_counters(void) {
    vlm_threads_counters counters = {.size = sizeof counters,
                                     .requests = 77,
                                     .granted_at_once = 40,
                                     .waited = 10,
                                     .granted_later = 3,
                                     .timed_out = 2,
                                     .cancelled = 4,
                                     .victims = 1,
                                     .run_down = 5,
                                     .dequeues = 23,
                                     .searches = 6,
                                     .completions = 9,
                                     .blockings = 7,
                                     .dropped = 8,
                                     .microseconds = 1500000,
                                     .processes = 11,
                                     .locks = 12,
                                     .events = 13,
                                     .waiting = 14,
                                     .most_waiting = 15};
    counters.refused[VLM_NOTQUEUED] = 26;
    counters.refused[VLM_DEPARTED] = 2;
    counters.refused[VLM_THREADS_CONDITIONS - 1] = 1;
    counters.times[0] = counters.times[20] = counters.times[VLM_THREADS_TIMES - 1] = 3;
    return counters;
}

int main(void) {
    vlm_threads_counters counters = some_counters();
    EXPECT(vlm_threads_print(&counters, stdout), VLM_NORMAL);
    EXPECT(vlm_threads_print_prometheus(&counters, stdout), VLM_NORMAL);
    counters.size--;
    EXPECT(vlm_threads_print(&counters, stdout), VLM_BADPARAM);
    EXPECT(vlm_threads_print_prometheus(&counters, stdout), VLM_BADPARAM);
    printf("%u wrong\n", wrong);
    return wrong != 0;
}
