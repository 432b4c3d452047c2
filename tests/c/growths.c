/* Many requests for new locks on resources of their own: in no 1,000 of them in a row do more than a few large blocks
 * of memory grow, since the parts of the indexes grow far from each other. Linked with
 * -Wl,--wrap=malloc,--wrap=realloc. */
#include "vlm.h"

#include <stdio.h>
#include <stdlib.h>

enum { LOCKS = 300000, EACH = 60000, IN_A_ROW = 1000, LARGE = 49152 };
/* Two parts of each index, with two blocks each, and the blocks of the slabs. */
enum { MOST = 12 };

static unsigned grown[LOCKS];
static size_t at;

void *__real_malloc(size_t size);
void *__real_realloc(void *block, size_t size);

void *__wrap_malloc(size_t size) {
    grown[at] += size >= LARGE;
    return __real_malloc(size);
}

void *__wrap_realloc(void *block, size_t size) {
    grown[at] += size >= LARGE;
    return __real_realloc(block, size);
}

/* How many requests are made: fewer where the run is slow. */
static size_t requests(void) {
    const char *share = getenv("VLM_TEST_SHARE");
    return LOCKS / (share ? strtoul(share, NULL, 10) : 1);
}

static int enq(vlm *handle, uint32_t pid, uint32_t number) {
    vlm_request request = {.size = sizeof request, .pid = pid, .mode = VLM_EX, .block = 1};
    const uint8_t name[] = {(uint8_t)number, (uint8_t)(number >> 8), (uint8_t)(number >> 16)};
    uint32_t lkid;
    return vlm_enq(handle, &request, name, sizeof name, &lkid) == VLM_NORMAL;
}

int main(void) {
    vlm handle = VLM_CLOSED;
    vlm_options options = VLM_OPTIONS;
    vlm_declaration declaration = {.size = sizeof declaration, .node = 1, .group = 1, .quota = EACH, .blocks = 1};
    uint32_t pid = 0;
    unsigned in_a_row = 0, most = 0, wrong = vlm_open(&handle, &options) != VLM_NORMAL;
    size_t count = requests();
    for (at = 0; at < count; at++) {
        if (at % EACH == 0)
            wrong += vlm_declare(&handle, &declaration, &pid) != VLM_NORMAL;
        wrong += !enq(&handle, pid, (uint32_t)at);
        in_a_row += grown[at] - (at >= IN_A_ROW ? grown[at - IN_A_ROW] : 0);
        most = in_a_row > most ? in_a_row : most;
    }
    at = 0;
    vlm_close(&handle);
    if (most > MOST)
        fprintf(stderr, "%u large blocks grew in %d requests\n", most, IN_A_ROW);
    printf("%u wrong\n", wrong + (most > MOST));
    return wrong != 0 || most > MOST;
}
