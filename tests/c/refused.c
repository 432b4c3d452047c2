/* Two processes take a lock in turn, with each allocation refused once: the call whose memory is refused answers
 * INSFMEM and changes nothing, and is made again. Then many take locks, with all allocations refused from each on: each
 * call answers INSFMEM or its result, and a close frees all. Linked with
 * -Wl,--wrap=malloc,--wrap=realloc,--wrap=free. */
#include "vlm.h"

#include <stdio.h>
#include <stdlib.h>

/* Which allocation is refused, from 1, and whether all after it are; how many were asked for, and how many blocks there
 * are. */
static long refused, asked, blocks;
static int goes_on;

void *__real_malloc(size_t size);
void *__real_realloc(void *block, size_t size);
void __real_free(void *block);

static int is_refused(void) {
    asked++;
    return asked == refused || (goes_on && refused && asked > refused);
}

void *__wrap_malloc(size_t size) {
    void *block = is_refused() ? NULL : __real_malloc(size);
    blocks += block != NULL;
    return block;
}

void *__wrap_realloc(void *block, size_t size) {
    void *moved = is_refused() ? NULL : __real_realloc(block, size);
    blocks += moved && !block;
    return moved;
}

void __wrap_free(void *block) {
    blocks -= block != NULL;
    __real_free(block);
}

static long told;

/* The status of a call that was made again where it was short of memory. */
#define MADE(call) (again(call) ? (call) : last)
static uint32_t last;

static int again(uint32_t status) {
    last = status;
    told += status == VLM_INSFMEM;
    return status == VLM_INSFMEM;
}

static int ends_as_it_should(void) {
    static const uint8_t name[] = {'A'};
    vlm handle = VLM_CLOSED;
    vlm_options options = VLM_OPTIONS;
    vlm_declaration first = {.size = sizeof first, .node = 1, .group = 1, .quota = 9, .blocks = 1};
    vlm_declaration second = {.size = sizeof second, .node = 2, .group = 1, .quota = 9, .blocks = 1};
    vlm_request request = {.size = sizeof request, .mode = VLM_EX, .block = 1, .has_ast = 1, .ast = 7};
    vlm_dequeue dequeue = {.size = sizeof dequeue};
    vlm_lksb lksb = {.size = sizeof lksb};
    uint32_t p = 0, q = 0, waits = 0;
    int good = MADE(vlm_open(&handle, &options)) == VLM_NORMAL;
    good = good && MADE(vlm_declare(&handle, &first, &p)) == VLM_NORMAL;
    good = good && MADE(vlm_declare(&handle, &second, &q)) == VLM_NORMAL;
    request.pid = p;
    good = good && MADE(vlm_enq(&handle, &request, name, 1, &dequeue.lock)) == VLM_NORMAL;
    request.pid = q;
    good = good && MADE(vlm_enq(&handle, &request, name, 1, &waits)) == VLM_NORMAL;
    dequeue.pid = p;
    good = good && MADE(vlm_deq(&handle, &dequeue)) == VLM_NORMAL;
    good = good && MADE(vlm_block(&handle, q, 1, &lksb)) == VLM_NORMAL;
    vlm_close(&handle);
    return good && lksb.status == VLM_NORMAL && lksb.lkid == waits;
}

enum { MANY = 20 };

/* Many processes and their locks, and how many were made. */
struct made {
    vlm *handle;
    uint32_t pids[MANY], locks[MANY];
    size_t processes, lock_count;
};

/* Whether a call and the same call again answer INSFMEM, and all is as before. */
static int is_short(struct made *made, uint32_t status, uint32_t again) {
    told += status == VLM_INSFMEM;
    return status == VLM_INSFMEM && again == VLM_INSFMEM && vlm_process_count(made->handle) == made->processes
           && vlm_lock_count(made->handle) == made->lock_count;
}

static int declares(struct made *made, uint32_t at) {
    vlm_declaration words = {.size = sizeof words, .node = 1 + at % 8, .group = 1, .quota = 9, .blocks = 2};
    uint32_t status = vlm_declare(made->handle, &words, &made->pids[at]);
    made->processes += status == VLM_NORMAL;
    return status == VLM_NORMAL || is_short(made, status, vlm_declare(made->handle, &words, &made->pids[at]));
}

/* Each two processes that are there ask for one resource. */
static int asks(struct made *made, uint32_t at) {
    const uint8_t name[] = {'A', (uint8_t)('A' + at / 2)};
    vlm_request words = {.size = sizeof words, .pid = made->pids[at], .mode = VLM_EX, .block = 1, .has_ast = 1};
    if (!made->pids[at])
        return 1;
    uint32_t status = vlm_enq(made->handle, &words, name, sizeof name, &made->locks[at]);
    made->lock_count += status == VLM_NORMAL;
    return status == VLM_NORMAL
           || is_short(made, status, vlm_enq(made->handle, &words, name, sizeof name, &made->locks[at]));
}

/* The steps that want no memory. */
static int ends(struct made *made, uint32_t at) {
    vlm_dequeue words = {.size = sizeof words, .pid = made->pids[at], .lock = made->locks[at]};
    return (!made->locks[at] || vlm_deq(made->handle, &words) == VLM_NORMAL)
           && (!made->pids[at] || vlm_rundown(made->handle, made->pids[at]) == VLM_NORMAL);
}

static int takes_locks(vlm *handle) {
    struct made made = {.handle = handle};
    int good = 1;
    for (uint32_t at = 0; at < MANY; at++)
        good = declares(&made, at) && good;
    for (uint32_t at = 0; at < MANY; at++)
        good = asks(&made, at) && good;
    for (uint32_t at = 0; at < MANY; at++)
        good = ends(&made, at) && good;
    return good && vlm_process_count(handle) == 0 && vlm_lock_count(handle) == 0;
}

/* A lock manager without any allocation from one on. */
static int lives(void) {
    vlm handle = VLM_CLOSED;
    vlm_options options = VLM_OPTIONS;
    struct made none = {.handle = &handle};
    uint32_t status = vlm_open(&handle, &options);
    int good = status == VLM_NORMAL ? takes_locks(&handle) : is_short(&none, status, vlm_open(&handle, &options));
    vlm_close(&handle);
    return good && blocks == 0;
}

static int each_once(void) {
    long all, right = 0;
    if (!ends_as_it_should())
        return 0;
    all = asked;
    for (refused = 1; refused <= all; refused++) {
        asked = 0;
        right += ends_as_it_should();
    }
    return all > 9 && right == all && told == all && blocks == 0;
}

static int all_from_each_on(void) {
    long all, right = 0;
    goes_on = 1;
    refused = asked = told = 0;
    if (!lives() || told)
        return 0;
    all = asked;
    for (refused = 1; refused <= all; refused++) {
        asked = told = 0;
        right += lives() && told >= 1;
    }
    return all > 9 && right == all;
}

int main(void) {
    int once = each_once(), for_good = all_from_each_on();
    printf("each allocation was refused once: %s\n", once ? "INSFMEM, and then as ever" : "wrong");
    printf("all were refused from each on: %s\n", for_good ? "INSFMEM, or the result" : "wrong");
    return !once || !for_good;
}
