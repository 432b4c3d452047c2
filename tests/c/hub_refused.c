/* Each allocation of a hub refused, alone and with the next one: the call answers INSFMEM, or the step does, nothing is
 * lost, and the same call is made again. A growth may ask for less after a refusal, so one refusal alone may change
 * nothing. In some turns both nodes have a post, so the journal's growth is refused after an entry too. Linked with
 * -Wl,--wrap=malloc,--wrap=realloc. */
#include "hub_test.h"

/* The first allocation that is refused, from 1, how many are, how many were asked for, and how many calls and steps
 * were answered INSFMEM. */
static long refused, span, asked, told;

static bool is_refused(void) {
    asked++;
    return refused <= asked && asked < refused + span;
}

void *__real_malloc(size_t size);
void *__real_realloc(void *block, size_t size);

void *__wrap_malloc(size_t size) { return is_refused() ? NULL : __real_malloc(size); }

void *__wrap_realloc(void *block, size_t size) { return is_refused() ? NULL : __real_realloc(block, size); }

static bool is_short(uint32_t status) {
    told += status == VLM_INSFMEM;
    return status == VLM_INSFMEM;
}

/* Makes a call again while it is short of memory. */
#define MADE(call)                        \
    do {                                  \
        uint32_t status;                  \
        while (is_short(status = (call))) \
            continue;                     \
        EXPECT(status, VLM_NORMAL);       \
    } while (0)

static vlm_hub hub;
static vlm_port ports[2];

/* Turns until nothing is left to make: how many entries they made. */
static size_t turned(void) {
    size_t made, all = 0;
    do {
        uint32_t status = vlm_hub_turn(&hub, &made);
        bool is_to_go_on = is_short(status);
        HOLD(status == VLM_NORMAL || is_to_go_on);
        all += made;
        made += is_to_go_on;
    } while (made);
    return all;
}

/* Whether the post was answered by INSFMEM, and has to be made again. */
static bool again(vlm_port *port, uint32_t status, uint32_t *number) {
    EXPECT(status, VLM_NORMAL);
    HOLD(turned() >= 1);
    vlm_item item = taken(port);
    HOLD(item.kind == VLM_ANSWER);
    *number = item.number;
    bool is_again = is_short(item.status);
    HOLD(is_again || item.status == VLM_NORMAL);
    return is_again;
}

/* Makes a step of a node, again while it is short of memory, and writes its number. */
#define STEP(port, post, number)             \
    while (again((port), (post), &(number))) \
    continue

/* How many turns were refused memory after they had made an entry. */
static long late;

/* A turn that is refused tells how many entries it made, and answers only these posts. The next turns make the rest. */
static void both_served(void) {
    size_t made = 0, rest[2], before = vlm_hub_entries(&hub);
    for (uint32_t i = 0; i < 2; i++)
        EXPECT(vlm_port_search(&ports[i]), VLM_NORMAL);
    bool is_refused = is_short(vlm_hub_turn(&hub, &made));
    HOLD(is_refused ? made < 2 : made == 2);
    HOLD(vlm_hub_entries(&hub) == before + made);
    for (uint32_t i = 0; i < 2; i++) {
        EXPECT(vlm_hub_waiting(&hub, i + 1, &rest[i]), VLM_NORMAL);
        HOLD(rest[i] == (i >= made));
    }
    late += is_refused && made;
    HOLD(turned() == 2 - made);
    for (uint32_t i = 0; i < 2; i++) {
        ANSWER(&ports[i], VLM_NORMAL, 0);
        NOTHING(&ports[i]);
    }
}

/* Two nodes take a lock in turn, and node 1 is lost. */
static void two_nodes(void) {
    static const uint8_t name[] = {'A'};
    uint32_t numbers[5];
    STEP(&ports[0], vlm_port_search(&ports[0]), numbers[4]);
    for (uint32_t i = 0; i < 4; i++)
        both_served();
    for (uint32_t i = 0; i < 2; i++) {
        vlm_declaration declaration = declaration_of(i + 1);
        vlm_request request = request_of(first_of(i + 1), VLM_EX);
        request.has_ast = request.has_bast = 1;
        STEP(&ports[i], vlm_port_declare(&ports[i], &declaration), numbers[i]);
        STEP(&ports[i], vlm_port_enq(&ports[i], &request, name, sizeof name), numbers[2 + i]);
    }
    HOLD(numbers[0] == first_of(1) && numbers[1] == first_of(2));
    AST(&ports[0], first_of(1), VLM_COMPLETION, numbers[2]);
    AST(&ports[0], first_of(1), VLM_BLOCKING, numbers[2]);
    NOTHING(&ports[1]);
    STEP(&ports[1], vlm_port_search(&ports[1]), numbers[4]);
    MADE(vlm_hub_lost(&hub, 1));
    HOLD(turned() == 1);
    AST(&ports[1], first_of(2), VLM_COMPLETION, numbers[3]);
    NOTHING(&ports[0]);
}

/* Nothing was lost: the journal replays, and no node has a number twice. Allocations here are not counted. */
static void replayed(void) {
    static vlm_entry entries[64];
    vlm_cut cut = {.size = sizeof cut, .entry_size = sizeof *entries};
    vlm handle = VLM_CLOSED;
    vlm_options options = VLM_OPTIONS;
    long before = asked;
    EXPECT(vlm_hub_cut(&hub, entries, 64, &cut), VLM_NORMAL);
    HOLD(asked == before && cut.count >= 18);
    asked = -1000000;
    EXPECT(vlm_open(&handle, &options), VLM_NORMAL);
    for (uint64_t i = 0; i < cut.count; i++)
        EXPECT(vlm_replay(&handle, &entries[i]), VLM_NORMAL);
    HOLD(vlm_process_count(&handle) == 1 && vlm_lock_count(&handle) == 1 && vlm_queued_count(&handle) == 0);
    vlm_close(&handle);
    asked = before;
}

static void run(void) {
    vlm_options options = VLM_OPTIONS;
    hub = (vlm_hub)VLM_HUB_CLOSED;
    MADE(vlm_hub_open(&hub, 2, &options));
    for (uint32_t i = 0; i < 2; i++) {
        ports[i] = (vlm_port)VLM_PORT_CLOSED;
        MADE(vlm_hub_port(&hub, i + 1, &ports[i]));
    }
    two_nodes();
    replayed();
    vlm_hub_close(&hub);
    vlm_port_close(&ports[0]);
    vlm_port_close(&ports[1]);
}

/* A run with these allocations refused: how many calls and steps told of it. */
static long run_without(long first, long count) {
    refused = first;
    span = count;
    asked = told = 0;
    run();
    return told;
}

int main(void) {
    long silent = 0;
    HOLD(run_without(1, 0) == 0);
    long all = asked;
    HOLD(all > 9);
    for (long first = 1; first <= all; first++) {
        long alone = run_without(first, 1), with_next = run_without(first, 2);
        HOLD(alone <= 1 && with_next >= 1 && with_next <= 2);
        silent += alone == 0;
    }
    HOLD(silent <= all / 10 && late >= 1);
    printf("each allocation of a hub was refused: %u wrong\n", wrong);
    return wrong != 0;
}
