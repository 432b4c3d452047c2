/* All allocations of a hub refused from each on, until memory is back, with turns of the program's own and with
 * vlm_hub_run. Each call answers INSFMEM, as often as it is made, or its result. What was made is told, no post is
 * lost, vlm_hub_run does not sleep while a post is left, and closes free all. Linked with
 * -Wl,--wrap=malloc,--wrap=realloc,--wrap=free. */
#include "hub_test.h"
#include "vlm_hub_wait.h"

/* The first allocation that is refused with all after it, or 0; how many were asked for, and how many blocks there
 * are. */
static long refused, asked, blocks;

void *__real_malloc(size_t size);
void *__real_realloc(void *block, size_t size);
void __real_free(void *block);

static bool is_refused(void) { return ++asked >= refused && refused; }

void *__wrap_malloc(size_t size) {
    void *block = is_refused() ? NULL : __real_malloc(size);
    blocks += block != NULL;
    return block;
}

void *__wrap_realloc(void *block, size_t size) {
    void *moved = is_refused() ? NULL : __real_realloc(block, size);
    blocks += moved && !block;
    return moved;
}

void __wrap_free(void *block) {
    blocks -= block != NULL;
    __real_free(block);
}

enum { NODES = 3, ROUNDS = 16, PLACES = VLM_LEAST_CAPACITY };
enum how { BY_TURNS, BY_RUN, BY_RUN_THAT_CUTS, HOWS };

static vlm_hub hub;
static vlm_port ports[NODES];
static bool is_declared[NODES];
/* The entries that were cut off, those that have told an item, and the posts that have no answer. */
static size_t kept, told, unanswered[NODES];
/* How many hubs were refused a turn. */
static long refused_hubs;

static uint32_t keep(void *context, const vlm_entry *entries, const vlm_cut *cut) {
    (void)context, (void)entries;
    kept += cut->count;
    return VLM_NORMAL;
}

static void no_ring(void *context) { (void)context; }

/* A wait of the hub's thread, which has nothing to do. */
static uint32_t stop(void *context, int milliseconds) {
    HOLD(milliseconds == -1);
    vlm_hub_stop(context);
    return VLM_NORMAL;
}

static uint32_t run_hub(bool cuts) {
    static vlm_entry entries[PLACES];
    vlm_bell bell = VLM_BELL_CLOSED, bells[NODES] = {VLM_BELL_CLOSED, VLM_BELL_CLOSED, VLM_BELL_CLOSED};
    vlm_hub_service service = {.size = sizeof service, .hub = &hub, .bell = &bell, .bells = bells, .bell_count = NODES};
    service.entries = cuts ? entries : NULL;
    service.capacity = cuts ? PLACES : 0;
    service.keep = keep;
    EXPECT(vlm_bell_open_with(&bell, no_ring, stop, &service), VLM_NORMAL);
    return vlm_hub_run(&service);
}

static uint32_t turn_hub(void) {
    uint32_t status;
    size_t made, before;
    do {
        before = vlm_hub_entries(&hub);
        status = vlm_hub_turn(&hub, &made);
        HOLD(vlm_hub_entries(&hub) == before + made);
    } while (status == VLM_NORMAL && made);
    return status;
}

/* Takes what a node was told. A step that needs a process comes only from one that was declared. */
static void take(uint32_t i) {
    for (vlm_item item = taken(&ports[i]); item.kind != VLM_NO_ITEM; item = taken(&ports[i])) {
        told++;
        if (item.kind == VLM_AST)
            continue;
        HOLD(item.status == VLM_NORMAL || item.status == VLM_INSFMEM);
        is_declared[i] |= item.status == VLM_NORMAL && item.number == first_of(i + 1);
        unanswered[i]--;
    }
}

/* Serves the hub until it has nothing to do, or is refused. Each entry told one item, and what has no answer waits. */
static uint32_t served(enum how how) {
    uint32_t status = how == BY_TURNS ? turn_hub() : run_hub(how == BY_RUN_THAT_CUTS);
    HOLD(status == VLM_NORMAL || status == VLM_INSFMEM);
    for (uint32_t i = 0; i < NODES; i++) {
        size_t posts = 0;
        take(i);
        EXPECT(vlm_hub_waiting(&hub, i + 1, &posts), VLM_NORMAL);
        HOLD(posts == unanswered[i] && (posts == 0 || status == VLM_INSFMEM));
    }
    HOLD(told == kept + vlm_hub_entries(&hub));
    return status;
}

static uint32_t post(uint32_t i, uint32_t round) {
    const uint8_t name[] = {'A', (uint8_t)('A' + i), (uint8_t)('A' + round)};
    vlm_declaration declaration = declaration_of(i + 1);
    vlm_request request = request_of(first_of(i + 1), VLM_EX);
    request.has_ast = request.has_bast = 1;
    unanswered[i]++;
    if (round == 0)
        return vlm_port_declare(&ports[i], &declaration);
    if (!is_declared[i] || round % 4 == 0)
        return vlm_port_search(&ports[i]);
    return vlm_port_enq(&ports[i], &request, name, round == 1 ? 1 : sizeof name);
}

/* A node that is lost: INSFMEM changes nothing. */
static void lose(uint32_t node, uint32_t wanted) {
    size_t before = vlm_hub_entries(&hub);
    EXPECT(vlm_hub_lost(&hub, node), wanted);
    HOLD(vlm_hub_entries(&hub) == before + (wanted == VLM_NORMAL));
    told += wanted == VLM_NORMAL;
}

/* All posts of all rounds, until the hub is refused. Then it stays refused, and goes on once memory is back. */
static void serve_rounds(enum how how) {
    uint32_t status = VLM_NORMAL;
    for (uint32_t round = 0; round < ROUNDS && status == VLM_NORMAL; round++) {
        for (uint32_t i = 0; i < NODES; i++)
            EXPECT(post(i, round), VLM_NORMAL);
        status = served(how);
    }
    if (status == VLM_INSFMEM) {
        size_t before = told;
        refused_hubs++;
        EXPECT(served(how), VLM_INSFMEM);
        HOLD(told == before);
        lose(2, VLM_INSFMEM);
    }
    refused = 0;
    EXPECT(served(how), VLM_NORMAL);
    lose(2, VLM_NORMAL);
}

/* A call that is refused is refused again. Once memory is back it does what it says. */
#define MADE(call)                     \
    do {                               \
        uint32_t status = (call);      \
        if (status == VLM_INSFMEM) {   \
            EXPECT(call, VLM_INSFMEM); \
            refused = 0;               \
            status = (call);           \
        }                              \
        EXPECT(status, VLM_NORMAL);    \
    } while (0)

/* The life of a hub without any allocation from one on. */
static void live(enum how how, long first) {
    vlm_options options = VLM_OPTIONS;
    refused = first;
    asked = 0;
    kept = told = 0;
    hub = (vlm_hub)VLM_HUB_CLOSED;
    MADE(vlm_hub_open(&hub, NODES, &options));
    for (uint32_t i = 0; i < NODES; i++) {
        ports[i] = (vlm_port)VLM_PORT_CLOSED;
        is_declared[i] = false;
        unanswered[i] = 0;
        MADE(vlm_hub_port(&hub, i + 1, &ports[i]));
    }
    serve_rounds(how);
    vlm_hub_close(&hub);
    for (uint32_t i = 0; i < NODES; i++)
        vlm_port_close(&ports[i]);
    HOLD(blocks == 0);
}

int main(void) {
    for (enum how how = BY_TURNS; how < HOWS; how++) {
        live(how, 0);
        long all = asked;
        refused_hubs = 0;
        for (long first = 1; first <= all; first++)
            live(how, first);
        HOLD(refused_hubs > 4);
    }
    printf("all allocations of a hub were refused from each on: %u wrong\n", wrong);
    return wrong != 0;
}
