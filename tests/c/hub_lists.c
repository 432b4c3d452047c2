/* Lists of random steps, posted by a thread for each of 3 to 8 nodes. Afterwards the whole journal replays with its
 * answers in a second lock manager, and the items of each node are exactly its answers and its ASTs in the journal. */
#include "hub_test.h"

#include "vlm_hub_wait.h"

#include <pthread.h>

enum { NODES = 8, STEPS = 300, ITEMS = 20 * STEPS, PART = 64, BLOCKS = 4, RUNS = 30 };

struct worker {
    vlm_port port;
    uint32_t node;
    uint64_t random;
    uint32_t declared;       /* how many processes its list has declared so far */
    uint32_t posts, answers; /* how many there were */
    uint32_t count;          /* of its items */
    vlm_item items[ITEMS];
};

struct journal {
    vlm_entry *entries;
    size_t count, room;
};

static vlm_hub hub;
static vlm_bell hub_bell, bells[NODES];
static struct worker workers[NODES];
static struct journal journal;

static uint32_t below(struct worker *worker, uint32_t limit) {
    worker->random ^= worker->random << 13;
    worker->random ^= worker->random >> 7;
    worker->random ^= worker->random << 17;
    return (uint32_t)((worker->random >> 16) % limit);
}

/* Takes an item, if one comes in time. */
static void take(struct worker *worker, int milliseconds) {
    vlm_item item = {.size = sizeof item};
    uint32_t status = vlm_port_next(&worker->port, &bells[worker->node - 1], &hub_bell, milliseconds, &item);
    HOLD(status == VLM_NORMAL || (status == VLM_TIMEOUT && milliseconds == 0));
    if (item.kind == VLM_NO_ITEM)
        return;
    HOLD(worker->count < ITEMS);
    worker->items[worker->count++ % ITEMS] = item;
    worker->answers += item.kind == VLM_ANSWER;
}

/* The lists. A step names its process by its ordinal, and its lock by a status block, so a list does not depend on the
 * answers. */

/* One of the last three processes, or seldom one that is not declared yet. */
static uint32_t any_process(struct worker *worker) {
    uint32_t back = below(worker, 20) ? below(worker, 3) : UINT32_MAX;
    return worker->node << 16 | (back < worker->declared ? worker->declared - back : worker->declared + 1);
}

static uint32_t declare(struct worker *worker) {
    vlm_declaration declaration = declaration_of(worker->node);
    declaration.quota = 6;
    declaration.syslck = below(worker, 2);
    declaration.blocks = BLOCKS;
    uint32_t status = vlm_port_declare(&worker->port, &declaration);
    worker->declared += status == VLM_NORMAL;
    return status;
}

static vlm_request any_request(struct worker *worker) {
    static const uint32_t flags[] = {0, 0, 0, VLM_VALBLK, VLM_NOQUEUE, VLM_SYNCSTS, VLM_SYSTEM, VLM_VALBLK | VLM_WIDE};
    vlm_request request = request_of(any_process(worker), below(worker, 6));
    request.flags = flags[below(worker, 8)];
    request.block = below(worker, BLOCKS + 1);
    request.lock = below(worker, 3) ? 0 : below(worker, BLOCKS + 1);
    request.lock_kind = request.lock == 0 ? VLM_BY_ID : VLM_BY_BLOCK;
    request.has_ast = below(worker, 2);
    request.has_bast = below(worker, 2);
    request.ast = below(worker, 10);
    request.bast = below(worker, 10);
    request.param = below(worker, 1000);
    return request;
}

static uint32_t enq(struct worker *worker) {
    static const uint8_t letters[40] = "ABCDEFGHIJKLMNOPQRSTUVWXYZabcdefghijklm";
    vlm_request request = any_request(worker);
    size_t name_len = below(worker, 50) ? 1 : below(worker, sizeof letters);
    return vlm_port_enq(&worker->port, &request, letters + (name_len == 1 ? below(worker, 4) : 0), name_len);
}

static uint32_t convert(struct worker *worker) {
    vlm_request request = any_request(worker);
    request.flags &= VLM_VALBLK | VLM_NOQUEUE;
    request.lock = 1 + below(worker, BLOCKS);
    request.lock_kind = VLM_BY_BLOCK;
    return vlm_port_convert(&worker->port, &request);
}

static uint32_t deq(struct worker *worker) {
    static const uint32_t flags[] = {0, 0, 0, 0, VLM_DEQ_CANCEL, VLM_INVVALBLK, VLM_DEQALL};
    vlm_dequeue dequeue = dequeue_of(any_process(worker), 0);
    dequeue.flags = flags[below(worker, 7)];
    dequeue.lock = 1 + below(worker, BLOCKS);
    dequeue.lock_kind = VLM_BY_BLOCK;
    dequeue.has_value = below(worker, 2);
    dequeue.value[0] = (uint8_t)below(worker, 256);
    return vlm_port_deq(&worker->port, &dequeue);
}

static uint32_t set_value(struct worker *worker) {
    vlm_setting setting = {.size = sizeof setting, .pid = any_process(worker), .block = below(worker, BLOCKS + 1)};
    setting.has_tail = below(worker, 2);
    setting.tail[47] = 5;
    setting.value[0] = (uint8_t)below(worker, 256);
    return vlm_port_set_value(&worker->port, &setting);
}

static uint32_t any_step(struct worker *worker) {
    uint32_t choice = worker->declared ? below(worker, 100) : 0;
    if (choice < 3)
        return declare(worker);
    if (choice < 45)
        return enq(worker);
    if (choice < 60)
        return convert(worker);
    if (choice < 85)
        return deq(worker);
    if (choice < 93)
        return set_value(worker);
    return choice < 99 ? vlm_port_search(&worker->port) : vlm_port_rundown(&worker->port, any_process(worker));
}

/* Posts a list and then the departure, after which no AST comes. Takes all items. */
static void *work(void *given) {
    struct worker *worker = given;
    while (worker->posts < STEPS) {
        uint64_t random = worker->random;
        uint32_t status = vlm_port_posted(&hub_bell, any_step(worker));
        HOLD(status == VLM_NORMAL || status == VLM_FULL);
        worker->posts += status == VLM_NORMAL;
        if (status == VLM_FULL) {
            worker->random = random;
            take(worker, -1);
        } else if (below(worker, 3) == 0) {
            take(worker, 0);
        }
    }
    while (vlm_port_posted(&hub_bell, vlm_port_bye(&worker->port)) == VLM_FULL)
        take(worker, -1);
    worker->posts++;
    while (worker->answers < worker->posts)
        take(worker, -1);
    take(worker, 0);
    return NULL;
}

/* The hub's thread. */

static uint32_t keep(void *context, const vlm_entry *entries, const vlm_cut *cut) {
    (void)context;
    HOLD(cut->base == journal.count && cut->count > 0 && cut->count <= PART);
    if (journal.count + cut->count > journal.room) {
        journal.room = 2 * (journal.room + PART);
        journal.entries = realloc(journal.entries, journal.room * sizeof *entries);
        if (!journal.entries)
            abort();
    }
    memcpy(journal.entries + journal.count, entries, cut->count * sizeof *entries);
    journal.count += cut->count;
    return VLM_NORMAL;
}

static void *serve(void *service) {
    EXPECT(vlm_hub_run(service), VLM_NORMAL);
    return NULL;
}

/* What was so. */

static void replay(void) {
    vlm handle = VLM_CLOSED;
    vlm_options options = VLM_OPTIONS;
    EXPECT(vlm_open(&handle, &options), VLM_NORMAL);
    for (size_t i = 0; i < journal.count; i++)
        EXPECT(vlm_replay(&handle, &journal.entries[i]), VLM_NORMAL);
    HOLD(vlm_process_count(&handle) == 0 && vlm_resource_count(&handle) == 0);
    vlm_close(&handle);
}

static bool is_item_of(const vlm_entry *entry, uint32_t node) {
    return entry->step == VLM_STEP_TAKE ? entry->pid >> 16 == node : entry->sender == node;
}

static void expect_item(const vlm_item *item, const vlm_entry *entry) {
    if (entry->step != VLM_STEP_TAKE) {
        HOLD(item->kind == VLM_ANSWER && item->status == entry->status && item->number == entry->number);
        return;
    }
    HOLD(entry->sender == 0 && item->kind == VLM_AST && item->pid == entry->pid && item->ast.kind == entry->ast.kind);
    HOLD(item->ast.routine == entry->ast.routine && item->ast.param == entry->ast.param);
    HOLD(item->ast.lkid == entry->ast.lkid);
}

static void compare_items(const struct worker *worker) {
    uint32_t at = 0;
    for (size_t i = 0; i < journal.count; i++)
        if (is_item_of(&journal.entries[i], worker->node) && at < worker->count)
            expect_item(&worker->items[at++], &journal.entries[i]);
        else
            HOLD(!is_item_of(&journal.entries[i], worker->node));
    HOLD(at == worker->count);
}

static void make_worker(struct worker *worker, uint32_t node, uint64_t seed) {
    memset(worker, 0, sizeof *worker);
    worker->node = node;
    worker->random = 88172645463325252u + 1000 * seed + node;
    EXPECT(vlm_hub_port(&hub, node, &worker->port), VLM_NORMAL);
}

static void run(uint32_t nodes, uint64_t seed) {
    static vlm_entry part[PART];
    vlm_hub_service service = {.size = sizeof service,
                               .hub = &hub,
                               .bell = &hub_bell,
                               .bells = bells,
                               .bell_count = nodes,
                               .entries = part,
                               .capacity = PART,
                               .keep = keep};
    pthread_t server, threads[NODES];
    journal.count = 0;
    open_hub(&hub, nodes);
    for (uint32_t i = 0; i < nodes; i++)
        make_worker(&workers[i], i + 1, seed);
    if (pthread_create(&server, NULL, serve, &service))
        abort();
    for (uint32_t i = 0; i < nodes; i++)
        if (pthread_create(&threads[i], NULL, work, &workers[i]))
            abort();
    for (uint32_t i = 0; i < nodes; i++)
        pthread_join(threads[i], NULL);
    vlm_hub_stop(&service);
    pthread_join(server, NULL);
    replay();
    for (uint32_t i = 0; i < nodes; i++) {
        HOLD(workers[i].answers == STEPS + 1);
        compare_items(&workers[i]);
        vlm_port_close(&workers[i].port);
    }
    vlm_hub_close(&hub);
}

int main(void) {
    hub_bell = (vlm_bell)VLM_BELL_CLOSED;
    EXPECT(vlm_bell_open(&hub_bell), VLM_NORMAL);
    for (int i = 0; i < NODES; i++) {
        bells[i] = (vlm_bell)VLM_BELL_CLOSED;
        EXPECT(vlm_bell_open(&bells[i]), VLM_NORMAL);
    }
    for (uint32_t nodes = 3; nodes <= NODES; nodes++)
        for (long seed = 0; seed < rounds(RUNS); seed++)
            run(nodes, (uint64_t)seed);
    free(journal.entries);
    vlm_bell_close(&hub_bell);
    for (int i = 0; i < NODES; i++)
        vlm_bell_close(&bells[i]);
    printf("lists of 3 to 8 nodes: %u wrong\n", wrong);
    return wrong != 0;
}
