/* Each call of a hub and of a port: its answers, each kind of wrong argument, closed handles, full rings, and hubs and
 * ports that are closed in any order. */
#include "hub_test.h"

enum { PLACES = 64 };

static const uint8_t name[] = {'A'};
static const uint8_t long_name[200] = {1};

/* Reads the entry at a place. */
static vlm_entry entry_at(vlm_hub *hub, size_t place) {
    vlm_entry entry = {.size = sizeof entry};
    EXPECT(vlm_hub_entry(hub, place, &entry), VLM_NORMAL);
    return entry;
}

static void expect_entry_at(int line, vlm_hub *hub, size_t place, uint32_t sender, uint32_t step, uint32_t status) {
    vlm_entry entry = entry_at(hub, place);
    hold_at(line, entry.size == sizeof entry && entry.sender == sender && entry.step == step, "the entry");
    expect_at(line, entry.status, status);
}
#define ENTRY(hub, place, sender, step, status) expect_entry_at(__LINE__, (hub), (place), (sender), (step), (status))

static void open_with_ports(vlm_hub *hub, vlm_port *ports, uint32_t nodes) {
    open_hub(hub, nodes);
    for (uint32_t i = 0; i < nodes; i++)
        EXPECT(vlm_hub_port(hub, i + 1, &ports[i]), VLM_NORMAL);
}

/* Declares the first process of a port's node. */
static uint32_t declared(vlm_hub *hub, vlm_port *port) {
    vlm_declaration declaration = declaration_of(vlm_port_node(port));
    EXPECT(vlm_port_declare(port, &declaration), VLM_NORMAL);
    HOLD(turns(hub) == 1);
    ANSWER(port, VLM_NORMAL, first_of(declaration.node));
    return first_of(declaration.node);
}

/* A request with both routines, with a parameter of its own. */
static vlm_request armed(uint32_t pid, uint32_t mode) {
    vlm_request request = request_of(pid, mode);
    request.has_ast = request.has_bast = 1;
    request.ast = 7;
    request.bast = 8;
    request.param = 9;
    return request;
}

/* A status block of the first process of node 1, once its lock 1 is granted with this value. What is not there leaves
 * the struct as it was. */
static void its_block(vlm_hub *hub, uint8_t value) {
    static const uint32_t others[] = {0, 5, 256, 257, UINT32_MAX};
    uint32_t pid = first_of(1);
    vlm_lksb lksb = {.size = sizeof lksb}, before = {.size = sizeof before, .status = 77};
    EXPECT(vlm_hub_block(hub, pid, 1, &lksb), VLM_NORMAL);
    HOLD(lksb.size == sizeof lksb && lksb.status == VLM_NORMAL && lksb.lkid == 1 && lksb.value[0] == value);
    lksb = before;
    for (size_t i = 0; i < sizeof others / sizeof *others; i++)
        EXPECT(vlm_hub_block(hub, pid, others[i], &lksb), VLM_BADPARAM);
    EXPECT(vlm_hub_block(hub, pid + 1, 1, &lksb), VLM_BADPARAM);
    EXPECT(vlm_hub_block(hub, 0, 1, &lksb), VLM_BADPARAM);
    HOLD(!memcmp(&lksb, &before, sizeof lksb));
    lksb.size--;
    EXPECT(vlm_hub_block(hub, pid, 1, &lksb), VLM_BADPARAM);
    HOLD(lksb.status == 77);
}

/* Each step once: lock 1 of node 1 is granted, lock 2 of node 2 waits for it, and gets it. */
static void each_step(vlm_hub *hub, vlm_port *ports) {
    uint32_t p = declared(hub, &ports[0]), q = declared(hub, &ports[1]);
    vlm_setting setting = {.size = sizeof setting, .pid = p, .block = 1, .value = {1, 2, 3}};
    vlm_request first = armed(p, VLM_EX), second = armed(q, VLM_EX), weaker = request_of(p, VLM_PW);
    vlm_dequeue dequeue = dequeue_of(p, 1);
    EXPECT(vlm_port_set_value(&ports[0], &setting), VLM_NORMAL);
    EXPECT(vlm_port_enq(&ports[0], &first, name, sizeof name), VLM_NORMAL);
    HOLD(turns(hub) == 3);
    ANSWER(&ports[0], VLM_NORMAL, 0);
    ANSWER(&ports[0], VLM_NORMAL, 1);
    AST(&ports[0], p, VLM_COMPLETION, 1);
    its_block(hub, 1);
    EXPECT(vlm_port_enq(&ports[1], &second, name, sizeof name), VLM_NORMAL);
    HOLD(turns(hub) == 2);
    ANSWER(&ports[1], VLM_NORMAL, 2);
    vlm_item warned = taken(&ports[0]);
    HOLD(warned.kind == VLM_AST && warned.pid == p && warned.ast.size == sizeof warned.ast);
    HOLD(warned.ast.kind == VLM_BLOCKING && warned.ast.routine == 8 && warned.ast.param == 9 && warned.ast.lkid == 1);
    EXPECT(vlm_port_search(&ports[1]), VLM_NORMAL);
    weaker.lock = 1;
    EXPECT(vlm_port_convert(&ports[0], &weaker), VLM_NORMAL);
    EXPECT(vlm_port_deq(&ports[0], &dequeue), VLM_NORMAL);
    turns(hub);
    ANSWER(&ports[1], VLM_NORMAL, 0);
    ANSWER(&ports[0], VLM_NORMAL, 1);
    ANSWER(&ports[0], VLM_NORMAL, 0);
    AST(&ports[1], q, VLM_COMPLETION, 2);
    EXPECT(vlm_port_rundown(&ports[1], q), VLM_NORMAL);
    EXPECT(vlm_port_bye(&ports[1]), VLM_NORMAL);
    EXPECT(vlm_port_bye(&ports[1]), VLM_NORMAL);
    HOLD(turns(hub) == 3);
    ANSWER(&ports[1], VLM_NORMAL, 0);
    ANSWER(&ports[1], VLM_NORMAL, 0);
    ANSWER(&ports[1], VLM_DEPARTED, 0);
    NOTHING(&ports[0]);
    NOTHING(&ports[1]);
}

static bool is_zero(const void *bytes, size_t size) {
    static const uint8_t zeros[128];
    return size <= sizeof zeros && memcmp(bytes, zeros, size) == 0;
}
#define IS_ZERO(member) is_zero(&(member), sizeof(member))

/* The members of an entry that belong to other steps. */
static void the_rest_is_zero(const vlm_entry *entry) {
    HOLD(entry->step == VLM_STEP_DECLARE || IS_ZERO(entry->declaration));
    HOLD(entry->step == VLM_STEP_SET_VALUE || IS_ZERO(entry->setting));
    HOLD(entry->step == VLM_STEP_ENQ || entry->step == VLM_STEP_CONVERT || IS_ZERO(entry->request));
    HOLD(entry->step == VLM_STEP_ENQ || (entry->name_len == 0 && IS_ZERO(entry->name)));
    HOLD(entry->step == VLM_STEP_DEQ || IS_ZERO(entry->dequeue));
    HOLD(entry->step == VLM_STEP_TAKE || is_zero(&entry->ast.kind, sizeof entry->ast - sizeof entry->ast.size));
    HOLD(entry->step == VLM_STEP_TAKE || entry->step == VLM_STEP_RUNDOWN || entry->pid == 0);
    HOLD(entry->step == VLM_STEP_LEAVE || entry->step == VLM_STEP_SEARCH || entry->node == 0);
    HOLD(IS_ZERO(entry->reserved) && is_zero(entry->name + entry->name_len, sizeof entry->name - entry->name_len));
}

/* The journal of each_step, entry by entry. */
static void its_journal(vlm_hub *hub) {
    ENTRY(hub, 0, 1, VLM_STEP_DECLARE, VLM_NORMAL);
    ENTRY(hub, 1, 2, VLM_STEP_DECLARE, VLM_NORMAL);
    ENTRY(hub, 2, 1, VLM_STEP_SET_VALUE, VLM_NORMAL);
    ENTRY(hub, 3, 1, VLM_STEP_ENQ, VLM_NORMAL);
    ENTRY(hub, 4, 0, VLM_STEP_TAKE, VLM_NORMAL);
    ENTRY(hub, 5, 2, VLM_STEP_ENQ, VLM_NORMAL);
    ENTRY(hub, 6, 0, VLM_STEP_TAKE, VLM_NORMAL);
    vlm_entry entry = entry_at(hub, 0);
    HOLD(entry.number == first_of(1) && entry.declaration.size == sizeof entry.declaration);
    HOLD(entry.declaration.node == 1 && entry.declaration.quota == 200 && entry.declaration.blocks == 4);
    entry = entry_at(hub, 2);
    HOLD(entry.setting.size == sizeof entry.setting && entry.setting.pid == first_of(1) && entry.setting.value[2] == 3);
    HOLD(entry.number == 0);
    entry = entry_at(hub, 3);
    HOLD(entry.number == 1 && entry.name_len == 1 && entry.name[0] == 'A' && entry.name[1] == 0);
    HOLD(entry.request.size == sizeof entry.request && entry.request.mode == VLM_EX && entry.request.has_ast == 1);
    HOLD(entry.request.ast == 7 && entry.request.bast == 8 && entry.request.param == 9);
    entry = entry_at(hub, 6);
    HOLD(entry.pid == first_of(1) && entry.number == 0 && entry.ast.size == sizeof entry.ast);
    HOLD(entry.ast.kind == VLM_BLOCKING && entry.ast.routine == 8 && entry.ast.param == 9 && entry.ast.lkid == 1);
    size_t last = vlm_hub_entries(hub) - 1;
    for (size_t place = 0; place <= last; place++) {
        entry = entry_at(hub, place);
        the_rest_is_zero(&entry);
    }
    ENTRY(hub, last, 2, VLM_STEP_LEAVE, VLM_DEPARTED);
    HOLD(entry_at(hub, last).node == 2);
    ENTRY(hub, last - 2, 2, VLM_STEP_RUNDOWN, VLM_NORMAL);
    HOLD(entry_at(hub, last - 2).pid == first_of(2));
}

/* All entries replay with their answers, and a changed one does not. */
static void it_replays(const vlm_entry *entries, uint64_t count) {
    vlm handle = VLM_CLOSED;
    vlm_options options = VLM_OPTIONS;
    vlm_entry changed = entries[0];
    EXPECT(vlm_replay(&handle, &changed), VLM_BADPARAM);
    EXPECT(vlm_open(&handle, &options), VLM_NORMAL);
    changed.status = VLM_INSFMEM;
    EXPECT(vlm_replay(&handle, &changed), VLM_NORMAL);
    HOLD(vlm_process_count(&handle) == 0);
    changed.status = VLM_NORMAL;
    changed.size = 511;
    EXPECT(vlm_replay(&handle, &changed), VLM_BADPARAM);
    changed.size = sizeof changed;
    changed.name_len = 33;
    EXPECT(vlm_replay(&handle, &changed), VLM_BADPARAM);
    changed.name_len = 0;
    changed.step = 10;
    EXPECT(vlm_replay(&handle, &changed), VLM_BADPARAM);
    changed = (vlm_entry){.size = sizeof changed};
    EXPECT(vlm_replay(&handle, &changed), VLM_BADPARAM);
    HOLD(vlm_process_count(&handle) == 0);
    for (uint64_t i = 0; i < count; i++) {
        changed = entries[i];
        changed.number++;
        if (entries[i].step == VLM_STEP_SEARCH) /* (it changes nothing here) */
            EXPECT(vlm_replay(&handle, &changed), VLM_BADPARAM);
        EXPECT(vlm_replay(&handle, &entries[i]), VLM_NORMAL);
    }
    EXPECT(vlm_replay(&handle, &entries[0]), VLM_BADPARAM);
    vlm_close(&handle);
}

/* A cut hands out all entries, or none if they have no place. */
static void it_is_cut(vlm_hub *hub) {
    static vlm_entry entries[40], before;
    vlm_cut cut = {.size = sizeof cut, .entry_size = sizeof *entries, .base = 99, .count = 99};
    size_t count = vlm_hub_entries(hub);
    memset(entries, 0xA5, sizeof entries);
    before = entries[0];
    EXPECT(vlm_hub_cut(hub, entries, count - 1, &cut), VLM_IVBUFLEN);
    HOLD(cut.base == 99 && cut.count == 99 && memcmp(&before, entries, sizeof before) == 0);
    cut.size = 31;
    EXPECT(vlm_hub_cut(hub, entries, 40, &cut), VLM_BADPARAM);
    cut.size = sizeof cut;
    cut.entry_size = 511;
    EXPECT(vlm_hub_cut(hub, entries, 40, &cut), VLM_BADPARAM);
    HOLD(cut.base == 99 && cut.count == 99 && memcmp(&before, entries, sizeof before) == 0);
    HOLD(vlm_hub_entries(hub) == count);
    cut.entry_size = sizeof *entries;
    EXPECT(vlm_hub_cut(hub, entries, count, &cut), VLM_NORMAL);
    HOLD(cut.base == 0 && cut.count == count && vlm_hub_entries(hub) == 0);
    HOLD(memcmp(&before, &entries[count], sizeof before) == 0);
    it_replays(entries, cut.count);
    EXPECT(vlm_hub_cut(hub, entries, 0, &cut), VLM_NORMAL);
    HOLD(cut.base == count && cut.count == 0);
}

static void steps_and_journal(void) {
    vlm_hub hub = VLM_HUB_CLOSED;
    vlm_port ports[2] = {VLM_PORT_CLOSED, VLM_PORT_CLOSED};
    open_with_ports(&hub, ports, 2);
    HOLD(vlm_hub_nodes(&hub) == 2 && vlm_hub_entries(&hub) == 0);
    HOLD(vlm_port_node(&ports[0]) == 1 && vlm_port_node(&ports[1]) == 2);
    each_step(&hub, ports);
    its_journal(&hub);
    it_is_cut(&hub);
    EXPECT(vlm_hub_lost(&hub, 1), VLM_NORMAL);
    EXPECT(vlm_hub_lost(&hub, 1), VLM_DEPARTED);
    EXPECT(vlm_hub_lost(&hub, 2), VLM_DEPARTED);
    EXPECT(vlm_hub_lost(&hub, 8), VLM_NORMAL);
    EXPECT(vlm_hub_lost(&hub, 0), VLM_BADPARAM);
    EXPECT(vlm_hub_lost(&hub, 9), VLM_BADPARAM);
    HOLD(vlm_hub_entries(&hub) == 4);
    ENTRY(&hub, 0, 0, VLM_STEP_LEAVE, VLM_NORMAL);
    EXPECT(vlm_port_search(&ports[0]), VLM_NORMAL);
    turns(&hub);
    ANSWER(&ports[0], VLM_DEPARTED, 0);
    vlm_hub_close(&hub);
    vlm_port_close(&ports[0]);
    vlm_port_close(&ports[1]);
}

/* Wrong arguments of an opening, and of a port's making. */
static void wrong_openings(void) {
    vlm_hub hub = VLM_HUB_CLOSED;
    vlm_port port = VLM_PORT_CLOSED, again = VLM_PORT_CLOSED;
    vlm_options options = VLM_OPTIONS;
    EXPECT(vlm_hub_open(&hub, 0, &options), VLM_BADPARAM);
    EXPECT(vlm_hub_open(&hub, 9, &options), VLM_BADPARAM);
    EXPECT(vlm_hub_open(&hub, 257, &options), VLM_BADPARAM);
    options.version += 0x100;
    EXPECT(vlm_hub_open(&hub, 2, &options), VLM_BADPARAM);
    options.version -= 0x100;
    options.size = 63;
    EXPECT(vlm_hub_open(&hub, 2, &options), VLM_BADPARAM);
    options.size = sizeof options;
    options.has_keys = 2;
    EXPECT(vlm_hub_open(&hub, 2, &options), VLM_BADPARAM);
    options.has_keys = 1;
    options.reserved[8] = 1;
    EXPECT(vlm_hub_open(&hub, 2, &options), VLM_BADPARAM);
    options.reserved[8] = 0;
    HOLD(!hub.is_held && hub.held == NULL);
    EXPECT(vlm_hub_open(&hub, 2, &options), VLM_NORMAL);
    EXPECT(vlm_hub_open(&hub, 2, &options), VLM_BADPARAM);
    EXPECT(vlm_hub_port(&hub, 0, &port), VLM_BADPARAM);
    EXPECT(vlm_hub_port(&hub, 3, &port), VLM_BADPARAM);
    EXPECT(vlm_hub_port(&hub, 9, &port), VLM_BADPARAM);
    EXPECT(vlm_hub_port(&hub, 258, &port), VLM_BADPARAM);
    HOLD(!port.is_held && port.held == NULL);
    EXPECT(vlm_hub_port(&hub, 2, &port), VLM_NORMAL);
    EXPECT(vlm_hub_port(&hub, 2, &again), VLM_BADPARAM);
    EXPECT(vlm_hub_port(&hub, 1, &port), VLM_BADPARAM);
    HOLD(!again.is_held && vlm_port_node(&port) == 2);
    vlm_port_close(&port);
    EXPECT(vlm_hub_port(&hub, 2, &port), VLM_BADPARAM);
    EXPECT(vlm_hub_port(&hub, 1, &port), VLM_NORMAL);
    vlm_port_close(&port);
    vlm_hub_close(&hub);
}

/* One post with one member changed, then the right words again. */
#define WITH(words, member, value, post)    \
    do {                                    \
        __typeof__(words) before = (words); \
        (words).member = (value);           \
        EXPECT(post, VLM_BADPARAM);         \
        (words) = before;                   \
    } while (0)

#define DECLARE vlm_port_declare(port, &declaration)
#define SET vlm_port_set_value(port, &setting)
#define ENQ vlm_port_enq(port, &request, name, sizeof name)
#define CONVERT vlm_port_convert(port, &request)
#define DEQ vlm_port_deq(port, &dequeue)

static void wrong_requests(vlm_port *port) {
    vlm_request request = armed(first_of(2), VLM_EX);
    static const uint32_t pids[] = {0, 1, 65537, 3 * 65536 + 1, UINT32_MAX};
    for (size_t i = 0; i < sizeof pids / sizeof *pids; i++) {
        WITH(request, pid, pids[i], ENQ);
        WITH(request, pid, pids[i], CONVERT);
    }
    for (size_t i = 0; i < 20; i++) {
        WITH(request, reserved[i], 1, ENQ);
        WITH(request, reserved[i], 1, CONVERT);
    }
    WITH(request, size, 127, ENQ);
    WITH(request, size, 0, CONVERT);
    WITH(request, mode, 6, ENQ);
    WITH(request, mode, 256, CONVERT);
    WITH(request, flags, 65536, ENQ);
    WITH(request, flags, 65536, CONVERT);
    WITH(request, block, 256, ENQ);
    WITH(request, lock_kind, 2, CONVERT);
    WITH(request, has_ast, 2, ENQ);
    WITH(request, has_bast, 2, CONVERT);
    request.lock = 256;
    WITH(request, lock_kind, VLM_BY_BLOCK, ENQ);
    WITH(request, lock_kind, VLM_BY_BLOCK, CONVERT);
}

/* Wrong words of each post, at the port of node 2. */
static void wrong_posts(vlm_port *port) {
    vlm_declaration declaration = declaration_of(2);
    vlm_setting setting = {.size = sizeof setting, .pid = first_of(2), .block = 1};
    vlm_dequeue dequeue = dequeue_of(first_of(2), 0);
    wrong_requests(port);
    static const uint32_t nodes[] = {0, 1, 3, 9, 258, UINT32_MAX};
    for (size_t i = 0; i < sizeof nodes / sizeof *nodes; i++) {
        WITH(declaration, node, nodes[i], DECLARE);
        WITH(setting, pid, nodes[i] << 16 | 1, SET);
        WITH(dequeue, pid, nodes[i] << 16 | 1, DEQ);
        EXPECT(vlm_port_rundown(port, nodes[i] << 16 | 1), VLM_BADPARAM);
    }
    for (size_t i = 0; i < 2; i++)
        WITH(declaration, reserved[i], 1, DECLARE);
    for (size_t i = 0; i < 4; i++)
        WITH(setting, reserved[i], 1, SET);
    for (size_t i = 0; i < 9; i++)
        WITH(dequeue, reserved[i], 1, DEQ);
    WITH(declaration, size, 31, DECLARE);
    WITH(declaration, group, 65536, DECLARE);
    WITH(declaration, syslck, 2, DECLARE);
    WITH(declaration, quota, 65536, DECLARE);
    WITH(declaration, blocks, 256, DECLARE);
    WITH(setting, size, 95, SET);
    WITH(setting, block, 256, SET);
    WITH(setting, has_tail, 2, SET);
    WITH(dequeue, size, 127, DEQ);
    WITH(dequeue, flags, 65536, DEQ);
    WITH(dequeue, lock_kind, 2, DEQ);
    WITH(dequeue, has_value, 2, DEQ);
    WITH(dequeue, has_tail, 2, DEQ);
    dequeue.lock = 256;
    WITH(dequeue, lock_kind, VLM_BY_BLOCK, DEQ);
}

/* Structs to be written of another size: nothing is written. */
static void wrong_readings(vlm_hub *hub, vlm_port *port) {
    vlm_item item, item_before;
    vlm_entry entry, entry_before;
    memset(&item, 0xA5, sizeof item);
    memset(&entry, 0xA5, sizeof entry);
    item_before = item;
    entry_before = entry;
    EXPECT(vlm_port_take(port, &item), VLM_BADPARAM);
    EXPECT(vlm_hub_entry(hub, 0, &entry), VLM_BADPARAM);
    HOLD(memcmp(&item, &item_before, sizeof item) == 0 && memcmp(&entry, &entry_before, sizeof entry) == 0);
    entry.size = entry_before.size = sizeof entry;
    EXPECT(vlm_hub_entry(hub, vlm_hub_entries(hub), &entry), VLM_BADPARAM);
    EXPECT(vlm_hub_entry(hub, SIZE_MAX, &entry), VLM_BADPARAM);
    HOLD(memcmp(&entry, &entry_before, sizeof entry) == 0);
}

/* Right words that the core refuses are posts like others. */
static void refused_steps(vlm_hub *hub, vlm_port *port) {
    vlm_request request = request_of(first_of(2), VLM_EX);
    vlm_dequeue dequeue = dequeue_of(first_of(2), 12345);
    static const size_t lengths[] = {0, 32, sizeof long_name};
    for (size_t i = 0; i < sizeof lengths / sizeof *lengths; i++) {
        EXPECT(vlm_port_enq(port, &request, long_name, lengths[i]), VLM_NORMAL);
        turns(hub);
        ANSWER(port, VLM_IVBUFLEN, 0);
        HOLD(entry_at(hub, vlm_hub_entries(hub) - 1).name_len <= 32);
    }
    EXPECT(vlm_port_deq(port, &dequeue), VLM_NORMAL);
    EXPECT(vlm_port_rundown(port, first_of(2) + 1), VLM_NORMAL);
    request.block = 5;
    EXPECT(vlm_port_enq(port, &request, name, sizeof name), VLM_NORMAL);
    turns(hub);
    ANSWER(port, VLM_IVLOCKID, 0);
    ANSWER(port, VLM_NONEXPR, 0);
    ANSWER(port, VLM_ACCVIO, 0);
}

static void wrong_arguments(void) {
    vlm_hub hub = VLM_HUB_CLOSED;
    vlm_port ports[3] = {VLM_PORT_CLOSED, VLM_PORT_CLOSED, VLM_PORT_CLOSED};
    vlm_entry entries[10];
    vlm_cut cut = {.size = sizeof cut, .entry_size = sizeof *entries};
    open_with_ports(&hub, ports, 3);
    declared(&hub, &ports[1]);
    wrong_posts(&ports[1]);
    wrong_readings(&hub, &ports[1]);
    HOLD(turns(&hub) == 0 && vlm_hub_entries(&hub) == 1);
    refused_steps(&hub, &ports[1]);
    EXPECT(vlm_hub_cut(&hub, entries, 10, &cut), VLM_NORMAL);
    HOLD(cut.count == 7);
    it_replays(entries, cut.count);
    for (int i = 0; i < 3; i++) {
        NOTHING(&ports[i]);
        vlm_port_close(&ports[i]);
    }
    vlm_hub_close(&hub);
}

/* All calls on handles with nothing. */
static void closed_handles(vlm_hub *hub, vlm_port *port) {
    vlm_port other = VLM_PORT_CLOSED;
    vlm_item item = {.size = sizeof item, .kind = 9};
    vlm_entry entry = {.size = sizeof entry, .step = 77};
    vlm_cut cut = {.size = sizeof cut, .entry_size = sizeof entry, .count = 9};
    vlm_lksb lksb = {.size = sizeof lksb, .status = 77};
    vlm_declaration declaration = declaration_of(1);
    vlm_setting setting = {.size = sizeof setting, .pid = first_of(1), .block = 1};
    vlm_request request = request_of(first_of(1), VLM_EX);
    vlm_dequeue dequeue = dequeue_of(first_of(1), 1);
    size_t made = 9, waiting = 9;
    EXPECT(vlm_hub_port(hub, 1, &other), VLM_BADPARAM);
    EXPECT(vlm_hub_turn(hub, &made), VLM_BADPARAM);
    HOLD(made == 0);
    EXPECT(vlm_hub_lost(hub, 1), VLM_BADPARAM);
    EXPECT(vlm_hub_entry(hub, 0, &entry), VLM_BADPARAM);
    EXPECT(vlm_hub_cut(hub, &entry, 1, &cut), VLM_BADPARAM);
    EXPECT(vlm_hub_block(hub, first_of(1), 1, &lksb), VLM_BADPARAM);
    HOLD(vlm_hub_nodes(hub) == 0 && vlm_hub_entries(hub) == 0 && entry.step == 77 && cut.count == 9);
    HOLD(lksb.status == 77);
    EXPECT(DECLARE, VLM_BADPARAM);
    EXPECT(SET, VLM_BADPARAM);
    EXPECT(ENQ, VLM_BADPARAM);
    EXPECT(CONVERT, VLM_BADPARAM);
    EXPECT(DEQ, VLM_BADPARAM);
    EXPECT(vlm_port_rundown(port, first_of(1)), VLM_BADPARAM);
    EXPECT(vlm_port_search(port), VLM_BADPARAM);
    EXPECT(vlm_port_bye(port), VLM_BADPARAM);
    EXPECT(vlm_port_take(port, &item), VLM_BADPARAM);
    EXPECT(vlm_hub_waiting(hub, 1, &waiting), VLM_BADPARAM);
    EXPECT(vlm_port_waiting(port, &waiting), VLM_BADPARAM);
    HOLD(vlm_port_node(port) == 0 && item.kind == 9 && waiting == 9);
    vlm_hub_close(hub);
    vlm_port_close(port);
    HOLD(!hub->is_held && !hub->held && !port->is_held && !port->held && !other.is_held);
}

static void closings(void) {
    vlm_hub hub = VLM_HUB_CLOSED;
    vlm_port ports[2] = {VLM_PORT_CLOSED, VLM_PORT_CLOSED};
    closed_handles(&hub, &ports[0]);
    open_with_ports(&hub, ports, 2);
    uint32_t p = declared(&hub, &ports[0]);
    vlm_request request = armed(p, VLM_EX);
    EXPECT(vlm_port_enq(&ports[0], &request, name, sizeof name), VLM_NORMAL);
    vlm_port_close(&ports[0]); /* the hub makes its post, and serves the others */
    HOLD(turns(&hub) == 2);
    declared(&hub, &ports[1]);
    EXPECT(vlm_port_search(&ports[1]), VLM_NORMAL);
    turns(&hub);
    vlm_hub_close(&hub); /* the port keeps its items, and nobody answers it */
    ANSWER(&ports[1], VLM_NORMAL, 0);
    for (int i = 0; i < PLACES; i++)
        EXPECT(vlm_port_search(&ports[1]), VLM_NORMAL);
    EXPECT(vlm_port_search(&ports[1]), VLM_FULL);
    NOTHING(&ports[1]);
    vlm_port_close(&ports[1]);
    closed_handles(&hub, &ports[1]);
    open_hub(&hub, 8); /* and a hub that gave no port */
    vlm_hub_close(&hub);
    closed_handles(&hub, &ports[0]);
}

/* So many posts of node 1 and items for it wait; there is no node 0, 2 or 9. */
static void waits(vlm_hub *hub, vlm_port *port, size_t posts, size_t items) {
    static const uint32_t others[] = {0, 2, 9, 257, UINT32_MAX};
    size_t count = 77;
    for (size_t i = 0; i < sizeof others / sizeof *others; i++)
        EXPECT(vlm_hub_waiting(hub, others[i], &count), VLM_BADPARAM);
    HOLD(count == 77);
    EXPECT(vlm_hub_waiting(hub, 1, &count), VLM_NORMAL);
    HOLD(count == posts);
    EXPECT(vlm_port_waiting(port, &count), VLM_NORMAL);
    HOLD(count == items);
}

/* The 65th post is refused. After it the 64 others are answered in their order. */
static void full_posts(void) {
    vlm_hub hub = VLM_HUB_CLOSED;
    vlm_port port = VLM_PORT_CLOSED;
    open_with_ports(&hub, &port, 1);
    vlm_declaration declaration = declaration_of(1);
    for (uint32_t round = 0; round < 3; round++) {
        for (uint32_t i = 0; i < PLACES; i++)
            EXPECT(vlm_port_declare(&port, &declaration), VLM_NORMAL);
        EXPECT(vlm_port_declare(&port, &declaration), VLM_FULL);
        declaration.node = 2;
        EXPECT(vlm_port_declare(&port, &declaration), VLM_BADPARAM);
        declaration.node = 1;
        waits(&hub, &port, PLACES, 0);
        HOLD(turns(&hub) == PLACES);
        waits(&hub, &port, 0, PLACES);
        for (uint32_t i = 0; i < PLACES; i++)
            ANSWER(&port, VLM_NORMAL, first_of(1) + round * PLACES + i);
        NOTHING(&port);
    }
    vlm_hub_close(&hub);
    vlm_port_close(&port);
}

/* A port that takes nothing: the hub sends it 64 items, and serves the other one on. */
static void full_items(void) {
    vlm_hub hub = VLM_HUB_CLOSED;
    vlm_port ports[2] = {VLM_PORT_CLOSED, VLM_PORT_CLOSED};
    size_t made;
    open_with_ports(&hub, ports, 2);
    uint32_t p = declared(&hub, &ports[0]);
    vlm_request request = armed(p, VLM_NL);
    for (uint32_t i = 0; i < PLACES / 2; i++) {
        EXPECT(vlm_port_enq(&ports[0], &request, name, sizeof name), VLM_NORMAL);
        turns(&hub);
    }
    EXPECT(vlm_port_search(&ports[0]), VLM_NORMAL);
    EXPECT(vlm_hub_turn(&hub, &made), VLM_NORMAL);
    HOLD(made == 0);
    for (uint32_t i = 0; i < 3 * PLACES; i++) {
        EXPECT(vlm_port_search(&ports[1]), VLM_NORMAL);
        HOLD(turns(&hub) == 1);
        ANSWER(&ports[1], VLM_NORMAL, 0);
    }
    for (uint32_t i = 0; i < PLACES / 2; i++) {
        ANSWER(&ports[0], VLM_NORMAL, i + 1);
        AST(&ports[0], p, VLM_COMPLETION, i + 1);
    }
    NOTHING(&ports[0]);
    HOLD(turns(&hub) == 1);
    ANSWER(&ports[0], VLM_NORMAL, 0);
    NOTHING(&ports[0]);
    vlm_port_close(&ports[0]);
    vlm_port_close(&ports[1]);
    vlm_hub_close(&hub);
}

/* Two hubs side by side: both have a lock 1 on A, and each port only hears of its own hub. */
static void two_hubs(void) {
    vlm_hub hubs[2] = {VLM_HUB_CLOSED, VLM_HUB_CLOSED};
    vlm_port ports[2] = {VLM_PORT_CLOSED, VLM_PORT_CLOSED};
    vlm_request request = armed(first_of(1), VLM_EX);
    for (int i = 0; i < 2; i++) {
        open_with_ports(&hubs[i], &ports[i], 1);
        declared(&hubs[i], &ports[i]);
    }
    for (int i = 0; i < 2; i++)
        EXPECT(vlm_port_enq(&ports[i], &request, name, sizeof name), VLM_NORMAL);
    HOLD(turns(&hubs[0]) == 2);
    NOTHING(&ports[1]);
    ANSWER(&ports[0], VLM_NORMAL, 1);
    AST(&ports[0], first_of(1), VLM_COMPLETION, 1);
    vlm_hub_close(&hubs[0]);
    HOLD(turns(&hubs[1]) == 2 && vlm_hub_entries(&hubs[1]) == 3);
    NOTHING(&ports[0]);
    ANSWER(&ports[1], VLM_NORMAL, 1);
    AST(&ports[1], first_of(1), VLM_COMPLETION, 1);
    for (int i = 0; i < 2; i++) {
        vlm_port_close(&ports[i]);
        vlm_hub_close(&hubs[i]);
    }
}

int main(void) {
    HOLD(strcmp(vlm_condition_name(VLM_FULL), "FULL") == 0 && vlm_condition_name(VLM_FULL + 1) == NULL);
    steps_and_journal();
    wrong_openings();
    wrong_arguments();
    closings();
    full_posts();
    full_items();
    two_hubs();
    printf("%u calls of a hub and its ports, %u wrong\n", calls, wrong);
    return wrong != 0;
}
