/* Status blocks that threads of ports read: how a request ended and its value, blocks that are not there, reads that
 * are not answered yet, and reads that race with the hub's sleep. */
#include "hub_service.h"

enum { ROUNDS = 5000 };

static vlm_block_read reads[2];
static const uint8_t name[] = {'A'};

static void open_with_reads(void) {
    open_all();
    memset(reads, 0, sizeof reads);
    reads[0].size = reads[1].size = sizeof reads[0];
    service.reads = reads;
}

static vlm_item next_item(uint32_t node) {
    vlm_item item;
    EXPECT(next(node, LOST, &item), VLM_NORMAL);
    return item;
}

/* A post was made: its answer. */
static void answered_at(int line, uint32_t node, uint32_t posted, uint32_t status) {
    expect_at(line, vlm_port_posted(&hub_bell, posted), VLM_NORMAL);
    vlm_item item = next_item(node);
    hold_at(line, item.kind == VLM_ANSWER, "an answer");
    expect_at(line, item.status, status);
}
#define ANSWERED(node, post, status) answered_at(__LINE__, (node), (post), (status))

static void completed_at(int line, uint32_t node) {
    vlm_item item = next_item(node);
    hold_at(line, item.kind == VLM_AST && item.ast.kind == VLM_COMPLETION, "a completion");
}
#define COMPLETED(node) completed_at(__LINE__, (node))

static uint32_t read_within(uint32_t node, int milliseconds) {
    return vlm_port_block(&ports[node - 1], &bells[node - 1], &hub_bell, milliseconds, &reads[node - 1]);
}

/* Reads a block of a process by its node's port. */
static uint32_t read_of(uint32_t node, uint32_t pid, uint32_t block) {
    reads[node - 1].pid = pid;
    reads[node - 1].block = block;
    return read_within(node, LOST);
}

static void holds_at(int line, uint32_t node, uint32_t status, uint8_t first, uint8_t last) {
    const vlm_lksb *lksb = &reads[node - 1].lksb;
    expect_at(line, read_of(node, first_of(node), 1), VLM_NORMAL);
    expect_at(line, lksb->status, status);
    hold_at(line, lksb->size == sizeof *lksb && lksb->value[0] == first && lksb->tail[47] == last, "the value");
}
#define HOLDS(node, status, first, last) holds_at(__LINE__, (node), (status), (first), (last))

static void declare(uint32_t node) {
    vlm_declaration declaration = declaration_of(node);
    ANSWERED(node, vlm_port_declare(&ports[node - 1], &declaration), VLM_NORMAL);
}

/* A wide request for the lock's value, with a completion. */
static vlm_request wide(uint32_t node, uint32_t mode) {
    vlm_request request = request_of(first_of(node), mode);
    request.flags = VLM_VALBLK | VLM_WIDE;
    request.has_ast = 1;
    return request;
}

/* Node 1 writes a value as it gives its lock up. Node 2, which has waited, is told of its grant and reads the value. */
static void a_value_goes_from_node_to_node(void) {
    vlm_request first = wide(1, VLM_EX), second = wide(2, VLM_PR), third = wide(1, VLM_EX);
    vlm_dequeue written = dequeue_of(first_of(1), 1), cancelled = dequeue_of(first_of(1), 3);
    written.has_value = written.has_tail = 1;
    written.value[0] = 7;
    written.tail[47] = 9;
    cancelled.flags = VLM_DEQ_CANCEL;
    declare(1);
    declare(2);
    ANSWERED(1, vlm_port_enq(&ports[0], &first, name, sizeof name), VLM_NORMAL);
    COMPLETED(1);
    HOLDS(1, VLM_NORMAL, 0, 0);
    ANSWERED(2, vlm_port_enq(&ports[1], &second, name, sizeof name), VLM_NORMAL);
    HOLDS(2, 0, 0, 0);
    ANSWERED(1, vlm_port_deq(&ports[0], &written), VLM_NORMAL);
    COMPLETED(2);
    HOLDS(2, VLM_NORMAL, 7, 9);
    HOLD(reads[1].lksb.lkid == 2);
    ANSWERED(1, vlm_port_enq(&ports[0], &third, name, sizeof name), VLM_NORMAL);
    ANSWERED(1, vlm_port_deq(&ports[0], &cancelled), VLM_NORMAL);
    COMPLETED(1);
    HOLDS(1, VLM_ABORT, 0, 0);
}

/* What cannot be read. After it the read serves another block. */
static void wrong_reads(void) {
    vlm_port none = VLM_PORT_CLOSED;
    vlm_bell silent = VLM_BELL_CLOSED;
    EXPECT(read_of(1, first_of(2), 1), VLM_BADPARAM);
    EXPECT(read_of(1, first_of(1) + 1, 1), VLM_BADPARAM);
    EXPECT(read_of(1, 0, 1), VLM_BADPARAM);
    EXPECT(read_of(1, first_of(1), 0), VLM_BADPARAM);
    EXPECT(read_of(1, first_of(1), 5), VLM_BADPARAM);
    EXPECT(read_of(1, first_of(1), 257), VLM_BADPARAM);
    reads[0].block = 1;
    reads[0].size--;
    EXPECT(read_within(1, LOST), VLM_BADPARAM);
    reads[0].size++;
    reads[0].reserved = 1;
    EXPECT(read_within(1, LOST), VLM_BADPARAM);
    reads[0].reserved = 0;
    /* (the hub's thread looks at it meanwhile) */
    __atomic_store_n(&reads[0].state, 3, __ATOMIC_SEQ_CST);
    EXPECT(read_within(1, LOST), VLM_BADPARAM);
    __atomic_store_n(&reads[0].state, 0, __ATOMIC_SEQ_CST);
    EXPECT(vlm_port_block(&none, &bells[0], &hub_bell, LOST, &reads[0]), VLM_BADPARAM);
    EXPECT(vlm_port_block(&ports[0], &silent, &hub_bell, LOST, &reads[0]), VLM_BADPARAM);
    EXPECT(vlm_port_block(&ports[0], &bells[0], &silent, LOST, &reads[0]), VLM_BADPARAM);
    HOLD(reads[0].state == 0);
    EXPECT(read_of(1, first_of(1), 1), VLM_NORMAL);
}

static void served(void) {
    open_with_reads();
    pthread_t server = started(serve, NULL);
    a_value_goes_from_node_to_node();
    wrong_reads();
    vlm_hub_stop(&service);
    pthread_join(server, NULL);
    close_all();
}

/* A hub that nobody serves answers when it is told to. No item is missed. */
static void by_hand(void) {
    vlm_item item;
    open_with_reads();
    vlm_declaration declaration = declaration_of(2);
    EXPECT(vlm_port_declare(&ports[1], &declaration), VLM_NORMAL);
    turns(&hub);
    HOLD(vlm_hub_answer_reads(&hub, bells, 2, reads) == 0);
    reads[1].pid = first_of(2);
    reads[1].block = 1;
    EXPECT(read_within(2, 0), VLM_TIMEOUT);
    EXPECT(vlm_bell_wait(&hub_bell, 0), VLM_NORMAL);
    EXPECT(read_within(2, 10), VLM_TIMEOUT);
    EXPECT(vlm_bell_wait(&hub_bell, 0), VLM_TIMEOUT); /* it is asked for once */
    HOLD(vlm_hub_answer_reads(&hub, bells, 1, reads) == 0);
    HOLD(vlm_hub_answer_reads(&hub, bells, 2, reads) == 1);
    HOLD(vlm_hub_answer_reads(&hub, bells, 2, reads) == 0);
    EXPECT(vlm_bell_wait(&bells[1], 0), VLM_NORMAL);
    EXPECT(read_within(2, 0), VLM_NORMAL);
    EXPECT(next(2, 0, &item), VLM_NORMAL);
    HOLD(item.kind == VLM_ANSWER && item.number == first_of(2));
    vlm_hub_close(&hub);
    EXPECT(read_within(2, 0), VLM_TIMEOUT);
    HOLD(vlm_hub_answer_reads(&hub, bells, 2, reads) == 1);
    EXPECT(read_within(2, 0), VLM_BADPARAM);
    close_all();
}

/* A service of an older header has no reads. */
static void older_service(void) {
    open_with_reads();
    service.size = offsetof(vlm_hub_service, reads);
    pthread_t server = started(serve, NULL);
    search(1);
    reads[0].pid = first_of(1);
    reads[0].block = 1;
    EXPECT(read_within(1, 0), VLM_TIMEOUT);
    search(1);
    HOLD(reads[0].state == 1);
    vlm_hub_stop(&service);
    pthread_join(server, NULL);
    close_all();
}

/* Each round writes its number into the block, and reads it. */
static void *read_often(void *given) {
    const uint32_t node = *(const uint32_t *)given;
    vlm_setting setting = {.size = sizeof setting, .pid = first_of(node), .block = 1};
    declare(node);
    for (long round = rounds(ROUNDS); round; round--) {
        setting.value[0] = (uint8_t)round;
        for (volatile long spin = round % 500; spin; spin--)
            continue;
        ANSWERED(node, vlm_port_set_value(&ports[node - 1], &setting), VLM_NORMAL);
        EXPECT(read_of(node, first_of(node), 1), VLM_NORMAL);
        HOLD(reads[node - 1].lksb.value[0] == (uint8_t)round);
    }
    return NULL;
}

static void race_of_reads(void) {
    static uint32_t nodes[2] = {1, 2};
    open_with_reads();
    pthread_t server = started(serve, NULL), threads[2];
    for (int i = 0; i < 2; i++)
        threads[i] = started(read_often, &nodes[i]);
    for (int i = 0; i < 2; i++)
        pthread_join(threads[i], NULL);
    vlm_hub_stop(&service);
    pthread_join(server, NULL);
    close_all();
}

int main(void) {
    served();
    by_hand();
    older_service();
    race_of_reads();
    printf("status blocks of ports: %u wrong\n", wrong);
    return wrong != 0;
}
