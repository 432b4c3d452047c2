/* Two threads count under a lock. Each has a port of a hub, which a third thread serves. */
#include <pthread.h>
#include <stdio.h>
#include <vlm_hub_wait.h>

enum { NODES = 2 };

static vlm_hub hub = VLM_HUB_CLOSED;
static vlm_port ports[NODES] = {VLM_PORT_CLOSED, VLM_PORT_CLOSED};
static vlm_bell hub_bell = VLM_BELL_CLOSED, bells[NODES] = {VLM_BELL_CLOSED, VLM_BELL_CLOSED};
static _Atomic int counted; /* guarded by EX on A; atomic only for the thread sanitizer */

/* Waits for the next item of a node: the number in it, if it is an answer. */
static uint32_t next(uint32_t node) {
    vlm_item item = {.size = sizeof item};
    vlm_port_next(&ports[node - 1], &bells[node - 1], &hub_bell, -1, &item);
    return item.number;
}

static void *work(void *given) {
    uint32_t node = *(uint32_t *)given;
    vlm_port *port = &ports[node - 1];
    vlm_declaration declaration = {.size = sizeof declaration, .node = node, .quota = 9, .blocks = 1};
    vlm_port_posted(&hub_bell, vlm_port_declare(port, &declaration));
    vlm_request request = {.size = sizeof request, .pid = next(node), .mode = VLM_EX, .block = 1, .has_ast = 1};
    vlm_dequeue dequeue = {.size = sizeof dequeue, .pid = request.pid};
    for (int i = 0; i < 1000; i++) {
        vlm_port_posted(&hub_bell, vlm_port_enq(port, &request, (const uint8_t *)"A", 1));
        dequeue.lock = next(node); /* the answer: there is a lock, and perhaps it waits */
        next(node);                /* its completion AST: the lock is granted */
        counted = counted + 1;
        vlm_port_posted(&hub_bell, vlm_port_deq(port, &dequeue));
        next(node);
    }
    return NULL;
}

static void *serve(void *service) {
    vlm_hub_run(service);
    return NULL;
}

int main(void) {
    vlm_options options = VLM_OPTIONS;
    vlm_hub_service service = {
        .size = sizeof service, .hub = &hub, .bell = &hub_bell, .bells = bells, .bell_count = NODES};
    uint32_t nodes[NODES] = {1, 2};
    pthread_t server, threads[NODES];
    if (vlm_hub_open(&hub, NODES, &options) != VLM_NORMAL || vlm_bell_open(&hub_bell) != VLM_NORMAL)
        return 1;
    for (int i = 0; i < NODES; i++)
        if (vlm_hub_port(&hub, nodes[i], &ports[i]) != VLM_NORMAL || vlm_bell_open(&bells[i]) != VLM_NORMAL)
            return 2;
    if (pthread_create(&server, NULL, serve, &service))
        return 3;
    for (int i = 0; i < NODES; i++)
        if (pthread_create(&threads[i], NULL, work, &nodes[i]))
            return 4;
    for (int i = 0; i < NODES; i++)
        pthread_join(threads[i], NULL);
    vlm_hub_stop(&service);
    pthread_join(server, NULL);
    printf("%d counted, %d entries in the journal\n", counted, (int)vlm_hub_entries(&hub));
    for (int i = 0; i < NODES; i++) {
        vlm_port_close(&ports[i]);
        vlm_bell_close(&bells[i]);
    }
    vlm_hub_close(&hub);
    vlm_bell_close(&hub_bell);
    return 0;
}
