/* What the tests of threads of a hub share: a hub of two nodes with its service. */
#ifndef HUB_SERVICE_H
#define HUB_SERVICE_H

#include "hub_test.h"

#include "vlm_hub_wait.h"

#include <pthread.h>

/* A wait that lasts so long has lost its wake-up. */
enum { LOST = 20000 };

static inline pthread_t started(void *(*run)(void *), void *given) {
    pthread_t thread;
    if (pthread_create(&thread, NULL, run, given))
        abort();
    return thread;
}

static inline void open_bell(vlm_bell *bell) {
    *bell = (vlm_bell)VLM_BELL_CLOSED;
    EXPECT(vlm_bell_open(bell), VLM_NORMAL);
}

static vlm_hub hub;
static vlm_port ports[2];
static vlm_bell hub_bell, bells[2];
static vlm_hub_service service;

static inline void open_all(void) {
    hub = (vlm_hub)VLM_HUB_CLOSED;
    open_hub(&hub, 2);
    open_bell(&hub_bell);
    for (uint32_t i = 0; i < 2; i++) {
        ports[i] = (vlm_port)VLM_PORT_CLOSED;
        EXPECT(vlm_hub_port(&hub, i + 1, &ports[i]), VLM_NORMAL);
        open_bell(&bells[i]);
    }
    service =
        (vlm_hub_service){.size = sizeof service, .hub = &hub, .bell = &hub_bell, .bells = bells, .bell_count = 2};
}

static inline void close_all(void) {
    vlm_hub_close(&hub);
    vlm_bell_close(&hub_bell);
    for (int i = 0; i < 2; i++) {
        vlm_port_close(&ports[i]);
        vlm_bell_close(&bells[i]);
    }
}

static inline void *serve(void *given) {
    EXPECT(vlm_hub_run(&service), VLM_NORMAL);
    return given;
}

static inline uint32_t next(uint32_t node, int milliseconds, vlm_item *item) {
    *item = (vlm_item){.size = sizeof *item};
    return vlm_port_next(&ports[node - 1], &bells[node - 1], &hub_bell, milliseconds, item);
}

/* Posts a search, and waits for its answer. */
static inline void search(uint32_t node) {
    vlm_item item;
    EXPECT(vlm_port_posted(&hub_bell, vlm_port_search(&ports[node - 1])), VLM_NORMAL);
    EXPECT(next(node, LOST, &item), VLM_NORMAL);
    HOLD(item.kind == VLM_ANSWER && item.status == VLM_NORMAL);
}

#endif
