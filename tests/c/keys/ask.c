/* Takes a lock on each name that it reads, one a line, of a lock manager (`open`) or through the port of a hub (`hub`),
 * with keys of its own (`own`) or the library's fixed ones (`fixed`). Prints how many locks it has. */
#include "vlm_hub.h"

#include <stdio.h>
#include <string.h>

static vlm handle = VLM_CLOSED;
static vlm_hub hub = VLM_HUB_CLOSED;
static vlm_port port = VLM_PORT_CLOSED;
static const vlm_declaration declaration = {
    .size = sizeof declaration, .node = 1, .group = 1, .quota = 65535, .blocks = 1};

static uint32_t open_manager(const vlm_options *options, uint32_t *pid) {
    uint32_t status = vlm_open(&handle, options);
    return status == VLM_NORMAL ? vlm_declare(&handle, &declaration, pid) : status;
}

static uint32_t ask_manager(const vlm_request *request, const char *name, uint32_t *number) {
    return vlm_enq(&handle, request, (const uint8_t *)name, strlen(name), number);
}

/* The answer to a post. */
static uint32_t answer(uint32_t posted, uint32_t *number) {
    size_t made;
    vlm_item item = {.size = sizeof item};
    if (posted != VLM_NORMAL || vlm_hub_turn(&hub, &made) != VLM_NORMAL || vlm_port_take(&port, &item) != VLM_NORMAL)
        return VLM_BADPARAM;
    *number = item.number;
    return item.kind == VLM_ANSWER ? item.status : VLM_BADPARAM;
}

static uint32_t open_hub(const vlm_options *options, uint32_t *pid) {
    uint32_t status = vlm_hub_open(&hub, 1, options);
    if (status == VLM_NORMAL)
        status = vlm_hub_port(&hub, 1, &port);
    return status == VLM_NORMAL ? answer(vlm_port_declare(&port, &declaration), pid) : status;
}

static uint32_t ask_hub(const vlm_request *request, const char *name, uint32_t *number) {
    return answer(vlm_port_enq(&port, request, (const uint8_t *)name, strlen(name)), number);
}

int main(int count, char **words) {
    vlm_options options = VLM_OPTIONS;
    vlm_request request = {.size = sizeof request, .mode = VLM_EX, .block = 1};
    char name[64];
    uint32_t number = 0;
    if (count != 3)
        return 2;
    int by_hub = !strcmp(words[1], "hub");
    options.has_keys = !strcmp(words[2], "own");
    if (options.has_keys)
        memcpy(options.keys, "sixteen of them.", sizeof options.keys);
    if ((by_hub ? open_hub : open_manager)(&options, &request.pid) != VLM_NORMAL)
        return 1;
    while (fgets(name, sizeof name, stdin)) {
        name[strcspn(name, "\n")] = 0;
        if ((by_hub ? ask_hub : ask_manager)(&request, name, &number) != VLM_NORMAL)
            return 1;
    }
    printf("%d locks\n", (int)number);
    vlm_close(&handle);
    vlm_port_close(&port);
    vlm_hub_close(&hub);
    return 0;
}
