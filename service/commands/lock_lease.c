/* A lock of a session at addresses of TCP. The command can't have a connection that others replace, so the wrapper
 * keeps the lease while the command runs. */
#include "lock.h"

#include <inttypes.h>
#include <stdio.h>
#include <stdlib.h>
#include <string.h>

enum { VALUE = VALUE_DIGITS / 2, WHOLE_VALUE = 64, HEX = 16 };

static const char *const modes[] = {"NL", "CR", "CW", "PR", "PW", "EX"};

static void on_lost(void *holding) { ((struct holding *)holding)->is_lost = true; }

static void on_blocking(void *holding, const vlm_threads_event *event) {
    (void)event;
    ((struct holding *)holding)->is_blocking = true;
}

/* The next bytes of a value from two digits each. */
static void read_value(const char *digits, uint8_t *value) {
    for (size_t at = 0; at < VALUE; at++) {
        const char byte[] = {digits[2 * at], digits[2 * at + 1], 0};
        value[at] = (uint8_t)strtoul(byte, NULL, HEX);
    }
}

/* Hands the value block of a grant on. An invalid one is not handed on. */
static void hand_on_value(const vlm_threads_request *request) {
    char digits[VALUE_DIGITS + 1];
    for (size_t at = 0; at < VALUE; at++)
        snprintf(digits + 2 * at, 3, "%02x", request->value[at]);
    if (request->status == VLM_NORMAL)
        setenv("VLM_VALUE", digits, 1);
    else
        unsetenv("VLM_VALUE");
}

/* Hands the fencing token of the lock on, which came with the grant. */
static void hand_on_token(const struct holding *holding) {
    char digits[24];
    uint64_t token;
    unsetenv("VLM_TOKEN");
    if (vlm_client_token(holding->client, holding->lock, &token) == VLM_NORMAL) {
        snprintf(digits, sizeof digits, "%" PRIu64, token);
        setenv("VLM_TOKEN", digits, 1);
    }
}

/* Begins a session with a process. */
static bool begin(struct holding *holding, const struct wanted *wanted) {
    char reason[LINE_ROOM] = "";
    vlm_client_options options = {.size = sizeof options,
                                  .version = VLM_VERSION,
                                  .delivery = VLM_THREADS_BY_PROGRAM,
                                  .socket = wanted->address,
                                  .on_lost = on_lost,
                                  .lost_context = holding,
                                  .reason = reason,
                                  .reason_len = sizeof reason};
    vlm_threads_declaration declaration = {.size = sizeof declaration, .quota = 1, .requests = 1};
    uint32_t status = vlm_client_open(&options, &holding->client);
    if (status == VLM_NORMAL)
        status = vlm_client_declare(holding->client, &declaration, &holding->pid);
    if (status == VLM_NORMAL)
        return true;
    fprintf(stderr, "vlm lock: %s: %s\n", wanted->address, reason[0] != 0 ? reason : vlm_condition_name(status));
    return false;
}

/* Milliseconds as a request has them: 0 waits without an end. */
static uint32_t longest_wait(const struct wanted *wanted) {
    if (wanted->wait >= UINT32_MAX)
        return 0;
    return wanted->wait > 0 ? (uint32_t)wanted->wait : 1;
}

static vlm_threads_request request_of(struct holding *holding, const struct wanted *wanted, uint8_t *value) {
    vlm_threads_request request = {.size = sizeof request,
                                   .pid = holding->pid,
                                   .flags = VLM_VALBLK | (wanted->at_once ? VLM_NOQUEUE : 0),
                                   .milliseconds = longest_wait(wanted),
                                   .value = value};
    while (strcmp(modes[request.mode], wanted->mode) != 0)
        request.mode++;
    if (wanted->signal != 0) {
        request.blocking = on_blocking;
        request.blocking_context = holding;
    }
    return request;
}

static int get(struct holding *holding, const struct wanted *wanted) {
    uint8_t value[WHOLE_VALUE] = {0};
    if (!begin(holding, wanted))
        return REFUSED;
    vlm_threads_request request = request_of(holding, wanted, value);
    uint32_t status = vlm_client_enq(holding->client, &request, (const uint8_t *)wanted->name, strlen(wanted->name));
    holding->lock = request.lkid;
    if (status == VLM_NORMAL) {
        hand_on_value(&request);
        hand_on_token(holding);
        vlm_client_fd(holding->client, &holding->descriptor);
        return GRANTED;
    }
    vlm_client_close(holding->client);
    if (status == VLM_NOTQUEUED || status == VLM_TIMEOUT || status == VLM_DEADLOCK)
        return CONFLICT;
    if (status == VLM_LOST)
        return GONE;
    fprintf(stderr, "vlm lock: %s\n", vlm_condition_name(status));
    return REFUSED;
}

static bool hear(struct holding *holding, const struct wanted *wanted) {
    uint32_t delivered;
    (void)wanted;
    vlm_client_dispatch(holding->client, &delivered);
    return !holding->is_lost;
}

static bool give_up(struct holding *holding, const struct wanted *wanted) {
    uint8_t value[WHOLE_VALUE] = {0};
    vlm_threads_dequeue dequeue = {.size = sizeof dequeue, .pid = holding->pid, .lock = holding->lock};
    if (wanted->value != NULL) {
        read_value(wanted->value, value);
        dequeue.value = value;
    }
    bool is_held = vlm_client_deq(holding->client, &dequeue) != VLM_LOST;
    vlm_client_close(holding->client);
    return is_held;
}

const struct way by_lease = {get, hear, give_up};
