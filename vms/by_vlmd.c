/* The lock service vlmd, by vlm_client.h. Readings are lines of the service, which vlm-protocol(7) has. */
#include "parts.h"

#include <vlm_client.h>

#include <inttypes.h>
#include <stdio.h>
#include <stdlib.h>
#include <string.h>

enum { HEX = 16, NAME_TEXT = 80, TAIL_VALUE = WHOLE_VALUE - SHORT_VALUE, DECIMAL = 10 };

static vlm_client *client;
static uint32_t own_pid;

static uint32_t open_client(const char *address, uint32_t quota) {
    vlm_client_options options = {
        .size = sizeof options, .version = VLM_VERSION, .socket = address, .on_lost = vms_lost};
    vlm_threads_declaration declaration = {.size = sizeof declaration, .quota = quota, .requests = MOST_REQUESTS};
    uint32_t status = vlm_client_open(&options, &client);
    if (status == VLM_NORMAL)
        status = vlm_client_declare(client, &declaration, &own_pid);
    if (status != VLM_NORMAL && client != NULL)
        vlm_client_close(client);
    return status;
}

static uint32_t ask(vlm_threads_request *request, const uint8_t *name, size_t name_len) {
    request->pid = own_pid;
    return name != NULL ? vlm_client_start_enq(client, request, name, name_len)
                        : vlm_client_start_convert(client, request);
}

static uint32_t give_up(vlm_threads_dequeue *dequeue) {
    dequeue->pid = own_pid;
    return vlm_client_deq(client, dequeue);
}

/* Reads the answer to a line about a lock. The caller frees *text. */
static uint32_t read_text(const char *word, uint32_t lkid, char **text) {
    uint32_t status = vlm_client_read(client, word, lkid, text);
    const char *const refusals[] = {"no such lock", "too many locks", "unknown command"};
    const uint32_t statuses[] = {VLM_IVLOCKID, VLM_FULL, VLM_UNSUPPORTED};
    for (size_t at = 0; status == VLM_NORMAL && at < sizeof refusals / sizeof *refusals; at++)
        if (strncmp(*text, refusals[at], strlen(refusals[at])) == 0)
            status = statuses[at];
    if (status == VLM_NORMAL)
        return VLM_NORMAL;
    free(*text);
    *text = NULL;
    return status;
}

static uint32_t mode_of(const char *name) {
    static const char *const names[] = {"NL", "CR", "CW", "PR", "PW", "EX"};
    for (uint32_t mode = 0; mode < sizeof names / sizeof *names; mode++)
        if (strcmp(name, names[mode]) == 0)
            return mode;
    return VLM_NO_MODE;
}

/* Reads a row: whether it is one. */
static bool read_row(const char *line, struct row *row) {
    char held[3], want[3], queue[12];
    uint64_t handle;
    if (sscanf(line, "lock %" SCNu64 " pid %" SCNu32 " held %2s want %2s %11s", &handle, &row->pid, held, want, queue)
        != 5)
        return false;
    row->lkid = (uint32_t)handle;
    row->held = mode_of(held);
    row->want = mode_of(want);
    row->queue = queue[0] == 'g' ? VLM_GRANTED : queue[0] == 'c' ? VLM_CONVERSION : VLM_WAITING;
    return true;
}

static const char *next_line(const char *line) {
    const char *feed = strchr(line, '\n');
    return feed != NULL ? feed + 1 : line + strlen(line);
}

static uint32_t list(enum list list, uint32_t lkid, struct rows *rows) {
    static const char *const words[] = {
        [ALL] = "locks", [ON_RESOURCE] = "rows", [BLOCKERS] = "blockers", [BLOCKED] = "blocked"};
    char *text;
    struct row row;
    uint32_t status = read_text(words[list], lkid, &text);
    if (status != VLM_NORMAL)
        return status;
    for (const char *line = text; status == VLM_NORMAL && read_row(line, &row); line = next_line(line))
        status = vms_add_row(rows, &row) ? VLM_NORMAL : VLM_INSFMEM;
    free(text);
    return status;
}

/* Reads bytes that are written as two digits each, at most `most`. How many. */
static uint32_t read_hex(const char *text, uint8_t *bytes, uint32_t most) {
    char digits[3] = "";
    uint32_t count = 0;
    while (count < most && strspn(text, "0123456789abcdef") >= 2) {
        memcpy(digits, text, 2);
        bytes[count++] = (uint8_t)strtoul(digits, NULL, HEX);
        text += 2;
    }
    return count;
}

/* Reads a name as `show` prints it: plain, or x: and two digits for each byte. */
static void read_name(const char *text, struct reading *reading) {
    size_t len = strlen(text);
    if (strncmp(text, "x:", 2) == 0) {
        reading->name_len = read_hex(text + 2, reading->name, NAME_BYTES);
        return;
    }
    reading->name_len = (uint32_t)(len < NAME_BYTES ? len : NAME_BYTES);
    memcpy(reading->name, text, reading->name_len);
}

/* Reads the line of a resource and the line of its tail. */
static void read_resource(const char *line, struct reading *reading) {
    static const char word_value[] = " value ";
    char name[NAME_TEXT], value[2 * SHORT_VALUE + 1], valid[8];
    const char *word = strstr(line, " name "), *tail = next_line(line), *bytes = strstr(tail, word_value);
    const char *group = strstr(line, " group ");
    reading->is_system = group == NULL || group > word;
    reading->group = reading->is_system ? 0 : (uint32_t)strtoul(group + strlen(" group "), NULL, DECIMAL);
    if (word == NULL || sscanf(word, " name %79s value %32s %7s", name, value, valid) != 3)
        return;
    read_name(name, reading);
    read_hex(value, reading->value, SHORT_VALUE);
    reading->value_valid = strcmp(valid, "valid") == 0;
    if (bytes == NULL)
        return;
    bytes += strlen(word_value);
    read_hex(bytes, reading->value + SHORT_VALUE, TAIL_VALUE);
    reading->tail_valid = strncmp(bytes + strcspn(bytes, " "), " valid", strlen(" valid")) == 0;
}

/* Reads the last line of the answer to `lock`. */
static bool read_counts(const char *line, struct reading *reading) {
    uint64_t parent;
    uint32_t *counts = reading->counts;
    int read = sscanf(
        line, "parent %" SCNu64 " sublocks %" SCNu32 " granted %" SCNu32 " converting %" SCNu32 " waiting %" SCNu32,
        &parent, &reading->sublocks, &counts[VLM_GRANTED], &counts[VLM_CONVERSION], &counts[VLM_WAITING]);
    reading->parent = read == 5 ? (uint32_t)parent : 0;
    return read == 5;
}

static uint32_t read_lock(uint32_t lkid, struct reading *reading) {
    char *text;
    uint32_t status = read_text("lock", lkid, &text);
    if (status != VLM_NORMAL)
        return status;
    const char *resource = next_line(text), *counts = next_line(next_line(resource));
    bool is_right = read_row(text, &reading->row) && read_counts(counts, reading);
    if (is_right)
        read_resource(resource, reading);
    free(text);
    return is_right ? VLM_NORMAL : VLM_UNSUPPORTED;
}

static uint32_t below(uint32_t lkid, uint32_t *count) {
    char *text;
    uint32_t status = read_text("below", lkid, &text);
    *count = 0;
    if (status == VLM_NORMAL && sscanf(text, "below %" SCNu32, count) != 1)
        status = VLM_UNSUPPORTED;
    free(text);
    return status;
}

const struct engine vms_by_vlmd = {open_client, ask, give_up, read_lock, list, below};
