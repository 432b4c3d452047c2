/* Readings: lines whose answers end with a blank line. */
#include "vlm_client_parts.h"

#include <inttypes.h>
#include <stdio.h>
#include <stdlib.h>
#include <string.h>

/* These texts come without a blank line. */
static bool is_fault(const char *line) {
    return strcmp(line, "unknown command") == 0 || strcmp(line, "wrong word") == 0 || strcmp(line, "too long") == 0;
}

/* Adds a line to the text of a call. Without memory the text is freed, and no more is added. */
static void add(struct call *call, const char *line) {
    size_t len = strlen(line);
    if (call->is_starved)
        return;
    if (call->text_len + len + 2 > call->text_room) {
        size_t room = 2 * call->text_room + len + 2;
        char *more = realloc(call->text, room);
        if (more == NULL) {
            free(call->text);
            call->text = NULL;
            call->is_starved = true;
            return;
        }
        call->text = more;
        call->text_room = room;
    }
    memcpy(call->text + call->text_len, line, len);
    memcpy(call->text + call->text_len + len, "\n", 2);
    call->text_len += len + 1;
}

/* The locks that a row tells of are of the service's epoch. */
static void learn_epoch(vlm_client *client, const char *line) {
    char *end;
    if (strncmp(line, "lock ", strlen("lock ")) != 0)
        return;
    uint64_t handle = strtoull(line + strlen("lock "), &end, 10);
    if (strncmp(end, " pid ", strlen(" pid ")) == 0)
        client->epoch = handle >> 32;
}

/* Takes a line of the answer: whether it was the last one. */
bool vlmc_read_line(vlm_client *client, struct call *call, const char *line) {
    if (line[0] == 0)
        return true;
    learn_epoch(client, line);
    add(call, line);
    return is_fault(line);
}

static uint32_t read_text(vlm_client *client, const char *word, uint32_t lkid, char **text) {
    char line[LINE_ROOM];
    struct call call = {0};
    pthread_mutex_lock(&client->state);
    uint64_t handle = client->epoch << 32 | lkid;
    call.session = client->session;
    pthread_mutex_unlock(&client->state);
    if (lkid != 0)
        snprintf(line, sizeof line, "%s %" PRIu64 "\n", word, handle);
    else
        snprintf(line, sizeof line, "%s\n", word);
    uint32_t status = vlmc_ask(client, &call, line, LINES);
    if (status == VLM_NORMAL && call.is_starved)
        status = VLM_INSFMEM;
    if (status == VLM_NORMAL && call.text == NULL)
        call.text = calloc(1, 1);
    if (status == VLM_NORMAL && call.text != NULL)
        *text = call.text;
    else
        free(call.text);
    return status == VLM_NORMAL && *text == NULL ? VLM_INSFMEM : status;
}

/* Whether a line begins with a word. The service does not answer a blank line or a comment, and ends the answer to a
 * numbered line without a blank line. */
static bool is_line(const char *word) {
    char first = word[strspn(word, " \t\r")];
    return first >= 'a' && first <= 'z' && strlen(word) <= LINE_ROOM / 2 && strchr(word, '\n') == NULL;
}

uint32_t vlm_client_read(vlm_client *client, const char *word, uint32_t lkid, char **text) {
    *text = NULL;
    if (!vlmc_is_usable(client) || !is_line(word))
        return VLM_BADPARAM;
    int before = cancels_off();
    uint32_t status = read_text(client, word, lkid, text);
    cancels_back(before);
    return status;
}
