/* A lock by lines over a socket of Unix. The command inherits the connection, so the lock lasts as long as it or the
 * wrapper lives: a wrapper that is killed frees nothing. */
#include "lock.h"

#include <inttypes.h>
#include <stdio.h>
#include <stdlib.h>
#include <string.h>

enum { LABEL = 31, LAST_WAIT = 1000, STATUS_NORMAL = 1, STATUS_INVALID = 7 };

/* Asks for the lock. */
static bool ask(const struct link *link, const struct wanted *wanted) {
    char text[LINE_ROOM], label[LABEL + 1] = "";
    const char *slash = strrchr(wanted->command[0], '/');
    const char *base = slash != NULL ? slash + 1 : wanted->command[0];
    for (size_t at = 0; at < LABEL && base[at] != 0; at++)
        label[at] = (char)(base[at] > ' ' && base[at] < 127 ? base[at] : '_');
    snprintf(text, sizeof text, "open%s%s\ndeclare P quota=1 blocks=1\nenq P %s name=%s block=1 valblk ast=1%s%s\n",
             label[0] != 0 ? " command=" : "", label, wanted->mode, wanted->text, wanted->signal != 0 ? " bast=2" : "",
             wanted->at_once ? " noqueue" : "");
    return link_send(link, text);
}

/* Hands the value block of a grant on, from the line of the status block. An invalid one is not handed on. */
static void hand_on_value(const char *line, int status) {
    const char *value = strstr(line, " value ");
    if (value != NULL && status == STATUS_NORMAL)
        setenv("VLM_VALUE", value + strlen(" value "), 1);
    else
        unsetenv("VLM_VALUE");
}

static bool is_warning(const char *line) { return strncmp(line, "P: blocking ", strlen("P: blocking ")) == 0; }

/* Hands the fencing token of the lock on. A service without tokens does not know the line. Returns false if the service
 * has gone. */
static bool hand_on_token(struct holding *holding) {
    char line[LINE_ROOM];
    unsetenv("VLM_TOKEN");
    snprintf(line, sizeof line, "token %" PRIu64 "\n", holding->handle);
    int got = link_send(&holding->link, line) ? 1 : -1;
    while (got == 1 && (got = link_line(&holding->link, line, FOREVER)) == 1 && line[0] != 0) {
        holding->is_blocking |= is_warning(line);
        if (strncmp(line, "token ", strlen("token ")) == 0)
            setenv("VLM_TOKEN", line + strlen("token "), 1);
        if (strcmp(line, "unknown command") == 0)
            break;
    }
    return got == 1;
}

/* What a line says of the request: it has ended, was refused, or neither (-1). */
static int outcome(struct holding *holding, const char *line) {
    int status;
    holding->is_blocking |= is_warning(line);
    if (sscanf(line, "P: block 1 status %d lock %" SCNu64, &status, &holding->handle) == 2) {
        hand_on_value(line, status);
        return status == STATUS_NORMAL || status == STATUS_INVALID ? GRANTED : CONFLICT;
    }
    if (strcmp(line, "P: NOTQUEUED") == 0)
        return CONFLICT;
    if (strncmp(line, "session ", 8) == 0 && strstr(line, " seconds 0 ") == NULL)
        line = "this is a replica: connect to it by tcp:HOST:PORT";
    else if (is_warning(line) || strncmp(line, "session ", 8) == 0 || strncmp(line, "P: process ", 11) == 0
             || strncmp(line, "P: NORMAL ", 10) == 0 || strncmp(line, "P: completion ", 14) == 0)
        return -1;
    fprintf(stderr, "vlm lock: %s\n", line);
    return REFUSED;
}

/* The time has passed: cancels the request, unless its grant is on the way. */
static int cancel(struct holding *holding) {
    char line[LINE_ROOM];
    int found = CONFLICT;
    if (!link_send(&holding->link, "deq P @1 cancel\n"))
        return GONE;
    while (link_line(&holding->link, line, FOREVER) == 1) {
        if (strcmp(line, "P: NORMAL") == 0)
            return CONFLICT;
        if (strcmp(line, "P: CANCELGRANT") == 0)
            return found;
        int told = outcome(holding, line);
        if (told == GRANTED)
            found = GRANTED;
        else if (told >= 0)
            /* (it was refused, or has ended: there is nothing to cancel) */
            return told;
    }
    return GONE;
}

static int await(struct holding *holding, const struct wanted *wanted) {
    char line[LINE_ROOM];
    int64_t until = wanted->wait == FOREVER ? FOREVER : milliseconds() + wanted->wait;
    for (;;) {
        int got = link_line(&holding->link, line, until);
        int found = got == 1 ? outcome(holding, line) : got == 0 ? cancel(holding) : GONE;
        if (found >= 0)
            return found;
    }
}

static int get(struct holding *holding, const struct wanted *wanted) {
    if (!link_open(&holding->link, wanted->address) || !ask(&holding->link, wanted))
        return REFUSED;
    holding->descriptor = holding->link.channel.descriptor;
    int found = await(holding, wanted);
    return found == GRANTED && !hand_on_token(holding) ? GONE : found;
}

static bool hear(struct holding *holding, const struct wanted *wanted) {
    char line[LINE_ROOM];
    int got;
    (void)wanted;
    while ((got = link_line(&holding->link, line, 0)) == 1)
        holding->is_blocking |= is_warning(line);
    return got == 0;
}

/* Also if the command left something behind that has the connection. */
static bool give_up(struct holding *holding, const struct wanted *wanted) {
    char text[LINE_ROOM];
    snprintf(text, sizeof text, "deq P @1%s%s\nclose\n", wanted->value != NULL ? " value=" : "",
             wanted->value != NULL ? wanted->value : "");
    int64_t until = milliseconds() + LAST_WAIT;
    if (link_send(&holding->link, text))
        while (link_line(&holding->link, text, until) == 1 && strcmp(text, "closed") != 0)
            continue;
    return true;
}

const struct way by_connection = {get, hear, give_up};
