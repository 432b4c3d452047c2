/* Lines that are sent, and calls that wait for their answers. */
#include "vlm_client_parts.h"

#include <errno.h>
#include <stdlib.h>
#include <string.h>
#include <sys/socket.h>

static bool make_room(vlm_client *client, uint32_t more) {
    if (client->count + more <= client->room)
        return true;
    uint32_t room = 2 * client->room + more;
    struct pending *queue = malloc(room * sizeof *queue);
    if (queue == NULL)
        return false;
    for (uint32_t at = 0; at < client->count; at++)
        queue[at] = client->queue[(client->first + at) % client->room];
    free(client->queue);
    client->queue = queue;
    client->first = 0;
    client->room = room;
    return true;
}

/* Notes what is waited for. With a lease it keeps the line; it gives the next one. */
static const char *note(vlm_client *client, const struct pending *wanted, const char *line) {
    struct pending *noted = &client->queue[(client->first + client->count++) % client->room];
    *noted = *wanted;
    if (wanted->record != NO_RECORD)
        client->records[wanted->record].is_sent = true;
    if (client->lease == 0)
        return line;
    if (client->count == 1)
        client->awaited = vlmc_now();
    return vlmc_keep_line(client, noted, line);
}

/* With a lease there is room for some lines. Answers make room, and so does a loss. */
static void await_room(vlm_client *client, const struct call *call, uint32_t count) {
    while (client->lease != 0 && !vlmc_is_gone(client, call->session) && client->count + count > MOST_UNDER_WAY)
        pthread_cond_wait(&client->has_room, &client->state);
}

/* Whether lines may be sent: NORMAL, VLM_LOST, CANCELGRANT, INSFMEM. A place stays free for a line of each caller, and
 * for a line of the thread that runs routines. A request that has ended is not cancelled: by then the lock may have a
 * request of another thread. */
static uint32_t may_send(vlm_client *client, const struct call *call, uint32_t count) {
    if (vlmc_is_lost(client) || call->session != client->session)
        return VLM_LOST;
    if (call->cancelled != NULL && call->cancelled->is_ended)
        return VLM_CANCELGRANT;
    if (client->lease != 0)
        return VLM_NORMAL;
    uint32_t kept = call->is_reserved ? 0 : client->callers + 1;
    return make_room(client, count + kept) ? VLM_NORMAL : VLM_INSFMEM;
}

static void send_whole(const vlm_client *client, const char *lines) {
    for (size_t len = strlen(lines); len > 0;) {
        ssize_t sent = send(client->channel.descriptor, lines, len, MSG_NOSIGNAL);
        if (sent < 0 && errno == EINTR)
            continue;
        if (sent < 0) {
            /* the reader sees the end of the connection, and answers for it; no line comes after half a line */
            shutdown(client->channel.descriptor, SHUT_RDWR);
            return;
        }
        lines += sent;
        len -= (size_t)sent;
    }
}

uint32_t vlmc_send(vlm_client *client, const char *lines, const struct pending *wanted, uint32_t count) {
    const char *line = lines;
    pthread_mutex_lock(&client->sending);
    pthread_mutex_lock(&client->state);
    await_room(client, wanted->call, count);
    uint32_t status = may_send(client, wanted->call, count);
    for (uint32_t at = 0; status == VLM_NORMAL && at < count; at++)
        line = note(client, &wanted[at], line);
    if (status == VLM_NORMAL && client->lease != 0)
        vlmc_send_kept(client, count);
    pthread_mutex_unlock(&client->state);
    if (status == VLM_NORMAL && client->lease == 0)
        send_whole(client, lines);
    pthread_mutex_unlock(&client->sending);
    return status;
}

/* Begins a call that waits for so many answers. Its times are of the monotonic clock. */
void vlmc_begin_call(struct call *call, uint32_t answers) {
    pthread_condattr_t attributes;
    call->left = answers;
    call->answer = VLM_NORMAL;
    pthread_condattr_init(&attributes);
    pthread_condattr_setclock(&attributes, CLOCK_MONOTONIC);
    pthread_cond_init(&call->changed, &attributes);
    pthread_condattr_destroy(&attributes);
}

uint32_t vlmc_ask(vlm_client *client, struct call *call, const char *line, uint32_t taken) {
    const struct pending wanted = {taken, call, NO_RECORD, 0};
    vlmc_begin_call(call, 1);
    uint32_t status = vlmc_send(client, line, &wanted, 1);
    if (status == VLM_NORMAL) {
        pthread_mutex_lock(&client->state);
        while (call->left > 0)
            pthread_cond_wait(&call->changed, &client->state);
        status = vlmc_is_gone(client, call->session) ? VLM_LOST : call->answer;
        pthread_mutex_unlock(&client->state);
    }
    pthread_cond_destroy(&call->changed);
    return status;
}
