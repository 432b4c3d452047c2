/* Another connection of a session that has a lease: lines are kept until they are answered, and sent again. */
#include "vlm_client_parts.h"

#include <inttypes.h>
#include <poll.h>
#include <stdio.h>
#include <string.h>
#include <sys/socket.h>
#include <unistd.h>

enum { PAUSE = 20, MOST_PAUSES = 10 };

/* Sends a line whole. A connection that does not take it at once has failed, which the reader sees. */
static void transmit(const vlm_client *client, const char *line) {
    if (!vlmc_channel_send(&client->channel, line, strlen(line), MSG_DONTWAIT))
        shutdown(client->channel.descriptor, SHUT_RDWR);
}

static bool is_step(const struct pending *noted) { return noted->taken == STATUS || noted->taken == NOTHING; }

/* A step gets the next number. */
const char *vlmc_keep_line(vlm_client *client, struct pending *noted, const char *line) {
    char *kept = client->kept[noted - client->queue];
    int len = (int)strcspn(line, "\n") + 1;
    noted->number = is_step(noted) ? ++client->number : 0;
    if (noted->number != 0)
        snprintf(kept, LINE_ROOM, "%" PRIu64 " %.*s", noted->number, len, line);
    else
        snprintf(kept, LINE_ROOM, "%.*s", len, line);
    return line + len;
}

void vlmc_send_kept(vlm_client *client, uint32_t count) {
    for (uint32_t at = client->count - count; client->is_linked && at < client->count; at++)
        transmit(client, client->kept[(client->first + at) % client->room]);
}

/* What has no answer is sent again, in its order. A reading begins anew. */
void vlmc_link(vlm_client *client, const struct channel *channel, uint64_t asked) {
    client->channel = *channel;
    client->asked = asked;
    client->awaited = vlmc_now();
    if (client->lease == 0)
        return;
    client->is_linked = true;
    vlmc_renew(client, asked);
    for (uint32_t at = 0; at < client->count; at++) {
        struct call *call = client->queue[(client->first + at) % client->room].call;
        if (call != NULL)
            call->text_len = 0;
    }
    vlmc_send_kept(client, client->count);
}

static void unlink_failed(vlm_client *client) {
    pthread_mutex_lock(&client->state);
    client->is_linked = false;
    vlmc_channel_close(&client->channel);
    pthread_mutex_unlock(&client->state);
}

/* The address after the one that failed comes first. The pauses become longer. */
bool vlmc_resume(vlm_client *client) {
    if (!vlmc_may_go_on(client))
        return false;
    unlink_failed(client);
    for (uint32_t tries = 0; vlmc_may_go_on(client); tries++) {
        uint64_t pause = (uint64_t)PAUSE * (tries < MOST_PAUSES ? tries : MOST_PAUSES);
        if (tries > 0)
            vlmc_wait_for(client, -1, 0, vlmc_now() + pause);
        client->address = (client->address + 1) % client->address_count;
        int found = vlmc_go_on(client);
        if (found != NOT_THERE)
            return found == WENT_ON;
    }
    return false;
}
