/* The lease of a session: until when it surely has its locks, as the client counts. The service counts from when it
 * heard the client, the client from before it sent what was heard: so the client is never the later one. */
#include "vlm_client_parts.h"

#include <poll.h>
#include <string.h>
#include <sys/eventfd.h>
#include <time.h>

enum { LONGEST_PATIENCE = 3000, PARTS = 3, LOOK = 1000 };

/* Milliseconds. The service's time goes on while this machine sleeps, and so does CLOCK_BOOTTIME. CLOCK_MONOTONIC does
 * not: by it the client would think after the sleep that it still has locks that others have. */
uint64_t vlmc_now(void) {
    struct timespec now;
    clock_gettime(CLOCK_BOOTTIME, &now);
    return (uint64_t)now.tv_sec * 1000 + (uint64_t)now.tv_nsec / 1000000;
}

/* How long an answer may take. */
uint64_t vlmc_patience(const vlm_client *client) {
    uint64_t part = client->lease / PARTS;
    return part < LONGEST_PATIENCE ? part : LONGEST_PATIENCE;
}

/* Whether the lease has run out. What makes it longer looks first, so a lease that some call saw run out stays so. */
bool vlmc_is_out(const vlm_client *client) { return client->lease != 0 && vlmc_now() >= client->lease_end; }

bool vlmc_is_lost(const vlm_client *client) { return client->is_lost || vlmc_is_out(client); }

bool vlmc_is_gone(const vlm_client *client, uint32_t session) {
    return client->lease != 0 && (session != client->session || vlmc_is_lost(client));
}

/* Whether the session may be resumed. Takes no mutex held. */
bool vlmc_may_go_on(vlm_client *client) {
    pthread_mutex_lock(&client->state);
    bool may = client->lease != 0 && !client->is_ruined && !client->is_ending && !vlmc_is_lost(client);
    pthread_mutex_unlock(&client->state);
    return may;
}

/* The service has heard a line that was sent after this moment. */
void vlmc_renew(vlm_client *client, uint64_t asked) {
    uint64_t end = asked + client->lease;
    if (end > client->lease_end && !vlmc_is_out(client))
        client->lease_end = end;
}

/* The session can't go on: the reader is to see the end of the connection. */
void vlmc_ruin(vlm_client *client) {
    client->is_ruined = true;
    if (client->channel.descriptor >= 0)
        shutdown(client->channel.descriptor, SHUT_RDWR);
}

static void ask_for_more(vlm_client *client) {
    struct pending *noted = &client->queue[(client->first + client->count++) % client->room];
    *noted = (struct pending){ALIVE, NULL, NO_RECORD, 0};
    vlmc_keep_line(client, noted, "alive\n");
    client->asked = vlmc_now();
    client->is_asking = true;
    if (client->count == 1)
        client->awaited = client->asked;
    vlmc_send_kept(client, 1);
}

/* When an answer is overdue, or NEVER. */
static uint64_t overdue(const vlm_client *client) {
    return client->count > 0 ? client->awaited + vlmc_patience(client) : NEVER;
}

static uint64_t earlier(uint64_t one, uint64_t other) { return one < other ? one : other; }

/* Does what is due, and tells when to look again: soon, since the time of poll stands still while the machine
 * sleeps. */
static uint64_t look(vlm_client *client) {
    pthread_mutex_lock(&client->state);
    uint64_t due = client->asked + client->lease / PARTS;
    if (!client->is_asking && vlmc_now() >= due)
        ask_for_more(client);
    if (client->is_asking)
        due = NEVER;
    due = earlier(earlier(due, overdue(client)), earlier(client->lease_end, vlmc_now() + LOOK));
    pthread_mutex_unlock(&client->state);
    return due;
}

/* Bytes that have come are read first, so a client that was stopped does not take an answer for overdue. */
bool vlmc_await(vlm_client *client) {
    if (client->lease == 0)
        return true;
    while (vlmc_may_go_on(client)) {
        if (vlmc_wait_for(client, client->channel.descriptor, POLLIN, look(client)))
            return true;
        pthread_mutex_lock(&client->state);
        bool is_overdue = vlmc_now() >= overdue(client);
        pthread_mutex_unlock(&client->state);
        if (is_overdue)
            return false;
    }
    return false;
}
