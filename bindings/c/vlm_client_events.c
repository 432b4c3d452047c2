/* Calls of routines, one at a time, oldest first, without a mutex. */
#include "vlm_client_parts.h"

#include <stdlib.h>
#include <string.h>
#include <sys/eventfd.h>
#include <unistd.h>

/* The descriptor is readable while an event is pending and no dispatch runs. */
static void show_events(const vlm_client *client) {
    eventfd_t count;
    if (client->event_descriptor < 0)
        return;
    if (client->first_event != NULL && !client->is_dispatching)
        eventfd_write(client->event_descriptor, 1);
    else
        eventfd_read(client->event_descriptor, &count);
}

static void append(vlm_client *client, struct event *event) {
    event->next = NULL;
    event->number = ++client->event_count;
    *client->last_event = event;
    client->last_event = &event->next;
    pthread_cond_broadcast(&client->events);
    show_events(client);
}

/* Notes an event. Without memory for it the session ends: a program that is not told may wait for ever. */
static void add(vlm_client *client, const struct event *event) {
    struct event *made = malloc(sizeof *made);
    if (made == NULL) {
        vlmc_ruin(client);
        return;
    }
    *made = *event;
    append(client, made);
}

void vlmc_tell_end(vlm_client *client, const struct record *record) {
    bool has_value = record->is_granted && (record->flags & VLM_VALBLK) != 0;
    struct event event = {.record = NO_RECORD,
                          .session = client->session,
                          .routine = record->completion,
                          .context = record->completion_context,
                          .told = {.size = sizeof event.told,
                                   .kind = VLM_COMPLETION,
                                   .pid = record->pid,
                                   .lkid = record->lkid,
                                   .status = record->status,
                                   .wanted = VLM_NO_MODE}};
    if (has_value && (record->flags & VLM_WIDE) != 0)
        event.tail_of = record->block;
    if (has_value)
        event.told.value_len = (record->flags & VLM_WIDE) != 0 ? WHOLE_VALUE : SHORT_VALUE;
    memcpy(event.told.value, record->value, WHOLE_VALUE);
    if (event.routine != NULL)
        add(client, &event);
}

void vlmc_warn(vlm_client *client, uint32_t place) {
    const struct record *record = &client->records[place];
    struct event event = {.record = place,
                          .generation = record->generation,
                          .routine = record->blocking,
                          .context = record->blocking_context,
                          .told = {.size = sizeof event.told,
                                   .kind = VLM_BLOCKING,
                                   .pid = record->pid,
                                   .lkid = record->lkid,
                                   .wanted = VLM_NO_MODE}};
    if (event.routine != NULL)
        add(client, &event);
}

/* A loss that is still pending goes to the end: one call tells both, after the completions of both. */
void vlmc_tell_loss(vlm_client *client) {
    if (client->options.on_lost == NULL)
        return;
    vlmc_drop_events_of(client, 0);
    client->loss = (struct event){.record = NO_RECORD, .is_loss = true};
    append(client, &client->loss);
}

static bool is_stale(const vlm_client *client, const struct event *event) {
    return event->record != NO_RECORD
           && (vlmc_is_lost(client) || client->records[event->record].generation != event->generation);
}

/* A grant is not told once the locks are lost. */
static void look_at_lease(const vlm_client *client, struct event *event) {
    vlm_threads_event *told = &event->told;
    if (told->kind != VLM_COMPLETION || !is_grant(told->status) || !vlmc_is_gone(client, event->session))
        return;
    told->status = VLM_LOST;
    told->value_len = event->tail_of = 0;
}

static void run_routine(vlm_client *client, struct event *event) {
    if (event->tail_of != 0)
        vlmc_read_tail(client, event);
    event->routine(event->context, &event->told);
}

/* Takes the oldest event and runs its routine, unless it warns of a grant that is over. Whether it ran. */
static bool run_one(vlm_client *client) {
    struct event *event = client->first_event;
    bool is_told = !is_stale(client, event), is_loss = event->is_loss;
    client->first_event = event->next;
    if (client->first_event == NULL)
        client->last_event = &client->first_event;
    if (is_told) {
        look_at_lease(client, event);
        client->is_running = true;
        client->runs++;
        client->runner = pthread_self();
        pthread_mutex_unlock(&client->state);
        if (is_loss)
            client->options.on_lost(client->options.lost_context);
        else
            run_routine(client, event);
        pthread_mutex_lock(&client->state);
        client->is_running = false;
        pthread_cond_broadcast(&client->settled);
    }
    if (!is_loss)
        free(event);
    return is_told;
}

/* The thread that runs routines. */
void *vlmc_deliver(void *argument) {
    vlm_client *client = argument;
    pthread_mutex_lock(&client->state);
    while (!client->is_ending)
        if (client->first_event != NULL)
            run_one(client);
        else
            pthread_cond_wait(&client->events, &client->state);
    pthread_mutex_unlock(&client->state);
    return NULL;
}

void vlmc_drop_events(vlm_client *client) {
    for (struct event *event = client->first_event, *next; event != NULL; event = next) {
        next = event->next;
        if (event != &client->loss)
            free(event);
    }
    client->first_event = NULL;
    client->last_event = &client->first_event;
}

/* Drops the pending events of a process; with 0, the loss. */
void vlmc_drop_events_of(vlm_client *client, uint32_t pid) {
    struct event **at = &client->first_event;
    while (*at != NULL) {
        struct event *event = *at;
        if (event->told.pid != pid) {
            at = &event->next;
            continue;
        }
        *at = event->next;
        if (event != &client->loss)
            free(event);
    }
    client->last_event = at;
    show_events(client);
}

uint32_t vlm_client_fd(vlm_client *client, int *descriptor) {
    *descriptor = vlmc_is_usable(client) ? client->event_descriptor : -1;
    return *descriptor >= 0 ? VLM_NORMAL : VLM_BADPARAM;
}

/* Runs the routines of the events that are pending, not of those that come meanwhile. How many. */
static uint32_t run_pending(vlm_client *client) {
    uint64_t newest = client->event_count;
    uint32_t ran = 0;
    client->is_dispatching = true;
    show_events(client);
    while (client->first_event != NULL && client->first_event->number <= newest)
        ran += run_one(client);
    client->is_dispatching = false;
    show_events(client);
    return ran;
}

uint32_t vlm_client_dispatch(vlm_client *client, uint32_t *delivered) {
    *delivered = 0;
    if (!vlmc_is_usable(client) || client->event_descriptor < 0)
        return VLM_BADPARAM;
    int before = cancels_off();
    pthread_mutex_lock(&client->state);
    if (!client->is_dispatching)
        *delivered = run_pending(client);
    pthread_mutex_unlock(&client->state);
    cancels_back(before);
    return VLM_NORMAL;
}

uint32_t vlm_client_settle(vlm_client *client) {
    if (!vlmc_is_usable(client))
        return VLM_BADPARAM;
    int before = cancels_off();
    pthread_mutex_lock(&client->state);
    bool is_own = client->is_running && pthread_equal(client->runner, pthread_self());
    uint64_t run = client->runs;
    while (!is_own && client->is_running && client->runs == run)
        pthread_cond_wait(&client->settled, &client->state);
    pthread_mutex_unlock(&client->state);
    cancels_back(before);
    return is_own ? VLM_BADPARAM : VLM_NORMAL;
}
