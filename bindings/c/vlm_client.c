/* Opening, closing and processes of a client of the lock service. */
#include "vlm_client_parts.h"
#include "vlm_descriptors.h"

#include <stdio.h>
#include <stdlib.h>
#include <string.h>
#include <sys/eventfd.h>
#include <sys/socket.h>
#include <unistd.h>

enum { FIRST_QUEUE = 16, FIRST_CLIENT_OPTIONS = offsetof(vlm_client_options, certificate) };

static const char usual_socket[] = "/run/vlm/lock.sock";

/* A forked child may not use its parent's connection. Forks are counted, since a child may have the pid of its parent:
 * in another PID namespace, or once its parent has ended. A child of clone(2) counts none: its pid tells. */
bool vlmc_is_usable(const vlm_client *client) { return client->owner == getpid() && client->forks == vlmc_forks(); }

static bool is_valid(const vlm_client_options *options) {
    return is_of_version(options->version) && options->delivery <= VLM_THREADS_BY_PROGRAM
           && (options->lease_seconds == 0
               || (options->lease_seconds >= LEAST_LEASE && options->lease_seconds <= MOST_LEASE));
}

/* Frees what a client has, whose threads have ended. */
static void free_client(vlm_client *client) {
    vlmc_channel_close(&client->channel);
    vlmc_free_keys(client->keys);
    if (client->event_descriptor >= 0)
        close(client->event_descriptor);
    if (client->wake_descriptor >= 0)
        close(client->wake_descriptor);
    vlmc_drop_events(client);
    vlmc_drop_early(client);
    pthread_cond_destroy(&client->events);
    pthread_cond_destroy(&client->settled);
    pthread_cond_destroy(&client->has_room);
    pthread_mutex_destroy(&client->state);
    pthread_mutex_destroy(&client->sending);
    free(client->queue);
    free(client->records);
    free(client->hashed);
    free(client->processes);
    free(client->addresses);
    free(client->kept);
    for (size_t at = 0; at < sizeof client->files / sizeof *client->files; at++)
        free(client->files[at]);
    free(client->path);
    free(client);
}

static const char *path_of(const vlm_client_options *options) {
    const char *given = secure_getenv("VLM_SOCKET");
    return options->socket != NULL ? options->socket : given != NULL ? given : usual_socket;
}

/* Makes the queue. With a lease it does not grow, and its lines are kept. */
static bool has_queue(vlm_client *client) {
    if (vlmc_is_replicated(client->path))
        client->lease = 1000 * (client->options.lease_seconds != 0 ? client->options.lease_seconds : USUAL_LEASE);
    client->room = client->lease != 0 ? LEASED_QUEUE : FIRST_QUEUE;
    client->queue = malloc(client->room * sizeof *client->queue);
    client->kept = client->lease != 0 ? malloc(LEASED_QUEUE * sizeof *client->kept) : NULL;
    return client->queue != NULL && (client->lease == 0 || client->kept != NULL);
}

static int new_counter(void) { return clear_of_streams(eventfd(0, EFD_CLOEXEC | EFD_NONBLOCK)); }

static bool has_descriptors(vlm_client *client) {
    bool is_by_program = client->options.delivery == VLM_THREADS_BY_PROGRAM;
    client->event_descriptor = is_by_program ? new_counter() : -1;
    client->wake_descriptor = client->lease != 0 ? new_counter() : -1;
    return (!is_by_program || client->event_descriptor >= 0) && (client->lease == 0 || client->wake_descriptor >= 0);
}

/* Copies the names of the files of TLS: the program's strings and its environment may change. */
static bool has_files(vlm_client *client) {
    const vlm_client_options *options = &client->options;
    const struct vlm_tls_files named = {options->certificate, options->key, options->authority};
    const struct vlm_tls_files files = vlmc_files(&named);
    const char *const names[] = {files.certificate, files.key, files.authority};
    bool has_memory = true;
    for (size_t at = 0; vlmc_is_secured(client->path) && at < sizeof names / sizeof *names; at++) {
        client->files[at] = names[at] != NULL ? strdup(names[at]) : NULL;
        has_memory &= names[at] == NULL || client->files[at] != NULL;
    }
    return has_memory;
}

static vlm_client *made(const vlm_client_options *options) {
    vlm_client *client = calloc(1, sizeof *client);
    if (client == NULL)
        return NULL;
    pthread_mutex_init(&client->state, NULL);
    pthread_mutex_init(&client->sending, NULL);
    pthread_cond_init(&client->events, NULL);
    pthread_cond_init(&client->settled, NULL);
    pthread_cond_init(&client->has_room, NULL);
    client->owner = getpid();
    client->forks = vlmc_forks();
    client->options = *options;
    client->last_event = &client->first_event;
    client->free_record = NO_RECORD;
    client->channel.descriptor = client->event_descriptor = client->wake_descriptor = -1;
    client->path = strdup(path_of(options));
    if (client->path != NULL && has_queue(client) && has_descriptors(client) && has_files(client))
        return client;
    free_client(client);
    return NULL;
}

/* Ends the connection and the threads. */
static void stop(vlm_client *client) {
    pthread_mutex_lock(&client->state);
    client->is_ending = true;
    pthread_cond_broadcast(&client->events);
    vlmc_channel_end(&client->channel);
    pthread_mutex_unlock(&client->state);
    if (client->wake_descriptor >= 0)
        eventfd_write(client->wake_descriptor, 1);
    if (client->has_reader)
        pthread_join(client->reader, NULL);
    if (client->has_deliverer)
        pthread_join(client->deliverer, NULL);
    client->has_reader = client->has_deliverer = false;
}

static uint32_t open_session(const vlm_client_options *options, vlm_client **client) {
    vlm_client *opened = made(options);
    if (opened == NULL)
        return VLM_INSFMEM;
    uint32_t status = vlmc_connect(opened);
    if (status == VLM_NORMAL) {
        opened->has_reader = start_thread(&opened->reader, vlmc_read, opened);
        if (options->delivery == VLM_THREADS_BY_LAYER)
            opened->has_deliverer = start_thread(&opened->deliverer, vlmc_deliver, opened);
        if (!opened->has_reader || (options->delivery == VLM_THREADS_BY_LAYER && !opened->has_deliverer))
            status = VLM_INSFMEM;
    }
    if (status != VLM_NORMAL) {
        stop(opened);
        if (options->reason != NULL && options->reason_len > 0)
            snprintf(options->reason, options->reason_len, "%s", status == VLM_LOST ? opened->reason : "");
        free_client(opened);
        return status;
    }
    *client = opened;
    return VLM_NORMAL;
}

uint32_t vlm_client_open(const vlm_client_options *options, vlm_client **client) {
    vlm_client_options whole;
    *client = NULL;
    if (!is_copied(&whole, sizeof whole, options, FIRST_CLIENT_OPTIONS) || !is_valid(&whole))
        return VLM_BADPARAM;
    int before = cancels_off();
    uint32_t status = open_session(&whole, client);
    cancels_back(before);
    return status;
}

static bool is_own_routine(vlm_client *client) {
    pthread_mutex_lock(&client->state);
    bool is_own = client->is_running && pthread_equal(client->runner, pthread_self());
    pthread_mutex_unlock(&client->state);
    return is_own;
}

/* Forgets all locks and processes of a session that is lost. Calls that have sent nothing for it answer VLM_LOST. */
static void forget(vlm_client *client) {
    pthread_mutex_lock(&client->state);
    for (uint32_t place = 0; place < client->record_room; place++)
        if (client->records[place].is_sent)
            vlmc_free_record(client, place);
    for (uint32_t at = 0; at < client->process_count; at++)
        client->processes[at].is_living = false;
    client->session++;
    client->is_lost = false;
    pthread_mutex_unlock(&client->state);
}

/* Begins a new session instead of a lost one. Wants `sending` held. */
static uint32_t begin_again(vlm_client *client) {
    pthread_mutex_lock(&client->state);
    bool is_lost = vlmc_is_lost(client);
    pthread_mutex_unlock(&client->state);
    if (!is_lost)
        return VLM_BADPARAM;
    /* (once a lease has run out, the reader ends by itself) */
    if (client->has_reader)
        pthread_join(client->reader, NULL);
    client->has_reader = false;
    vlmc_channel_close(&client->channel);
    if (vlmc_connect(client) != VLM_NORMAL)
        return VLM_LOST;
    forget(client);
    client->has_reader = start_thread(&client->reader, vlmc_read, client);
    if (client->has_reader)
        return VLM_NORMAL;
    pthread_mutex_lock(&client->state);
    client->is_lost = true;
    pthread_mutex_unlock(&client->state);
    return VLM_INSFMEM;
}

uint32_t vlm_client_reopen(vlm_client *client) {
    if (!vlmc_is_usable(client) || is_own_routine(client))
        return VLM_BADPARAM;
    int before = cancels_off();
    pthread_mutex_lock(&client->sending);
    uint32_t status = begin_again(client);
    pthread_mutex_unlock(&client->sending);
    cancels_back(before);
    return status;
}

/* Ends a session that would wait for another connection. A service that does not answer in time ends it by itself. The
 * call is under way until the reader has ended. */
static void close_session(vlm_client *client, struct call *call) {
    const struct pending wanted = {CLOSED, call, NO_RECORD, 0};
    struct timespec until = moment_at(now() + milliseconds((uint32_t)vlmc_patience(client)));
    if (vlmc_send(client, "close\n", &wanted, 1) != VLM_NORMAL)
        return;
    pthread_mutex_lock(&client->state);
    while (call->left > 0 && pthread_cond_timedwait(&call->changed, &client->state, &until) == 0)
        continue;
    pthread_mutex_unlock(&client->state);
}

uint32_t vlm_client_close(vlm_client *client) {
    if (client == NULL)
        return VLM_NORMAL;
    if (!vlmc_is_usable(client) || is_own_routine(client))
        return VLM_BADPARAM;
    int before = cancels_off();
    struct call call = {.session = client->session, .is_reserved = true};
    vlmc_begin_call(&call, 1);
    if (client->lease != 0)
        close_session(client, &call);
    stop(client);
    pthread_cond_destroy(&call.changed);
    free_client(client);
    cancels_back(before);
    return VLM_NORMAL;
}

/* Gives a process a number that no other has had. 0 without memory. */
static uint32_t new_process(vlm_client *client, uint32_t requests) {
    struct process *processes = realloc(client->processes, (client->process_count + 1) * sizeof *processes);
    if (processes == NULL)
        return 0;
    client->processes = processes;
    processes[client->process_count] = (struct process){.requests = requests};
    return ++client->process_count;
}

static bool is_declaration(const vlm_threads_declaration *declaration) {
    return is_sized(declaration->size, FIRST_DECLARATION, sizeof *declaration) && declaration->tied == 0
           && declaration->quota <= VLM_MAX_QUOTA && declaration->requests != 0
           && declaration->requests <= MOST_REQUESTS
           && (declaration->size == FIRST_DECLARATION || declaration->own_queue == 0);
}

static uint32_t declare(vlm_client *client, const vlm_threads_declaration *declaration, uint32_t *pid) {
    char line[LINE_ROOM];
    struct call call = {0};
    pthread_mutex_lock(&client->state);
    uint32_t status = vlmc_is_lost(client) ? VLM_LOST : VLM_INSFMEM;
    uint32_t made = status == VLM_LOST ? 0 : new_process(client, declaration->requests);
    call.session = client->session;
    pthread_mutex_unlock(&client->state);
    if (made == 0)
        return status;
    snprintf(line, sizeof line, "declare p%u quota=%u blocks=%u\n", made, declaration->quota, declaration->requests);
    status = vlmc_ask(client, &call, line, STATUS);
    if (status != VLM_NORMAL)
        return status;
    pthread_mutex_lock(&client->state);
    client->processes[made - 1].is_living = call.session == client->session;
    pthread_mutex_unlock(&client->state);
    *pid = made;
    return VLM_NORMAL;
}

uint32_t vlm_client_declare(vlm_client *client, const vlm_threads_declaration *declaration, uint32_t *pid) {
    *pid = 0;
    if (!vlmc_is_usable(client) || !is_declaration(declaration))
        return VLM_BADPARAM;
    int before = cancels_off();
    uint32_t status = declare(client, declaration, pid);
    cancels_back(before);
    return status;
}

/* Ends the requests of a process that wait, and forgets its locks and its pending events. */
static void forget_process(vlm_client *client, uint32_t pid) {
    for (uint32_t place = 0; place < client->record_room; place++) {
        struct record *record = &client->records[place];
        /* (one that is not answered yet is refused by the service) */
        if (!record->is_used || record->pid != pid || record->lkid == 0)
            continue;
        record->completion = NULL;
        if (record->status == 0 && !record->is_granted && record->call != NULL)
            vlmc_end(client, place, VLM_NONEXPR);
        else
            vlmc_free_record(client, place);
    }
    vlmc_drop_events_of(client, pid);
}

/* A loss ends the requests of the process by itself. Without memory the process lives on. */
static uint32_t run_down(vlm_client *client, uint32_t pid) {
    char line[LINE_ROOM];
    struct call call = {0};
    pthread_mutex_lock(&client->state);
    uint32_t status = vlmc_standing(client, pid);
    call.session = client->session;
    if (status == VLM_NORMAL)
        client->processes[pid - 1].is_living = false;
    pthread_mutex_unlock(&client->state);
    if (status != VLM_NORMAL)
        return status;
    snprintf(line, sizeof line, "end p%u\n", pid);
    status = vlmc_ask(client, &call, line, STATUS);
    pthread_mutex_lock(&client->state);
    if (status == VLM_NORMAL)
        forget_process(client, pid);
    else if (status == VLM_INSFMEM)
        client->processes[pid - 1].is_living = call.session == client->session;
    pthread_mutex_unlock(&client->state);
    return status;
}

uint32_t vlm_client_rundown(vlm_client *client, uint32_t pid) {
    if (!vlmc_is_usable(client))
        return VLM_BADPARAM;
    int before = cancels_off();
    uint32_t status = run_down(client, pid);
    cancels_back(before);
    return status;
}
