/* The thread that reads: it hands each answer to what waits for it, and each AST to its record. */
#include "vlm_client_parts.h"

#include <errno.h>
#include <stdlib.h>
#include <string.h>
#include <sys/socket.h>

enum { READ = 1 << 16 };

/* Lines as they come. */
struct lines {
    size_t from, len;
    char bytes[READ];
};

/* Receives what has come by now. A thread that sends may use the TLS meanwhile. */
static ssize_t receive_now(vlm_client *client, void *bytes, size_t room) {
    pthread_mutex_lock(&client->state);
    ssize_t len = vlmc_channel_receive(&client->channel, bytes, room, MSG_DONTWAIT);
    pthread_mutex_unlock(&client->state);
    return len;
}

/* Waits for bytes: 0 at the end of the connection, or once it is to be given up. TLS may have some that have come. */
static ssize_t receive(vlm_client *client, void *bytes, size_t room) {
    ssize_t len = client->channel.tls != NULL ? receive_now(client, bytes, room) : 0;
    if (client->channel.tls != NULL && (len >= 0 || errno != EAGAIN))
        return len;
    if (!vlmc_await(client))
        return 0;
    return client->channel.tls != NULL ? receive_now(client, bytes, room)
                                       : recv(client->channel.descriptor, bytes, room, 0);
}

/* The next line without its line feed, or null at the end of the connection, or once it is to be given up. */
static char *next_line(vlm_client *client, struct lines *lines) {
    for (;;) {
        char *begin = lines->bytes + lines->from, *feed = memchr(begin, '\n', lines->len);
        if (feed != NULL) {
            *feed = 0;
            lines->from += (size_t)(feed - begin) + 1;
            lines->len -= (size_t)(feed - begin) + 1;
            return begin;
        }
        memmove(lines->bytes, begin, lines->len);
        lines->from = 0;
        ssize_t len = receive(client, lines->bytes + lines->len, READ - lines->len);
        if (len < 0 && (errno == EINTR || errno == EAGAIN))
            continue;
        if (len <= 0)
            return NULL;
        lines->len += (size_t)len;
    }
}

/* The request of a record was accepted, granted at once, or refused. */
static void settle_request(vlm_client *client, uint32_t place, const struct call *call) {
    bool is_accepted = call->answer == VLM_NORMAL || call->answer == VLM_SYNCH;
    if (is_accepted) {
        client->epoch = call->handle >> 32;
        vlmc_accept(client, place, (uint32_t)call->handle);
    } else {
        vlmc_free_block(client, client->records[place].pid, client->records[place].block);
        vlmc_free_record(client, place);
    }
    if (call->answer == VLM_SYNCH)
        vlmc_grant_at_once(client, place);
    vlmc_take_early(client, place);
}

/* Takes the number off an answer to a numbered line. Another line's answer ruins the session. */
static const char *without_number(vlm_client *client, const struct pending *first, const char *line) {
    char *rest;
    if (first->number == 0)
        return line;
    if (strtoull(line, &rest, 10) != first->number || *rest != ' ') {
        vlmc_ruin(client);
        return NULL;
    }
    if (rest[1] == 'p')
        client->answered = first->number;
    return rest + 1;
}

/* Nobody waits for the first of the queue any more. */
static void pop(vlm_client *client) {
    client->first = (client->first + 1) % client->room;
    client->count--;
    if (client->lease == 0)
        return;
    client->awaited = vlmc_now();
    pthread_cond_signal(&client->has_room);
}

static void read_answer(const struct pending *first, const char *line) {
    struct call *call = first->call;
    if (first->taken == STATUS)
        call->answer = vlmc_status(line, &call->handle);
    if (first->taken == VALUE) {
        call->status = (uint32_t)vlmc_number_after(line, " status ");
        vlmc_read_value(line, call->value, SHORT_VALUE);
    }
    if (first->taken == TAIL && !vlmc_read_value(line, call->value + SHORT_VALUE, WHOLE_VALUE - SHORT_VALUE))
        call->answer = VLM_NONEXPR;
}

/* The service heard the client, unless it has another thing to say. */
static void take_alive(vlm_client *client, const char *line) {
    client->is_asking = false;
    if (strcmp(line, "alive") == 0)
        vlmc_renew(client, client->asked);
    else
        vlmc_ruin(client);
}

/* An answer has come for the first of the queue. */
static void take_answer(vlm_client *client, const char *line) {
    struct pending first = client->queue[client->first];
    struct call *call = first.call;
    if (client->count == 0 || (line = without_number(client, &first, line)) == NULL
        || (first.taken == LINES && !vlmc_read_line(client, call, line)))
        return;
    pop(client);
    if (first.taken == ALIVE) {
        take_alive(client, line);
        return;
    }
    read_answer(&first, line);
    if (first.record != NO_RECORD)
        settle_request(client, first.record, call);
    /* (here, since locks that are granted after the dequeue stay) */
    if (call->dequeue != NULL && call->answer == VLM_NORMAL)
        vlmc_forget(client, call->dequeue);
    if (--call->left == 0)
        pthread_cond_signal(&call->changed);
}

/* All that waits learns that the locks are lost. */
static void lose(vlm_client *client) {
    client->is_lost = true;
    client->is_linked = false;
    vlmc_drop_early(client);
    pthread_cond_broadcast(&client->has_room);
    for (; client->count > 0; client->count--) {
        struct pending first = client->queue[client->first];
        client->first = (client->first + 1) % client->room;
        if (first.call == NULL)
            continue;
        first.call->answer = VLM_LOST;
        if (first.record != NO_RECORD)
            settle_request(client, first.record, first.call);
        if (--first.call->left == 0)
            pthread_cond_signal(&first.call->changed);
    }
    for (uint32_t place = 0; place < client->record_room; place++)
        if (client->records[place].is_sent && client->records[place].status == 0)
            vlmc_end(client, place, VLM_LOST);
    vlmc_tell_loss(client);
}

/* Reads what follows the first line of a completion: the line of the status block, and after a grant that of the token.
 * False at the end of the connection. */
static bool read_completion(vlm_client *client, struct lines *lines, struct ast *ast) {
    const char *line = next_line(client, lines);
    if (line == NULL)
        return false;
    vlmc_read_block(ast, line);
    if (!is_grant(ast->status))
        return true;
    line = next_line(client, lines);
    ast->token = line != NULL ? vlmc_number_after(line, " token ") : 0;
    return line != NULL;
}

/* Takes what comes on a connection up to its end. Whether the session may go on: not after a line that says so. */
static bool hear(vlm_client *client, struct lines *lines) {
    char *line;
    struct ast ast;
    lines->from = lines->len = 0;
    while ((line = next_line(client, lines)) != NULL) {
        bool is_ast = vlmc_read_ast(&ast, line);
        if (vlmc_is_end(line))
            return vlmc_is_own_move(client, line);
        if (vlmc_is_cut_off(line) || (is_ast && !ast.is_warning && !read_completion(client, lines, &ast)))
            return true;
        pthread_mutex_lock(&client->state);
        bool is_out = vlmc_is_out(client);
        if (!is_out && is_ast)
            vlmc_take_ast(client, &ast);
        else if (!is_out)
            take_answer(client, line);
        pthread_mutex_unlock(&client->state);
        if (is_out)
            return false;
    }
    return true;
}

void *vlmc_read(void *argument) {
    vlm_client *client = argument;
    struct lines *lines = calloc(1, sizeof *lines);
    while (lines != NULL && hear(client, lines) && vlmc_resume(client))
        continue;
    free(lines);
    pthread_mutex_lock(&client->state);
    if (client->channel.descriptor >= 0)
        shutdown(client->channel.descriptor, SHUT_RDWR); /* no thread waits to send what nobody would answer */
    lose(client);
    pthread_mutex_unlock(&client->state);
    return NULL;
}
