/* ASTs: how a request ended, and that a lock is in the way of another request. */
#include "vlm_client_parts.h"

#include <stdlib.h>
#include <string.h>

/* The record that an AST names, or NO_RECORD for another line. */
static uint32_t record_of(const char *line, const char *kind) {
    const char *word = strchr(line, ' ');
    if (line[0] != 'p' || word == NULL || strncmp(word + 1, kind, strlen(kind)) != 0)
        return NO_RECORD;
    return (uint32_t)strtoul(word + 1 + strlen(kind), NULL, 10);
}

bool vlmc_read_ast(struct ast *ast, const char *line) {
    uint32_t completed = record_of(line, "completion "), warned = record_of(line, "blocking ");
    *ast = (struct ast){.record = completed != NO_RECORD ? completed : warned, .is_warning = completed == NO_RECORD};
    if (ast->record == NO_RECORD)
        return false;
    ast->lkid = (uint32_t)vlmc_number_after(line, " lock ");
    return true;
}

void vlmc_read_block(struct ast *ast, const char *line) {
    ast->status = (uint32_t)vlmc_number_after(line, " status ");
    vlmc_read_value(line, ast->value, SHORT_VALUE);
}

/* An AST of a record whose request is accepted. */
static void take(vlm_client *client, const struct ast *ast) {
    struct record *record = &client->records[ast->record];
    if (ast->is_warning) {
        vlmc_warn(client, ast->record);
        return;
    }
    memcpy(record->value, ast->value, SHORT_VALUE);
    record->token = ast->token;
    vlmc_end(client, ast->record, ast->status);
}

/* The request without an answer that an AST of a record has to wait for, or NO_RECORD. A conversion brings its own
 * blocking routine: so warnings of its lock wait too. */
static uint32_t unanswered(const vlm_client *client, uint32_t place) {
    uint32_t converted = client->records[place].converted;
    if (client->records[place].lkid == 0)
        return place;
    return converted != NO_RECORD && client->records[converted].lkid == 0 ? converted : NO_RECORD;
}

/* An AST that can't be kept would be missed. */
static void keep(vlm_client *client, const struct ast *ast, uint32_t awaited) {
    struct early *kept = malloc(sizeof *kept), **last = &client->early;
    if (kept == NULL) {
        vlmc_ruin(client);
        return;
    }
    *kept = (struct early){.awaited = awaited, .ast = *ast};
    while (*last != NULL)
        last = &(*last)->next;
    *last = kept;
}

/* A record that has another lock has a later request: its lock has gone. */
static bool is_there(const vlm_client *client, const struct ast *ast) {
    return client->records[ast->record].is_used && client->records[ast->record].lkid == ast->lkid;
}

void vlmc_take_ast(vlm_client *client, const struct ast *ast) {
    client->asts++;
    if (ast->record >= client->record_room || !client->records[ast->record].is_used)
        return;
    uint32_t awaited = unanswered(client, ast->record);
    if (awaited != NO_RECORD)
        keep(client, ast, awaited);
    else if (is_there(client, ast))
        take(client, ast);
}

/* The request of a record is answered: what came before counts, in its order. */
void vlmc_take_early(vlm_client *client, uint32_t place) {
    for (struct early **at = &client->early; *at != NULL;) {
        struct early *early = *at;
        if (early->awaited != place) {
            at = &early->next;
            continue;
        }
        *at = early->next;
        if (is_there(client, &early->ast))
            take(client, &early->ast);
        free(early);
    }
}

void vlmc_drop_early(vlm_client *client) {
    for (struct early *early = client->early, *next; early != NULL; early = next) {
        next = early->next;
        free(early);
    }
    client->early = NULL;
}
