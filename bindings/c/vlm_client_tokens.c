/* Fencing tokens. */
#include "vlm_client_parts.h"

#include <inttypes.h>
#include <stdio.h>
#include <stdlib.h>

/* What the answer to a line `token L` says. */
static uint32_t ask_token(vlm_client *client, uint32_t lkid, uint64_t *token) {
    char *text;
    uint32_t status = vlm_client_read(client, "token", lkid, &text);
    if (status == VLM_NORMAL && sscanf(text, "token %" SCNu64, token) != 1)
        status = VLM_IVLOCKID;
    free(text);
    return status;
}

/* The token that came with the last grant of a lock of this client. Without one *token stays 0. */
static uint32_t find_token(vlm_client *client, uint32_t lkid, uint64_t *token) {
    pthread_mutex_lock(&client->state);
    uint32_t place = vlmc_find_lock(client, 0, lkid), status = vlmc_is_lost(client) ? VLM_LOST : VLM_NORMAL;
    if (status == VLM_NORMAL && place != NO_RECORD)
        *token = client->records[place].token;
    pthread_mutex_unlock(&client->state);
    return status;
}

uint32_t vlm_client_token(vlm_client *client, uint32_t lkid, uint64_t *token) {
    *token = 0;
    uint32_t status = vlmc_is_usable(client) ? find_token(client, lkid, token) : VLM_BADPARAM;
    return status == VLM_NORMAL && *token == 0 ? ask_token(client, lkid, token) : status;
}
