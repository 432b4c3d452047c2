/* Lines that were read lately. Programs repeat their lines: they lock the same resources again and again. What
 * vlm_read_line makes of a line depends on its bytes alone, so it is kept until four other lines come to the same
 * place. Each UIC group has lines of its own, and places are chosen by a random key: nobody can tell by the time of an
 * answer which names another group uses. */
#include "parts.h"

#include <string.h>

enum { PART = 8, REST_BITS = 64 - KNOWN_BITS };

static uint64_t part_of(const char *bytes, size_t len) {
    uint64_t part = 0;
    memcpy(&part, bytes, len);
    return part;
}

/* The factor is random too. With a known one, the next part of a line could undo a chosen difference in a part, so that
 * two lines have one hash by every key. */
uint64_t hash_line(const struct client *client, struct word text) {
    uint64_t keys[2];
    memcpy(keys, client->dispatcher->keys, sizeof keys);
    uint64_t hash = mix_in(keys[0], client->rights.group), factor = keys[1] | 1;
    if (text.len < PART)
        return mix_in(hash, part_of(text.bytes, text.len));
    for (size_t at = 0; at + PART < text.len; at += PART)
        hash = mix_in(hash, part_of(text.bytes + at, PART)) * factor;
    return mix_in(hash, part_of(text.bytes + text.len - PART, PART));
}

/* The place of the client's line, or null for one that is too long to be kept. Alike lines often differ in their last
 * bytes, which change the high bits of a hash most, so these tell the place. */
static struct known_place *place_of(const struct client *client) {
    return client->line_len <= KNOWN_BYTES ? &client->dispatcher->known[client->line_hash >> REST_BITS] : NULL;
}

static bool is_same(const struct known_line *line, const struct client *client) {
    return line->len == client->line_len && line->group == client->rights.group
           && memcmp(line->bytes, client->line, client->line_len) == 0;
}

/* Fetches what a request needs of a line, all at once: with many lines they are in no near cache. */
static void fetch(const struct known_line *line) {
    __builtin_prefetch(line);
    __builtin_prefetch(&line->heard.line);
    __builtin_prefetch(&line->heard.line.resource);
    __builtin_prefetch(&line->heard.line.request);
}

struct heard *known_line(const struct client *client) {
    struct known_place *place = place_of(client);
    for (size_t at = 0; place != NULL && at < KNOWN_WAYS; at++) {
        if (place->tags[at] != (uint32_t)client->line_hash)
            continue;
        fetch(&place->lines[at]);
        if (is_same(&place->lines[at], client))
            return &place->lines[at].heard;
    }
    return NULL;
}

struct heard *read_line(struct dispatcher *dispatcher, struct word text) {
    struct heard *heard = &dispatcher->unknown;
    heard->line.size = sizeof heard->line;
    heard->answer.len = 0;
    return vlm_read_line((const uint8_t *)text.bytes, text.len, &heard->line) == VLM_NORMAL ? heard : NULL;
}

void keep_line(const struct client *client, const vlm_line *line) {
    struct known_place *place = place_of(client);
    if (place == NULL)
        return;
    struct known_line *kept = &place->lines[place->next];
    place->tags[place->next] = (uint32_t)client->line_hash;
    place->next = (place->next + 1) % KNOWN_WAYS;
    memcpy(kept->bytes, client->line, client->line_len);
    kept->len = (uint32_t)client->line_len;
    kept->group = client->rights.group;
    kept->heard.line = *line;
    kept->heard.answer = (vlm_text){.size = sizeof(vlm_text)};
}
