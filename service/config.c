/* The configuration: one line for each setting, a word and its values. */
#define _GNU_SOURCE
#include "daemon.h"
#include "rows.h"

#include <errno.h>
#include <grp.h>
#include <stdio.h>
#include <stdlib.h>
#include <string.h>
#include <sys/socket.h>

enum { GROUP_WORDS = 3, MOST_GIDS = 4096, FEWEST_IDS = 100, MOST_CHUNK = 1 << 20 };

static bool number_of(const char *word, unsigned long most, uint32_t *number) {
    char *end;
    errno = 0;
    unsigned long read = strtoul(word, &end, 10);
    *number = (uint32_t)read;
    return word[0] >= '0' && word[0] <= '9' && *end == 0 && errno == 0 && read <= most;
}

/* A group by its name or its number. */
static bool gid_of(const char *word, gid_t *gid) {
    uint32_t number;
    if (number_of(word, UINT32_MAX, &number)) {
        *gid = number;
        return true;
    }
    const struct group *group = getgrnam(word);
    if (group != NULL)
        *gid = group->gr_gid;
    return group != NULL;
}

/* The place of a limit by its word, or null. */
static uint32_t *limit_of(struct config *config, const char *word) {
    struct limits *limits = &config->limits;
    const struct {
        const char *word;
        uint32_t *place;
    } rows[] = {{"connections", &limits->connections},
                {"processes", &limits->processes},
                {"locks", &limits->locks},
                {"waiting", &limits->waiting},
                {"queued", &limits->queued},
                {"names", &limits->names},
                {"lines", &limits->lines},
                {"shown", &limits->shown},
                {"search", &limits->search},
                {"drain", &limits->drain},
                {"grace", &config->grace},
                {"awake", &config->awake},
                {"tcp-group", &config->tcp_group},
                {"chunk", &config->chunk},
                {"identifications", &limits->ids}};
    for (size_t at = 0; at < sizeof rows / sizeof *rows; at++)
        if (strcmp(word, rows[at].word) == 0)
            return rows[at].place;
    return NULL;
}

/* The place of a text of a replica by its word, or null. */
static char *text_of(struct config *config, const char *word) {
    const struct {
        const char *word;
        char *place;
    } rows[] = {{"etcd", config->etcd},         {"prefix", config->prefix},
                {"listen", config->listen},     {"tls-certificate", config->tls_certificate},
                {"tls-key", config->tls_key},   {"tls-authority", config->tls_authority},
                {"rights", config->rights},     {"etcd-certificate", config->etcd_certificate},
                {"etcd-key", config->etcd_key}, {"etcd-authority", config->etcd_authority}};
    for (size_t at = 0; at < sizeof rows / sizeof *rows; at++)
        if (strcmp(word, rows[at].word) == 0)
            return rows[at].place;
    return NULL;
}

static bool add_group(struct config *config, const char *group, const char *uic) {
    struct group_row *row = &config->groups[config->group_count];
    if (config->group_count == MOST_GROUPS || !gid_of(group, &row->gid) || !number_of(uic, VLM_MAX_GROUP, &row->group))
        return false;
    config->group_count++;
    return true;
}

bool set_words(struct config *config, char *const *words, size_t count) {
    if (count == GROUP_WORDS && strcmp(words[0], "group") == 0)
        return add_group(config, words[1], words[2]);
    if (count != 2)
        return false;
    uint32_t *limit = limit_of(config, words[0]);
    if (limit != NULL)
        return number_of(words[1], UINT32_MAX, limit) && config->limits.lines != 0 && config->chunk != 0
               && config->chunk <= MOST_CHUNK && config->limits.ids >= FEWEST_IDS && config->tcp_group <= VLM_MAX_GROUP;
    if (strcmp(words[0], "socket") == 0)
        return snprintf(config->socket, PATH, "%s", words[1]) < PATH;
    char *text = text_of(config, words[0]);
    if (text != NULL)
        return snprintf(text, WORD, "%s", words[1]) < WORD;
    if (strcmp(words[0], "network") == 0)
        return config->is_network_trusted = strcmp(words[1], "trusted") == 0;
    if (strcmp(words[0], "syslck") == 0)
        return config->has_syslck_group = gid_of(words[1], &config->syslck_group);
    if (strcmp(words[0], "admin") == 0)
        return config->has_admin_group = gid_of(words[1], &config->admin_group);
    if (strcmp(words[0], "mode") == 0) {
        char *end;
        config->mode = (mode_t)strtoul(words[1], &end, 8);
        return *end == 0 && config->mode <= 0777;
    }
    return false;
}

bool read_config(const char *file, bool must_be_there, struct config *config) {
    char text[ROW + 64];
    struct row row = {0};
    struct config read = *config;
    FILE *from = fopen(file, "re");
    if (from == NULL && !must_be_there && errno == ENOENT)
        return true;
    if (from == NULL) {
        snprintf(text, sizeof text, "%s can't be read", file);
        write_log(text);
        return false;
    }
    bool is_right = true;
    while (is_right && next_row(from, &row))
        is_right = row.is_whole && set_words(&read, row.words, row.count);
    bool is_read = ferror(from) == 0;
    fclose(from);
    if (is_right && is_read) {
        *config = read;
        return true;
    }
    if (is_read)
        snprintf(text, sizeof text, "%s line %u: no such setting or group, or a wrong value", file, row.number);
    else
        snprintf(text, sizeof text, "%s can't be read", file);
    write_log(text);
    return false;
}

/* Whether each member is HOST:PORT. A URL would never answer. */
static bool are_members(const char *members) {
    char text[WORD], *rest = text;
    uint32_t port;
    snprintf(text, sizeof text, "%s", members);
    for (char *member; (member = strsep(&rest, ",")) != NULL;) {
        const char *colon = strrchr(member, ':');
        if (colon == NULL || colon == member || strchr(member, '/') != NULL || !number_of(colon + 1, UINT16_MAX, &port))
            return false;
    }
    return true;
}

bool fits_etcd(const struct config *config) {
    if (config->etcd[0] != 0 && !are_members(config->etcd)) {
        write_log("etcd: the members are HOST:PORT, with commas between them");
        return false;
    }
    bool has_certificate = config->etcd_certificate[0] != 0, has_key = config->etcd_key[0] != 0;
    bool fits = has_certificate == has_key && (!has_key || config->etcd_authority[0] != 0);
    if (!fits)
        write_log("etcd-certificate and etcd-key come together, and with etcd-authority");
    return fits;
}

static bool is_in(const gid_t *gids, size_t count, gid_t gid) {
    for (size_t at = 0; at < count; at++)
        if (gids[at] == gid)
            return true;
    return false;
}

/* The groups of a peer, its own first. 0 if they can't be read. */
static size_t gids_of(int descriptor, gid_t own, gid_t *gids) {
    socklen_t len = (MOST_GIDS - 1) * sizeof(gid_t);
    gids[0] = own;
    if (getsockopt(descriptor, SOL_SOCKET, SO_PEERGROUPS, gids + 1, &len) != 0)
        return 0;
    return 1 + len / sizeof(gid_t);
}

bool read_rights(const struct config *config, int descriptor, struct rights *rights) {
    struct ucred peer;
    socklen_t len = sizeof peer;
    static gid_t gids[MOST_GIDS];
    if (getsockopt(descriptor, SOL_SOCKET, SO_PEERCRED, &peer, &len) != 0)
        return false;
    size_t count = gids_of(descriptor, peer.gid, gids);
    if (count == 0)
        return false;
    bool is_root = peer.uid == 0;
    rights->uid = peer.uid;
    rights->pid = (uint32_t)peer.pid;
    rights->has_syslck = is_root || (config->has_syslck_group && is_in(gids, count, config->syslck_group));
    rights->is_admin = is_root || (config->has_admin_group && is_in(gids, count, config->admin_group));
    rights->group = 1;
    for (uint32_t at = 0; at < config->group_count; at++) {
        if (is_in(gids, count, config->groups[at].gid)) {
            rights->group = config->groups[at].group;
            return true;
        }
    }
    return config->group_count == 0;
}
