/* A connection to vlmd, or to a replica of it. */
#define _GNU_SOURCE
#include "link.h"

#include <errno.h>
#include <fcntl.h>
#include <getopt.h>
#include <netdb.h>
#include <poll.h>
#include <stdio.h>
#include <stdlib.h>
#include <string.h>
#include <sys/socket.h>
#include <sys/un.h>
#include <time.h>
#include <unistd.h>

/* How long a replica may take, in milliseconds. */
enum { PATIENCE = 3000 };

static const char usual_socket[] = "/run/vlm/lock.sock", greeting[] = "vlm protocol 1 ", no_rights[] = "no rights",
                  no_group[] = "no group", too_many[] = "too many connections";

const char *usual_address(void) {
    const char *address = getenv("VLM_SOCKET");
    return address != NULL ? address : usual_socket;
}

int64_t milliseconds(void) {
    struct timespec now;
    clock_gettime(CLOCK_MONOTONIC, &now);
    return (int64_t)now.tv_sec * 1000 + now.tv_nsec / 1000000;
}

int wrong_words(const char *usage) {
    fprintf(stderr, "usage: %s\n", usage);
    return WRONG_WORDS;
}

int end_output(int got) {
    bool is_written = fflush(stdout) == 0 && ferror(stdout) == 0;
    if (got == 1 && is_written)
        return 0;
    fprintf(stderr, "vlm: %s\n", got == 1 ? "standard output can't be written" : "the service has gone");
    return NO_SERVICE;
}

int read_address(int count, char **words, const char **address) {
    static const struct option longer[] = {{"connect", required_argument, NULL, 'c'}, {NULL, 0, NULL, 0}};
    int option;
    *address = usual_address();
    while ((option = getopt_long(count, words, "+", longer, NULL)) != -1) {
        if (option != 'c')
            return 0;
        *address = optarg;
    }
    return optind;
}

bool link_send(const struct link *link, const char *text) {
    return vlmc_channel_send(&link->channel, text, strlen(text), 0);
}

/* Takes a line that has come whole. */
static bool take_line(struct link *link, char *line) {
    const char *feed = memchr(link->in, '\n', link->len);
    if (feed == NULL)
        return false;
    size_t len = (size_t)(feed - link->in), kept = len < LINE_ROOM ? len : LINE_ROOM - 1;
    memcpy(line, link->in, kept);
    line[kept] = 0;
    link->len -= len + 1;
    memmove(link->in, feed + 1, link->len);
    return true;
}

/* Receives what has come. Returns false at the end. */
static bool receive(struct link *link) {
    ssize_t len = vlmc_channel_receive(&link->channel, link->in + link->len, sizeof link->in - link->len, MSG_DONTWAIT);
    if (len > 0)
        link->len += (size_t)len;
    return len > 0 || (len < 0 && (errno == EAGAIN || errno == EINTR));
}

int link_line(struct link *link, char *line, int64_t until) {
    while (!take_line(link, line)) {
        size_t before = link->len;
        /* (TLS may have bytes that the socket has not any more) */
        if (link->channel.tls != NULL && !receive(link))
            return -1;
        if (link->len != before)
            continue;
        int64_t left = until == FOREVER ? -1 : until - milliseconds();
        struct pollfd ready = {.fd = link->channel.descriptor, .events = POLLIN};
        if (until != FOREVER && left < 0)
            left = 0;
        int count = poll(&ready, 1, left > 1000000 ? 1000000 : (int)left);
        if (count > 0 && !receive(link))
            return -1;
        if (left == 0)
            return take_line(link, line) ? 1 : 0;
    }
    return 1;
}

/* Reads the greeting, or the line in its place: none if nobody answers. Returns false if it is no greeting, or one of
 * another protocol, or if a refusal comes along with it, which is the line then. */
static bool is_greeted(struct link *link, char *line, int64_t until) {
    size_t len = strlen(too_many);
    if (link_line(link, line, until) != 1)
        line[0] = 0;
    bool is_greeting = strncmp(line, greeting, strlen(greeting)) == 0;
    if (is_greeting && link->len > len && memcmp(link->in, too_many, len) == 0)
        is_greeting = !take_line(link, line);
    link->is_refused = strcmp(line, no_rights) == 0 || strcmp(line, no_group) == 0 || strcmp(line, too_many) == 0;
    return is_greeting;
}

/* A socket that is none of the standard streams. In the place of a closed one, the command of `vlm lock` would have it.
 */
static int make_socket(int family) {
    int made = socket(family, SOCK_STREAM, 0);
    if (made < 0 || made > STDERR_FILENO)
        return made;
    int moved = fcntl(made, F_DUPFD, STDERR_FILENO + 1);
    close(made);
    return moved;
}

/* What a user may look at who can't connect. */
static const char *hint_of(int wrong) {
    if (wrong == ENOENT || wrong == ECONNREFUSED)
        return ": is vlmd running?";
    return wrong == EACCES ? ": the group and the mode of the socket say who may connect" : "";
}

static bool open_socket(struct link *link, const char *path) {
    struct sockaddr_un address = {.sun_family = AF_UNIX};
    if (strlen(path) >= sizeof address.sun_path) {
        fprintf(stderr, "vlm: the name of the socket is too long\n");
        return false;
    }
    memcpy(address.sun_path, path, strlen(path));
    link->channel = (struct channel){make_socket(AF_UNIX), NULL};
    if (link->channel.descriptor < 0
        || connect(link->channel.descriptor, (const struct sockaddr *)&address, sizeof address) != 0) {
        fprintf(stderr, "vlm: %s: %s%s\n", path, strerror(errno), hint_of(errno));
        return false;
    }
    char line[LINE_ROOM];
    if (is_greeted(link, line, FOREVER))
        return true;
    if (line[0] == 0 || link->is_refused)
        fprintf(stderr, "vlm: %s: %s\n", path, line[0] == 0 ? "vlmd does not answer: its log may say why" : line);
    else
        fprintf(stderr, "vlm: %s speaks another protocol\n", path);
    return false;
}

/* How replicas are asked: by which keys, or null, and why the last one does not answer. */
struct asking {
    vlm_tls_keys *keys;
    char reason[VLM_TLS_REASON];
};

/* Begins TLS if it is asked for, and reads the greeting. */
static bool is_begun(struct link *link, const char *host, struct asking *asking) {
    const struct handshake how = {asking->keys, host, -1, vlmc_now() + PATIENCE, asking->reason};
    if (asking->keys != NULL && !vlmc_shake_hands(&link->channel, &how))
        return false;
    char line[LINE_ROOM];
    if (is_greeted(link, line, milliseconds() + PATIENCE))
        return true;
    const char *why = vlmc_channel_reason(&link->channel);
    const char *reason = why != NULL ? why : link->is_refused ? line : "";
    snprintf(asking->reason, VLM_TLS_REASON, "%.*s", VLM_TLS_REASON - 1, reason);
    return false;
}

/* Connects to one of the addresses of a host. */
static bool open_host(struct link *link, const char *host, const char *port, struct asking *asking) {
    static const struct timeval patience = {PATIENCE / 1000, 0};
    struct addrinfo wanted = {.ai_family = AF_UNSPEC, .ai_socktype = SOCK_STREAM}, *found = NULL;
    bool is_open = false;
    if (getaddrinfo(host, port, &wanted, &found) != 0)
        return false;
    for (const struct addrinfo *at = found; at != NULL && !is_open; at = at->ai_next) {
        link->len = 0;
        link->channel = (struct channel){make_socket(at->ai_family), NULL};
        /* (this limits how long connect waits, too) */
        setsockopt(link->channel.descriptor, SOL_SOCKET, SO_SNDTIMEO, &patience, sizeof patience);
        is_open = connect(link->channel.descriptor, at->ai_addr, at->ai_addrlen) == 0 && is_begun(link, host, asking);
        if (!is_open)
            vlmc_channel_close(&link->channel);
    }
    freeaddrinfo(found);
    return is_open;
}

/* HOST:PORT, where HOST may be in brackets. */
static bool open_word(struct link *link, const char *word, size_t len, struct asking *asking) {
    char text[LINE_ROOM];
    if (len >= sizeof text)
        return false;
    memcpy(text, word, len);
    text[len] = 0;
    char *host = text, *colon = strrchr(text, ':');
    if (colon == NULL || colon == text)
        return false;
    *colon = 0;
    if (host[0] == '[' && colon[-1] == ']') {
        colon[-1] = 0;
        host++;
    }
    return open_host(link, host, colon + 1, asking);
}

/* Connects to the first replica that answers. */
static bool open_replica(struct link *link, const char *address, struct asking *asking) {
    const struct vlm_tls_files files = vlmc_files(&(struct vlm_tls_files){NULL, NULL, NULL});
    asking->keys = vlmc_is_secured(address) ? vlmc_read_keys(&files, asking->reason) : NULL;
    bool is_open = false;
    if (asking->keys == NULL && vlmc_is_secured(address))
        return false;
    for (const char *word = strchr(address, ':') + 1; *word != 0 && !is_open;) {
        size_t len = strcspn(word, ",");
        is_open = open_word(link, word, len, asking);
        word += len + (word[len] == ',');
    }
    vlmc_free_keys(asking->keys);
    return is_open;
}

bool link_open(struct link *link, const char *address) {
    struct asking asking = {.reason = ""};
    link->len = 0;
    if (!vlmc_is_replicated(address))
        return open_socket(link, address);
    if (open_replica(link, address, &asking))
        return true;
    fprintf(stderr, "vlm: no replica answers at %s%s%s\n", address, asking.reason[0] != 0 ? ": " : "", asking.reason);
    return false;
}

bool write_name(const char *name, size_t len, char *text) {
    bool is_plain = len < 2 || memcmp(name, "x:", 2) != 0;
    for (size_t at = 0; at < len; at++)
        is_plain &= name[at] > ' ' && name[at] < 127;
    if (len == 0 || len > MOST_NAME) {
        fprintf(stderr, "vlm: the name of a lock has 1 to %d bytes\n", MOST_NAME);
        return false;
    }
    if (is_plain)
        sprintf(text, "%.*s", (int)len, name);
    else
        for (size_t at = 0, to = (size_t)sprintf(text, "x:"); at < len; at++, to += 2)
            sprintf(text + to, "%02x", (unsigned char)name[at]);
    return true;
}
