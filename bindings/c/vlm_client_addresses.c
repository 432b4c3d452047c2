/* Where the service is: a socket of Unix, or addresses of TCP as tcp:HOST:PORT,HOST:PORT.. has them. */
#include "vlm_client_parts.h"

#include <errno.h>
#include <fcntl.h>
#include <netdb.h>
#include <netinet/in.h>
#include <netinet/tcp.h>
#include <poll.h>
#include <stdio.h>
#include <stdlib.h>
#include <string.h>
#include <sys/un.h>
#include <unistd.h>

/* The socket's buffer holds all lines that may be under way: a sender never waits. */
enum { SEND_BUFFER = 1 << 17, LONGEST_WAIT = 1 << 20 };

static bool add(vlm_client *client, const struct sockaddr *name, size_t len) {
    struct address *more = realloc(client->addresses, (client->address_count + 1) * sizeof *more);
    if (more == NULL)
        return false;
    client->addresses = more;
    more[client->address_count].len = (socklen_t)len;
    more[client->address_count].host[0] = 0;
    memcpy(&more[client->address_count++].name, name, len);
    return true;
}

/* A host may have several addresses. One that has none is left out. */
static void add_host(vlm_client *client, const char *host, const char *port) {
    struct addrinfo wanted = {.ai_family = AF_UNSPEC, .ai_socktype = SOCK_STREAM}, *found = NULL;
    if (getaddrinfo(host, port, &wanted, &found) != 0)
        return;
    for (const struct addrinfo *at = found; at != NULL && add(client, at->ai_addr, at->ai_addrlen); at = at->ai_next)
        snprintf(client->addresses[client->address_count - 1].host, ADDRESS, "%s", host);
    freeaddrinfo(found);
}

/* HOST:PORT, where HOST may be in brackets. */
static void add_word(vlm_client *client, char *word) {
    char *colon = strrchr(word, ':');
    if (colon == NULL)
        return;
    *colon = 0;
    size_t len = strlen(word);
    if (len > 1 && word[0] == '[' && word[len - 1] == ']') {
        word[len - 1] = 0;
        word++;
    }
    if (word[0] != 0 && colon[1] != 0)
        add_host(client, word, colon + 1);
}

bool vlmc_find_addresses(vlm_client *client) {
    struct sockaddr_un name = {.sun_family = AF_UNIX};
    const char *path = client->path;
    client->address_count = client->address = 0;
    if (client->lease == 0 && strlen(path) < sizeof name.sun_path) {
        memcpy(name.sun_path, path, strlen(path));
        return add(client, (const struct sockaddr *)&name, sizeof name);
    }
    if (client->lease == 0)
        return false;
    for (const char *word = path + strlen("tcp:"); *word != 0;) {
        char text[ADDRESS];
        size_t len = strcspn(word, ",");
        snprintf(text, sizeof text, "%.*s", (int)len, word);
        if (len < sizeof text)
            add_word(client, text);
        word += len + (word[len] == ',');
    }
    return client->address_count > 0;
}

bool vlmc_poll(int descriptor, int wake, short events, uint64_t until) {
    struct pollfd ready[] = {{.fd = descriptor, .events = events}, {.fd = wake, .events = POLLIN}};
    int count = -1;
    while (count < 0) {
        uint64_t now = vlmc_now(), left = until > now ? until - now : 0;
        count = poll(ready, 2, left < LONGEST_WAIT ? (int)left : LONGEST_WAIT);
        if (count < 0 && errno != EINTR)
            return false;
    }
    return ready[0].revents != 0 && ready[1].revents == 0;
}

/* Without an end it does not wait: the descriptor's own calls do. */
bool vlmc_wait_for(const vlm_client *client, int descriptor, short events, uint64_t until) {
    return until == NEVER || vlmc_poll(descriptor, client->wake_descriptor, events, until);
}

/* A connection of a port of this machine to itself, which is possible while nobody listens there. */
static bool is_own(int descriptor) {
    struct sockaddr_storage here, there;
    socklen_t here_len = sizeof here, there_len = sizeof there;
    return getsockname(descriptor, (struct sockaddr *)&here, &here_len) == 0
           && getpeername(descriptor, (struct sockaddr *)&there, &there_len) == 0 && here_len == there_len
           && memcmp(&here, &there, here_len) == 0;
}

/* Whether the connection is made. Else errno says why not. */
static bool is_connected(const vlm_client *client, int descriptor, uint64_t until) {
    int wrong = 0;
    socklen_t len = sizeof wrong;
    if (!vlmc_wait_for(client, descriptor, POLLOUT, until))
        wrong = ETIMEDOUT;
    else if (getsockopt(descriptor, SOL_SOCKET, SO_ERROR, &wrong, &len) != 0)
        wrong = errno;
    else if (wrong == 0 && is_own(descriptor))
        wrong = ECONNREFUSED;
    errno = wrong;
    return wrong == 0;
}

static void set_options(int descriptor) {
    static const int on = 1, room = SEND_BUFFER;
    setsockopt(descriptor, IPPROTO_TCP, TCP_NODELAY, &on, sizeof on);
    setsockopt(descriptor, SOL_SOCKET, SO_KEEPALIVE, &on, sizeof on);
    setsockopt(descriptor, SOL_SOCKET, SO_SNDBUF, &room, sizeof room);
}

/* A signal may interrupt a call. With a lease none waits: vlmc_wait_for does. */
bool vlmc_connect_to(const vlm_client *client, struct channel *channel, uint64_t until) {
    const struct address *address = &client->addresses[client->address];
    const struct sockaddr *name = (const struct sockaddr *)&address->name;
    int kind = SOCK_STREAM | (client->lease != 0 ? SOCK_NONBLOCK : 0), done;
    int descriptor = vlmc_open_socket(name->sa_family, kind);
    *channel = (struct channel){descriptor, NULL};
    if (descriptor < 0)
        return false;
    if (client->lease != 0)
        set_options(descriptor);
    while ((done = connect(descriptor, name, address->len)) < 0 && errno == EINTR && client->lease == 0)
        continue;
    if (client->lease != 0 && done < 0 && (errno == EINPROGRESS || errno == EINTR))
        done = 0;
    if (done == 0 && (client->lease == 0 || is_connected(client, descriptor, until)))
        return true;
    int why = errno;
    vlmc_channel_close(channel);
    errno = why;
    return false;
}
