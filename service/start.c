/* The socket, the state file, the log, and what systemd is told. The protocols of systemd are a few lines each, so the
 * daemon needs no library for them. */
#define _GNU_SOURCE
#include "names.h"

#include <errno.h>
#include <fcntl.h>
#include <netdb.h>
#include <netinet/in.h>
#include <poll.h>
#include <stdio.h>
#include <stdlib.h>
#include <string.h>
#include <sys/file.h>
#include <sys/socket.h>
#include <sys/stat.h>
#include <sys/un.h>
#include <unistd.h>

enum { BACKLOG = 4096, SYSTEMD_DESCRIPTOR = 3, STATE = 32, TEXT = 640, LONGEST_PATH = 512, NAME = 64 };

enum { EPOCHS = 1 << 24 };

/* Whether standard error is the stream to the journal that systemd has named. Shells of a unit hand the name on to
 * programs whose log goes elsewhere. */
static bool is_journal(void) {
    const char *stream = getenv("JOURNAL_STREAM");
    struct stat log;
    char name[NAME];
    if (stream == NULL || fstat(STDERR_FILENO, &log) != 0)
        return false;
    snprintf(name, sizeof name, "%ju:%ju", (uintmax_t)log.st_dev, (uintmax_t)log.st_ino);
    return strcmp(stream, name) == 0;
}

void write_log(const char *text) {
    char line[TEXT];
    struct pollfd ready = {.fd = STDERR_FILENO, .events = POLLOUT};
    int len = snprintf(line, sizeof line, "%s%s\n", is_journal() ? "<6>" : "vlmd: ", text);
    if (len >= (int)sizeof line)
        len = sizeof line - 1;
    /* (a log that nobody reads, or whose disk is full, holds up no client) */
    if (poll(&ready, 1, 0) == 1 && (ready.revents & POLLOUT) != 0 && write(STDERR_FILENO, line, (size_t)len) < 0)
        return;
}

static int fail(const char *what, const char *name) {
    char text[TEXT];
    snprintf(text, sizeof text, "%s %s: %s", name, what, strerror(errno));
    write_log(text);
    return -1;
}

/* How many sockets systemd has given. */
static long count_given(void) {
    const char *pid = getenv("LISTEN_PID"), *count = getenv("LISTEN_FDS");
    return pid == NULL || count == NULL || strtol(pid, NULL, 10) != (long)getpid() ? 0 : strtol(count, NULL, 10);
}

static int take_given(void) {
    fcntl(SYSTEMD_DESCRIPTOR, F_SETFD, FD_CLOEXEC);
    fcntl(SYSTEMD_DESCRIPTOR, F_SETFL, fcntl(SYSTEMD_DESCRIPTOR, F_GETFL) | O_NONBLOCK);
    return SYSTEMD_DESCRIPTOR;
}

/* Takes away the socket that a daemon left when it was killed. All else stays: a file that is no socket, and a socket
 * that somebody listens to, such as systemd's for a daemon whose state file is elsewhere. */
static bool make_way(const struct sockaddr_un *address) {
    struct stat there;
    if (lstat(address->sun_path, &there) != 0)
        return errno == ENOENT;
    errno = S_ISDIR(there.st_mode) ? EISDIR : EEXIST;
    if (!S_ISSOCK(there.st_mode))
        return false;
    int asked = socket(AF_UNIX, SOCK_STREAM | SOCK_CLOEXEC | SOCK_NONBLOCK, 0);
    if (asked < 0)
        return false;
    bool is_left = connect(asked, (const struct sockaddr *)address, sizeof *address) != 0 && errno == ECONNREFUSED;
    close(asked);
    errno = EADDRINUSE;
    return is_left && unlink(address->sun_path) == 0;
}

int open_listener(const struct config *config, bool *is_own) {
    long given = count_given();
    *is_own = given == 0;
    /* (one of its own would be in the way of these, or elsewhere) */
    if (given > 1) {
        write_log("systemd gives several sockets: vlmd.socket may have one ListenStream");
        return -1;
    }
    if (given == 1)
        return take_given();
    struct sockaddr_un address = {.sun_family = AF_UNIX};
    snprintf(address.sun_path, sizeof address.sun_path, "%s", config->socket);
    if (!make_way(&address))
        return fail("is in the way", config->socket);
    int made = socket(AF_UNIX, SOCK_STREAM | SOCK_CLOEXEC | SOCK_NONBLOCK, 0);
    if (made < 0)
        return fail("can't be made", "a socket");
    mode_t before = umask(0777 & ~config->mode);
    int bound = bind(made, (const struct sockaddr *)&address, sizeof address);
    umask(before);
    if (bound != 0 || listen(made, BACKLOG) != 0)
        return fail("can't be listened to", config->socket);
    return made;
}

static bool is_loopback(const struct addrinfo *address) {
    if (address->ai_family == AF_INET)
        return ntohl(((const struct sockaddr_in *)(const void *)address->ai_addr)->sin_addr.s_addr) >> 24
               == IN_LOOPBACKNET;
    return address->ai_family == AF_INET6
           && IN6_IS_ADDR_LOOPBACK(&((const struct sockaddr_in6 *)(const void *)address->ai_addr)->sin6_addr);
}

static int open_tcp_listener(const struct addrinfo *address, const char *name) {
    int made = socket(address->ai_family, SOCK_STREAM | SOCK_CLOEXEC | SOCK_NONBLOCK, 0), yes = 1;
    if (made < 0)
        return fail("can't be made", "a socket");
    setsockopt(made, SOL_SOCKET, SO_REUSEADDR, &yes, sizeof yes);
    if (address->ai_family == AF_INET6)
        setsockopt(made, IPPROTO_IPV6, IPV6_V6ONLY, &yes, sizeof yes);
    if (bind(made, address->ai_addr, address->ai_addrlen) != 0 || listen(made, BACKLOG) != 0)
        return fail("can't be listened to", name);
    return made;
}

/* Splits HOST:PORT, with brackets around a HOST that has colons. */
static bool split_address(const char *text, char host[WORD], const char **port) {
    const char *colon = strrchr(text, ':');
    if (colon == NULL || colon == text || colon[1] == 0)
        return false;
    size_t len = (size_t)(colon - text);
    bool has_brackets = text[0] == '[' && text[len - 1] == ']';
    if (has_brackets) {
        text++;
        len -= 2;
    }
    snprintf(host, WORD, "%.*s", (int)len, text);
    *port = colon + 1;
    return host[0] != 0;
}

size_t open_tcp_listeners(const struct config *config, int listeners[MOST_LISTENERS]) {
    char host[WORD];
    const char *port;
    struct addrinfo hints = {.ai_socktype = SOCK_STREAM, .ai_flags = AI_PASSIVE}, *found = NULL;
    size_t count = 0;
    if (!split_address(config->listen, host, &port) || getaddrinfo(host, port, &hints, &found) != 0) {
        write_log("listen: no such address");
        return 0;
    }
    for (const struct addrinfo *it = found; it != NULL && count < MOST_LISTENERS; it = it->ai_next) {
        if (!is_loopback(it) && !config->is_network_trusted && !has_tls()) {
            write_log("listen: clients of other machines need TLS: set tls-certificate, tls-key, tls-authority and "
                      "rights, or say `network trusted` to let in everybody");
            count = 0;
            break;
        }
        listeners[count] = open_tcp_listener(it, config->listen);
        if (listeners[count] < 0) {
            count = 0;
            break;
        }
        count++;
    }
    freeaddrinfo(found);
    return count;
}

/* Makes the folder of a socket, if it is not there and the one above is. */
static void make_folder(const char *socket) {
    char folder[PATH];
    snprintf(folder, sizeof folder, "%s", socket);
    char *slash = strrchr(folder, '/');
    if (slash == NULL || slash == folder)
        return;
    *slash = 0;
    if (mkdir(folder, 0755) != 0 && errno != EEXIST)
        fail("can't be made", folder);
}

/* Reads what the last daemon has left. An empty file is a new one. False if there is something else than a state, or
 * the epochs are at their end: the next tokens would be smaller than earlier ones. */
static bool read_state(int descriptor, uint32_t *epoch, bool *was_unclean) {
    char text[STATE + 1] = "", *end = text;
    ssize_t len = pread(descriptor, text, STATE, 0);
    unsigned long last = strtoul(text, &end, 10);
    *epoch = len > 0 ? (uint32_t)last + 1 : 0;
    *was_unclean = strstr(text, "running") != NULL;
    return len == 0 || (text[0] >= '0' && text[0] <= '9' && (*end == ' ' || *end == '\n') && last < EPOCHS - 1);
}

/* The name of the state file. Returns whether it is in a folder that systemd made for the daemon. */
static bool name_state(const char *socket, char name[LONGEST_PATH]) {
    const char *folder = getenv("STATE_DIRECTORY");
    if (folder != NULL)
        snprintf(name, LONGEST_PATH, "%s/state", folder);
    else
        snprintf(name, LONGEST_PATH, "%s.state", socket);
    return folder != NULL;
}

bool keep_state(const char *socket, uint32_t epoch, int *descriptor) {
    char name[LONGEST_PATH];
    struct stat ours, there;
    name_state(socket, name);
    if (fstat(*descriptor, &ours) != 0
        || (lstat(name, &there) == 0 && there.st_dev == ours.st_dev && there.st_ino == ours.st_ino))
        return true;
    int made = open(name, O_RDWR | O_CREAT | O_NOFOLLOW | O_CLOEXEC, 0600);
    if (made < 0)
        return true;
    bool is_ours = flock(made, LOCK_EX | LOCK_NB) == 0;
    if (is_ours && write_state(made, epoch, true)) {
        write_log("the state file was gone, and is written again");
        dup3(made, *descriptor, O_CLOEXEC);
    }
    close(made);
    return is_ours;
}

int take_state(const char *socket, uint32_t *epoch, bool *was_unclean) {
    char name[LONGEST_PATH];
    if (!name_state(socket, name))
        make_folder(socket);
    int descriptor = open(name, O_RDWR | O_CREAT | O_NOFOLLOW | O_CLOEXEC, 0600);
    if (descriptor < 0)
        return fail("can't be opened", name);
    if (flock(descriptor, LOCK_EX | LOCK_NB) != 0)
        return fail("belongs to another daemon", name);
    errno = EINVAL;
    if (!read_state(descriptor, epoch, was_unclean))
        return fail("has no epoch after which tokens go on", name);
    if (!write_state(descriptor, *epoch, true))
        return fail("can't be written", name);
    return descriptor;
}

bool write_state(int descriptor, uint32_t epoch, bool is_running) {
    char text[STATE];
    int len = snprintf(text, sizeof text, "%010u %s\n", (unsigned)epoch, is_running ? "running" : "ended  ");
    /* (an epoch that a crash of the machine undoes would give its tokens twice) */
    return pwrite(descriptor, text, (size_t)len, 0) == len && fdatasync(descriptor) == 0;
}

void notify(const char *text) {
    struct sockaddr_un address = {.sun_family = AF_UNIX};
    const char *path = getenv("NOTIFY_SOCKET");
    if (path == NULL || strlen(path) >= sizeof address.sun_path)
        return;
    size_t len = strlen(path);
    memcpy(address.sun_path, path, len);
    if (path[0] == '@')
        address.sun_path[0] = 0;
    int made = socket(AF_UNIX, SOCK_DGRAM | SOCK_CLOEXEC, 0);
    if (made < 0)
        return;
    sendto(made, text, strlen(text), MSG_NOSIGNAL | MSG_DONTWAIT, (const struct sockaddr *)&address,
           (socklen_t)(offsetof(struct sockaddr_un, sun_path) + len));
    close(made);
}

uint64_t watchdog_time(void) {
    const char *microseconds = getenv("WATCHDOG_USEC"), *pid = getenv("WATCHDOG_PID");
    if (microseconds == NULL || (pid != NULL && strtol(pid, NULL, 10) != (long)getpid()))
        return 0;
    return strtoull(microseconds, NULL, 10) / 1000;
}
