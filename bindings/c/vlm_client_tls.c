/* TLS of the client's connections. The library that calls OpenSSL is loaded when an address asks for it. */
#define _GNU_SOURCE
#include "vlm_client_tls.h"

#include <dlfcn.h>
#include <errno.h>
#include <limits.h>
#include <link.h>
#include <poll.h>
#include <pthread.h>
#include <stdio.h>
#include <stdlib.h>
#include <string.h>
#include <sys/socket.h>
#include <unistd.h>

enum { RECEIVED = 16 << 10 };

static const char by_tcp[] = "tcp:", by_tls[] = "tls:", library[] = "libvlm-tls.so.1", own[] = "libvlm.so";
/* Where the library is, from the folder of a program that is installed with it; no text in other programs. */
#ifdef VLM_TLS_BESIDE
static const char beside[] = VLM_TLS_BESIDE;
#else
static const char beside[] = "";
#endif

static struct {
    pthread_once_t once;
    const struct vlm_tls_calls *calls;
    char reason[VLM_TLS_REASON];
} loaded = {.once = PTHREAD_ONCE_INIT};

bool vlmc_is_secured(const char *address) { return strncmp(address, by_tls, strlen(by_tls)) == 0; }

bool vlmc_is_replicated(const char *address) {
    return vlmc_is_secured(address) || strncmp(address, by_tcp, strlen(by_tcp)) == 0;
}

/* The file of this code: of the program, if that says where the library is, else of libvlm.so. In the folder of another
 * program the library might be anybody's. So a static program, or a path that is not whole, has no such file. */
static bool find_own(char path[PATH_MAX]) {
    Dl_info found;
    struct link_map *map = NULL;
    if (beside[0] != 0) {
        ssize_t len = readlink("/proc/self/exe", path, PATH_MAX - 1);
        path[len > 0 ? len : 0] = 0;
        return len > 0;
    }
    if (dladdr1(&loaded, &found, (void **)&map, RTLD_DL_LINKMAP) == 0 || map == NULL || map->l_name[0] != '/'
        || strlen(map->l_name) >= PATH_MAX)
        return false;
    snprintf(path, PATH_MAX, "%s", map->l_name);
    const char *slash = strrchr(path, '/');
    return slash != NULL && strncmp(slash + 1, own, strlen(own)) == 0;
}

/* The library beside the file of this code, or null. */
static void *load_beside(void) {
    char path[PATH_MAX], whole[PATH_MAX + sizeof beside + sizeof library];
    if (!find_own(path))
        return NULL;
    *strrchr(path, '/') = 0;
    snprintf(whole, sizeof whole, "%s/%s%s", path, beside, library);
    return dlopen(whole, RTLD_NOW | RTLD_LOCAL);
}

static void load(void) {
    void *handle = load_beside();
    if (handle == NULL)
        handle = dlopen(library, RTLD_NOW | RTLD_LOCAL);
    if (handle != NULL)
        loaded.calls = dlsym(handle, "vlm_tls_calls");
    const char *wrong = loaded.calls == NULL ? dlerror() : NULL;
    if (loaded.calls == NULL)
        snprintf(loaded.reason, sizeof loaded.reason, "no TLS here: %s", wrong != NULL ? wrong : library);
}

/* The library of TLS, or null. */
static const struct vlm_tls_calls *calls(void) {
    pthread_once(&loaded.once, load);
    return loaded.calls;
}

static const char *file_of(const char *named, const char *variable) {
    return named != NULL ? named : secure_getenv(variable);
}

struct vlm_tls_files vlmc_files(const struct vlm_tls_files *named) {
    return (struct vlm_tls_files){file_of(named->certificate, "VLM_TLS_CERTIFICATE"),
                                  file_of(named->key, "VLM_TLS_KEY"), file_of(named->authority, "VLM_TLS_AUTHORITY")};
}

vlm_tls_keys *vlmc_read_keys(const struct vlm_tls_files *files, char *reason) {
    const char *absent = files->certificate == NULL ? "certificate"
                         : files->key == NULL       ? "key"
                         : files->authority == NULL ? "authority"
                                                    : NULL;
    if (absent == NULL && calls() != NULL)
        return calls()->read_keys(files, reason);
    if (absent != NULL)
        snprintf(reason, VLM_TLS_REASON, "TLS wants a certificate, a key and an authority: no %s is named", absent);
    else
        snprintf(reason, VLM_TLS_REASON, "%s", loaded.reason);
    return NULL;
}

void vlmc_free_keys(vlm_tls_keys *keys) {
    if (keys != NULL)
        calls()->free_keys(keys);
}

/* Sends all bytes, or says that the connection has failed. */
static bool send_all(int descriptor, const void *bytes, size_t len, int flags) {
    const uint8_t *from = bytes;
    while (len > 0) {
        ssize_t sent = send(descriptor, from, len, MSG_NOSIGNAL | flags);
        if (sent < 0 && errno == EINTR)
            continue;
        if (sent < 0)
            return false;
        from += sent;
        len -= (size_t)sent;
    }
    return true;
}

/* Sends what TLS has made. */
static bool send_made(const struct channel *channel, int flags) {
    size_t len;
    const void *bytes = calls()->output(channel->tls, &len);
    if (!send_all(channel->descriptor, bytes, len, flags))
        return false;
    calls()->sent(channel->tls, len);
    return true;
}

bool vlmc_channel_send(const struct channel *channel, const void *bytes, size_t len, int flags) {
    if (channel->tls == NULL)
        return send_all(channel->descriptor, bytes, len, flags);
    return calls()->write(channel->tls, bytes, len) && send_made(channel, flags);
}

/* Gives TLS what has come. The answers are those of recv. */
static ssize_t hear(const struct channel *channel, int flags) {
    uint8_t bytes[RECEIVED];
    ssize_t len = recv(channel->descriptor, bytes, sizeof bytes, flags);
    if (len > 0 && !calls()->hear(channel->tls, bytes, (size_t)len)) {
        errno = ENOMEM;
        return -1;
    }
    return len;
}

ssize_t vlmc_channel_receive(const struct channel *channel, void *bytes, size_t room, int flags) {
    if (channel->tls == NULL)
        return recv(channel->descriptor, bytes, room, flags);
    long count = calls()->read(channel->tls, bytes, room);
    if (count == 0) {
        ssize_t len = hear(channel, flags);
        if (len <= 0)
            return len;
        count = calls()->read(channel->tls, bytes, room);
        if (!send_made(channel, MSG_DONTWAIT))
            count = VLM_TLS_FAILED;
    }
    errno = count == 0 ? EAGAIN : EPROTO;
    return count > 0 ? count : count == VLM_TLS_ENDED ? 0 : -1;
}

const char *vlmc_channel_reason(const struct channel *channel) {
    const char *reason = channel->tls != NULL ? calls()->reason(channel->tls) : "";
    return reason[0] != 0 ? reason : NULL;
}

void vlmc_channel_end(const struct channel *channel) {
    if (channel->tls != NULL) {
        calls()->end(channel->tls);
        send_made(channel, MSG_DONTWAIT);
    }
    if (channel->descriptor >= 0)
        shutdown(channel->descriptor, SHUT_RDWR);
}

void vlmc_channel_close(struct channel *channel) {
    if (channel->tls != NULL)
        calls()->close(channel->tls);
    if (channel->descriptor >= 0)
        vlmc_close_socket(channel->descriptor);
    *channel = (struct channel){-1, NULL};
}

/* Goes on with the handshake until it is done. Returns what is wrong, or null. */
static const char *shake(struct channel *channel, const struct handshake *how) {
    for (;;) {
        int found = calls()->shake(channel->tls);
        bool is_sent = send_made(channel, MSG_DONTWAIT);
        if (found < 0)
            return calls()->reason(channel->tls);
        if (!is_sent)
            return "the connection fails";
        if (found > 0)
            return NULL;
        if (vlmc_now() >= how->until || !vlmc_poll(channel->descriptor, how->wake, POLLIN, how->until))
            return "no answer";
        ssize_t len = hear(channel, MSG_DONTWAIT);
        if (len == 0 || (len < 0 && errno != EAGAIN && errno != EINTR))
            return "the connection ends in the handshake";
    }
}

bool vlmc_shake_hands(struct channel *channel, const struct handshake *how) {
    channel->tls = calls()->open(how->keys, how->host);
    const char *wrong = channel->tls != NULL ? shake(channel, how) : "no memory";
    if (wrong != NULL)
        snprintf(how->reason, VLM_TLS_REASON, "%s", wrong);
    return wrong == NULL;
}
