/* The sockets of clients. A forked child has a copy of each, and at a socket of Unix a session lasts until the last
 * copy is closed: a child that lives on would keep the locks of a parent that has ended. So it closes its copies. */
#include "vlm_client_parts.h"
#include "vlm_descriptors.h"

#include <stdlib.h>
#include <string.h>
#include <sys/socket.h>
#include <unistd.h>

enum { MORE = 64 };

static struct {
    pthread_mutex_t mutex;
    bool is_watching; /* forks */
    bool *are_open;   /* by descriptors: whether it is a socket of a client */
    int room;
    uint64_t forks; /* between the first process and this one */
} sockets = {.mutex = PTHREAD_MUTEX_INITIALIZER};

static void before_fork(void) { pthread_mutex_lock(&sockets.mutex); }

static void after_fork(void) { pthread_mutex_unlock(&sockets.mutex); }

static void begin_child(void) {
    for (int descriptor = 0; descriptor < sockets.room; descriptor++) {
        if (sockets.are_open[descriptor])
            close(descriptor);
        sockets.are_open[descriptor] = false;
    }
    sockets.forks++;
    pthread_mutex_unlock(&sockets.mutex);
}

uint64_t vlmc_forks(void) { return sockets.forks; }

/* Wants the mutex held. */
static bool watches_forks(void) {
    if (!sockets.is_watching)
        sockets.is_watching = pthread_atfork(before_fork, after_fork, begin_child) == 0;
    return sockets.is_watching;
}

/* Functions that a fork begins with are called in the order opposite to that in which they were given. So this one
 * comes after those of the program, which may take a mutex that another thread has while it calls the client; and
 * before those of the allocator, which has given its own by now, and which is called here with the mutex held. */
__attribute__((constructor)) static void begin(void) {
    void *volatile block = malloc(1);
    free(block);
    pthread_mutex_lock(&sockets.mutex);
    watches_forks();
    pthread_mutex_unlock(&sockets.mutex);
}

/* Notes a socket. Without memory it is closed. */
static int note(int descriptor) {
    if (descriptor >= sockets.room) {
        int room = descriptor + MORE;
        bool *are_open = realloc(sockets.are_open, (size_t)room * sizeof *are_open);
        if (are_open == NULL) {
            close(descriptor);
            return -1;
        }
        memset(are_open + sockets.room, 0, (size_t)(room - sockets.room) * sizeof *are_open);
        sockets.are_open = are_open;
        sockets.room = room;
    }
    sockets.are_open[descriptor] = true;
    return descriptor;
}

int vlmc_open_socket(int family, int kind) {
    int descriptor = -1;
    pthread_mutex_lock(&sockets.mutex);
    if (watches_forks())
        descriptor = clear_of_streams(socket(family, kind | SOCK_CLOEXEC, 0));
    if (descriptor >= 0)
        descriptor = note(descriptor);
    pthread_mutex_unlock(&sockets.mutex);
    return descriptor;
}

void vlmc_close_socket(int descriptor) {
    pthread_mutex_lock(&sockets.mutex);
    if (descriptor < sockets.room)
        sockets.are_open[descriptor] = false;
    close(descriptor);
    pthread_mutex_unlock(&sockets.mutex);
}
