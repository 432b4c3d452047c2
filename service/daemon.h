/* What the files of the daemon around the dispatcher share. Nothing here is proved.
 *
 * vlmd.c         the event loop: turns, signals, time
 * connections.c  connections of clients
 * secured.c      those with TLS
 * names.c        the file of rights, for clients with TLS
 * list.c         the list of a replica, which a program of its own keeps in etcd
 * config.c       the configuration
 * rows.c         files of settings: the configuration, and the file of rights
 * start.c        the sockets, the state file, the log, and what systemd is told
 */
#ifndef DAEMON_H
#define DAEMON_H

#include "dispatcher.h"
#include "replica.h"

#include <sys/types.h>
#include <uv.h>

enum { MOST_GROUPS = 256, PATH = 108, WORD = 256, MOST_LISTENERS = 8 };

/* Exit statuses. */
enum { WRONG_WORDS = 2, NO_START = 4 };

/* A group of the system and the UIC group of its members. */
struct group_row {
    gid_t gid;
    uint32_t group;
};

struct config {
    char socket[PATH];
    mode_t mode;
    uint32_t grace; /* milliseconds */
    uint32_t awake; /* microseconds that the loop looks for lines after the last one, before it sleeps */
    struct limits limits;
    struct group_row groups[MOST_GROUPS];
    uint32_t group_count;
    bool has_syslck_group, has_admin_group;
    gid_t syslck_group, admin_group;
    /* Of a replica: etcd's members, or no text; the prefix of the keys; where clients connect by TCP, or no text; the
     * UIC group of these; how many bytes of entries a chunk has; whether clients may come from other machines. */
    char etcd[WORD], prefix[WORD], listen[WORD];
    uint32_t tcp_group, chunk;
    bool is_network_trusted;
    /* Files: of its TLS, with the rights of its clients; and of the TLS to etcd. No text: there is none. */
    char tls_certificate[WORD], tls_key[WORD], tls_authority[WORD], rights[WORD];
    char etcd_certificate[WORD], etcd_key[WORD], etcd_authority[WORD];
};

/* The daemon: vlmd.c. */
struct daemon {
    struct config config;
    const char *file;
    bool is_file_named;
    struct dispatcher *dispatcher;
    struct replica *replica; /* null: this daemon is alone */
    uv_loop_t loop;
    bool has_line; /* a client that waits for the answer to its only line was heard in this turn */
};
extern struct daemon vlmd;

/* Reads a configuration over `config`, which has the usual values. Without a file of the usual name these stay.
 * Returns false and logs the line if a line is wrong: then `config` is as it was. */
bool read_config(const char *file, bool must_be_there, struct config *config);

/* The rights of the process at the other end of a socket. False if no row of the table of groups has it. */
bool read_rights(const struct config *config, int descriptor, struct rights *rights);

/* Writes a line to standard error, unless that would block. `<6>` and so on before it are systemd's priorities. */
void write_log(const char *text);

/* A setting, as a line of the configuration has it. False if it is wrong. */
bool set_words(struct config *config, char *const *words, size_t count);

/* Whether etcd's members are written as they should be, and its files fit each other: a certificate comes with its key,
 * and both with an authority. Logs if not. */
bool fits_etcd(const struct config *config);

/* The listening sockets for TCP. Returns how many there are; 0, and logs why, if one can't be made. */
size_t open_tcp_listeners(const struct config *config, int listeners[MOST_LISTENERS]);

/* The listening socket: systemd's, or one at the path of the configuration. -1 if there is none. *is_own says whether
 * the daemon made it and is to remove it. */
int open_listener(const struct config *config, bool *is_own);

/* Takes the state file, which no other daemon has then. *epoch is the epoch that begins, and *was_unclean says whether
 * the last daemon ended with locks that its clients may believe in. -1 if it can't be taken. */
int take_state(const char *socket, uint32_t *epoch, bool *was_unclean);

/* Makes the state file again if somebody has removed it: else another daemon would begin, and grant what this one has
 * granted. False if another one has begun. */
bool keep_state(const char *socket, uint32_t epoch, int *descriptor);

/* Writes the state: the epoch, and whether clients may believe in locks of it. */
bool write_state(int descriptor, uint32_t epoch, bool is_running);

/* Tells systemd something, such as READY=1, if it asked for that. */
void notify(const char *text);

/* How often systemd wants to hear from the daemon, in milliseconds, or 0. */
uint64_t watchdog_time(void);

/* connections.c. A listening socket from which connections are taken from here on; what a client has to be sent. */
bool listen_to(int listener, bool is_tcp);
void flush_all(void);

/* list.c. Starts the program that keeps the list; has it append what waits, or returns true: more lines are expected
 * at once. `is_ready` is called once the replica has run all that was in the list. */
bool list_open(const struct config *config, void (*is_ready)(void));
bool list_append(void);

#endif
