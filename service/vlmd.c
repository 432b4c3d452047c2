/* vlmd: the lock manager for the processes of a machine, or one of several replicas. The event loop around the
 * dispatcher: docs/SERVICE.md, docs/CLUSTER.md. Nothing here is proved.
 *
 * libuv waits. It hands out all events of a wait at once, where systemd's sd-event waits again after each. So a turn
 * has one send for each client. */
#define _GNU_SOURCE
#include "names.h"

#include <fcntl.h>
#include <getopt.h>
#include <sched.h>
#include <signal.h>
#include <stdio.h>
#include <stdlib.h>
#include <string.h>
#include <sys/random.h>
#include <sys/resource.h>
#include <sys/stat.h>
#include <unistd.h>

enum { KEYS = 16, NAMED = 256, FEWEST_FILES = 32 };

/* How long a replica that ends waits for its entry in the list, in milliseconds. */
enum { LEAVING = 5000 };

/* How often the daemon looks for its state file. */
enum { LOOK = 1000 };

static const char usual_file[] = "/etc/vlmd.conf", usual_socket[] = "/run/vlm/lock.sock";
static const struct config usual_config = {.mode = 0660,
                                           .grace = 2000,
                                           .awake = 50,
                                           .prefix = "vlm/",
                                           .tcp_group = 1,
                                           .chunk = 1 << 20,
                                           .limits = USUAL_LIMITS};

struct daemon vlmd;

static struct {
    int state;
    uint32_t epoch;
    bool was_unclean; /* the last daemon has left locks in which its clients may believe */
    int listener, tcp_listeners[MOST_LISTENERS];
    size_t tcp_listener_count;
    bool is_own_listener;
    uv_check_t after;
    uv_idle_t busy;       /* runs while lines are left or expected, so that the loop does not wait */
    uint64_t awake_until; /* nanoseconds */
    uv_timer_t due, watchdog, leaving, look;
    uint64_t set_for; /* when `due` wakes the loop */
    uv_signal_t signals[3];
} loop;

static void on_busy(uv_idle_t *idle) { (void)idle; }

/* The timer may be called before a poll, which then is to end at once: without a timer it would wait for a client. */
static void on_due(uv_timer_t *timer) {
    (void)timer;
    uv_idle_start(&loop.busy, on_busy);
}

/* Has the loop wake when the dispatcher has something to do. */
static void set_timer(uint64_t now) {
    uint64_t due = vlmd.replica != NULL ? replica_due(vlmd.replica) : dispatcher_due(vlmd.dispatcher);
    if (due == loop.set_for && due > now)
        return;
    loop.set_for = due;
    if (due == UINT64_MAX)
        uv_timer_stop(&loop.due);
    else
        uv_timer_start(&loop.due, on_due, due > now ? due - now : 0, 0);
}

/* Writes another epoch down before a client hears of it: the next daemon begins with a later one, also after a kill. If
 * that fails, this one ends, since the next one would give the same tokens and handles. */
static void write_epoch(void) {
    if (vlmd.replica != NULL || dispatcher_epoch(vlmd.dispatcher) == loop.epoch)
        return;
    loop.epoch = dispatcher_epoch(vlmd.dispatcher);
    if (write_state(loop.state, loop.epoch, true))
        return;
    write_log("the epoch can't be written down: this daemon ends");
    if (loop.is_own_listener)
        unlink(vlmd.config.socket);
    exit(NO_START);
}

static void end(void) {
    write_log("ended");
    exit(0);
}

/* Whether the loop looks for lines again at once. A client that waited for its answer often has another line soon, and
 * would have to wake the daemon for it. Other programs may have the processor meanwhile. */
static bool is_awake(void) {
    if (vlmd.config.awake == 0 || vlmd.replica != NULL)
        return false;
    uint64_t now = uv_hrtime();
    bool has_line = vlmd.has_line;
    vlmd.has_line = false;
    if (has_line)
        loop.awake_until = now + (uint64_t)vlmd.config.awake * 1000;
    if (now >= loop.awake_until)
        return false;
    if (!has_line)
        sched_yield();
    return true;
}

/* After each poll: what is due, the lines that are left, all output, and when to wake. */
static void on_turn(uv_check_t *check) {
    (void)check;
    uint64_t now = uv_now(&vlmd.loop);
    begin_turn();
    if (vlmd.replica != NULL)
        replica_tick(vlmd.replica, now);
    else
        dispatcher_tick(vlmd.dispatcher, now);
    dispatcher_run(vlmd.dispatcher);
    write_epoch();
    flush_all();
    if (vlmd.replica != NULL && replica_has_left(vlmd.replica))
        end();
    bool is_gathering = vlmd.replica != NULL && list_append();
    if (is_gathering)
        sched_yield();
    if (dispatcher_is_busy(vlmd.dispatcher) || is_gathering || is_awake())
        uv_idle_start(&loop.busy, on_busy);
    else
        uv_idle_stop(&loop.busy);
    set_timer(now);
}

static void on_watchdog(uv_timer_t *timer) {
    (void)timer;
    notify("WATCHDOG=1");
}

/* Reads the files of TLS again, if this replica began with it. Wrong ones leave those that it has. */
static void read_tls_again(const struct config *read) {
    if (has_tls() && !read_tls(read))
        write_log("the certificates and rights stay as they were");
    else if (!has_tls() && read->tls_certificate[0] != 0)
        write_log("TLS begins at the next start");
}

/* Whether the configuration is a pipe, such as that of `-c <(COMMAND)`. It might never end. */
static bool is_pipe(void) {
    struct stat there;
    return stat(vlmd.file, &there) == 0 && S_ISFIFO(there.st_mode);
}

/* Reads the configuration again. The path of the socket stays, and whether this is a replica. */
static void on_hangup(uv_signal_t *handle, int number) {
    (void)handle, (void)number;
    const struct config *old = &vlmd.config;
    struct config read = usual_config;
    if (is_pipe()) {
        write_log("a configuration that is a pipe is not read again");
        return;
    }
    if (!read_config(vlmd.file, vlmd.is_file_named, &read))
        return;
    read_tls_again(&read);
    memcpy(read.socket, old->socket, sizeof read.socket);
    memcpy(read.etcd, old->etcd, sizeof read.etcd);
    memcpy(read.prefix, old->prefix, sizeof read.prefix);
    memcpy(read.listen, old->listen, sizeof read.listen);
    if (loop.is_own_listener && read.mode != old->mode && chmod(old->socket, read.mode) != 0)
        write_log("the mode of the socket can't be changed");
    vlmd.config = read;
    if (vlmd.replica != NULL) {
        replica_limit(vlmd.replica, &vlmd.config.limits);
    } else {
        dispatcher_limit(vlmd.dispatcher, &vlmd.config.limits);
        dispatcher_set_grace(vlmd.dispatcher, vlmd.config.grace);
    }
    write_log("the configuration is read again");
}

static void on_leaving(uv_timer_t *timer) {
    (void)timer;
    end();
}

/* Ends a replica, once the others know. A second signal does not wait for that. Clients go on at another one. */
static void leave(void) {
    if (uv_is_active((uv_handle_t *)&loop.leaving))
        end();
    if (loop.is_own_listener)
        unlink(vlmd.config.socket);
    replica_leave(vlmd.replica);
    uv_timer_start(&loop.leaving, on_leaving, LEAVING, 0);
}

/* Ends in order. Clients hear that their locks are lost. If there were any, the next daemon waits a grace time. */
static void on_end(uv_signal_t *handle, int number) {
    (void)handle, (void)number;
    notify("STOPPING=1");
    if (vlmd.replica != NULL) {
        leave();
        return;
    }
    bool has_locks = dispatcher_has_locks(vlmd.dispatcher);
    dispatcher_lose(vlmd.dispatcher);
    flush_all();
    if (loop.is_own_listener)
        unlink(vlmd.config.socket);
    if (!has_locks && !write_state(loop.state, dispatcher_epoch(vlmd.dispatcher), false))
        write_log("the state can't be written down");
    end();
}

/* Looks whether the state file is there. If another daemon has it, its socket is no longer ours either. */
static void on_look(uv_timer_t *timer) {
    if (keep_state(vlmd.config.socket, loop.epoch, &loop.state))
        return;
    /* (a second end would not wait until the other replicas know of the first) */
    uv_timer_stop(timer);
    write_log("the state file was gone, and another daemon has begun: this one ends");
    loop.is_own_listener = false;
    on_end(NULL, SIGTERM);
}

static void start_loop(void) {
    uv_check_init(&vlmd.loop, &loop.after);
    uv_check_start(&loop.after, on_turn);
    uv_idle_init(&vlmd.loop, &loop.busy);
    uv_timer_init(&vlmd.loop, &loop.due);
    uv_timer_init(&vlmd.loop, &loop.leaving);
    uv_timer_init(&vlmd.loop, &loop.look);
    uv_timer_start(&loop.look, on_look, LOOK, LOOK);
    uv_timer_init(&vlmd.loop, &loop.watchdog);
    uint64_t watchdog = watchdog_time();
    if (watchdog != 0)
        uv_timer_start(&loop.watchdog, on_watchdog, 0, watchdog / 2 + 1);
    const int numbers[] = {SIGHUP, SIGTERM, SIGINT};
    for (int at = 0; at < 3; at++) {
        uv_signal_init(&vlmd.loop, &loop.signals[at]);
        uv_signal_start(&loop.signals[at], at == 0 ? on_hangup : on_end, numbers[at]);
    }
}

/* Opens the dispatcher. After an unclean end it is quiet for the grace time. */
static bool start_dispatcher(void) {
    uint8_t keys[KEYS];
    if (getrandom(keys, sizeof keys, 0) != sizeof keys)
        return false;
    vlmd.dispatcher = dispatcher_open(&vlmd.config.limits, loop.epoch, keys, write_log);
    if (vlmd.dispatcher == NULL)
        return false;
    dispatcher_set_token(vlmd.dispatcher, (uint64_t)loop.epoch << TOKEN_BITS);
    dispatcher_set_grace(vlmd.dispatcher, vlmd.config.grace);
    uint64_t now = uv_hrtime() / 1000000;
    dispatcher_tick(vlmd.dispatcher, now);
    if (loop.was_unclean && vlmd.config.grace != 0) {
        dispatcher_be_quiet(vlmd.dispatcher, now + vlmd.config.grace);
        write_log("the last daemon ended with locks, or did not end in order: requests wait for the grace time");
    }
    return true;
}

/* Ends a daemon that has served nobody. After an end in order the next one has no grace time, as this one had none. */
static void give_up(void) {
    if (loop.state >= 0 && !loop.was_unclean)
        write_state(loop.state, loop.epoch, false);
    write_log("not started");
    exit(NO_START);
}

/* Lets clients in. */
static void start_listening(void) {
    bool is_listening = listen_to(loop.listener, false);
    for (size_t at = 0; at < loop.tcp_listener_count; at++)
        is_listening &= listen_to(loop.tcp_listeners[at], true);
    if (!is_listening)
        give_up();
    notify("READY=1");
    write_log("ready");
}

/* The replica has run all that was in the list. An empty list gets the limits of this one. */
static void on_current(void) {
    if (!replica_has_limits(vlmd.replica))
        replica_limit(vlmd.replica, &vlmd.config.limits);
    start_listening();
}

/* Begins a replica. All of them begin with the usual limits, until the list says others. */
static bool start_replica(void) {
    static const struct limits usual = USUAL_LIMITS;
    uint8_t keys[KEYS];
    uint64_t name;
    if (getrandom(keys, sizeof keys, 0) != sizeof keys || getrandom(&name, sizeof name, 0) != sizeof name)
        return false;
    vlmd.dispatcher = dispatcher_open(&usual, 0, keys, write_log);
    vlmd.replica = vlmd.dispatcher == NULL ? NULL : replica_open(vlmd.dispatcher, name);
    return vlmd.replica != NULL && list_open(&vlmd.config, on_current);
}

static const char usage[] = "usage: vlmd [-c FILE] [-s SOCKET] [--etcd MEMBERS [--prefix WORD] [--listen HOST:PORT]]";

/* Prints the usage or the version, and ends. */
static void print_and_end(bool is_usage) {
    unsigned version = vlm_version();
    if (is_usage)
        puts(usage);
    else
        printf("vlmd %u.%u.%u\n", version >> 16, version >> 8 & UINT8_MAX, version & UINT8_MAX);
    exit(fflush(stdout) == 0 ? 0 : NO_START);
}

/* Words of the command line that are settings too. */
struct named_words {
    char *socket, *etcd, *prefix, *listen;
};

static bool take_words(int count, char **words, struct named_words *named) {
    static const struct option options[] = {{"etcd", required_argument, NULL, NAMED},
                                            {"prefix", required_argument, NULL, NAMED + 1},
                                            {"listen", required_argument, NULL, NAMED + 2},
                                            {"help", no_argument, NULL, 'h'},
                                            {"version", no_argument, NULL, 'v'},
                                            {NULL, 0, NULL, 0}};
    char **const texts[] = {&named->etcd, &named->prefix, &named->listen};
    int option;
    opterr = 0;
    while ((option = getopt_long(count, words, "c:s:", options, NULL)) != -1) {
        if (option == 'c') {
            vlmd.file = optarg;
            vlmd.is_file_named = true;
        } else if (option == 's') {
            named->socket = optarg;
        } else if (option >= NAMED) {
            *texts[option - NAMED] = optarg;
        } else if (option == 'h' || option == 'v') {
            print_and_end(option == 'h');
        } else {
            return false;
        }
    }
    return optind == count;
}

static bool set_named(const char *setting, char *text) {
    char word[WORD];
    snprintf(word, sizeof word, "%s", setting);
    return text == NULL || set_words(&vlmd.config, (char *[]){word, text}, 2);
}

static bool set_socket(const char *path) {
    /* (an empty path would be a socket without a file, and so without a mode) */
    bool fits = path[0] != 0 && snprintf(vlmd.config.socket, PATH, "%s", path) < PATH;
    if (!fits)
        write_log("the path of the socket has no bytes, or more than 107");
    return fits;
}

static bool read_words(int count, char **words) {
    struct named_words named = {.socket = getenv("VLM_SOCKET")};
    /* (clients may have the address of a replica there) */
    if (named.socket != NULL && (strncmp(named.socket, "tcp:", 4) == 0 || strncmp(named.socket, "tls:", 4) == 0))
        named.socket = NULL;
    bool is_right = take_words(count, words, &named);
    vlmd.config = usual_config;
    if (!is_right || !read_config(vlmd.file, vlmd.is_file_named, &vlmd.config))
        return false;
    if (named.socket != NULL || vlmd.config.socket[0] == 0)
        is_right = set_socket(named.socket != NULL ? named.socket : usual_socket);
    is_right = is_right && set_named("etcd", named.etcd) && set_named("prefix", named.prefix)
               && set_named("listen", named.listen);
    bool is_replica = vlmd.config.etcd[0] != 0, has_more = vlmd.config.listen[0] != 0 || named.prefix != NULL;
    return is_right && (is_replica || !has_more);
}

/* Takes all descriptors that there may be. Where they are too few for the loop, libuv would abort the daemon. */
static bool raise_limit(void) {
    struct rlimit files;
    if (getrlimit(RLIMIT_NOFILE, &files) != 0)
        return true;
    files.rlim_cur = files.rlim_max;
    setrlimit(RLIMIT_NOFILE, &files);
    if (files.rlim_max < FEWEST_FILES)
        write_log("too few descriptors: ulimit -n is less than 32");
    return files.rlim_max >= FEWEST_FILES;
}

/* Lets standard streams that are closed lead nowhere. Else the state file would come to be standard error, and have the
 * log in the place of its epoch. */
static bool open_streams(void) {
    int made;
    do
        made = open("/dev/null", O_RDWR);
    while (made >= 0 && made <= STDERR_FILENO);
    close(made);
    return made >= 0;
}

static bool start(void) {
    bool is_replica = vlmd.config.etcd[0] != 0;
    loop.state = take_state(vlmd.config.socket, &loop.epoch, &loop.was_unclean);
    loop.listener = loop.state < 0 ? -1 : open_listener(&vlmd.config, &loop.is_own_listener);
    if (loop.listener < 0)
        return false;
    if (vlmd.config.listen[0] != 0)
        loop.tcp_listener_count = open_tcp_listeners(&vlmd.config, loop.tcp_listeners);
    if (vlmd.config.listen[0] != 0 && loop.tcp_listener_count == 0)
        return false;
    uv_loop_init(&vlmd.loop);
    if (is_replica ? !start_replica() : !start_dispatcher())
        return false;
    start_loop();
    return true;
}

int main(int count, char **words) {
    if (!open_streams())
        return NO_START;
    /* (until the loop hears of it: the configuration is being read) */
    signal(SIGHUP, SIG_IGN);
    /* (a log that has come to its greatest length ends no daemon) */
    signal(SIGXFSZ, SIG_IGN);
    vlmd.file = usual_file;
    if (!read_words(count, words)) {
        write_log(usage);
        return WRONG_WORDS;
    }
    if (!fits_etcd(&vlmd.config) || !read_tls(&vlmd.config))
        return WRONG_WORDS;
    signal(SIGPIPE, SIG_IGN);
    loop.state = -1;
    if (!raise_limit() || !start())
        give_up();
    if (vlmd.replica == NULL)
        start_listening();
    uv_run(&vlmd.loop, UV_RUN_DEFAULT);
    return 0;
}
