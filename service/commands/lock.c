/* vlm lock: runs a command while it holds a lock, in the manner of flock(1). */
#define _GNU_SOURCE
#include "lock.h"

#include <errno.h>
#include <getopt.h>
#include <poll.h>
#include <signal.h>
#include <stdio.h>
#include <stdlib.h>
#include <string.h>
#include <sys/prctl.h>
#include <sys/signalfd.h>
#include <sys/wait.h>
#include <unistd.h>

enum { NOT_FOUND = 127, NOT_RUN = 126 };

const char lock_usage[] = "vlm lock [--connect ADDRESS] [-m MODE] [-n] [-w SECONDS] [-E STATUS] [--value HEX] "
                          "[--on-blocking SIGNAL] NAME COMMAND..";

static bool read_value(const char *word, const char **value) {
    *value = word;
    return strlen(word) == VALUE_DIGITS && strspn(word, "0123456789abcdefABCDEF") == VALUE_DIGITS;
}

static bool read_wait(const char *word, int64_t *wait) {
    char *end;
    double seconds = strtod(word, &end);
    *wait = seconds < 1e9 ? (int64_t)(seconds * 1000) : FOREVER;
    return end != word && *end == 0 && seconds >= 0;
}

static bool read_number(const char *word, long most, int *number) {
    char *end;
    long read = strtol(word, &end, 10);
    *number = (int)read;
    return end != word && *end == 0 && read >= 0 && read <= most;
}

/* A signal by its number, or by its name with or without SIG. Signals of real time have only numbers. */
static bool read_signal(const char *word, int *number) {
    if (read_number(word, NSIG - 1, number))
        return *number > 0;
    if (strncmp(word, "SIG", 3) == 0)
        word += 3;
    if (strcmp(word, "IO") == 0)
        word = "POLL"; /* (another name of it) */
    for (*number = 1; *number < NSIG; ++*number) {
        const char *name = sigabbrev_np(*number);
        if (name != NULL && strcmp(name, word) == 0)
            return true;
    }
    return false;
}

static bool read_mode(const char *word, const char **mode) {
    static const char *const modes[] = {"NL", "CR", "CW", "PR", "PW", "EX"};
    *mode = word;
    for (size_t at = 0; at < sizeof modes / sizeof *modes; at++)
        if (strcmp(word, modes[at]) == 0)
            return true;
    return false;
}

static bool read_option(int option, struct wanted *wanted) {
    switch (option) {
    case 'm': return read_mode(optarg, &wanted->mode);
    case 'n': return wanted->at_once = true;
    case 'w': return read_wait(optarg, &wanted->wait);
    case 'E': return read_number(optarg, UINT8_MAX, &wanted->conflict);
    case 'v': return read_value(optarg, &wanted->value);
    case 'b': return read_signal(optarg, &wanted->signal);
    case 'c': wanted->address = optarg; return true;
    default: return false;
    }
}

/* A lock of another mode would be given up without its value. */
static bool can_write(const struct wanted *wanted) {
    return wanted->value == NULL || strcmp(wanted->mode, "PW") == 0 || strcmp(wanted->mode, "EX") == 0;
}

static bool read_words(int count, char **words, struct wanted *wanted) {
    static const struct option longer[] = {
        {"mode", required_argument, NULL, 'm'},    {"nonblock", no_argument, NULL, 'n'},
        {"wait", required_argument, NULL, 'w'},    {"conflict-exit-code", required_argument, NULL, 'E'},
        {"value", required_argument, NULL, 'v'},   {"on-blocking", required_argument, NULL, 'b'},
        {"connect", required_argument, NULL, 'c'}, {NULL, 0, NULL, 0}};
    int option;
    while ((option = getopt_long(count, words, "+m:nw:E:", longer, NULL)) != -1)
        if (!read_option(option, wanted))
            return false;
    if (!can_write(wanted) || count - optind < 2)
        return false;
    wanted->name = words[optind];
    wanted->command = words + optind + 1;
    return write_name(wanted->name, strlen(wanted->name), wanted->text);
}

/* Starts the command, with the signals as the wrapper was given them. A command that does not have the connection ends
 * with the wrapper, which keeps its lock. */
static pid_t start(const struct holding *holding, char **command, const sigset_t *before) {
    pid_t child = fork();
    if (child != 0)
        return child;
    if (holding->client != NULL)
        prctl(PR_SET_PDEATHSIG, SIGTERM);
    sigprocmask(SIG_SETMASK, before, NULL);
    execvp(command[0], command);
    int status = errno == ENOENT ? NOT_FOUND : NOT_RUN;
    fprintf(stderr, "vlm lock: %s: %s\n", command[0], strerror(errno));
    _exit(status);
}

/* Hands a signal on to the command. The terminal has sent SIGINT and SIGQUIT to both. */
static void hand_on_signal(int descriptor, pid_t child) {
    struct signalfd_siginfo heard;
    if (read(descriptor, &heard, sizeof heard) == sizeof heard
        && (heard.ssi_signo == SIGTERM || heard.ssi_signo == SIGHUP))
        kill(child, (int)heard.ssi_signo);
}

/* Hears what the service says while the command runs. Returns false if the lock is lost. */
static bool hear(struct holding *holding, const struct wanted *wanted, pid_t child) {
    bool is_held = holding->way->hear(holding, wanted);
    if (holding->is_blocking && wanted->signal != 0)
        kill(child, wanted->signal);
    holding->is_blocking = false;
    if (is_held)
        return true;
    fprintf(stderr, "vlm lock: the lock is lost\n");
    kill(child, SIGTERM);
    return false;
}

/* Waits until the command ends. */
static int oversee(struct holding *holding, const struct wanted *wanted, pid_t child, int signals) {
    int status = 0;
    struct pollfd ready[] = {{.fd = signals, .events = POLLIN}, {.fd = holding->descriptor, .events = POLLIN}};
    /* (something may have come with the grant) */
    holding->is_lost = !hear(holding, wanted, child);
    while (waitpid(child, &status, WNOHANG) == 0) {
        if (poll(ready, holding->is_lost ? 1 : 2, -1) <= 0)
            continue;
        if (ready[0].revents != 0)
            hand_on_signal(signals, child);
        if (!holding->is_lost && ready[1].revents != 0)
            holding->is_lost = !hear(holding, wanted, child);
    }
    return WIFEXITED(status) ? WEXITSTATUS(status) : 128 + WTERMSIG(status);
}

static int run_command(struct holding *holding, const struct wanted *wanted) {
    sigset_t taken, before;
    sigemptyset(&taken);
    const int numbers[] = {SIGCHLD, SIGTERM, SIGHUP, SIGINT, SIGQUIT};
    for (size_t at = 0; at < sizeof numbers / sizeof *numbers; at++)
        sigaddset(&taken, numbers[at]);
    /* (a parent may have had it ignored: then nobody is told that the command has ended) */
    signal(SIGCHLD, SIG_DFL);
    sigprocmask(SIG_BLOCK, &taken, &before);
    int signals = signalfd(-1, &taken, SFD_CLOEXEC | SFD_NONBLOCK);
    pid_t child = signals < 0 ? -1 : start(holding, wanted->command, &before);
    if (child < 0) {
        perror("vlm lock");
        return NO_SERVICE;
    }
    int status = oversee(holding, wanted, child, signals);
    if (!holding->is_lost)
        holding->is_lost = !holding->way->give_up(holding, wanted);
    return holding->is_lost ? LOST : status;
}

int run_lock(int count, char **words) {
    struct wanted wanted = {.address = usual_address(), .mode = "EX", .wait = FOREVER, .conflict = 1};
    struct holding holding = {.descriptor = -1};
    if (!read_words(count, words, &wanted))
        return wrong_words(lock_usage);
    holding.way = vlmc_is_replicated(wanted.address) ? &by_lease : &by_connection;
    switch (holding.way->get(&holding, &wanted)) {
    case GRANTED: return run_command(&holding, &wanted);
    case CONFLICT: return wanted.conflict;
    case REFUSED: return NO_SERVICE;
    default: fprintf(stderr, "vlm lock: the service has gone\n"); return NO_SERVICE;
    }
}
