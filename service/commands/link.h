/* What the commands over the lock service share: a connection to vlmd that speaks its lines. Nothing here is proved. */
#ifndef LINK_H
#define LINK_H

#include "../../bindings/c/vlm_client_tls.h"

#include <stdbool.h>
#include <stddef.h>
#include <stdint.h>

/* Exit statuses, as sysexits.h has them. LOST: the lock went while the command ran. */
enum { WRONG_WORDS = 64, NO_SERVICE = 69, LOST = 75 };

enum { LINE_ROOM = 512, MOST_NAME = 31, NAME_TEXT = 2 + 2 * MOST_NAME + 1 };

#define FOREVER INT64_MAX

struct link {
    struct channel channel;
    char in[8192];
    size_t len;
    bool is_refused; /* by a line in the place of the greeting, or after it */
};

/* Connects to the service at an address: a socket of Unix, or the first that answers of replicas at addresses of TCP.
 * Says why not, and returns false. */
bool link_open(struct link *link, const char *address);

/* The address that VLM_SOCKET names, or the usual socket. */
const char *usual_address(void);

/* Reads the option `--connect ADDRESS` of a command that has no others. Returns the place of the next word, or 0 if the
 * words are wrong. */
int read_address(int count, char **words, const char **address);

/* Sends text. Returns false if the service has gone. */
bool link_send(const struct link *link, const char *text);

/* Reads the next line without its line feed into LINE_ROOM bytes, until a moment of `milliseconds`. Returns 1 with a
 * line, 0 if the time has passed, and -1 if the service has gone. */
int link_line(struct link *link, char *line, int64_t until);

/* Ends what is printed of an answer, whose last line was read as `got` tells. Returns the exit status, and says what is
 * wrong. */
int end_output(int got);

/* The time of a clock that never goes back, in milliseconds. */
int64_t milliseconds(void);

/* Writes the name of a resource as lines have it, and as the service prints it, into NAME_TEXT bytes. Returns false if
 * it is empty or too long, which it says. */
bool write_name(const char *name, size_t len, char *text);

/* The commands. Each returns its exit status. */
int run_lock(int count, char **words);
int run_who(int count, char **words);
int run_metrics(int count, char **words);
int run_kill(int count, char **words);

/* How they are used. */
extern const char lock_usage[], who_usage[], metrics_usage[], kill_usage[];

/* Writes a usage text to standard error, and returns the status of wrong words. */
int wrong_words(const char *usage);

#endif
