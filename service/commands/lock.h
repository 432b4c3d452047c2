/* What the files of vlm lock share. */
#ifndef LOCK_H
#define LOCK_H

#include "link.h"
#include "vlm_client.h"

enum { VALUE_DIGITS = 32 };

/* What comes of asking for a lock. */
enum { GRANTED, CONFLICT, GONE, REFUSED };

struct wanted {
    const char *address, *mode, *value, *name;
    char text[NAME_TEXT]; /* the name as a line has it */
    int64_t wait;         /* milliseconds, or FOREVER */
    bool at_once;
    int conflict; /* the status if the lock can't be had */
    int signal;   /* to the command when its lock is in the way, or 0 */
    char **command;
};

struct holding;

/* How a lock is held: `get` asks for it, `hear` tells whether it is still held, and `give_up` whether it was to the
 * end. */
struct way {
    int (*get)(struct holding *holding, const struct wanted *wanted);
    bool (*hear)(struct holding *holding, const struct wanted *wanted);
    bool (*give_up)(struct holding *holding, const struct wanted *wanted);
};

/* By lines over a connection, and by a client with a lease. */
extern const struct way by_connection, by_lease;

struct holding {
    const struct way *way;
    int descriptor;   /* readable when something is to be heard */
    bool is_blocking; /* the lock is in the way of another request */
    bool is_lost;
    struct link link;
    vlm_client *client; /* or null */
    uint32_t pid, lock;
    uint64_t handle; /* of the lock, as the service's lines have it */
};

#endif
