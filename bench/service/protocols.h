/* What the driver knows of each service: the bytes of a lock, of an unlock, and of answers. */
#ifndef PROTOCOLS_H
#define PROTOCOLS_H

#include <stdbool.h>
#include <stddef.h>

enum { OUT_ROOM = 1 << 16, IN_ROOM = 1 << 14 };

/* What has come: part of an answer, the answer to the oldest request, a grant that comes by itself, a refusal after
 * which the client asks again, or bytes that say nothing. */
enum answer { PART, ANSWER, GRANT, REFUSED, NOTHING };

struct protocol {
    const char *name;
    bool tells_grants; /* the answer to a lock that waits comes at once, and its grant later */
    /* Begins on a connection. False if the service refuses. */
    bool (*begin)(int descriptor);
    /* Write a request to a text, and return its length. */
    size_t (*lock)(char *out, unsigned client, unsigned resource, bool may_wait);
    size_t (*unlock)(char *out, unsigned client, unsigned resource);
    /* The length of what has come whole at the head of `in`, or 0. */
    size_t (*next)(const char *in, size_t len, enum answer *answer);
};

/* The protocol of a name, or null. */
const struct protocol *find_protocol(const char *name);

#endif
