/* Clients that show a certificate: the TLS of the service, and a file that gives each name its rights. */
#ifndef NAMES_H
#define NAMES_H

#include "../bindings/c/tls/vlm_tls.h"
#include "daemon.h"

/* A name and its rights. */
struct named {
    char name[VLM_TLS_NAME];
    struct rights rights;
};

/* Names in the order of their bytes. */
struct names {
    struct named *rows;
    size_t count, room;
};

/* names.c. Reads the file of rights. False, and logs the line if one is wrong: then `names` is as it was. */
bool read_names(const char *file, struct names *names);
const struct rights *rights_of(const struct names *names, const char *name);
void free_names(struct names *names);

/* secured.c. The calls of TLS, or null if this daemon is built without it. */
extern const struct vlm_tls_calls *const tls;

/* Reads the files of a configuration for the connections that come. False, and logs why not: then those that were read
 * before stay. Without a file of TLS it does nothing. */
bool read_tls(const struct config *config);

/* Whether clients of TCP have to show a certificate. */
bool has_tls(void);

/* A turn of the loop begins: so many steps of handshakes may be made again. */
void begin_turn(void);

#endif
