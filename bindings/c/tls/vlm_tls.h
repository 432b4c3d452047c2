/* TLS between memory and memory: bytes of a connection go in and come out. No call here waits, and none knows a socket.
 * The lock service and its clients share it. It is OpenSSL's TLS 1.3; nothing here is proved.
 *
 * vlmd is linked with it. For programs in C it is a library of its own, libvlm-tls.so.1, which the client loads when an
 * address asks for it: so a program without TLS needs no OpenSSL. VLM_TLS_VERSION is the number of that file's name,
 * and changes with this header.
 *
 * A vlm_tls is used by one thread at a time. */
#ifndef VLM_TLS_H
#define VLM_TLS_H

#include <stdbool.h>
#include <stddef.h>
#include <stdint.h>

enum { VLM_TLS_VERSION = 1, VLM_TLS_REASON = 256, VLM_TLS_NAME = 65 };

/* What a handshake or a reading came to, instead of a count. */
enum { VLM_TLS_ENDED = -1, VLM_TLS_FAILED = -2 };

/* Files in PEM's form: the own certificate and those between it and its authority, its key, and the authority that has
 * signed what the other side shows. */
struct vlm_tls_files {
    const char *certificate, *key, *authority;
};

/* What is read from such files. */
typedef struct vlm_tls_keys vlm_tls_keys;

/* The TLS of a connection. */
typedef struct vlm_tls vlm_tls;

struct vlm_tls_calls {
    /* Reads files. Null, and VLM_TLS_REASON bytes at `reason` say why not. A key under a passphrase is refused. With
     * keys `reason` is changed only if the other side will refuse the certificate because of its dates. */
    vlm_tls_keys *(*read_keys)(const struct vlm_tls_files *files, char *reason);
    void (*free_keys)(vlm_tls_keys *keys);

    /* Begins a connection, of a client with the host that it wants to reach, a name or an IP address, or of a service
     * with null. Each side has to show a certificate. Null without memory. */
    vlm_tls *(*open)(const vlm_tls_keys *keys, const char *host);
    void (*close)(vlm_tls *tls);

    /* Takes bytes that have come on the connection. False without memory. */
    bool (*hear)(vlm_tls *tls, const void *bytes, size_t len);

    /* Goes on with the handshake: 1 once it is done, 0 while more has to come, or VLM_TLS_FAILED. A client's is done
     * before the service has looked at its certificate: a refusal comes as a failed reading. */
    int (*shake)(vlm_tls *tls);

    /* What the other side has sent: how many bytes were written, 0 if more has to come, VLM_TLS_ENDED after the last
     * one, or VLM_TLS_FAILED. */
    long (*read)(vlm_tls *tls, void *bytes, size_t room);

    /* Takes bytes for the other side, all of them. */
    bool (*write)(vlm_tls *tls, const void *bytes, size_t len);

    /* Says that no more bytes come. */
    void (*end)(vlm_tls *tls);

    /* What is to be sent on the connection, until `sent` says that the first bytes of it were. */
    const void *(*output)(const vlm_tls *tls, size_t *len);
    void (*sent)(vlm_tls *tls, size_t len);

    /* The name of the other side, the CN of its certificate's subject: false if there is no single one, or it has
     * other characters than printable ones of ASCII, or a blank. */
    bool (*name)(const vlm_tls *tls, char name[VLM_TLS_NAME]);

    /* Why it failed. */
    const char *(*reason)(const vlm_tls *tls);
};

extern const struct vlm_tls_calls vlm_tls_calls;

#endif
