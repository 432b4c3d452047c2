/* A client of the lock service vlmd, with the structs and answers of vlm_threads.h: a program goes from threads to
 * processes by other names of its calls. docs/SERVICE.md teaches the service. The layer is not proved. It uses POSIX
 * threads and Linux's eventfd.
 *
 *     vlm_client_options options = VLM_CLIENT_OPTIONS;
 *     vlm_client *client;
 *     uint32_t pid;
 *     vlm_client_open(&options, &client);
 *     vlm_threads_declaration declaration = {.size = sizeof declaration, .quota = 9, .requests = 1};
 *     vlm_client_declare(client, &declaration, &pid);
 *     vlm_threads_request request = {.size = sizeof request, .pid = pid, .mode = VLM_EX, .milliseconds = 500};
 *     if (vlm_client_enq(client, &request, (const uint8_t *)"A", 1) == VLM_NORMAL) {
 *         ... this thread holds A alone, among all processes of the machine ...
 *         vlm_client_deq(client, &(vlm_threads_dequeue){.size = sizeof(vlm_threads_dequeue), .pid = pid,
 *                                                       .lock = request.lkid});
 *     }
 *     vlm_client_close(client);
 *
 * What differs from vlm_threads.h:
 * - Every call may answer VLM_LOST: the service or the session has ended, and the locks are gone. The program must stop
 *   what it does under them. Each later call answers the same until vlm_client_reopen.
 * - Group and privilege come from the connection: `node`, `group` and `syslck` of a declaration are not looked at.
 *   `tied` and `own_queue` are 0, `released` of a request is null, and nobody is told the label of a process. A warning
 *   does not tell the wanted mode: it is VLM_NO_MODE.
 * - A limit of the service is answered EXENQLM, and a want of IDs NOLOCKID.
 * - The service searches for deadlocks. There are no calls to search, to look, to count, or for nodes.
 * - A call of a forked child answers VLM_BADPARAM: the connection is its parent's. The child closes its copy, by
 *   pthread_atfork, so the locks end with the parent.
 * - A program that closes all its descriptors (closefrom) closes its clients first, except in a forked child: a call
 *   would wait for ever, or write to the descriptor that has the number of the socket by then.
 * - With addresses of TCP a connection that fails is replaced, at the next address, and no call notices it. At most 64
 *   lines are under way; other calls wait. The locks are lost once no address was heard for the time of the lease.
 *
 * Threads, routines, memory and what the caller owes are as there, except that each call sends a line and waits for the
 * answer: two ways through the socket. */
#ifndef VLM_CLIENT_H
#define VLM_CLIENT_H

#include "vlm_threads.h"

#ifdef __cplusplus
extern "C" {
#endif

/* A connection with its session, its processes and its threads. */
typedef struct vlm_client vlm_client;

typedef struct vlm_client_options {
    uint32_t size;
    uint32_t version;               /* VLM_VERSION */
    uint32_t delivery;              /* VLM_THREADS_BY_LAYER or VLM_THREADS_BY_PROGRAM */
    uint32_t lease_seconds;         /* with addresses of TCP: 2 to 600; 0 means 10 */
    const char *socket;             /* null: that of VLM_SOCKET in the environment, or /run/vlm/lock.sock. A path, or
                                       addresses of replicas as in tcp:HOST:PORT,HOST:PORT or, with TLS,
                                       tls:HOST:PORT,HOST:PORT */
    void (*on_lost)(void *context); /* called as a routine after the locks are lost; or null */
    void *lost_context;
    /* With addresses as in tls:HOST:PORT, files in PEM's form: the certificate that the client shows, its key, and the
     * authority that has signed those of the replicas. Null: the file that VLM_TLS_CERTIFICATE, VLM_TLS_KEY or
     * VLM_TLS_AUTHORITY names in the environment. They are read again for each connection. A program that has other
     * rights than its user (setuid, setgid) ignores these variables, and VLM_SOCKET too. */
    const char *certificate;
    const char *key;
    const char *authority;
    char *reason;        /* gets a text that says why vlm_client_open answers VLM_LOST; or null */
    uint64_t reason_len; /* bytes of it, with a zero at the end */
} vlm_client_options;
/* clang-format off */
#define VLM_CLIENT_OPTIONS { sizeof(vlm_client_options), VLM_VERSION, 0, 0, 0, 0, 0, 0, 0, 0, 0, 0 }
/* clang-format on */

/* Connects and begins a session. Starts a thread that reads, and one that runs routines (VLM_THREADS_BY_LAYER).
 * *client is null unless the answer is NORMAL. Addresses of TCP are tried in turn, each once, and names of hosts are
 * resolved here and in vlm_client_reopen.
 * VLM_LOST: there is no service, it speaks another protocol, it refuses the connection, or a Unix socket is a
 * replica's: sessions there have leases, which a client keeps at addresses of TCP alone. With TLS also: a file can't be
 * read, the certificate of the replica is not of the host that the address names, or there is no libvlm-tls.so.1, by
 * which this library calls OpenSSL. The library loads it from its own folder or where the loader looks; with libvlm.a
 * only where the loader looks.
 * INSFMEM: memory, a thread or an eventfd was refused.
 * BADPARAM: the options are malformed or of another version. */
uint32_t vlm_client_open(const vlm_client_options *options, vlm_client **client);

/* Begins a new session after VLM_LOST, without processes. A call of another thread for the lost session answers
 * VLM_LOST or NONEXPR. Routines of the lost session that are pending run as usual.
 * VLM_LOST: as vlm_client_open; the call may be made again. INSFMEM: a thread was refused; the call may be made again.
 * BADPARAM: nothing is lost, or a routine calls it. */
uint32_t vlm_client_reopen(vlm_client *client);

/* Ends the session with all its locks, waits for the routine that runs, and frees everything. No other call may be
 * under way. At addresses of TCP of which none answers within 3 seconds the locks last until the lease has run out.
 * NORMAL, also with a null client. BADPARAM: a routine calls it, or a forked child; nothing happens. */
uint32_t vlm_client_close(vlm_client *client);

/* Declare a process and run it down, as vlm_threads_declare and vlm_threads_rundown do. The service keeps the name of a
 * process that is run down. So a session declares no more processes in all than the limit `names` of the service,
 * usually 1024: then a declaration answers EXENQLM until vlm_client_reopen or a new client.
 * INSFMEM of a rundown: memory was refused, and the process lives on. If a rundown answers VLM_LOST, pending completion
 * routines are called. */
uint32_t vlm_client_declare(vlm_client *client, const vlm_threads_declaration *declaration, uint32_t *pid);
uint32_t vlm_client_rundown(vlm_client *client, uint32_t pid);

/* Ask for a lock, convert it and give it up, as the calls of vlm_threads.h with the same ends do. A request that waits
 * when the locks are lost ends with VLM_LOST. */
uint32_t vlm_client_enq(vlm_client *client, vlm_threads_request *request, const uint8_t *name, size_t name_len);
uint32_t vlm_client_convert(vlm_client *client, vlm_threads_request *request);
uint32_t vlm_client_start_enq(vlm_client *client, vlm_threads_request *request, const uint8_t *name, size_t name_len);
uint32_t vlm_client_start_convert(vlm_client *client, vlm_threads_request *request);
uint32_t vlm_client_deq(vlm_client *client, const vlm_threads_dequeue *dequeue);

/* Reads what the service tells of locks, by a line of vlm-protocol(7) whose answer ends with a blank line: `word` is
 * "who", "locks" or another of them. With an lkid that is not 0 the line names that lock. *text has the lines of the
 * answer without the blank one, each with its line feed, and a zero at the end. The caller frees it; it is null unless
 * the answer is NORMAL. A text such as "no such lock" is an answer too. Costs what the line costs the service, and
 * memory for the text.
 * INSFMEM: memory was refused. BADPARAM: the word begins with no letter, or has a line feed or more than 256 bytes. */
uint32_t vlm_client_read(vlm_client *client, const char *word, uint32_t lkid, char **text);

/* Tells the fencing token of a lock: of its last request that ended well. docs/SERVICE.md says what it is for. A later
 * grant has a greater one. *token is 0 unless the answer is NORMAL. The client knows the token of its own lock, which
 * comes with the end of the request. It reads that of another client's lock by a line, and that of a grant at once with
 * VLM_SYNCSTS.
 * IVLOCKID: there is no such lock, or it waits for its first grant. INSFMEM: memory was refused. */
uint32_t vlm_client_token(vlm_client *client, uint32_t lkid, uint64_t *token);

/* Deliver events, as the calls of vlm_threads.h with the same ends do. The completion routine of a request that is
 * under way when the locks are lost is called with the status VLM_LOST, before on_lost. If the locks of a next session
 * are lost before on_lost is called, one call tells both, after the completions of both. */
uint32_t vlm_client_fd(vlm_client *client, int *descriptor);
uint32_t vlm_client_dispatch(vlm_client *client, uint32_t *delivered);
uint32_t vlm_client_settle(vlm_client *client);

VLM_ASSERT(sizeof(struct vlm_client_options) == 80);

#ifdef __cplusplus
}
#endif
#endif
