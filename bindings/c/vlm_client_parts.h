/* What the files of the client share. Not a header of programs.
 *
 * Answers of the service come in the order of the lines. So a call notes in a queue what it waits for, and sends its
 * line; one thread reads and hands each answer to the first of the queue. ASTs come between answers and name a record.
 * A request has a record from its line on; a granted lock keeps it, for its blocking ASTs.
 *
 * A session at addresses of TCP has a lease, and goes on at another address when its connection fails: the reader
 * connects anew, and sends again what has no answer. So its lines have numbers and are kept.
 *
 * vlm_client.c            opening, closing, processes
 * vlm_client_addresses.c  where the service is, and connecting
 * vlm_client_sockets.c    sockets, and forked children
 * vlm_client_tls.c        connections that may have TLS
 * vlm_client_sessions.c   the first lines of a connection, which open a session or resume it
 * vlm_client_resume.c     lines that are kept, and another connection of a session
 * vlm_client_lease.c      until when a session surely has its locks, and waiting for bytes meanwhile
 * vlm_client_reader.c     the thread that reads: answers, ASTs, the loss of the session
 * vlm_client_asts.c       ASTs, also those that come before the answer to their request
 * vlm_client_calls.c      lines that are sent, and calls that wait for answers
 * vlm_client_lines.c      lines and answers as text
 * vlm_client_requests.c   enq, convert, deq
 * vlm_client_readings.c   answers of several lines
 * vlm_client_tokens.c     fencing tokens
 * vlm_client_records.c    records of requests and locks, and how a request ends
 * vlm_client_events.c     calls of routines
 *
 * Two mutexes: `sending` is taken first and orders queue and lines; `state` guards everything else. A thread that sends
 * may wait for the service with `sending`, never with `state`: so the reader always goes on. With a lease a thread that
 * sends does not wait for the service, and holds `state` too: so the reader may send. Functions that are declared here
 * want `state` held, except where they say otherwise.
 */
#ifndef VLM_CLIENT_PARTS_H
#define VLM_CLIENT_PARTS_H

#define _GNU_SOURCE

#include "vlm_client.h"
#include "vlm_client_tls.h"
#include "vlm_own_threads.h"
#include "vlm_sizes.h"

#include <sys/socket.h>
#include <sys/types.h>

enum { MOST_REQUESTS = 255, LINE_ROOM = 512, LINES_ROOM = 1024 };

/* With a lease: how many lines may be under way, and what the queue has room for: those of calls, an `alive` and a
 * `close`. */
enum { MOST_UNDER_WAY = 64, LEASED_QUEUE = MOST_UNDER_WAY + 2 };

enum { SESSION_NAME = 17, USUAL_LEASE = 10, LEAST_LEASE = 2, MOST_LEASE = 600 };

/* Bytes of the text of an address: HOST:PORT. */
enum { ADDRESS = 512 };

#define NEVER UINT64_MAX

#define NO_RECORD UINT32_MAX

/* What is taken from an answer: its status and lock, a value, the tail of a value, nothing, lines up to a blank one,
 * that the service heard an `alive`, or that it closed the session. */
enum { STATUS, VALUE, TAIL, NOTHING, LINES, ALIVE, CLOSED };

/* A call that waits: on its thread's stack. */
struct call {
    uint32_t session;                   /* for which its lines are */
    bool is_reserved;                   /* its line has a place in the queue that was kept for it */
    const struct call *cancelled;       /* the call whose request its line cancels, or null */
    const vlm_threads_dequeue *dequeue; /* what its answer gives up, or null */
    pthread_cond_t changed;
    uint32_t left;   /* answers that have not come */
    uint32_t answer; /* of the line whose status is taken */
    uint64_t handle;
    bool is_ended; /* the request has, with this status and value */
    uint32_t status;
    uint8_t value[WHOLE_VALUE];
    char *text; /* the lines of a reading, which the call frees; null if there are none or memory was refused */
    size_t text_len, text_room;
    bool is_starved;
};

struct pending {
    uint32_t taken;
    struct call *call;
    uint32_t record; /* of the request that is asked for, or NO_RECORD */
    uint64_t number; /* of the line, or 0: with a lease each step has one */
};

struct ast {
    uint32_t record, lkid;
    bool is_warning;
    uint32_t status; /* of a completion: how the request ended */
    uint8_t value[SHORT_VALUE];
    uint64_t token; /* of a grant */
};

/* An AST that came before the answer to its request, or a warning before the answer to its lock's conversion: a resumed
 * session brings all ASTs first. */
struct early {
    struct early *next;
    uint32_t awaited; /* the record of the request that has no answer */
    struct ast ast;
};

/* Where a service may be, and the host that the program named. */
struct address {
    struct sockaddr_storage name;
    socklen_t len;
    char host[ADDRESS];
};

/* A request, and then its lock. */
struct record {
    uint32_t next; /* of the free ones, or of those with the same hash of their lock */
    uint32_t generation;
    uint32_t pid;
    uint32_t lkid; /* 0 until it is accepted */
    uint32_t block;
    uint32_t flags;
    uint32_t status;    /* how the request ended, or 0 */
    uint32_t lock;      /* of a conversion: the record of its lock, else NO_RECORD */
    uint32_t parent;    /* of a lock: its parent lock, or 0 */
    uint32_t converted; /* of a lock: the record of its conversion, of whose end nothing was heard, or NO_RECORD */
    bool is_used, is_granted;
    bool is_going;     /* by a dequeue of many */
    bool is_sent;      /* its line; before, only the call that made the record frees it */
    struct call *call; /* waits for the end, or null */
    uint64_t token;    /* of the last grant; 0 if that brought none: with SYNCSTS it was at once */
    vlm_threads_routine completion, blocking;
    void *completion_context, *blocking_context;
    uint8_t value[WHOLE_VALUE];
};

struct process {
    bool is_living;
    uint32_t requests;
    uint8_t blocks[MOST_REQUESTS + 1]; /* 1: a request under way has it */
};

struct event {
    struct event *next;
    uint64_t number;             /* later ones have greater numbers */
    uint32_t record, generation; /* of a warning */
    bool is_loss;
    vlm_threads_routine routine;
    void *context;
    uint32_t tail_of; /* the status block of a completion whose value has a tail, which is read before, or 0 */
    uint32_t session;
    vlm_threads_event told;
};

struct vlm_client {
    pthread_mutex_t sending, state;
    pid_t owner;    /* the process that opened it */
    uint64_t forks; /* that made that process */
    vlm_client_options options;
    char *path;
    struct address *addresses;
    uint32_t address_count, address; /* `address`: of the last connection */
    struct channel channel;          /* TLS of it wants `state` held */
    char *files[3];                  /* with TLS: its files, in the order of vlm_tls_files */
    vlm_tls_keys *keys;
    char reason[VLM_TLS_REASON]; /* why no session was opened */
    uint64_t epoch;
    uint32_t session; /* how often it was opened again */
    bool is_lost, is_ending, has_reader, has_deliverer;
    pthread_t reader, deliverer, runner;
    struct pending *queue; /* a ring */
    uint32_t first, count, room;
    uint32_t callers; /* requests whose calls are under way: each may cancel or read a tail without memory */
    struct record *records;
    uint32_t record_room, free_record;
    uint32_t *hashed; /* record_room places: the first lock of each hash */
    struct process *processes;
    uint32_t process_count;
    struct event *first_event, **last_event;
    uint64_t event_count; /* the number of the newest */
    struct event loss;    /* needs no memory when it comes */
    bool is_running;      /* a routine, in the thread `runner` */
    bool is_dispatching;
    uint64_t runs; /* how many routines have begun */
    pthread_cond_t events, settled;
    int event_descriptor;
    /* With a lease, the rest counts. */
    uint32_t lease;      /* milliseconds, or 0: a session on a socket of Unix ends with its connection */
    uint64_t lease_end;  /* as vlmc_now counts */
    uint64_t asked;      /* when the last line was sent that makes the lease longer */
    uint64_t awaited;    /* since when the first of the queue is waited for */
    bool is_asking;      /* an `alive` is in the queue */
    bool is_linked;      /* a line is sent at once; else the reader sends it once there is a connection */
    bool is_ruined;      /* the session can't go on: an AST was lost, or an answer is not of its line */
    int wake_descriptor; /* readable once the reader is to end */
    char session_name[SESSION_NAME];
    uint64_t number, answered; /* of the last step that has a line, and that has an answer */
    uint64_t asts;             /* how many were heard */
    uint32_t abandoned;        /* connections that were given up with a `resume` that no answer came to */
    char (*kept)[LINE_ROOM];   /* the lines of the queue, in its order */
    struct early *early;
    pthread_cond_t has_room; /* in the queue */
};

/* vlm_client.c: takes no mutex. */
bool vlmc_is_usable(const vlm_client *client);

/* vlm_client_addresses.c: none takes a mutex held. vlmc_find_addresses tells whether there is an address.
 * vlmc_connect_to makes a connection, without TLS yet, and tells whether it could; errno says why not. vlmc_wait_for
 * waits until a descriptor is ready for events of poll, a moment has come, or the client is to end: whether it is
 * ready. */
bool vlmc_find_addresses(vlm_client *client);
bool vlmc_connect_to(const vlm_client *client, struct channel *channel, uint64_t until);
bool vlmc_wait_for(const vlm_client *client, int descriptor, short events, uint64_t until);

/* vlm_client_sockets.c: makes a socket that forked children close, or answers -1. vlmc_forks counts the forks that made
 * this process, and takes no mutex. */
int vlmc_open_socket(int family, int kind);
uint64_t vlmc_forks(void);

/* vlm_client_sessions.c: none takes a mutex held. vlmc_connect begins a session: VLM_NORMAL or VLM_LOST. vlmc_go_on
 * resumes it at the address whose turn it is. vlmc_is_end tells whether a line says that the session is over,
 * vlmc_is_own_move whether it says only that an abandoned `resume` of this client was heard late, and vlmc_is_cut_off
 * whether it says that the connection ends. */
enum { WENT_ON, NOT_THERE, OVER };
uint32_t vlmc_connect(vlm_client *client);
int vlmc_go_on(vlm_client *client);
bool vlmc_is_end(const char *line);
bool vlmc_is_cut_off(const char *line);
bool vlmc_is_own_move(vlm_client *client, const char *line);

/* vlm_client_resume.c. vlmc_resume gives the session another connection, by the reader, with no mutex held: whether it
 * goes on. vlmc_keep_line keeps a line of the queue, and gives what follows it; vlmc_send_kept sends the last kept
 * lines. vlmc_link has a connection used, by which the lease was asked for at a moment. */
bool vlmc_resume(vlm_client *client);
const char *vlmc_keep_line(vlm_client *client, struct pending *noted, const char *line);
void vlmc_send_kept(vlm_client *client, uint32_t count);
void vlmc_link(vlm_client *client, const struct channel *channel, uint64_t asked);

/* vlm_client_lease.c. vlmc_now takes no mutex, and vlmc_await none held: it waits until bytes have come, and tells
 * whether they have. vlmc_is_lost tells whether the locks are lost, vlmc_is_gone whether those of a session are, where
 * there is a lease. */
uint64_t vlmc_patience(const vlm_client *client);
bool vlmc_is_out(const vlm_client *client);
bool vlmc_is_lost(const vlm_client *client);
bool vlmc_is_gone(const vlm_client *client, uint32_t session);
bool vlmc_may_go_on(vlm_client *client);
void vlmc_renew(vlm_client *client, uint64_t asked);
bool vlmc_await(vlm_client *client);
void vlmc_ruin(vlm_client *client);

/* vlm_client_reader.c: takes no mutex held. */
void *vlmc_read(void *client);

/* vlm_client_asts.c. vlmc_read_ast and vlmc_read_block take no mutex: they read the first line of an AST, if it is one,
 * and the line of a completion's status block. */
bool vlmc_read_ast(struct ast *ast, const char *line);
void vlmc_read_block(struct ast *ast, const char *line);
void vlmc_take_ast(vlm_client *client, const struct ast *ast);
void vlmc_take_early(vlm_client *client, uint32_t place);
void vlmc_drop_early(vlm_client *client);

/* vlm_client_calls.c. Notes what is waited for, and sends lines. Takes no mutex held. NORMAL; VLM_LOST, INSFMEM, and
 * CANCELGRANT where a request that is to be cancelled has ended: nothing was sent. A reserved call is not answered
 * INSFMEM. */
uint32_t vlmc_send(vlm_client *client, const char *lines, const struct pending *wanted, uint32_t count);

/* vlm_client_lines.c: none takes a mutex. */
uint32_t vlmc_status(const char *answer, uint64_t *handle);
int vlmc_write_hex(char *text, const uint8_t *bytes, size_t len);
bool vlmc_read_value(const char *line, uint8_t *value, size_t len);
uint64_t vlmc_number_after(const char *line, const char *word);

/* vlm_client_readings.c */
bool vlmc_read_line(vlm_client *client, struct call *call, const char *line);

/* vlm_client_calls.c. vlmc_ask begins a call, sends its line and waits for its answer; it takes no mutex held. */
void vlmc_begin_call(struct call *call, uint32_t answers);
uint32_t vlmc_ask(vlm_client *client, struct call *call, const char *line, uint32_t taken);

/* vlm_client_records.c. vlmc_find_lock finds the lock of a process, or with pid 0 of any. */
uint32_t vlmc_new_record(vlm_client *client);
uint32_t vlmc_find_lock(const vlm_client *client, uint32_t pid, uint32_t lkid);
void vlmc_free_block(vlm_client *client, uint32_t pid, uint32_t block);
void vlmc_free_record(vlm_client *client, uint32_t place);
void vlmc_accept(vlm_client *client, uint32_t place, uint32_t lkid);
void vlmc_grant_at_once(vlm_client *client, uint32_t place);
void vlmc_end(vlm_client *client, uint32_t place, uint32_t status);

/* vlm_client_requests.c. vlmc_standing tells whether a process may make calls: NORMAL, VLM_LOST, NONEXPR. vlmc_forget
 * forgets the locks that a dequeue has given up. vlmc_read_tail reads the tail of an event's value from its status
 * block, and frees the block; it takes no mutex held. */
uint32_t vlmc_standing(const vlm_client *client, uint32_t pid);
void vlmc_forget(vlm_client *client, const vlm_threads_dequeue *dequeue);
void vlmc_read_tail(vlm_client *client, struct event *event);

/* vlm_client_events.c */
void vlmc_tell_end(vlm_client *client, const struct record *record);
void vlmc_warn(vlm_client *client, uint32_t place);
void vlmc_tell_loss(vlm_client *client);
void *vlmc_deliver(void *client);
void vlmc_drop_events(vlm_client *client);
void vlmc_drop_events_of(vlm_client *client, uint32_t pid);

#endif
