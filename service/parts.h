/* What the files of the dispatcher share. Not a header of the daemon.
 *
 * A session has processes of the lock manager under names. Each process that the manager has made is kept for ever: a
 * session that ends gives its processes back, clean, and a later session gets them. A request has a record from its
 * step to its completion AST, whose routine is the place of the record.
 *
 * dispatcher.c  opening and closing, ticks, turns, and clients
 * input.c       bytes of a client become lines
 * lines.c       what a line asks for: its number, its words, and the handles of locks in it
 * known_lines.c lines that were read lately
 * repeats.c     numbered lines that come again
 * sessions.c    open, resume, close, alive and kill
 * steps.c       declare, enq, cvt, deq, set and end
 * readings.c    block, tail, show and tails
 * who.c         who and metrics
 * locks.c       readings of single locks
 * tokens.c      fencing tokens of locks
 * processes.c   processes kept for reuse, and what each user has
 * requests.c    records of requests, ASTs, and which requests wait
 * cycles.c     searches for deadlocks, and the cycle for the log
 * leases.c      leases of sessions, and what else only replicas call
 * epochs.c      IDs that run out
 * output.c      bytes for clients, and printed lines with handles of 64 bits
 */
#ifndef PARTS_H
#define PARTS_H

#include "dispatcher.h"

enum {
    PROTOCOL = 1,
    NAME = 16,            /* bytes of a process's name */
    LABEL = 32,           /* bytes of a client's command, with a zero */
    LINE = 255,           /* bytes of a line, without its number and its line feed */
    NUMBERED = LINE + 20, /* with its number; more bytes are too long in any case */
    PAUSE = 64 << 10,     /* unsent bytes of a client whose lines are not run */
    MOST_UNSENT = 1 << 20,
    MOST_WALKED = 10000, /* locks and resources in a turn, before all lines that are left wait for the next one */
    KEPT_ASTS = 64,      /* of a session that may be resumed */
    KEPT_STEPS = 64,     /* likewise, if its lines have numbers */
    MOST_SECONDS = 600,
    BLOCK_BITS = 256 / 8,
    USER_BUCKETS = 256,
    POOL_BUCKETS = 256,
    NODE_PROCESSES = 65535,
    MOST_PROCESSES = VLM_MAX_NODES * NODE_PROCESSES,
    KEPT_ROOM = 256, /* of a client's output between two answers */
    NUMBER_DIGITS = 20,
    TOLD = 576, /* bytes of an AST, its block line and its token */
    KNOWN_BITS = 10,
    KNOWN_PLACES = 1 << KNOWN_BITS,
    KNOWN_WAYS = 4,   /* lines at a place */
    KNOWN_BYTES = 120 /* of a known line at most */
};

#define NOBODY UINT32_MAX  /* no record */
#define NO_LOCK UINT32_MAX /* an ID that no lock has: the last one is never reached */

/* What a user has. */
struct user {
    uint32_t uid;
    uint32_t connections;
    uint32_t processes;
    uint32_t waiting; /* requests */
    uint64_t locks;   /* those that wait too */
    uint64_t queued;  /* bytes for its clients */
    uint64_t sessions;
    struct user *next;
};

/* A status block as it was in an earlier lock manager, until a request names the block again. */
struct old_block {
    uint32_t status;
    uint64_t handle;
};

/* The last request that was accepted for a status block: when it was accepted or ended, and its lock. */
struct block_use {
    uint64_t since;
    uint32_t lkid;
};

/* A process of the lock manager. Without a session only its pid, its index and its pool count. What each step needs
 * comes first, as in sessions and clients: with many of them it is in no near cache, and what lies together is fetched
 * at once. */
struct process {
    uint32_t pid;
    uint32_t quota;
    uint32_t blocks; /* as declared */
    uint32_t locks;
    struct session *session;   /* that has it, or null */
    struct block_use *uses;    /* of each block */
    struct old_block *old;     /* of an earlier lock manager, or null */
    uint8_t named[BLOCK_BITS]; /* the blocks that an accepted request has named */
    uint8_t set[BLOCK_BITS];   /* the blocks whose value part may not be zeros */
    uint64_t number;           /* what clients see in the place of the pid */
    uint8_t name[NAME];
    uint32_t name_len;
    uint32_t index; /* in the order of making */
    struct pool *pool;
    struct process *next_free;
};

/* The free processes that are alike. */
struct pool {
    uint32_t group;
    uint32_t blocks; /* of the manager's process: 4, 16, 64 or 255 */
    bool has_syslck;
    struct process *free;
    struct pool *next;
};

/* A numbered step: its line, and what that was answered. */
struct step {
    uint64_t number;
    uint64_t hash;  /* of the line */
    uint64_t given; /* what the answer names: the handle of a lock, the number of a process, or 0 */
    uint32_t status;
    uint32_t line_len;
};

/* A name of a session; the process is null once it has ended. */
struct binding {
    uint8_t name[NAME];
    struct process *process;
};

struct session {
    struct dispatcher *dispatcher;
    struct user *user;
    struct client *client; /* null between connections */
    uint64_t number;       /* of its last step */
    struct step *steps;    /* a ring of the last steps whose lines had numbers, or null */
    struct binding *bindings;
    uint32_t binding_count, binding_room;
    uint32_t next_step; /* in the ring */
    uint32_t seconds;   /* how long it waits for a resume */
    uint64_t name;
    struct rights rights;
    uint64_t until;                  /* without a client: when it ends */
    bool tells_tokens;               /* with each completion */
    bool is_killed;                  /* of a replica: no beat keeps its lease any more */
    uint64_t beat;                   /* of a replica: the place of the last beat */
    uint64_t heard, overdue;         /* of a replica: when that came by, and since when the lease is over, or 0 */
    struct session *previous, *next; /* of the sessions without a client */
    uint64_t asts;                   /* how many it was told */
    uint8_t **kept;                  /* the last ASTs, if it may be resumed */
    char label[LABEL];
};

/* A place for a session: the low half of its name. */
struct place {
    struct session *session; /* or null */
    uint32_t next_free;
};

struct client {
    struct dispatcher *dispatcher;
    struct session *session; /* or null */
    struct user *user;
    /* The line that is run. */
    const char *line; /* without its number */
    size_t line_len;
    uint64_t line_hash;
    uint64_t line_number;
    bool has_number;
    /* What is known of the client. */
    bool is_ended;    /* no more bytes come */
    bool is_over;     /* the connection ends once all is sent */
    bool is_cut;      /* it ends at once */
    bool is_waiting;  /* its next line is a request, and the dispatcher is quiet */
    bool is_long;     /* the bytes up to the next line feed are too many */
    bool is_detached; /* it is another replica's, or its connection has ended */
    bool is_amid;     /* the last line of which something was sent was not sent whole */
    bool is_ready, is_changed;
    struct rights rights;
    void *context;
    uint32_t salt; /* of the names of its sessions */
    uint8_t *in;   /* bytes that no line was made of yet */
    size_t in_from, in_len, in_room;
    uint8_t *out;
    size_t out_from, out_len, out_room;
    size_t out_long;        /* unsent bytes up to the end of the last long answer: MOST_UNSENT does not count them */
    bool is_told_at_length; /* a long answer is being put: `queued` limits it, and MOST_UNSENT does not */
    struct client *previous, *next; /* of all clients */
    struct client *next_ready, *next_changed, *previous_changed;
};

/* A request from its step to its end. */
struct request {
    struct process *process;
    struct user *user; /* while it waits, else null */
    uint32_t lkid;
    uint32_t mode; /* that it wants */
    uint32_t block;
    uint32_t ast; /* the client's completion routine */
    bool has_ast;
    bool has_token; /* it has taken its fencing token */
    uint64_t since;
    uint32_t previous, next; /* of the waiting ones, or of the free records */
};

/* The fencing token of a lock: 0 before its first grant. A place of the table without a lock has lkid 0. */
struct token {
    uint32_t lkid;
    uint64_t number;
};

/* A line as it was read, and the last answer to it, if that has bytes. */
struct heard {
    vlm_line line;
    uint32_t status; /* that the answer tells */
    bool has_number; /* the answer ends with the number of a lock or a process, which `answer` lacks */
    vlm_text answer;
};

/* A line that a client of a group has sent. One without bytes is none. */
struct known_line {
    uint32_t len, group;
    char bytes[KNOWN_BYTES];
    struct heard heard;
};

/* The last lines that have come to one place, and which of them goes when another one comes. The tags are parts of
 * their hashes, so that most other lines are not looked at. */
struct known_place {
    uint32_t next, tags[KNOWN_WAYS];
    struct known_line lines[KNOWN_WAYS];
};

struct counts {
    uint64_t steps, asts, searches, victims, cut_off, refused, sessions, changes, lost;
};

struct dispatcher {
    struct limits limits;
    vlm manager;
    uint8_t keys[16];
    logger log;
    bool is_replica;
    uint64_t place;      /* of a replica: in the list */
    uint32_t next_end;   /* of a replica: the place of the session that is asked for its end next */
    uint64_t found_none; /* how many steps there had been at the last search without a victim */
    uint64_t now, quiet_until, searched, looked;
    uint32_t grace;   /* milliseconds without requests after the end of an epoch */
    uint64_t drained; /* when the epoch ends for want of IDs, or 0; UINT64_MAX: the leases of lost sessions end it */
    uint32_t epoch;
    uint32_t last_lkid;
    uint32_t short_of, out_of; /* IDs: from these on they are short, and no more are given */
    uint64_t last_process;     /* number */
    uint64_t walked;           /* locks and resources that lines of this turn have told or passed over */
    uint32_t connections;
    struct client *clients, *ready, **ready_end, *changed;
    struct place *sessions;
    uint32_t session_room, session_count, free_place;
    struct session *left; /* sessions without a client */
    struct user *users[USER_BUCKETS];
    struct pool *pools[POOL_BUCKETS];
    struct process **processes; /* in the order of making */
    uint32_t process_count, process_room;
    struct request *requests;
    uint32_t request_room, free_request;
    uint32_t first_waiting, last_waiting, waiting_count;
    uint64_t token;       /* the last one that was taken */
    struct token *tokens; /* hashed by their locks */
    size_t token_room, token_count;
    struct heard *heard;  /* the line that is run */
    struct heard unknown; /* a line that was not known */
    vlm_line shown;       /* names a process whose AST or block is printed */
    struct counts counts;
    struct known_place known[KNOWN_PLACES];
};

/* A word of a line. */
struct word {
    const char *bytes;
    size_t len;
};

/* dispatcher.c */
void client_end(struct client *client);
void make_ready(struct client *client);
void end_without_memory(const struct dispatcher *dispatcher);

/* input.c */
void run_heard(struct client *client);

/* lines.c */
bool run_line(struct client *client, const char *bytes, size_t len);
size_t split(const char *bytes, size_t len, struct word *words, size_t most);
bool is_word(struct word word, const char *text);
bool keyed(struct word word, const char *key, struct word *rest);
bool decimal(struct word word, uint64_t most, uint64_t *number);

/* Mixes up to eight bytes into a hash, by an odd factor with many bits. */
static inline uint64_t mix_in(uint64_t hash, uint64_t bytes) {
    hash = (hash ^ bytes) * UINT64_C(0x9E3779B97F4A7C15);
    return hash ^ hash >> 32;
}

/* known_lines.c. hash_line: a hash of a client's line, by a random key. known_line: what was read of the client's line
 * before, or null. read_line: what a line is, or null if it has too many bytes. keep_line: keeps what was read of the
 * client's line. All without the numbers of lines. */
uint64_t hash_line(const struct client *client, struct word text);
struct heard *known_line(const struct client *client);
struct heard *read_line(struct dispatcher *dispatcher, struct word text);
void keep_line(const struct client *client, const vlm_line *line);

/* repeats.c */
bool is_repeated(struct client *client);
bool make_ring(struct client *client);
void keep_step(struct client *client, uint32_t status, uint64_t given);

/* sessions.c */
bool run_session_line(struct client *client, const struct word *words, size_t count);
void end_session(struct session *session);
void leave_session(struct client *client);
void kill_session(struct session *session, const char *text);
void end_left_sessions(struct dispatcher *dispatcher);
struct session *find_session(struct dispatcher *dispatcher, struct word name);

/* steps.c and readings.c */
void run_step(struct client *client, const vlm_line *line, struct binding *binding);
void tell_answer(struct client *client, uint32_t status, uint64_t given);
void run_reading(struct client *client, const vlm_line *line, const struct process *process);
struct binding *find_binding(struct session *session, const uint8_t *name);
void show(struct client *client, bool is_tails);

/* who.c */
void who(struct client *client, const struct word *words, size_t count);
void metrics(struct client *client);

/* locks.c */
bool run_lock_line(struct client *client, const struct word *words, size_t count);

/* tokens.c */
bool reserve_token(struct dispatcher *dispatcher);
void note_lock(struct dispatcher *dispatcher, uint32_t lkid, bool is_granted);
void give_token(struct dispatcher *dispatcher, struct request *record);
void take_token(struct dispatcher *dispatcher, struct request *record);
uint64_t token_of(const struct dispatcher *dispatcher, uint32_t lkid);
void forget_token(struct dispatcher *dispatcher, uint32_t lkid);
void forget_tokens_of(struct dispatcher *dispatcher, uint32_t pid);

/* processes.c */
struct user *find_user(struct dispatcher *dispatcher, uint32_t uid);
void drop_user(struct dispatcher *dispatcher, struct user *user);
struct process *take_process(struct session *session, const vlm_line *line);
void release_process(struct process *process);
struct process *process_of(struct dispatcher *dispatcher, uint32_t pid);
uint32_t make_process(vlm *manager, const struct pool *pool, uint32_t index, uint32_t *pid);
void count_locks(struct process *process);
void count_lock(struct process *process, bool is_new);
bool has_bit(const uint8_t *bits, uint32_t number);
void set_bit(uint8_t *bits, uint32_t number);

/* requests.c */
uint32_t new_request(struct process *process, vlm_request *request);
void drop_request(struct dispatcher *dispatcher, uint32_t place);
void accept_new(struct dispatcher *dispatcher, uint32_t place, uint32_t lkid, bool is_granted);
void accept_conversion(struct dispatcher *dispatcher, uint32_t place, uint32_t lkid);
void wait_if_queued(struct dispatcher *dispatcher, uint32_t place, uint32_t lkid);
void tell(struct dispatcher *dispatcher);

/* cycles.c */
uint64_t search_due(const struct dispatcher *dispatcher);
void search_if_due(struct dispatcher *dispatcher);
bool search(struct dispatcher *dispatcher);

/* leases.c */
void keep_lease(struct session *session);

/* epochs.c */
bool has_ids(const struct dispatcher *dispatcher);
void share_ids(struct dispatcher *dispatcher);
void check_ids(struct dispatcher *dispatcher);
void lose_lock_holders(struct dispatcher *dispatcher);
uint64_t handle_of(const struct dispatcher *dispatcher, uint32_t lkid);

/* output.c */
size_t unsent(const struct client *client);
void note_change(struct client *client);
void drop_change(struct client *client);
void put(struct client *client, const void *bytes, size_t len);
void put_news(struct client *client, const void *bytes, size_t len);
void put_text(struct client *client, const char *text);
void put_format(struct client *client, const char *format, ...) __attribute__((format(printf, 2, 3)));
void answer(struct client *client, const void *bytes, size_t len);
void answer_text(struct client *client, const char *text);
void begin_answer(struct client *client);
void begin_long_answer(struct client *client);
void end_long_answer(struct client *client, const char *text);
size_t write_number(char *end, uint64_t number);
void replace_word(vlm_text *text, uint32_t place, uint64_t number);
void say(const struct dispatcher *dispatcher, const char *format, ...) __attribute__((format(printf, 2, 3)));

#endif
