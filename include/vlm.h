/* The lock manager as a library: $ENQ, $DEQ and what belongs to them as calls from C and C++.
 *
 * What the caller owes, which nothing checks:
 * - A handle is all bytes 0 (VLM_CLOSED), or as a call of this library left it. Its bytes are not written by others,
 *   and not copied to be used twice; it may be moved while no call runs.
 * - One call at a time has a handle, a reading too: a call takes what the handle holds, and puts it back at its end. So
 *   no handle is const. It may go from thread to thread, where a lock, the start or join of a thread or a sequentially
 *   consistent atomic orders the calls.
 * - A pointer is not null and points, for the call, to initialized objects of its type: `name` to `name_len` bytes. It
 *   is not null even where the length is 0. No two arguments overlap.
 * - malloc, realloc and free are those of one allocator, which aligns as C says. No call is made from a signal handler
 *   or in the forked child of a process with threads.
 * All else that is passed is checked, and answered by a condition value.
 *
 * Set `size` of every struct before a call. A struct that is passed in has 0 in each reserved word. A struct that a
 * call writes is written whole, its reserved words as 0, or not at all; its reserved words are not read. A call answers
 * VLM_BADPARAM and changes nothing in the lock manager
 * - with a struct of another size, or a reserved word that is not 0;
 * - with a mark (has_keys, syslck, has_ast, has_bast, has_value, has_tail) that is neither 0 nor 1, or a mode that does
 *   not exist;
 * - with a node, group, quota, number of status blocks, status block or flags above what the core's field holds;
 * - with a `lock_kind` other than VLM_BY_ID and VLM_BY_BLOCK, or a status block above 255 in `lock`;
 * - on a handle with no lock manager.
 * Status blocks are numbered from 1: block 0 does not exist. Each call that has *pid, *lkid or *victim writes it: 0 if
 * no process is declared, the request is refused, or the search finds no victim.
 *
 * The ASTs of a process come in the order in which they are queued. A step queues the completions of a resource before
 * the blocking ASTs of its granted locks. So a process learns of a grant before it learns that the granted lock blocks
 * somebody, and a converting lock gets no blocking AST. A cache protocol over blocking ASTs needs no more.
 *
 * vlm_open compares the version of this header with that of the library. It refuses one of another first or second
 * number. So a program goes on with each library whose version differs in the last number alone.
 *
 * Where strangers choose the names of resources, give vlm_open 16 bytes of keys that nobody can foresee. Without keys
 * it hashes by fixed ones. Then somebody can choose many names with one hash, which slow steps down.
 */
#ifndef VLM_H
#define VLM_H

#include <stdbool.h>
#include <stddef.h>
#include <stdint.h>

#ifdef __cplusplus
extern "C" {
#define VLM_ASSERT(fact) static_assert(fact, #fact)
#else
#define VLM_ASSERT(fact) _Static_assert(fact, #fact)
#endif
#define VLM_ASSERT_AT(type, member, offset) VLM_ASSERT(offsetof(type, member) == (offset))

/* The version of this header, 0.2.0: one byte for each of its numbers. */
#define VLM_VERSION 0x000200

/* Condition values. The numbers, DEPARTED and WIDENOTVALID are this library's own. */
enum {
    VLM_NORMAL = 1,
    VLM_SYNCH = 2,
    VLM_NOTQUEUED = 3,
    VLM_ABORT = 4,
    VLM_CANCEL = 5,
    VLM_DEADLOCK = 6,
    VLM_VALNOTVALID = 7,
    VLM_CANCELGRANT = 8,
    VLM_SUBLOCKS = 9,
    VLM_IVLOCKID = 10,
    VLM_CVTUNGRANT = 11,
    VLM_PARNOTGRANT = 12,
    VLM_EXDEPTH = 13,
    VLM_EXENQLM = 14,
    VLM_NOLOCKID = 15,
    VLM_INSFMEM = 16,
    VLM_IVBUFLEN = 17,
    VLM_BADPARAM = 18,
    VLM_UNSUPPORTED = 19,
    VLM_NOSYSLCK = 20,
    VLM_ACCVIO = 21,
    VLM_NONEXPR = 22,
    VLM_DEPARTED = 23,
    VLM_WIDENOTVALID = 24
};

/* What calls of the other headers answer beside these. VLM_TIMEOUT: the wait for a grant has lasted as long as it may.
 * VLM_LOST: the lock service or the session has ended, and its locks are gone. VLM_FULL, of a post: the port knows no
 * free place, and nothing was posted; take items, and post again. */
enum { VLM_TIMEOUT = 100, VLM_LOST = 101, VLM_FULL = 256 };

/* Modes. */
enum { VLM_NL = 0, VLM_CR = 1, VLM_CW = 2, VLM_PR = 3, VLM_PW = 4, VLM_EX = 5, VLM_NO_MODE = 255 };

/* How `lock` names a lock: by its ID, or by the status block that has its ID. */
enum { VLM_BY_ID = 0, VLM_BY_BLOCK = 1 };

/* Queues of a resource. */
enum { VLM_GRANTED = 0, VLM_CONVERSION = 1, VLM_WAITING = 2 };

/* Kinds of AST. */
enum { VLM_NO_AST = 0, VLM_COMPLETION = 1, VLM_BLOCKING = 2 };

/* Limits. */
enum {
    VLM_MAX_NODES = 8,     /* nodes are numbered from 1 */
    VLM_MAX_GROUP = 65535, /* a UIC group */
    VLM_MAX_QUOTA = 65535, /* locks of a process */
    VLM_MAX_BLOCKS = 255,  /* status blocks of a process */
    VLM_MAX_NAME = 31,     /* bytes of a resource's name */
    VLM_MAX_LEVELS = 16,   /* of a resource tree, with its root */
    VLM_VALUE_BYTES = 16,  /* of a value block, without its tail */
    VLM_TAIL_BYTES = 48    /* of the tail */
};

/* Flags of vlm_enq and vlm_convert. */
enum {
    VLM_VALBLK = 1,      /* the value block is returned, or written */
    VLM_NOQUEUE = 2,     /* refused where it cannot be granted at once */
    VLM_SYNCSTS = 4,     /* answers SYNCH where it is granted at once */
    VLM_SYSTEM = 8,      /* a root of the system's domain */
    VLM_EXPEDITE = 16,   /* a new request at NL is granted whatever is queued */
    VLM_QUECVT = 32,     /* a conversion waits after those that are queued */
    VLM_NODLCKWT = 64,   /* waits for nobody in a search for a deadlock */
    VLM_NODLCKBLK = 128, /* nobody waits for it in a search for a deadlock */
    VLM_WIDE = 256       /* with VALBLK: the value block's 64 bytes */
};

/* Flags of vlm_deq. */
enum {
    VLM_DEQALL = 1,     /* all locks below a lock, or with lock 0 all of the caller */
    VLM_DEQ_CANCEL = 2, /* the request is cancelled */
    VLM_INVVALBLK = 4   /* the value block is marked invalid */
};

/* A handle of a lock manager, or of none. */
typedef struct vlm {
    void *core;
    bool is_held;
} vlm;
#define VLM_CLOSED \
    { 0, false }

VLM_ASSERT(sizeof(void *) == 8 && sizeof(size_t) == 8);
VLM_ASSERT(sizeof(vlm) == 16);
VLM_ASSERT_AT(vlm, core, 0);
VLM_ASSERT_AT(vlm, is_held, 8);

typedef struct vlm_options {
    uint32_t size;
    uint32_t version;  /* VLM_VERSION */
    uint32_t has_keys; /* 1 where names are hashed by `keys` */
    uint8_t keys[16];
    uint32_t reserved[9];
} vlm_options;
/* clang-format off */
#define VLM_OPTIONS { sizeof(vlm_options), VLM_VERSION, 0, { 0 }, { 0 } }
/* clang-format on */

typedef struct vlm_declaration {
    uint32_t size;
    uint32_t node;   /* 1 to 8 */
    uint32_t group;  /* the UIC group, to 65535 */
    uint32_t syslck; /* 1 with the privilege SYSLCK */
    uint32_t quota;  /* how many locks it may have, to 65535 */
    uint32_t blocks; /* how many status blocks it has, to 255, numbered from 1 */
    uint32_t reserved[2];
} vlm_declaration;

typedef struct vlm_setting {
    uint32_t size;
    uint32_t pid;
    uint32_t block;
    uint32_t has_tail; /* 1 where the tail is set too */
    uint8_t value[16];
    uint8_t tail[48];
    uint32_t reserved[4];
} vlm_setting;

typedef struct vlm_request {
    uint32_t size;
    uint32_t pid;
    uint32_t mode;
    uint32_t flags;
    uint32_t block;     /* the caller's status block */
    uint32_t lock;      /* vlm_enq: the parent lock, or 0; vlm_convert: the lock */
    uint32_t lock_kind; /* VLM_BY_ID, or VLM_BY_BLOCK where `lock` is the status block that has its ID */
    uint32_t has_ast;   /* 1 where ast names a completion routine */
    uint32_t ast;
    uint32_t has_bast; /* 1 where bast names a blocking routine */
    uint32_t bast;
    uint32_t param; /* the parameter of both */
    uint32_t reserved[20];
} vlm_request;

typedef struct vlm_dequeue {
    uint32_t size;
    uint32_t pid;
    uint32_t flags;
    uint32_t lock;
    uint32_t lock_kind; /* VLM_BY_ID, or VLM_BY_BLOCK where `lock` is the status block that has its ID */
    uint32_t has_value; /* 1 where the value block is written */
    uint32_t has_tail;  /* 1 where the tail is written with it */
    uint8_t value[16];
    uint8_t tail[48];
    uint32_t reserved[9];
} vlm_dequeue;

typedef struct vlm_lksb {
    uint32_t size;
    uint32_t status; /* 0 while a request is pending */
    uint32_t lkid;
    uint32_t reserved;
    uint8_t value[16];
    uint8_t tail[48];
} vlm_lksb;

typedef struct vlm_process {
    uint32_t size;
    uint32_t pid;
    uint32_t node;
    uint32_t group;
    uint32_t syslck;
    uint32_t quota;
    uint64_t blocks;  /* how many status blocks it has */
    uint64_t pending; /* how many ASTs are pending for it */
    uint64_t locks;   /* how many locks it has, waiting ones included */
    uint32_t reserved[4];
} vlm_process;

typedef struct vlm_resource {
    uint32_t size;
    uint32_t serial;    /* from 1, in order of making */
    uint32_t parent;    /* the serial of the parent resource, or 0 */
    uint32_t is_system; /* 1 in the system's domain */
    uint32_t group;     /* else its UIC group */
    uint32_t value_valid;
    uint32_t tail_valid;
    uint32_t name_len;
    uint8_t name[32]; /* with zeros after it */
    uint8_t value[16];
    uint8_t tail[48];
    uint32_t reserved[4];
} vlm_resource;

/* A lock with its place, as the system service $GETLKI tells of it. */
typedef struct vlm_lock {
    uint32_t size;
    uint32_t lkid;
    uint32_t pid;
    uint32_t held;     /* a mode, or VLM_NO_MODE */
    uint32_t want;     /* a mode, or VLM_NO_MODE */
    uint32_t queue;    /* VLM_GRANTED, VLM_CONVERSION or VLM_WAITING */
    uint32_t resource; /* the serial of its resource */
    uint32_t parent;   /* its parent lock, or 0 */
    uint32_t block;    /* the status block of its last accepted request */
    uint32_t reserved[7];
} vlm_lock;

typedef struct vlm_ast {
    uint32_t size;
    uint32_t kind;
    uint32_t routine;
    uint32_t param;
    uint32_t lkid;
    uint32_t reserved[3];
} vlm_ast;

/* What a line of a script asks for: vlm(1) has the lines. */
enum {
    VLM_LINE_EMPTY = 0, /* no word, or a comment */
    VLM_LINE_DECLARE = 1,
    VLM_LINE_SET = 2,
    VLM_LINE_ENQ = 3,
    VLM_LINE_CVT = 4,
    VLM_LINE_DEQ = 5,
    VLM_LINE_END = 6,
    VLM_LINE_LEAVE = 7,
    VLM_LINE_SEARCH = 8,
    VLM_LINE_AST = 9,
    VLM_LINE_BLOCK = 10,
    VLM_LINE_TAIL = 11,
    VLM_LINE_SHOW = 12,
    VLM_LINE_TAILS = 13
};

/* Faults of a line. A program that keeps the names of a script's processes finds the last two itself. */
enum {
    VLM_FAULT_TOO_LONG = 1,
    VLM_FAULT_UNKNOWN_COMMAND = 2,
    VLM_FAULT_WRONG_WORD = 3,
    VLM_FAULT_NUMBER_OUT_OF_RANGE = 4,
    VLM_FAULT_UNKNOWN_NAME = 5,
    VLM_FAULT_NAME_USED = 6
};

/* A line of a script. Its kind says which of the other members count. The steps have pid 0: the program writes in the
 * process of the name. Members that do not count are 0. */
typedef struct vlm_line {
    uint32_t size;
    uint32_t kind;
    uint32_t fault;        /* 0, or the fault of the line, whose kind then is VLM_LINE_EMPTY */
    uint32_t number;       /* the node of a leave or search, or the status block of a block or tail */
    uint32_t name_len;     /* 1 to 15, or 0 where a line names no process */
    uint32_t resource_len; /* of an enq, 0 where the word is no name: vlm_enq then answers VLM_IVBUFLEN */
    uint8_t name[16];      /* the process, with zeros after it */
    uint8_t resource[32];  /* with zeros after it */
    vlm_declaration declaration;
    vlm_setting setting;
    vlm_request request; /* of an enq or cvt */
    vlm_dequeue dequeue;
    uint32_t reserved[2];
} vlm_line;

/* A printed line with its line feed. */
typedef struct vlm_text {
    uint32_t size;
    uint32_t len;
    uint8_t bytes[248]; /* with zeros after the line */
} vlm_text;

VLM_ASSERT(sizeof(struct vlm_options) == 64);
VLM_ASSERT_AT(struct vlm_options, size, 0);
VLM_ASSERT_AT(struct vlm_options, version, 4);
VLM_ASSERT_AT(struct vlm_options, has_keys, 8);
VLM_ASSERT_AT(struct vlm_options, keys, 12);
VLM_ASSERT_AT(struct vlm_options, reserved, 28);

VLM_ASSERT(sizeof(struct vlm_declaration) == 32);
VLM_ASSERT_AT(struct vlm_declaration, size, 0);
VLM_ASSERT_AT(struct vlm_declaration, node, 4);
VLM_ASSERT_AT(struct vlm_declaration, group, 8);
VLM_ASSERT_AT(struct vlm_declaration, syslck, 12);
VLM_ASSERT_AT(struct vlm_declaration, quota, 16);
VLM_ASSERT_AT(struct vlm_declaration, blocks, 20);
VLM_ASSERT_AT(struct vlm_declaration, reserved, 24);

VLM_ASSERT(sizeof(struct vlm_setting) == 96);
VLM_ASSERT_AT(struct vlm_setting, size, 0);
VLM_ASSERT_AT(struct vlm_setting, pid, 4);
VLM_ASSERT_AT(struct vlm_setting, block, 8);
VLM_ASSERT_AT(struct vlm_setting, has_tail, 12);
VLM_ASSERT_AT(struct vlm_setting, value, 16);
VLM_ASSERT_AT(struct vlm_setting, tail, 32);
VLM_ASSERT_AT(struct vlm_setting, reserved, 80);

VLM_ASSERT(sizeof(struct vlm_request) == 128);
VLM_ASSERT_AT(struct vlm_request, size, 0);
VLM_ASSERT_AT(struct vlm_request, pid, 4);
VLM_ASSERT_AT(struct vlm_request, mode, 8);
VLM_ASSERT_AT(struct vlm_request, flags, 12);
VLM_ASSERT_AT(struct vlm_request, block, 16);
VLM_ASSERT_AT(struct vlm_request, lock, 20);
VLM_ASSERT_AT(struct vlm_request, lock_kind, 24);
VLM_ASSERT_AT(struct vlm_request, has_ast, 28);
VLM_ASSERT_AT(struct vlm_request, ast, 32);
VLM_ASSERT_AT(struct vlm_request, has_bast, 36);
VLM_ASSERT_AT(struct vlm_request, bast, 40);
VLM_ASSERT_AT(struct vlm_request, param, 44);
VLM_ASSERT_AT(struct vlm_request, reserved, 48);

VLM_ASSERT(sizeof(struct vlm_dequeue) == 128);
VLM_ASSERT_AT(struct vlm_dequeue, size, 0);
VLM_ASSERT_AT(struct vlm_dequeue, pid, 4);
VLM_ASSERT_AT(struct vlm_dequeue, flags, 8);
VLM_ASSERT_AT(struct vlm_dequeue, lock, 12);
VLM_ASSERT_AT(struct vlm_dequeue, lock_kind, 16);
VLM_ASSERT_AT(struct vlm_dequeue, has_value, 20);
VLM_ASSERT_AT(struct vlm_dequeue, has_tail, 24);
VLM_ASSERT_AT(struct vlm_dequeue, value, 28);
VLM_ASSERT_AT(struct vlm_dequeue, tail, 44);
VLM_ASSERT_AT(struct vlm_dequeue, reserved, 92);

VLM_ASSERT(sizeof(struct vlm_lksb) == 80);
VLM_ASSERT_AT(struct vlm_lksb, size, 0);
VLM_ASSERT_AT(struct vlm_lksb, status, 4);
VLM_ASSERT_AT(struct vlm_lksb, lkid, 8);
VLM_ASSERT_AT(struct vlm_lksb, reserved, 12);
VLM_ASSERT_AT(struct vlm_lksb, value, 16);
VLM_ASSERT_AT(struct vlm_lksb, tail, 32);

VLM_ASSERT(sizeof(struct vlm_process) == 64);
VLM_ASSERT_AT(struct vlm_process, size, 0);
VLM_ASSERT_AT(struct vlm_process, pid, 4);
VLM_ASSERT_AT(struct vlm_process, node, 8);
VLM_ASSERT_AT(struct vlm_process, group, 12);
VLM_ASSERT_AT(struct vlm_process, syslck, 16);
VLM_ASSERT_AT(struct vlm_process, quota, 20);
VLM_ASSERT_AT(struct vlm_process, blocks, 24);
VLM_ASSERT_AT(struct vlm_process, pending, 32);
VLM_ASSERT_AT(struct vlm_process, locks, 40);
VLM_ASSERT_AT(struct vlm_process, reserved, 48);

VLM_ASSERT(sizeof(struct vlm_resource) == 144);
VLM_ASSERT_AT(struct vlm_resource, size, 0);
VLM_ASSERT_AT(struct vlm_resource, serial, 4);
VLM_ASSERT_AT(struct vlm_resource, parent, 8);
VLM_ASSERT_AT(struct vlm_resource, is_system, 12);
VLM_ASSERT_AT(struct vlm_resource, group, 16);
VLM_ASSERT_AT(struct vlm_resource, value_valid, 20);
VLM_ASSERT_AT(struct vlm_resource, tail_valid, 24);
VLM_ASSERT_AT(struct vlm_resource, name_len, 28);
VLM_ASSERT_AT(struct vlm_resource, name, 32);
VLM_ASSERT_AT(struct vlm_resource, value, 64);
VLM_ASSERT_AT(struct vlm_resource, tail, 80);
VLM_ASSERT_AT(struct vlm_resource, reserved, 128);

VLM_ASSERT(sizeof(struct vlm_lock) == 64);
VLM_ASSERT_AT(struct vlm_lock, size, 0);
VLM_ASSERT_AT(struct vlm_lock, lkid, 4);
VLM_ASSERT_AT(struct vlm_lock, pid, 8);
VLM_ASSERT_AT(struct vlm_lock, held, 12);
VLM_ASSERT_AT(struct vlm_lock, want, 16);
VLM_ASSERT_AT(struct vlm_lock, queue, 20);
VLM_ASSERT_AT(struct vlm_lock, resource, 24);
VLM_ASSERT_AT(struct vlm_lock, parent, 28);
VLM_ASSERT_AT(struct vlm_lock, block, 32);
VLM_ASSERT_AT(struct vlm_lock, reserved, 36);

VLM_ASSERT(sizeof(struct vlm_ast) == 32);
VLM_ASSERT_AT(struct vlm_ast, size, 0);
VLM_ASSERT_AT(struct vlm_ast, kind, 4);
VLM_ASSERT_AT(struct vlm_ast, routine, 8);
VLM_ASSERT_AT(struct vlm_ast, param, 12);
VLM_ASSERT_AT(struct vlm_ast, lkid, 16);
VLM_ASSERT_AT(struct vlm_ast, reserved, 20);

VLM_ASSERT(sizeof(struct vlm_line) == 464);
VLM_ASSERT_AT(struct vlm_line, size, 0);
VLM_ASSERT_AT(struct vlm_line, kind, 4);
VLM_ASSERT_AT(struct vlm_line, fault, 8);
VLM_ASSERT_AT(struct vlm_line, number, 12);
VLM_ASSERT_AT(struct vlm_line, name_len, 16);
VLM_ASSERT_AT(struct vlm_line, resource_len, 20);
VLM_ASSERT_AT(struct vlm_line, name, 24);
VLM_ASSERT_AT(struct vlm_line, resource, 40);
VLM_ASSERT_AT(struct vlm_line, declaration, 72);
VLM_ASSERT_AT(struct vlm_line, setting, 104);
VLM_ASSERT_AT(struct vlm_line, request, 200);
VLM_ASSERT_AT(struct vlm_line, dequeue, 328);
VLM_ASSERT_AT(struct vlm_line, reserved, 456);

VLM_ASSERT(sizeof(struct vlm_text) == 256);
VLM_ASSERT_AT(struct vlm_text, size, 0);
VLM_ASSERT_AT(struct vlm_text, len, 4);
VLM_ASSERT_AT(struct vlm_text, bytes, 8);

/* Tells the version of the library, in the form of VLM_VERSION. */
uint32_t vlm_version(void);

/* Puts a new lock manager into a handle that has none. NORMAL, INSFMEM, BADPARAM where it has one, or where the options
 * are malformed or of another version. So a program begins with
 *
 *     vlm handle = VLM_CLOSED;
 *     vlm_options options = VLM_OPTIONS;
 *     if (vlm_open(&handle, &options) != VLM_NORMAL) ... */
uint32_t vlm_open(vlm *handle, const vlm_options *options);

/* Frees the lock manager of a handle, if it has one. */
void vlm_close(vlm *handle);

/* The steps. Each answers the core's condition value. */

/* Declares a process. NORMAL, BADPARAM, DEPARTED, INSFMEM. */
uint32_t vlm_declare(vlm *handle, const vlm_declaration *declaration, uint32_t *pid);

/* Sets the value part of a status block. NORMAL, BADPARAM, DEPARTED, NONEXPR, ACCVIO. */
uint32_t vlm_set_value(vlm *handle, const vlm_setting *setting);

/* Asks for a new lock ($ENQ). NORMAL, SYNCH; DEPARTED, NONEXPR, BADPARAM, ACCVIO, IVBUFLEN, UNSUPPORTED, IVLOCKID,
 * PARNOTGRANT, EXDEPTH, NOSYSLCK, EXENQLM, NOLOCKID, NOTQUEUED, INSFMEM. */
uint32_t vlm_enq(vlm *handle, const vlm_request *request, const uint8_t *name, size_t name_len, uint32_t *lkid);

/* Asks for another mode of a granted lock ($ENQ with CONVERT). NORMAL, SYNCH; DEPARTED, NONEXPR, BADPARAM, ACCVIO,
 * IVLOCKID, CVTUNGRANT, NOLOCKID, NOTQUEUED, INSFMEM. */
uint32_t vlm_convert(vlm *handle, const vlm_request *request, uint32_t *lkid);

/* Gives a lock up, or cancels a request ($DEQ). NORMAL; DEPARTED, NONEXPR, BADPARAM, ACCVIO, IVLOCKID, CANCELGRANT,
 * SUBLOCKS. */
uint32_t vlm_deq(vlm *handle, const vlm_dequeue *dequeue);

/* Takes the oldest pending AST of a process: kind VLM_NO_AST where none is pending. NORMAL, DEPARTED, NONEXPR,
 * BADPARAM; *ast is written with NORMAL alone. The program runs the routine. */
uint32_t vlm_take(vlm *handle, uint32_t pid, vlm_ast *ast);

/* Takes the oldest pending AST of the first process that has one: of the first node with such a process, the first in
 * order of making. *pid is that process, or 0 where no AST is pending: then the kind is VLM_NO_AST. It takes constant
 * time, however many processes there are. NORMAL, BADPARAM. */
uint32_t vlm_take_any(vlm *handle, uint32_t *pid, vlm_ast *ast);

/* Ends a process, with all that it has. NORMAL, DEPARTED, NONEXPR, BADPARAM on a handle with no lock manager. */
uint32_t vlm_rundown(vlm *handle, uint32_t pid);

/* A node departs, with all its processes. NORMAL, BADPARAM, DEPARTED. */
uint32_t vlm_leave(vlm *handle, uint32_t node);

/* Searches for a deadlock, and ends the request of its victim: *victim is that lock, or 0. NORMAL, BADPARAM,
 * DEPARTED. */
uint32_t vlm_search(vlm *handle, uint32_t node, uint32_t *victim);

/* Finds the lock whose request a search would end now: *victim is that lock, or 0. Nothing changes. It takes as long as
 * a search that finds a victim. NORMAL, or BADPARAM and nothing is written. */
uint32_t vlm_find_victim(vlm *handle, uint32_t *victim);

/* Read a status block, or count. Nothing changes, and each call takes constant time. NORMAL, or BADPARAM and nothing is
 * written. */
uint32_t vlm_block(vlm *handle, uint32_t pid, uint32_t block, vlm_lksb *lksb);
uint32_t vlm_pending(vlm *handle, uint32_t pid, size_t *count);
size_t vlm_process_count(vlm *handle);  /* 0 also on a handle with no lock manager */
size_t vlm_resource_count(vlm *handle); /* 0 also on a handle with no lock manager */
size_t vlm_lock_count(vlm *handle);     /* waiting locks included; 0 also on a handle with no lock manager */
size_t vlm_queued_count(vlm *handle);   /* the queued requests; 0 also on a handle with no lock manager */

/* Read a process or a resource by its place in a walk, or a resource by its name. Each call takes constant time.
 * NORMAL, or BADPARAM and nothing is written: there is no such process or resource, or not any more.
 *
 * vlm_next_process reads the living process that was made after `pid`, or with 0 the first one. vlm_next_resource reads
 * the resource that was made after the one in *resource, or the first one where its serial is 0. After the last one
 * they write a struct with pid 0 or serial 0. So a walk is
 *
 *     vlm_resource resource = {.size = sizeof resource};
 *     while (vlm_next_resource(&handle, &resource) == VLM_NORMAL && resource.serial != 0) ...
 *
 * vlm_find reads the resource of a name. The caller sets name and name_len, 1 to 31, and either parent, the serial of
 * the parent resource, or parent 0 with is_system or group. These members name the resource for vlm_next_resource
 * too. */
uint32_t vlm_next_process(vlm *handle, uint32_t pid, vlm_process *process);
uint32_t vlm_next_resource(vlm *handle, vlm_resource *resource);
uint32_t vlm_find(vlm *handle, vlm_resource *resource);

/* Read single locks: by ID, by place in a walk, as blockers of another lock, or as blocked by one. Each
 * call takes constant time, except where this says more. NORMAL, or BADPARAM and nothing is written: there is no such
 * lock, process, resource or queue, or not any more. Lock, process, resource and queue are named by the first
 * arguments; a resource by its members, as for vlm_find.
 *
 * vlm_find_lock reads the lock with an ID, and vlm_lock_resource the resource of a lock. The others walk. A
 * first call reads the first lock: of a queue of a resource (in queue order), of a process, or below a parent lock (in
 * the order of making). A next call reads the lock after the one that it names, in the same queue, of the same process,
 * or below the same parent. After the last one they write a struct with lkid 0 and modes VLM_NO_MODE. So a walk is
 *
 *     vlm_lock lock = {.size = sizeof lock};
 *     for (status = vlm_first_own(&handle, pid, &lock); status == VLM_NORMAL && lock.lkid != 0;
 *          status = vlm_next_own(&handle, lock.lkid, &lock)) ...
 *
 * Blockers are the locks for which the queued request of a lock waits, as a search for a deadlock follows them: granted
 * ones first, then converting, then waiting ones, each in queue order. NODLCKWT and NODLCKBLK count. A granted lock has
 * none. Blocked locks are the other side: those that have this lock among their blockers, converting ones first, then
 * waiting ones. A call passes over the other locks of the resource, and takes time for each. */
uint32_t vlm_find_lock(vlm *handle, uint32_t lkid, vlm_lock *lock);
uint32_t vlm_lock_resource(vlm *handle, uint32_t lkid, vlm_resource *resource);
uint32_t vlm_first_row(vlm *handle, const vlm_resource *resource, uint32_t queue, vlm_lock *lock);
uint32_t vlm_next_row(vlm *handle, uint32_t lkid, vlm_lock *lock);
uint32_t vlm_first_own(vlm *handle, uint32_t pid, vlm_lock *lock);
uint32_t vlm_next_own(vlm *handle, uint32_t lkid, vlm_lock *lock);
uint32_t vlm_first_sublock(vlm *handle, uint32_t lkid, vlm_lock *lock);
uint32_t vlm_next_sublock(vlm *handle, uint32_t lkid, vlm_lock *lock);
uint32_t vlm_first_blocker(vlm *handle, uint32_t lkid, vlm_lock *lock);
uint32_t vlm_next_blocker(vlm *handle, uint32_t lkid, uint32_t blocker, vlm_lock *lock);
uint32_t vlm_first_blocked(vlm *handle, uint32_t lkid, vlm_lock *lock);
uint32_t vlm_next_blocked(vlm *handle, uint32_t lkid, uint32_t blocked, vlm_lock *lock);

/* Read and print the lines of a script, as `vlm play` does. The proof holds each of these calls to the definitions
 * that the program is held to. None takes memory. NORMAL; or BADPARAM, and nothing is written, where a struct has
 * another size or its members are those of no line.
 *
 * vlm_read_line reads `len` bytes, a line without its line feed. NORMAL also for a line with a fault: `fault` says
 * which one comes first. So a program plays a line:
 *
 *     vlm_line line = {.size = sizeof line};
 *     vlm_text text = {.size = sizeof text};
 *     vlm_read_line(bytes, len, &line);
 *     if (line.fault == 0 && line.kind == VLM_LINE_DEQ) {
 *         line.dequeue.pid = process_of(line.name);
 *         vlm_print_answer(&line, vlm_deq(&handle, &line.dequeue), 0, &text);
 *     }
 *
 * vlm_print_answer prints what a step was answered: its condition value, and the pid, lkid or victim that its call
 * wrote, or 0. vlm_print_ast prints what vlm_take was answered, under the name of the line. vlm_print_block and
 * vlm_print_tail print a status block of a process, with the number of the line, or that the process has none.
 * vlm_print_resource and vlm_print_resource_tail print the resource that the struct names, as for vlm_find: its own
 * line, or its tail's. vlm_print_lock prints a lock that one of the readings above has read. */
uint32_t vlm_read_line(const uint8_t *bytes, size_t len, vlm_line *line);
uint32_t vlm_print_answer(const vlm_line *line, uint32_t status, uint32_t number, vlm_text *text);
uint32_t vlm_print_ast(const vlm_line *line, uint32_t status, const vlm_ast *ast, vlm_text *text);
uint32_t vlm_print_block(vlm *handle, uint32_t pid, const vlm_line *line, vlm_text *text);
uint32_t vlm_print_tail(vlm *handle, uint32_t pid, const vlm_line *line, vlm_text *text);
uint32_t vlm_print_resource(vlm *handle, const vlm_resource *resource, vlm_text *text);
uint32_t vlm_print_resource_tail(vlm *handle, const vlm_resource *resource, vlm_text *text);
uint32_t vlm_print_lock(const vlm_lock *lock, vlm_text *text);

/* Names a condition value, or another answer: by the name that the manual has, by a plain name if it is this library's
 * own, and by null if the number is none. The text lasts as long as the program. Any thread may call it at any time. It
 * is not proved. */
const char *vlm_condition_name(uint32_t status);

#ifdef __cplusplus
}
#endif
#endif
