/* Threads that make random calls of starlet.h for some seconds: chaos SECONDS SEED. Each has status blocks of its own
 * and waits for each of its requests. A wait that would never end is one of a cycle of waits, so a search for
 * deadlocks ends it. At the end nothing is left. */
#include <descrip.h>
#include <iledef.h>
#include <lckdef.h>
#include <lkidef.h>
#include <lksbdef.h>
#include <ssdef.h>
#include <starlet.h>

#include <pthread.h>
#include <stdatomic.h>
#include <stdbool.h>
#include <stdio.h>
#include <stdlib.h>
#include <string.h>
#include <time.h>
#include <unistd.h>

enum { THREADS = 5, BLOCKS = 4, NAMES = 3, LISTED = 8 };

/* A thread, with the blocks whose locks it may have. */
struct worker {
    pthread_t thread;
    unsigned int number, seed;
    LKSBX blocks[BLOCKS];
    bool has_lock[BLOCKS];
};

static time_t end;
static atomic_uint completions, blockings, started;

static void check(bool fact, const char *text, int status) {
    if (fact)
        return;
    fprintf(stderr, "%s: %d\n", text, status);
    exit(EXIT_FAILURE);
}

static unsigned int pick(struct worker *worker, unsigned int count) {
    return (unsigned int)rand_r(&worker->seed) % count;
}

static void complete(void *block) {
    (void)block;
    completions++;
}

static void block(void *lksb) {
    (void)lksb;
    blockings++;
}

static unsigned int some_flags(struct worker *worker) {
    static const unsigned int flags[] = {LCK$M_VALBLK, LCK$M_NOQUEUE, LCK$M_SYNCSTS, LCK$M_XVALBLK};
    unsigned int found = 0;
    for (size_t at = 0; at < sizeof flags / sizeof *flags; at++)
        if (pick(worker, 3) == 0)
            found |= flags[at];
    return found;
}

/* Waits for a request, and notes whether its lock is there. */
static void await(struct worker *worker, unsigned int at, int status, bool is_conversion) {
    LKSBX *used = &worker->blocks[at];
    if ((status & 1) == 0) {
        check(status == SS$_NOTQUEUED || status == SS$_IVLOCKID || status == SS$_CVTUNGRANT, "enq", status);
        return;
    }
    status = sys$synch(worker->number, used);
    check(status == SS$_NORMAL, "synch", status);
    status = used->lksb$w_status;
    check(status == SS$_NORMAL || status == SS$_VALNOTVALID || status == SS$_XVALNOTVALID || status == SS$_DEADLOCK
              || status == SS$_ABORT || status == SS$_CANCEL,
          "end", status);
    bool is_gone = status == SS$_ABORT || (status == SS$_DEADLOCK && !is_conversion);
    worker->has_lock[at] = !is_gone;
}

static void ask(struct worker *worker, unsigned int at) {
    static char names[NAMES][2] = {"A", "B", "C"};
    struct dsc$descriptor_s name = {1, DSC$K_DTYPE_T, DSC$K_CLASS_S, names[pick(worker, NAMES)]};
    unsigned int flags = some_flags(worker), parent = 0;
    bool is_conversion = worker->has_lock[at];
    if (is_conversion)
        flags |= LCK$M_CONVERT;
    else if (at > 0 && worker->has_lock[at - 1] && pick(worker, 2) == 0)
        parent = worker->blocks[at - 1].lksb$l_lkid;
    bool has_ast = pick(worker, 2) == 0;
    started += has_ast;
    int status =
        sys$enq(worker->number, pick(worker, 6), &worker->blocks[at], flags, &name, parent,
                has_ast ? (VMS$AST)complete : NULL, (size_t)worker, pick(worker, 2) ? (VMS$AST)block : NULL, 0, 0);
    await(worker, at, status, is_conversion);
}

static void give_up(struct worker *worker, unsigned int at) {
    static const unsigned int flags[] = {0, 0, 0, LCK$M_INVVALBLK, LCK$M_CANCEL, LCK$M_DEQALL};
    unsigned int chosen = flags[pick(worker, 6)];
    if (!worker->has_lock[at])
        return;
    int status = sys$deq(worker->blocks[at].lksb$l_lkid, NULL, 0, chosen);
    check(status == SS$_NORMAL || status == SS$_SUBLOCKS || status == SS$_CANCELGRANT || status == SS$_IVLOCKID, "deq",
          status);
    for (unsigned int below = at; chosen == LCK$M_DEQALL && below + 1 < BLOCKS; below++)
        worker->has_lock[below + 1] = false; /* perhaps: then the lock is left to the end */
    if (status == SS$_IVLOCKID || (status == SS$_NORMAL && (chosen == 0 || chosen == LCK$M_INVVALBLK)))
        worker->has_lock[at] = false;
}

static void look(struct worker *worker, unsigned int at) {
    LKIDEF locks[LISTED];
    unsigned int lkid = pick(worker, 4) == 0 ? 0 : worker->blocks[at].lksb$l_lkid, length;
    const unsigned short codes[] = {LKI$_LOCKS, LKI$_BLOCKEDBY, LKI$_BLOCKING, LKI$_VALBLK};
    const ILE3 items[] = {{sizeof locks, codes[pick(worker, 4)], locks, &length}, {0, 0, NULL, NULL}};
    int status = sys$getlkiw(worker->number, &lkid, (void *)items, NULL, 0, 0, 0);
    check(status == SS$_NORMAL || status == SS$_IVLOCKID || status == SS$_NOMORELOCK, "getlki", status);
}

static void *work(void *given) {
    struct worker *worker = given;
    while (time(NULL) < end) {
        unsigned int at = pick(worker, BLOCKS), what = pick(worker, 20);
        if (what < 10)
            ask(worker, at);
        else if (what < 16)
            give_up(worker, at);
        else if (what < 18)
            look(worker, at);
        else if (what == 18)
            sys$setast((char)pick(worker, 2));
        else
            sys$dclast((VMS$AST)complete, 0, 0), started++;
    }
    return NULL;
}

int main(int count, char **words) {
    static struct worker workers[THREADS];
    unsigned int lkid = 0;
    const ILE3 items[] = {{0, 0, NULL, NULL}};
    if (count != 3)
        return EXIT_FAILURE;
    end = time(NULL) + atoi(words[1]);
    for (unsigned int at = 0; at < THREADS; at++) {
        workers[at].number = at + 1;
        workers[at].seed = (unsigned int)atoi(words[2]) * THREADS + at;
        check(pthread_create(&workers[at].thread, NULL, work, &workers[at]) == 0, "thread", 0);
    }
    for (unsigned int at = 0; at < THREADS; at++)
        pthread_join(workers[at].thread, NULL);
    sys$setast(1);
    check(sys$deq(0, NULL, 0, LCK$M_DEQALL) == SS$_NORMAL, "deq of all", 0);
    while (sys$getlkiw(1, &lkid, (void *)items, NULL, 0, 0, 0) != SS$_NOMORELOCK) {
        unsigned int pid = 0, found = lkid, length;
        const ILE3 owner[] = {{sizeof pid, LKI$_PID, &pid, &length}, {0, 0, NULL, NULL}};
        sys$getlkiw(2, &found, (void *)owner, NULL, 0, 0, 0);
        check(pid != (unsigned int)getpid(), "a lock is left", (int)lkid);
    }
    check(completions <= started, "more completions than requests", (int)completions);
    return EXIT_SUCCESS;
}
