/* Each service of starlet.h and its answers, in one process, over the lock manager that VLM$SERVICE names. A request
 * that waits for this process itself is a deadlock, and ends after the deadlock wait: the tests set that to 3 seconds,
 * so that no other request is searched for on a machine that stalls.
 *
 *     services           all tests
 *     services lost PID  kills the lock service PID, and tests that the locks are lost
 *     services forked    two processes, the child of a fork before the first service and its parent
 *     services declared  the child of a fork after an AST, and before the first service for locks
 *     services opening   the child of a fork while another thread opens the lock manager
 *     services locale    a deadlock in a locale with a decimal comma
 *     services waits     ASTs with VLM$ASTS=wait
 *     services memory    each allocation is refused in turn; it is linked with a calloc and a realloc of its own
 *     services ANSWER    tests that the first service for locks answers so: unreachable, unsupported */
#include <descrip.h>
#include <efndef.h>
#include <iledef.h>
#include <iosbdef.h>
#include <lckdef.h>
#include <lkidef.h>
#include <lksbdef.h>
#include <psldef.h>
#include <ssdef.h>
#include <starlet.h>
#include <stsdef.h>

#include <locale.h>
#include <pthread.h>
#include <signal.h>
#include <stdatomic.h>
#include <stdbool.h>
#include <stdint.h>
#include <stdio.h>
#include <stdlib.h>
#include <string.h>
#include <sys/syscall.h>
#include <sys/wait.h>
#include <time.h>
#include <unistd.h>

enum { THREADS = 4, ROUNDS = 50, MANY = 40, CANCELS = 4000, WAIT = 3000, THOUSAND = 1000, MILLION = 1000000 };

#define CHECK(fact) check(fact, __LINE__, #fact)

static void check(bool fact, int line, const char *text) {
    if (fact)
        return;
    fprintf(stderr, "line %d: %s\n", line, text);
    exit(EXIT_FAILURE);
}

static const $DESCRIPTOR(name_a, "A");
static const $DESCRIPTOR(name_b, "B");

static int enq(int mode, LKSB *lksb, int flags, const struct dsc$descriptor_s *name) {
    return sys$enq(1, (unsigned int)mode, lksb, (unsigned int)flags, (void *)name, 0, 0, 0, 0, 0, 0);
}

static int enqw(int mode, LKSB *lksb, int flags, const struct dsc$descriptor_s *name) {
    return sys$enqw(1, (unsigned int)mode, lksb, (unsigned int)flags, (void *)name, 0, 0, 0, 0, 0, 0);
}

static int deq(const LKSB *lksb) { return sys$deq(lksb->lksb$l_lkid, 0, 0, 0); }

static void give_all_up(void) { CHECK(sys$deq(0, 0, 0, LCK$M_DEQALL) == SS$_NORMAL); }

static int64_t milliseconds(void) {
    struct timespec now;
    clock_gettime(CLOCK_MONOTONIC, &now);
    return (int64_t)now.tv_sec * THOUSAND + now.tv_nsec / MILLION;
}

/* Event flags. */

static void *set_later(void *efn) {
    usleep(20 * THOUSAND);
    sys$setef(*(unsigned int *)efn);
    return NULL;
}

static void test_flags(void) {
    unsigned int state, late = 35;
    pthread_t thread;
    CHECK(sys$clref(3) == SS$_WASCLR && sys$setef(3) == SS$_WASCLR && sys$setef(3) == SS$_WASSET);
    CHECK(sys$readef(0, &state) == SS$_WASCLR && state == 8 && sys$readef(3, &state) == SS$_WASSET);
    CHECK(sys$readef(35, &state) == SS$_WASCLR && state == 0 && sys$readef(35, NULL) == SS$_ACCVIO);
    CHECK(sys$waitfr(3) == SS$_NORMAL && sys$wflor(0, 9) == SS$_NORMAL && sys$wfland(1, 8) == SS$_NORMAL);
    CHECK(pthread_create(&thread, NULL, set_later, &late) == 0);
    CHECK(sys$waitfr(35) == SS$_NORMAL && sys$wfland(32, 8) == SS$_NORMAL && sys$clref(35) == SS$_WASSET);
    pthread_join(thread, NULL);
    for (unsigned int efn = 64; efn < 128; efn++)
        CHECK(sys$setef(efn) == SS$_UNASEFC && sys$waitfr(efn) == SS$_UNASEFC && sys$clref(efn) == SS$_UNASEFC);
    CHECK(sys$setef(129) == SS$_ILLEFC && sys$wflor(500, 1) == SS$_ILLEFC && sys$readef(500, &state) == SS$_ILLEFC);
    CHECK(sys$setef(EFN$C_ENF) == SS$_WASSET && sys$waitfr(EFN$C_ENF) == SS$_NORMAL);
    CHECK(sys$wflor(0, 0) == SS$_NORMAL && sys$synch(129, &state) == SS$_ILLEFC && sys$clref(3) == SS$_WASSET);
}

/* Refusals. None writes the status block. */

static void test_arguments(void) {
    LKSB lksb = {.lksb$w_status = 77, .lksb$l_lkid = 99};
    $DESCRIPTOR(none, "");
    $DESCRIPTOR(long_name, "ABCDEFGHIJKLMNOPQRSTUVWXYZ123456");
    CHECK(enq(LCK$K_EXMODE, NULL, 0, &name_a) == SS$_ACCVIO && enq(LCK$K_EXMODE, &lksb, 0, NULL) == SS$_ACCVIO);
    CHECK(enq(6, &lksb, 0, &name_a) == SS$_BADPARAM && enq(0, &lksb, 1 << 30, &name_a) == SS$_BADPARAM);
    const int unsupported[] = {LCK$M_NOQUOTA, LCK$M_CVTSYS, LCK$M_RECOVER, LCK$M_PROTECT};
    for (size_t at = 0; at < sizeof unsupported / sizeof *unsupported; at++)
        CHECK(enq(0, &lksb, unsupported[at], &name_a) == SS$_UNSUPPORTED);
    CHECK(sys$enq(1, 0, &lksb, 0, (void *)&name_a, 0, 0, 0, 0, PSL$C_KERNEL, 1) == SS$_UNSUPPORTED);
    CHECK(sys$enq(70, 0, &lksb, 0, (void *)&name_a, 0, 0, 0, 0, 0, 0) == SS$_UNASEFC);
    CHECK(sys$enq(200, 0, &lksb, 0, (void *)&name_a, 0, 0, 0, 0, 0, 0) == SS$_ILLEFC);
    CHECK(enq(0, &lksb, 0, &none) == SS$_IVBUFLEN && enq(0, &lksb, 0, &long_name) == SS$_IVBUFLEN);
    CHECK(enq(LCK$K_EXMODE, &lksb, LCK$M_EXPEDITE, &name_a) == SS$_UNSUPPORTED);
    CHECK(enq(LCK$K_EXMODE, &lksb, LCK$M_CONVERT, NULL) == SS$_IVLOCKID);
    CHECK(sys$enq(1, 0, &lksb, 0, (void *)&name_a, 99, 0, 0, 0, 0, 0) == SS$_IVLOCKID);
    CHECK(sys$deq(99, 0, 0, 0) == SS$_IVLOCKID && sys$deq(0, 0, 0, 64) == SS$_BADPARAM);
    CHECK(sys$deq(0, 0, 0, LCK$M_DEQALL | LCK$M_CANCEL) == SS$_BADPARAM);
    CHECK(lksb.lksb$w_status == 77 && lksb.lksb$l_lkid == 99);
    CHECK(sys$dclast(NULL, 0, 0) == SS$_ACCVIO && sys$wake(NULL, (void *)&name_a) == SS$_UNSUPPORTED);
    unsigned int other = 1;
    CHECK(sys$wake(&other, NULL) == SS$_UNSUPPORTED);
}

static void test_refusals(void) {
    LKSB held, waits, below, other = {.lksb$w_status = 77, .lksb$l_lkid = 99};
    struct dsc$descriptor_s empty = {0, DSC$K_DTYPE_T, DSC$K_CLASS_D, NULL};
    CHECK(enqw(LCK$K_EXMODE, &held, 0, &name_a) == SS$_NORMAL && held.lksb$w_status == SS$_NORMAL);
    CHECK(enq(LCK$K_CRMODE, &other, LCK$M_NOQUEUE, &name_a) == SS$_NOTQUEUED && other.lksb$w_status == 77);
    CHECK(enq(LCK$K_CRMODE, &waits, 0, &name_a) == SS$_NORMAL && waits.lksb$w_status == 0 && waits.lksb$l_lkid != 0);
    CHECK(enq(LCK$K_NLMODE, &waits, LCK$M_CONVERT, NULL) == SS$_CVTUNGRANT);
    CHECK(sys$enq(1, 0, &other, 0, (void *)&name_b, waits.lksb$l_lkid, 0, 0, 0, 0, 0) == SS$_PARNOTGRANT);
    CHECK(sys$enqw(1, 0, &below, 0, (void *)&name_b, held.lksb$l_lkid, 0, 0, 0, 0, 0) == SS$_NORMAL);
    CHECK(sys$enqw(1, 0, &other, 0, (void *)&empty, held.lksb$l_lkid, 0, 0, 0, 0, 0) == SS$_IVBUFLEN);
    empty.dsc$w_length = 1;
    CHECK(enqw(LCK$K_NLMODE, &other, 0, &empty) == SS$_ACCVIO);
    CHECK(deq(&held) == SS$_SUBLOCKS && sys$deq(held.lksb$l_lkid, 0, 0, LCK$M_CANCEL) == SS$_CANCELGRANT);
    CHECK(enq(LCK$K_CRMODE, &held, LCK$M_CONVERT | LCK$M_QUECVT, NULL) == SS$_BADPARAM);
    give_all_up();
    CHECK(waits.lksb$w_status == SS$_ABORT && deq(&held) == SS$_IVLOCKID);
    for (int made = 0; made < MANY; made++)
        CHECK(enqw(LCK$K_NLMODE, &other, 0, &name_a) == SS$_NORMAL);
    CHECK(enqw(LCK$K_NLMODE, &other, 0, &name_a) == SS$_EXENQLM);
    give_all_up();
}

/* Grants, their flags and their ASTs. */

static atomic_uint completions, blockings, order;
static atomic_ulong parameter;
static pthread_t completed_in;

static void complete(VMS$PARAMETER given) {
    parameter = given;
    completed_in = pthread_self();
    completions++;
    order = order * 10 + 1;
}

static void block(VMS$PARAMETER given) {
    parameter = given;
    blockings++;
    order = order * 10 + 2;
}

static int start(int mode, LKSB *lksb, int flags, VMS$PARAMETER given) {
    return sys$enq(5, (unsigned int)mode, lksb, (unsigned int)flags, (void *)&name_a, 0, (VMS$AST)complete, given,
                   (VMS$AST)block, 0, 0);
}

static void forget(void) { completions = blockings = order = 0; }

static void test_grants(void) {
    LKSB first, second;
    forget();
    sys$clref(5);
    CHECK(start(LCK$K_PRMODE, &first, LCK$M_SYNCSTS, 7) == SS$_SYNCH && first.lksb$w_status == SS$_NORMAL);
    CHECK(sys$clref(5) == SS$_WASCLR && completions == 0 && deq(&first) == SS$_NORMAL);
    CHECK(start(LCK$K_PRMODE, &first, 0, 7) == SS$_NORMAL && first.lksb$w_status == SS$_NORMAL);
    CHECK(sys$clref(5) == SS$_WASSET && completions == 1 && parameter == 7);
    CHECK(pthread_equal(completed_in, pthread_self()));
    CHECK(start(LCK$K_EXMODE, &second, LCK$M_SYNCSTS, 8) == SS$_NORMAL && second.lksb$w_status == 0);
    CHECK(sys$clref(5) == SS$_WASCLR);
    while (blockings == 0)
        usleep(THOUSAND); /* a thread of the layer runs the routine */
    CHECK(completions == 1 && parameter == 7 && deq(&first) == SS$_NORMAL);
    CHECK(sys$synch(5, &second) == SS$_NORMAL && second.lksb$w_status == SS$_NORMAL && sys$clref(5) == SS$_WASSET);
    while (completions == 1)
        usleep(THOUSAND);
    CHECK(parameter == 8 && blockings == 1 && order == 121 && deq(&second) == SS$_NORMAL);
}

/* With ASTs off they wait, in order, until they are on; so they do while a routine runs. */
static void test_setast(void) {
    LKSB first, second;
    forget();
    CHECK(sys$setast(0) == SS$_WASSET && sys$setast(0) == SS$_WASCLR);
    CHECK(start(LCK$K_EXMODE, &first, 0, 1) == SS$_NORMAL && first.lksb$w_status == SS$_NORMAL);
    CHECK(start(LCK$K_EXMODE, &second, 0, 2) == SS$_NORMAL && second.lksb$w_status == 0);
    usleep(30 * THOUSAND);
    CHECK(order == 0 && sys$dclast((VMS$AST)complete, 9, 0) == SS$_NORMAL && order == 0);
    CHECK(sys$setast(1) == SS$_WASCLR && order == 121 && parameter == 9);
    CHECK(sys$deq(second.lksb$l_lkid, 0, 0, LCK$M_CANCEL) == SS$_NORMAL && second.lksb$w_status == SS$_ABORT);
    CHECK(deq(&first) == SS$_NORMAL && completions == 3);
    /* A pending warning goes with its lock. */
    sys$setast(0);
    forget();
    CHECK(start(LCK$K_EXMODE, &first, LCK$M_SYNCSTS, 1) == SS$_SYNCH);
    CHECK(start(LCK$K_EXMODE, &second, LCK$M_SYNCSTS, 2) == SS$_NORMAL);
    usleep(30 * THOUSAND);
    CHECK(deq(&first) == SS$_NORMAL && sys$synch(5, &second) == SS$_NORMAL && deq(&second) == SS$_NORMAL);
    CHECK(order == 0 && sys$setast(1) == SS$_WASCLR && order == 1);
}

/* A warning that is pending while its lock is not given up is kept. */
static void test_kept_warning(void) {
    LKSB first, second, below;
    forget();
    sys$setast(0);
    CHECK(start(LCK$K_EXMODE, &first, LCK$M_SYNCSTS, 1) == SS$_SYNCH);
    CHECK(sys$enqw(1, 0, &below, 0, (void *)&name_b, first.lksb$l_lkid, 0, 0, 0, 0, 0) == SS$_NORMAL);
    CHECK(start(LCK$K_EXMODE, &second, LCK$M_SYNCSTS, 2) == SS$_NORMAL);
    usleep(30 * THOUSAND);
    CHECK(deq(&first) == SS$_SUBLOCKS && order == 0 && sys$setast(1) == SS$_WASCLR && order == 2);
    give_all_up();
    CHECK(second.lksb$w_status == SS$_ABORT && order == 21);
    forget();
}

static LKSB inner;

/* A routine may wait for a lock, and no other routine runs meanwhile. */
static void ask_in_routine(VMS$PARAMETER given) {
    unsigned int before = completions;
    CHECK(sys$dclast((VMS$AST)complete, 4, 0) == SS$_NORMAL && sys$setast(1) == SS$_WASSET);
    CHECK(enqw(LCK$K_EXMODE, &inner, 0, &name_b) == SS$_NORMAL && inner.lksb$w_status == SS$_NORMAL);
    CHECK(completions == before);
    if (given == 1)
        sys$wake(0, 0);
}

static void test_hiber(void) {
    unsigned int self = (unsigned int)getpid();
    forget();
    CHECK(sys$dclast((VMS$AST)ask_in_routine, 1, 0) == SS$_NORMAL && sys$hiber() == SS$_NORMAL);
    CHECK(completions == 1 && deq(&inner) == SS$_NORMAL);
    CHECK(sys$wake(&self, 0) == SS$_NORMAL && sys$hiber() == SS$_NORMAL);
    forget();
}

/* Value blocks. */

static void test_values(void) {
    LKSBX one, other;
    memset(&one, 1, sizeof one);
    memset(&other, 0, sizeof other);
    int wide = LCK$M_VALBLK | LCK$M_XVALBLK;
    CHECK(enqw(LCK$K_EXMODE, (LKSB *)&one, wide, &name_a) == SS$_NORMAL && one.lksb$b_valblk[63] == 0);
    memset(one.lksb$b_valblk, 7, sizeof one.lksb$b_valblk);
    CHECK(enqw(LCK$K_CRMODE, (LKSB *)&one, LCK$M_CONVERT | wide, NULL) == SS$_NORMAL);
    CHECK(enqw(LCK$K_PWMODE, (LKSB *)&other, wide, &name_a) == SS$_NORMAL && other.lksb$w_status == SS$_NORMAL);
    CHECK(other.lksb$b_valblk[0] == 7 && other.lksb$b_valblk[63] == 7);
    memset(other.lksb$b_valblk, 8, sizeof other.lksb$b_valblk);
    CHECK(sys$deq(other.lksb$l_lkid, other.lksb$b_valblk, 0, 0) == SS$_NORMAL);
    CHECK(enqw(LCK$K_PWMODE, (LKSB *)&other, wide, &name_a) == SS$_NORMAL);
    CHECK(other.lksb$w_status == SS$_XVALNOTVALID && other.lksb$b_valblk[15] == 8 && other.lksb$b_valblk[16] == 7);
    memset(other.lksb$b_valblk, 9, sizeof other.lksb$b_valblk);
    CHECK(sys$deq(other.lksb$l_lkid, other.lksb$b_valblk, 0, LCK$M_XVALBLK) == SS$_NORMAL);
    CHECK(enqw(LCK$K_PWMODE, (LKSB *)&other, wide, &name_a) == SS$_NORMAL && other.lksb$b_valblk[63] == 9);
    CHECK(sys$deq(other.lksb$l_lkid, NULL, 0, LCK$M_INVVALBLK) == SS$_NORMAL);
    CHECK(enqw(LCK$K_PRMODE, (LKSB *)&other, LCK$M_VALBLK, &name_a) == SS$_NORMAL);
    CHECK(other.lksb$w_status == SS$_VALNOTVALID && $VMS_STATUS_SUCCESS(other.lksb$w_status) == 0);
    give_all_up();
}

/* Dequeues. Requests that they end have their status when they return. */
static void test_dequeues(void) {
    LKSB top, first, second, third;
    CHECK(enqw(LCK$K_CRMODE, &top, 0, &name_a) == SS$_NORMAL);
    unsigned int parent = top.lksb$l_lkid;
    CHECK(sys$enqw(1, LCK$K_PRMODE, &first, 0, (void *)&name_a, parent, 0, 0, 0, 0, 0) == SS$_NORMAL);
    CHECK(sys$enqw(1, LCK$K_PRMODE, &second, 0, (void *)&name_a, parent, 0, 0, 0, 0, 0) == SS$_NORMAL);
    CHECK(sys$enq(1, LCK$K_EXMODE, &third, 0, (void *)&name_a, parent, 0, 0, 0, 0, 0) == SS$_NORMAL);
    CHECK(enq(LCK$K_EXMODE, &first, LCK$M_CONVERT, NULL) == SS$_NORMAL && first.lksb$w_status == 0);
    CHECK(sys$deq(first.lksb$l_lkid, 0, 0, LCK$M_CANCEL) == SS$_NORMAL && first.lksb$w_status == SS$_CANCEL);
    CHECK(enq(LCK$K_EXMODE, &first, LCK$M_CONVERT, NULL) == SS$_NORMAL && first.lksb$w_status == 0);
    CHECK(sys$deq(parent, 0, 0, LCK$M_DEQALL) == SS$_NORMAL);
    CHECK(first.lksb$w_status == SS$_ABORT && third.lksb$w_status == SS$_ABORT);
    CHECK(deq(&first) == SS$_IVLOCKID && deq(&second) == SS$_IVLOCKID && deq(&top) == SS$_NORMAL);
}

/* Readings. */

/* The pid of this process as the service sees it: that of the carrier of its connections, if there is one. */
static unsigned int own_pid(void) {
    const char *carrier = getenv("CARRIER");
    return carrier != NULL ? (unsigned int)atoi(carrier) : (unsigned int)getpid();
}

static int64_t read_number(unsigned int lkid, unsigned short code) {
    unsigned int number = 0xabcdef01, length = 0;
    const ILE3 items[] = {{sizeof number, code, &number, &length}, {0, 0, NULL, NULL}};
    if (sys$getlkiw(2, &lkid, (void *)items, NULL, 0, 0, 0) != SS$_NORMAL || length != sizeof number)
        return -1;
    return number;
}

/* How many entries a list has, and in *first the lock of the first one. */
static unsigned int read_list(unsigned int lkid, unsigned short code, unsigned int room, LKIDEF *locks) {
    unsigned int length = 0;
    const ILE3 items[] = {{(unsigned short)(room * sizeof *locks), code, locks, &length}, {0, 0, NULL, NULL}};
    CHECK(sys$getlkiw(2, &lkid, (void *)items, NULL, 0, 0, 0) == SS$_NORMAL);
    CHECK((length >> 16 & 0x7fff) == LKI$K_LENGTH);
    return (length & 0x80000000) != 0 ? 1000 + (length & 0xffff) / LKI$K_LENGTH : (length & 0xffff) / LKI$K_LENGTH;
}

static void test_items(void) {
    LKSB held = {.lksb$b_valblk = "value"}, waits, below;
    CHECK(enqw(LCK$K_EXMODE, &held, 0, &name_a) == SS$_NORMAL);
    CHECK(enqw(LCK$K_EXMODE, &held, LCK$M_CONVERT | LCK$M_VALBLK, NULL) == SS$_NORMAL);
    CHECK(enq(LCK$K_PRMODE, &waits, 0, &name_a) == SS$_NORMAL);
    CHECK(sys$enqw(1, LCK$K_NLMODE, &below, 0, (void *)&name_b, held.lksb$l_lkid, 0, 0, 0, 0, 0) == SS$_NORMAL);
    unsigned int lkid = held.lksb$l_lkid, other = waits.lksb$l_lkid;
    LKIDEF locks[3];
    CHECK(read_number(lkid, LKI$_PID) == own_pid() && read_number(lkid, LKI$_PARENT) == 0);
    CHECK(read_number(below.lksb$l_lkid, LKI$_PARENT) == lkid && read_number(lkid, LKI$_LKID) == lkid);
    CHECK(read_number(lkid, LKI$_LOCKID) == lkid && read_number(lkid, LKI$_REMLKID) == lkid);
    CHECK(read_number(lkid, LKI$_MSTLKID) == lkid && read_number(lkid, LKI$_CSID) == 0);
    CHECK(read_number(lkid, LKI$_GRANTCOUNT) == 1 && read_number(lkid, LKI$_WAITCOUNT) == 1);
    CHECK(read_number(lkid, LKI$_CVTCOUNT) == 0 && read_number(lkid, LKI$_LCKREFCNT) == 1);
    CHECK(read_number(lkid, LKI$_RSBREFCNT) == 1 && read_number(below.lksb$l_lkid, LKI$_RSBREFCNT) == 0);
    CHECK(read_number(lkid, LKI$_NAMSPACE) == (PSL$C_USER << 16 | 1) && read_number(lkid, LKI$_MSTCSID) == 0);
    CHECK(read_number(lkid, 99) == -1 && read_number(12345, LKI$_PID) == -1);
    CHECK(read_list(lkid, LKI$_LOCKS, 3, locks) == 2 && locks[0].lki$l_lkid == lkid);
    CHECK(locks[0].lki$b_grmode == LCK$K_EXMODE && locks[0].lki$b_queue == LKI$C_GRANTED);
    CHECK(locks[1].lki$l_lkid == other && locks[1].lki$b_rqmode == LCK$K_PRMODE);
    CHECK(locks[1].lki$b_queue == LKI$C_WAITING && locks[1].lki$l_pid == own_pid());
    CHECK(read_list(lkid, LKI$_LOCKS, 1, locks) == 1001 && read_list(lkid, LKI$_BLOCKEDBY, 3, locks) == 0);
    CHECK(read_list(other, LKI$_BLOCKEDBY, 3, locks) == 1 && locks[0].lki$l_lkid == lkid);
    CHECK(read_list(lkid, LKI$_BLOCKING, 3, locks) == 1 && locks[0].lki$l_lkid == other);
    CHECK(read_list(other, LKI$_BLOCKING, 3, locks) == 0);
    give_all_up();
}

static void test_texts(void) {
    LKSB held = {.lksb$b_valblk = "value"};
    char name[32] = "", value[16] = "", wide[64] = "", system[16] = "", host[16] = "", cut[2] = "";
    unsigned int lengths[5], lkid;
    LKISTATE state;
    IOSB iosb;
    CHECK(enqw(LCK$K_EXMODE, &held, LCK$M_SYSTEM, &name_b) == SS$_NORMAL || geteuid() != 0);
    CHECK(enqw(LCK$K_EXMODE, &held, 0, &name_a) == SS$_NORMAL);
    snprintf((char *)held.lksb$b_valblk, 16, "value");
    CHECK(enqw(LCK$K_PWMODE, &held, LCK$M_CONVERT | LCK$M_VALBLK, NULL) == SS$_NORMAL);
    lkid = held.lksb$l_lkid;
    const ILE3 items[] = {{31, LKI$_RESNAM, name, &lengths[0]},
                          {16, LKI$_VALBLK, value, &lengths[1]},
                          {64, LKI$_XVALBLK, wide, &lengths[2]},
                          {3, LKI$_STATE, &state, &lengths[3]},
                          {15, LKI$_SYSTEM, system, NULL},
                          {2, LKI$_VALBLK, cut, &lengths[4]},
                          {0, 0, NULL, NULL}};
    sys$clref(2);
    forget();
    CHECK(sys$getlki(2, &lkid, (void *)items, &iosb, (VMS$AST)complete, 6, 0) == SS$_NORMAL);
    CHECK(iosb.iosb$w_status == SS$_NORMAL && sys$clref(2) == SS$_WASSET && completions == 1 && parameter == 6);
    CHECK(strcmp(name, "A") == 0 && lengths[0] == 1 && strcmp(value, "value") == 0 && lengths[1] == 16);
    CHECK(strcmp(wide, "value") == 0 && lengths[2] == 64 && lengths[3] == 3);
    CHECK(lengths[4] == (0x80000000 | 2) && memcmp(cut, "va", 2) == 0);
    CHECK(state.lki$b_state_grmode == LCK$K_PWMODE && state.lki$b_state_rqmode == LCK$K_PWMODE);
    gethostname(host, sizeof host - 1);
    CHECK(strcmp(system, host) == 0);
    CHECK(sys$getlki(2, NULL, (void *)items, &iosb, 0, 0, 0) == SS$_ACCVIO);
    CHECK(sys$getlki(70, &lkid, (void *)items, &iosb, 0, 0, 0) == SS$_UNASEFC);
    give_all_up();
}

/* A walk reads each lock once, also if locks go meanwhile; two walks do not disturb each other. */
static void test_walks(void) {
    LKSB locks[3];
    unsigned int first = 0, second = UINT32_MAX, found, length;
    const ILE3 items[] = {{4, LKI$_LOCKID, &found, &length}, {0, 0, NULL, NULL}};
    CHECK(sys$getlkiw(2, &first, (void *)items, NULL, 0, 0, 0) == SS$_NOMORELOCK);
    for (int at = 0; at < 3; at++)
        CHECK(enqw(LCK$K_NLMODE, &locks[at], 0, at < 2 ? &name_a : &name_b) == SS$_NORMAL);
    first = 0;
    for (int at = 0; at < 3; at++) {
        CHECK(sys$getlkiw(2, &first, (void *)items, NULL, 0, 0, 0) == SS$_NORMAL);
        CHECK(first == locks[at].lksb$l_lkid && found == first);
        CHECK(at == 2 || sys$getlkiw(2, &second, (void *)items, NULL, 0, 0, 0) == SS$_NORMAL);
    }
    CHECK(second == locks[1].lksb$l_lkid && deq(&locks[2]) == SS$_NORMAL);
    CHECK(sys$getlkiw(2, &first, (void *)items, NULL, 0, 0, 0) == SS$_NOMORELOCK);
    CHECK(sys$getlkiw(2, &second, (void *)items, NULL, 0, 0, 0) == SS$_NOMORELOCK);
    give_all_up();
}

/* Deadlocks, threads, ends. */

static void test_deadlock(void) {
    LKSB held, waits;
    int64_t began = milliseconds();
    CHECK(enqw(LCK$K_PRMODE, &held, 0, &name_a) == SS$_NORMAL);
    CHECK(enqw(LCK$K_EXMODE, &waits, 0, &name_a) == SS$_NORMAL && waits.lksb$w_status == SS$_DEADLOCK);
    CHECK(milliseconds() - began >= WAIT && deq(&waits) == SS$_IVLOCKID);
    CHECK(enqw(LCK$K_PRMODE, &waits, 0, &name_a) == SS$_NORMAL);
    CHECK(enqw(LCK$K_EXMODE, &waits, LCK$M_CONVERT, NULL) == SS$_NORMAL && waits.lksb$w_status == SS$_DEADLOCK);
    CHECK(deq(&waits) == SS$_NORMAL && deq(&held) == SS$_NORMAL);
}

static int counted, held_now;

/* A wait for another thread is a wait for this process, so a long one ends as a deadlock. */
static void *count_up(void *unused) {
    LKSB lksb;
    (void)unused;
    for (int round = 0; round < ROUNDS; round++) {
        do
            CHECK(enqw(LCK$K_EXMODE, &lksb, 0, &name_a) == SS$_NORMAL);
        while (lksb.lksb$w_status == SS$_DEADLOCK);
        CHECK(lksb.lksb$w_status == SS$_NORMAL && held_now++ == 0);
        counted++;
        held_now--;
        CHECK(deq(&lksb) == SS$_NORMAL);
    }
    return NULL;
}

static void test_threads(void) {
    pthread_t threads[THREADS];
    for (int at = 0; at < THREADS; at++)
        CHECK(pthread_create(&threads[at], NULL, count_up, NULL) == 0);
    for (int at = 0; at < THREADS; at++)
        pthread_join(threads[at], NULL);
    CHECK(counted == THREADS * ROUNDS);
}

static LKSB converts;
static atomic_bool is_over, has_ended;

static void *convert_again(void *unused) {
    (void)unused;
    while (!is_over)
        CHECK(enqw(LCK$K_EXMODE, &converts, LCK$M_CONVERT, NULL) == SS$_NORMAL && converts.lksb$w_status == SS$_CANCEL);
    has_ended = true;
    return NULL;
}

/* A lock whose conversion is cancelled converts again at once. A cancel waits for the end of the one that it meets. */
static void test_cancels(void) {
    LKSB held;
    pthread_t thread;
    CHECK(enqw(LCK$K_PRMODE, &held, 0, &name_a) == SS$_NORMAL && enqw(LCK$K_NLMODE, &converts, 0, &name_a) & 1);
    unsigned int lkid = converts.lksb$l_lkid;
    CHECK(pthread_create(&thread, NULL, convert_again, NULL) == 0);
    for (int cancels = 0; cancels < CANCELS; cancels++) {
        int status = sys$deq(lkid, 0, 0, LCK$M_CANCEL);
        CHECK(status == SS$_NORMAL || status == SS$_CANCELGRANT);
    }
    is_over = true;
    while (!has_ended)
        sys$deq(lkid, 0, 0, LCK$M_CANCEL);
    CHECK(pthread_join(thread, NULL) == 0);
    give_all_up();
}

/* What getpid answers, if it is not 0. */
static pid_t shown;

pid_t getpid(void) { return shown != 0 ? shown : (pid_t)syscall(SYS_getpid); }

static void refuse_child(void) {
    int status;
    pid_t child = fork();
    if (child == 0) {
        LKSB lksb;
        const ILE3 items[] = {{0, 0, NULL, NULL}};
        alarm(5);
        CHECK(enqw(LCK$K_EXMODE, &lksb, 0, &name_a) == SS$_UNSUPPORTED && deq(&lksb) == SS$_UNSUPPORTED);
        CHECK(sys$getlkiw(2, &lksb.lksb$l_lkid, (void *)items, NULL, 0, 0, 0) == SS$_UNSUPPORTED);
        _exit(0);
    }
    CHECK(waitpid(child, &status, 0) == child && WIFEXITED(status) && WEXITSTATUS(status) == 0);
}

/* A child is refused, also one with the pid of its parent: the first process of a PID namespace may have such a child.
 */
static void test_fork(void) {
    refuse_child();
    shown = getpid();
    refuse_child();
    shown = 0;
}

static void *ask(void *unused) {
    LKSB lksb;
    enqw(LCK$K_EXMODE, &lksb, 0, &name_a);
    return unused;
}

/* A child is refused also if a thread of its parent is connecting to a lock service that does not answer. */
static void test_opening(void) {
    pthread_t thread;
    CHECK(pthread_create(&thread, NULL, ask, NULL) == 0);
    usleep(200 * THOUSAND);
    test_fork();
    _exit(EXIT_SUCCESS);
}

/* The lock service ends: what waits learns so, and so does each later call. */
static void test_lost(pid_t service) {
    LKSB held, waits;
    unsigned int lkid;
    const ILE3 items[] = {{0, 0, NULL, NULL}};
    forget();
    CHECK(start(LCK$K_EXMODE, &held, 0, 1) == SS$_NORMAL && start(LCK$K_EXMODE, &waits, 0, 2) == SS$_NORMAL);
    while (blockings == 0)
        usleep(THOUSAND);
    kill(service, SIGKILL);
    CHECK(sys$synch(5, &waits) == SS$_NORMAL && waits.lksb$w_status == SS$_NODELEAVE);
    /* (and the holder of a lock by its blocking AST) */
    while (blockings == 1)
        usleep(THOUSAND);
    CHECK(enqw(LCK$K_EXMODE, &waits, 0, &name_b) == SS$_NODELEAVE && deq(&held) == SS$_NODELEAVE);
    lkid = held.lksb$l_lkid;
    CHECK(sys$getlkiw(2, &lkid, (void *)items, NULL, 0, 0, 0) == SS$_NODELEAVE);
    while (completions < 2)
        usleep(THOUSAND);
}

/* A child and its parent have each their own process of the lock manager. */
static void test_forked(void) {
    LKSB lksb;
    int ends[2], status;
    char byte;
    CHECK(pipe(ends) == 0);
    pid_t child = fork();
    if (child == 0) {
        CHECK(enqw(LCK$K_EXMODE, &lksb, 0, &name_a) == SS$_NORMAL && write(ends[1], "x", 1) == 1);
        usleep(100 * THOUSAND);
        _exit(0);
    }
    CHECK(read(ends[0], &byte, 1) == 1 && enq(LCK$K_EXMODE, &lksb, LCK$M_NOQUEUE, &name_a) == SS$_NOTQUEUED);
    CHECK(enqw(LCK$K_EXMODE, &lksb, LCK$M_VALBLK, &name_a) == SS$_NORMAL && lksb.lksb$w_status == SS$_VALNOTVALID);
    CHECK(waitpid(child, &status, 0) == child && status == 0);
}

/* A child has no thread of the layer, which its parent has started for the AST. */
static void test_declared(void) {
    CHECK(sys$dclast((VMS$AST)complete, 1, 0) == SS$_NORMAL);
    test_fork();
}

/* The deadlock wait has a point. */
static void test_locale(void) {
    LKSB held, waits;
    CHECK(setlocale(LC_NUMERIC, "") != NULL && strcmp(localeconv()->decimal_point, ",") == 0);
    CHECK(enqw(LCK$K_EXMODE, &held, 0, &name_a) == SS$_NORMAL);
    CHECK(enqw(LCK$K_EXMODE, &waits, 0, &name_a) == SS$_NORMAL && waits.lksb$w_status == SS$_DEADLOCK);
    CHECK(deq(&held) == SS$_NORMAL);
}

/* No thread of the layer delivers. */
static void test_waits(void) {
    LKSB first, second;
    forget();
    CHECK(start(LCK$K_EXMODE, &first, LCK$M_SYNCSTS, 1) == SS$_SYNCH);
    CHECK(start(LCK$K_EXMODE, &second, 0, 2) == SS$_NORMAL);
    /* (the end of a call is a moment for ASTs too) */
    unsigned delivered = blockings;
    usleep(100 * THOUSAND);
    CHECK(blockings == delivered);
    for (int tries = 0; tries < 500 && blockings == 0; tries++) {
        usleep(10 * THOUSAND);
        CHECK(sys$clref(9) == SS$_WASCLR);
    }
    CHECK(blockings == 1);
    give_all_up();
}

static void *wait_for_a(void *lksb) {
    enqw(LCK$K_EXMODE, lksb, 0, &name_a);
    pause();
    return NULL;
}

/* A thread that is cancelled in a service leaves nothing locked. */
static void test_cancelled(void) {
    LKSB held, waits = {.lksb$l_lkid = 0};
    pthread_t thread;
    CHECK(enqw(LCK$K_EXMODE, &held, 0, &name_a) == SS$_NORMAL);
    CHECK(pthread_create(&thread, NULL, wait_for_a, &waits) == 0);
    usleep(30 * THOUSAND);
    CHECK(pthread_cancel(thread) == 0 && deq(&held) == SS$_NORMAL && pthread_join(thread, NULL) == 0);
    CHECK(waits.lksb$w_status == SS$_NORMAL && deq(&waits) == SS$_NORMAL);
}

static void complete_slowly(VMS$PARAMETER given) {
    blockings++;
    usleep(100 * THOUSAND);
    complete(given);
}

static void *declare_slow_ast(void *unused) {
    (void)unused;
    sys$dclast((VMS$AST)complete_slowly, 1, 0);
    pause();
    return NULL;
}

/* So does one that is cancelled while its service runs a routine: that comes to its end. */
static void test_cancelled_in_routine(void) {
    pthread_t thread;
    forget();
    CHECK(pthread_create(&thread, NULL, declare_slow_ast, NULL) == 0);
    while (blockings == 0)
        usleep(THOUSAND);
    CHECK(pthread_cancel(thread) == 0 && pthread_join(thread, NULL) == 0 && completions == 1);
    CHECK(sys$dclast((VMS$AST)complete, 1, 0) == SS$_NORMAL);
    while (completions == 1)
        usleep(THOUSAND);
}

/* The allocation of this thread that is refused, counted down, or none. */
static _Thread_local int refused = -1;

void *__real_calloc(size_t count, size_t size);
void *__real_realloc(void *given, size_t size);
void *__wrap_calloc(size_t count, size_t size);
void *__wrap_realloc(void *given, size_t size);

static bool is_refused(void) { return refused >= 0 && refused-- == 0; }

void *__wrap_calloc(size_t count, size_t size) { return is_refused() ? NULL : __real_calloc(count, size); }

void *__wrap_realloc(void *given, size_t size) { return is_refused() ? NULL : __real_realloc(given, size); }

static int ask_all(unsigned int *lkid) {
    LKSB lksb;
    unsigned int length;
    LKIDEF locks[2];
    const ILE3 items[] = {{sizeof locks, LKI$_LOCKS, locks, &length}, {0, 0, NULL, NULL}};
    int status = start(LCK$K_EXMODE, &lksb, 0, 1);
    if ((status & 1) == 0)
        return status;
    status = sys$dclast((VMS$AST)complete, 1, 0);
    if ((status & 1) != 0)
        status = enqw(LCK$K_PRMODE, &lksb, LCK$M_CONVERT, NULL);
    *lkid = 0;
    if ((status & 1) != 0)
        status = sys$getlkiw(2, lkid, (void *)items, NULL, (VMS$AST)complete, 1, 0);
    CHECK(deq(&lksb) == SS$_NORMAL);
    return status;
}

/* Each is answered by SS$_INSFMEM, and the next try goes well. */
static void test_memory(void) {
    unsigned int lkid, tries = 0;
    int status;
    CHECK(ask_all(&lkid) == SS$_NORMAL);
    do {
        refused = (int)tries++;
        status = ask_all(&lkid);
        refused = -1;
        CHECK(status == SS$_NORMAL || status == SS$_INSFMEM);
    } while (status != SS$_NORMAL);
    CHECK(tries > 6 && ask_all(&lkid) == SS$_NORMAL);
}

static void run_all(void) {
    test_flags();
    test_arguments();
    test_refusals();
    test_grants();
    test_setast();
    test_kept_warning();
    test_hiber();
    test_values();
    test_dequeues();
    test_items();
    test_texts();
    test_walks();
    test_deadlock();
    test_threads();
    test_cancels();
    test_cancelled();
    test_cancelled_in_routine();
    test_fork();
}

int main(int count, char **words) {
    static const struct {
        const char *word;
        void (*run)(void);
    } tests[] = {{"forked", test_forked}, {"declared", test_declared}, {"locale", test_locale}, {"waits", test_waits},
                 {"memory", test_memory}, {"opening", test_opening},   {"all", run_all}};
    LKSB lksb;
    const char *word = count == 1 ? "all" : words[1];
    for (size_t at = 0; at < sizeof tests / sizeof *tests; at++)
        if (strcmp(word, tests[at].word) == 0) {
            tests[at].run();
            return EXIT_SUCCESS;
        }
    if (strcmp(word, "lost") == 0) {
        test_lost((pid_t)atoi(words[2]));
    } else {
        CHECK(enqw(LCK$K_EXMODE, &lksb, 0, &name_a)
              == (strcmp(word, "unreachable") == 0 ? SS$_UNREACHABLE : SS$_UNSUPPORTED));
        test_fork();
    }
    return EXIT_SUCCESS;
}
