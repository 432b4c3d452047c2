/* A doorbell. The owner of the house holds its lock in EX. A caller asks for EX: the owner's blocking AST lets him in,
 * and asks for EX again. The caller leaves a message in the value block, and the owner's completion AST reads it.
 *
 *     doorbell            the owner, who prints each message, until one is "bye"
 *     doorbell MESSAGE    a caller */
#include <stdio.h>
#include <stdlib.h>
#include <string.h>

#include <descrip.h>
#include <lckdef.h>
#include <lib$routines.h>
#include <lksbdef.h>
#include <ssdef.h>
#include <starlet.h>

static LKSB lksb;
static int is_over;
static $DESCRIPTOR(name, "DOORBELL");

static void check(int status) {
    if (!(status & 1))
        lib$stop(status);
}

static void ring(void);

/* The completion AST: a caller has left. One who died has left no message. */
static void read_message(void) {
    if (lksb.lksb$w_status == SS$_VALNOTVALID)
        printf("somebody rang and went\n");
    else
        printf("message: %.16s\n", (char *)lksb.lksb$b_valblk);
    fflush(stdout);
    if (strncmp((char *)lksb.lksb$b_valblk, "bye", 3) != 0)
        return;
    is_over = 1;
    sys$wake(0, 0);
}

/* The blocking AST: somebody rings. */
static void ring(void) {
    check(sys$enqw(1, LCK$K_NLMODE, &lksb, LCK$M_CONVERT, 0, 0, 0, 0, 0, 0, 0));
    check(sys$enq(1, LCK$K_EXMODE, &lksb, LCK$M_CONVERT | LCK$M_VALBLK, 0, 0, read_message, 0, ring, 0, 0));
}

static void be_owner(void) {
    check(sys$enqw(1, LCK$K_EXMODE, &lksb, 0, &name, 0, 0, 0, ring, 0, 0));
    printf("at home\n");
    fflush(stdout);
    while (!is_over)
        sys$hiber();
    check(sys$deq(lksb.lksb$l_lkid, 0, 0, 0));
}

static void call(const char *message) {
    char text[16] = "";
    check(sys$enqw(1, LCK$K_EXMODE, &lksb, 0, &name, 0, 0, 0, 0, 0, 0));
    check(lksb.lksb$w_status);
    snprintf(text, sizeof text, "%s", message);
    check(sys$deq(lksb.lksb$l_lkid, text, 0, 0));
}

int main(int count, char **words) {
    if (count == 1)
        be_owner();
    else
        call(words[1]);
    return EXIT_SUCCESS;
}
