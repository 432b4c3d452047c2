/* One leader among several processes. Each asks for EX on the same resource, and the one that holds it leads. The value
 * block has the number of the term. A leader that dies leaves it invalid, and the next one learns so.
 *
 *     leader NAME
 *
 * prints when it leads, and resigns at the end of its input. */
#include <stdio.h>
#include <stdlib.h>

#include <descrip.h>
#include <lckdef.h>
#include <lib$routines.h>
#include <ssdef.h>
#include <starlet.h>

static struct {
    unsigned short status, reserved;
    unsigned int lkid, term, unused[3];
} lksb;
static const char *self;

static void check(int status) {
    if (!(status & 1))
        lib$stop(status);
}

/* The completion AST: this process leads. It writes the new term at once, by a conversion from EX to EX. */
static void lead(void) {
    if (lksb.status == SS$_ABORT)
        return; /* it has resigned before */
    int died = lksb.status == SS$_VALNOTVALID;
    if (!died)
        check(lksb.status);
    lksb.term++;
    check(sys$enqw(2, LCK$K_EXMODE, &lksb, LCK$M_CONVERT | LCK$M_VALBLK, 0, 0, 0, 0, 0, 0, 0));
    check(lksb.status);
    printf("%s leads, term %u%s\n", self, lksb.term, died ? ": the leader before died" : "");
    fflush(stdout);
}

int main(int count, char **words) {
    $DESCRIPTOR(name, "LEADER");
    if (count != 2)
        return EXIT_FAILURE;
    self = words[1];
    check(sys$enq(1, LCK$K_EXMODE, &lksb, LCK$M_VALBLK, &name, 0, lead, 0, 0, 0, 0));
    while (getchar() != EOF)
        continue;
    sys$setast(0); /* it does not begin to lead while it resigns */
    check(sys$deq(lksb.lkid, 0, 0, 0));
    printf("%s resigns\n", self);
    return EXIT_SUCCESS;
}
