/* Counts in the value block of a lock. */
#include <stdio.h>

#include <descrip.h>
#include <lckdef.h>
#include <lib$routines.h>
#include <ssdef.h>
#include <starlet.h>

static struct {
    unsigned short status, reserved;
    unsigned int lkid;
    int counter, unused[3]; /* the value block */
} lksb;

int main(void) {
    $DESCRIPTOR(name, "COUNTER");
    int status = sys$enqw(0, LCK$K_EXMODE, &lksb, LCK$M_VALBLK, &name, 0, 0, 0, 0, 0, 0);
    for (int round = 0; round < 3 && (status & 1); round++) {
        printf("%d, %d\n", lksb.status, lksb.counter++);
        /* From EX to EX the value block is written. */
        status = sys$enqw(0, LCK$K_EXMODE, &lksb, LCK$M_CONVERT | LCK$M_VALBLK, 0, 0, 0, 0, 0, 0, 0);
    }
    if (!(status & 1))
        lib$stop(status);
    return 0;
}
