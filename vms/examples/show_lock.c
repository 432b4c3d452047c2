/* Lists all locks that the process may see, each with its resource, its process, and the locks that it waits for and
 * that wait for it. */
#include <stdio.h>
#include <stdlib.h>

#include <iledef.h>
#include <iosbdef.h>
#include <lib$routines.h>
#include <lkidef.h>
#include <ssdef.h>
#include <starlet.h>

enum { MOST = 16, NAME = 31 };

static const char *const modes[] = {"NL", "CR", "CW", "PR", "PW", "EX"};

static const char *queue_name(int queue) {
    return queue == LKI$C_GRANTED ? "granted" : queue == LKI$C_CONVERT ? "converting" : "waiting";
}

/* Prints the locks of a list. Its length in bytes is in the low word. */
static void print_list(const char *title, const LKIDEF *locks, unsigned int length) {
    for (unsigned int at = 0; at < (length & 0xffff) / LKI$K_LENGTH; at++)
        printf("    %s lock %u, process %u\n", title, locks[at].lki$l_lkid, locks[at].lki$l_pid);
}

int main(void) {
    unsigned int lkid = 0, pid, parent, space, name_length, blockers_length, blocked_length;
    char name[NAME];
    LKISTATE state;
    LKIDEF blockers[MOST], blocked[MOST];
    IOSB iosb;
    const ILE3 items[] = {{NAME, LKI$_RESNAM, name, &name_length},
                          {sizeof state, LKI$_STATE, &state, NULL},
                          {sizeof pid, LKI$_PID, &pid, NULL},
                          {sizeof parent, LKI$_PARENT, &parent, NULL},
                          {sizeof space, LKI$_NAMSPACE, &space, NULL},
                          {sizeof blockers, LKI$_BLOCKEDBY, blockers, &blockers_length},
                          {sizeof blocked, LKI$_BLOCKING, blocked, &blocked_length},
                          {0, 0, NULL, NULL}};
    int status;
    while ((status = sys$getlkiw(1, &lkid, (void *)items, &iosb, NULL, 0, 0)) & 1) {
        printf("lock %u on %.*s%s, process %u: %s", lkid, (int)(name_length & 0xffff), name,
               space & LKI$M_SYSNAM ? " (system)" : "", pid, queue_name(state.lki$b_state_queue));
        if (state.lki$b_state_queue != LKI$C_WAITING)
            printf(" %s", modes[state.lki$b_state_grmode]);
        if (state.lki$b_state_queue != LKI$C_GRANTED)
            printf(" for %s", modes[state.lki$b_state_rqmode]);
        printf(parent != 0 ? ", below lock %u\n" : "\n", parent);
        print_list("waits for", blockers, blockers_length);
        print_list("is in the way of", blocked, blocked_length);
    }
    if (status != SS$_NOMORELOCK)
        lib$stop(status);
    return EXIT_SUCCESS;
}
