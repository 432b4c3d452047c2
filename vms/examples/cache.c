/* A page that several processes keep in their memory. Each holds a lock on it: NL while its page may be old, PR while
 * its page is good. The value block has the page's version. A writer raises its lock to EX, and the others give way by
 * their blocking ASTs. A process whose version is the value block's need not read the page again.
 *
 *     cache FILE ROUNDS
 *
 * makes so many rounds, of which each fourth adds one to the number on the page, and says how often a page in memory
 * was not that of the file. */
#include <stdio.h>
#include <stdlib.h>

#include <descrip.h>
#include <lckdef.h>
#include <lib$routines.h>
#include <ssdef.h>
#include <starlet.h>

struct page {
    unsigned int version, number;
};

static struct {
    unsigned short status, reserved;
    unsigned int lkid;
    struct page page; /* the value block: the version and what is on the page */
    unsigned int unused[2];
} lksb;
static int mode = LCK$K_NLMODE;
static struct page page; /* in memory */
static int has_page, stale;
static FILE *file;

static void read_file(struct page *into) {
    rewind(file);
    if (fread(into, sizeof *into, 1, file) != 1)
        *into = (struct page){0, 0};
}

static void write_file(const struct page *from) {
    rewind(file);
    fwrite(from, sizeof *from, 1, file);
    fflush(file);
}

static void give_way(void);

/* Converts the lock. An invalid value block was left by a writer who died: the page of the file counts then. */
static void convert(int to) {
    int status =
        sys$enqw(0, to, &lksb, LCK$M_CONVERT | LCK$M_VALBLK, 0, 0, 0, 0, to == LCK$K_NLMODE ? 0 : give_way, 0, 0);
    if (!(status & 1))
        lib$stop(status);
    if (lksb.status == SS$_VALNOTVALID)
        has_page = 0;
    else if (!(lksb.status & 1))
        lib$stop(lksb.status);
    mode = to;
}

/* The blocking AST: another process wants the page. */
static void give_way(void) {
    if (mode != LCK$K_NLMODE)
        convert(LCK$K_NLMODE);
}

/* After a conversion that returned the value block. */
static void refresh(void) {
    if (!has_page || page.version != lksb.page.version)
        read_file(&page);
    has_page = 1;
}

static void look(void) {
    struct page there;
    sys$setast(0); /* no AST takes the page away while it is used */
    if (mode == LCK$K_NLMODE) {
        convert(LCK$K_PRMODE);
        refresh();
    }
    read_file(&there);
    stale += there.version != page.version || there.number != page.number;
    sys$setast(1);
}

static void change(void) {
    sys$setast(0);
    if (mode == LCK$K_PRMODE)
        convert(LCK$K_NLMODE); /* two that raise PR to EX would wait for each other */
    convert(LCK$K_EXMODE);
    refresh();
    page.version++;
    page.number++;
    write_file(&page);
    lksb.page = page;
    convert(LCK$K_PRMODE); /* writes the value block */
    sys$setast(1);
}

int main(int count, char **words) {
    $DESCRIPTOR(name, "CACHED_PAGE");
    int rounds = count == 3 ? atoi(words[2]) : 0;
    file = count == 3 ? fopen(words[1], "r+b") : NULL;
    if (file == NULL)
        return EXIT_FAILURE;
    setvbuf(file, NULL, _IONBF, 0);
    int status = sys$enqw(0, LCK$K_NLMODE, &lksb, 0, &name, 0, 0, 0, 0, 0, 0);
    if (!(status & 1))
        lib$stop(status);
    for (int round = 0; round < rounds; round++)
        if (round % 4 == 0)
            change();
        else
            look();
    status = sys$deq(lksb.lkid, 0, 0, 0);
    if (!(status & 1))
        lib$stop(status);
    printf("%d rounds, %d old pages\n", rounds, stale);
    return EXIT_SUCCESS;
}
