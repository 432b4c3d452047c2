/* Transfers between accounts under locks of three levels: the bank, its table and the accounts. A transfer asks for CW
 * on the first two, reads two accounts under PR and raises both locks to EX. Transfers that raise the same locks wait
 * for each other: one of them gets SS$_DEADLOCK, gives its locks up and begins again after a while. An audit asks for
 * PR on the table, which no transfer shares.
 *
 *     accounts FILE TRANSFERS    makes so many transfers
 *     accounts FILE              audits: prints the sum of all accounts */
#include <stdio.h>
#include <stdlib.h>
#include <unistd.h>

#include <descrip.h>
#include <lckdef.h>
#include <lib$routines.h>
#include <lksbdef.h>
#include <ssdef.h>
#include <starlet.h>

enum { ACCOUNTS = 10, FIRST_BALANCE = 100, MOST_MICROSECONDS = 20000 };

static LKSB bank;
static FILE *file;

static void check(int status) {
    if (!(status & 1))
        lib$stop(status);
}

/* Asks for a lock, or raises one: 1 if it is granted, and 0 if the request ended to break a deadlock. */
static int lock(LKSB *lksb, int mode, int flags, struct dsc$descriptor_s *name, unsigned int parent) {
    check(sys$enqw(0, mode, lksb, flags, name, parent, 0, 0, 0, 0, 0));
    if (lksb->lksb$w_status != SS$_DEADLOCK)
        check(lksb->lksb$w_status);
    return lksb->lksb$w_status != SS$_DEADLOCK;
}

/* How many accounts the file has. */
static size_t read_accounts(int *balances) {
    rewind(file);
    return fread(balances, sizeof *balances, ACCOUNTS, file);
}

static int read_account(int account) {
    int balances[ACCOUNTS];
    read_accounts(balances);
    return balances[account];
}

static void write_account(int account, int balance) {
    fseek(file, account * (long)sizeof balance, SEEK_SET);
    fwrite(&balance, sizeof balance, 1, file);
}

static int lock_account(LKSB *lksb, int account, unsigned int table) {
    char text[] = "ACCOUNT_0";
    text[sizeof text - 2] = (char)('0' + account);
    $DESCRIPTOR(name, text);
    name.dsc$a_pointer = text;
    return lock(lksb, LCK$K_PRMODE, 0, &name, table);
}

/* Moves one from an account to another, under the lock of the table. Whether no deadlock was in the way. */
static int move(int from, int to, unsigned int table) {
    LKSB first, second;
    if (!lock_account(&first, from, table) || !lock_account(&second, to, table))
        return 0;
    int left = read_account(from), right = read_account(to);
    if (!lock(&first, LCK$K_EXMODE, LCK$M_CONVERT, NULL, 0) || !lock(&second, LCK$K_EXMODE, LCK$M_CONVERT, NULL, 0))
        return 0;
    write_account(from, left - 1);
    write_account(to, right + 1);
    return 1;
}

/* Makes a transfer. How many deadlocks there were before. */
static int transfer(int from, int to) {
    $DESCRIPTOR(name, "TABLE");
    int deadlocks = -1, is_done;
    do {
        LKSB table;
        is_done = lock(&table, LCK$K_CWMODE, 0, &name, bank.lksb$l_lkid) && move(from, to, table.lksb$l_lkid);
        check(sys$deq(bank.lksb$l_lkid, NULL, 0, LCK$M_DEQALL)); /* all below the bank */
        deadlocks++;
        if (!is_done)
            usleep((useconds_t)(random() % MOST_MICROSECONDS)); /* else the same ones meet again */
    } while (!is_done);
    return deadlocks;
}

/* The first process writes the accounts. */
static void make_accounts(void) {
    $DESCRIPTOR(name, "BANK_FILE");
    LKSB lksb;
    int balances[ACCOUNTS];
    lock(&lksb, LCK$K_EXMODE, 0, &name, 0);
    if (read_accounts(balances) < ACCOUNTS)
        for (int account = 0; account < ACCOUNTS; account++)
            write_account(account, FIRST_BALANCE);
    check(sys$deq(lksb.lksb$l_lkid, NULL, 0, 0));
}

static void audit(void) {
    $DESCRIPTOR(name, "TABLE");
    LKSB table;
    int balances[ACCOUNTS], sum = 0;
    lock(&table, LCK$K_PRMODE, 0, &name, bank.lksb$l_lkid);
    read_accounts(balances);
    for (int account = 0; account < ACCOUNTS; account++)
        sum += balances[account];
    check(sys$deq(table.lksb$l_lkid, NULL, 0, 0));
    printf("the sum is %d\n", sum);
}

int main(int count, char **words) {
    $DESCRIPTOR(name, "BANK");
    file = count > 1 ? fopen(words[1], "r+b") : NULL;
    if (file == NULL)
        return EXIT_FAILURE;
    setvbuf(file, NULL, _IONBF, 0);
    make_accounts();
    lock(&bank, count > 2 ? LCK$K_CWMODE : LCK$K_CRMODE, 0, &name, 0);
    int transfers = count > 2 ? atoi(words[2]) : 0, deadlocks = 0;
    srandom((unsigned int)getpid());
    for (int made = 0; made < transfers; made++) {
        int from = (int)(random() % ACCOUNTS);
        deadlocks += transfer(from, (int)(from + 1 + random() % (ACCOUNTS - 1)) % ACCOUNTS);
    }
    if (count == 2)
        audit();
    else
        printf("%d transfers\n", transfers);
    fprintf(stderr, "%d deadlocks\n", deadlocks);
    check(sys$deq(0, NULL, 0, LCK$M_DEQALL));
    return EXIT_SUCCESS;
}
