/* A process of a script, whose lines it makes as calls of starlet.h: player NAME reads lines such as `enq P EX name=A
 * block=1`, and prints for each what `vlm play` prints. Its ASTs are delivered between lines, and `ast P` prints the
 * oldest. */
#include <descrip.h>
#include <lckdef.h>
#include <ssdef.h>
#include <starlet.h>

#include <stdbool.h>
#include <stdint.h>
#include <stdio.h>
#include <stdlib.h>
#include <string.h>
#include <time.h>

enum { BLOCKS = 256, WORDS = 24, LINE = 400, VALUE = 16, TAIL = 48, MOST_ASTS = 1000, PAUSE = 5000000, NAMES = 6 };

struct block {
    unsigned short status, reserved;
    unsigned int lkid;
    unsigned char value[VALUE + TAIL];
};

/* A request of the script: its routines are numbers there. */
struct asked {
    struct asked *next; /* of all */
    unsigned int mode, flags, parent, lock, block, ast, bast, param, lkid;
    bool has_ast, has_bast, has_value, has_tail;
    struct dsc$descriptor_s name;
    char bytes[LINE];
    unsigned char value[VALUE + TAIL];
};

static struct block blocks[BLOCKS];
static struct asked *all;
static char asts[MOST_ASTS][80];
static unsigned int ast_count, asts_told;
static const char *self;

static const struct {
    unsigned int condition, number;
    const char *name;
} conditions[] = {{SS$_NORMAL, 1, "NORMAL"},
                  {SS$_SYNCH, 2, "SYNCH"},
                  {SS$_NOTQUEUED, 3, "NOTQUEUED"},
                  {SS$_ABORT, 4, "ABORT"},
                  {SS$_CANCEL, 5, "CANCEL"},
                  {SS$_DEADLOCK, 6, "DEADLOCK"},
                  {SS$_VALNOTVALID, 7, "VALNOTVALID"},
                  {SS$_CANCELGRANT, 8, "CANCELGRANT"},
                  {SS$_SUBLOCKS, 9, "SUBLOCKS"},
                  {SS$_IVLOCKID, 10, "IVLOCKID"},
                  {SS$_CVTUNGRANT, 11, "CVTUNGRANT"},
                  {SS$_PARNOTGRANT, 12, "PARNOTGRANT"},
                  {SS$_EXDEPTH, 13, "EXDEPTH"},
                  {SS$_EXENQLM, 14, "EXENQLM"},
                  {SS$_IVBUFLEN, 17, "IVBUFLEN"},
                  {SS$_BADPARAM, 18, "BADPARAM"},
                  {SS$_UNSUPPORTED, 19, "UNSUPPORTED"},
                  {SS$_NOSYSLCK, 20, "NOSYSLCK"},
                  {SS$_XVALNOTVALID, 24, "WIDENOTVALID"}};

static size_t place_of(unsigned int condition) {
    size_t at = 0;
    while (at < sizeof conditions / sizeof *conditions && conditions[at].condition != condition)
        at++;
    if (at == sizeof conditions / sizeof *conditions) {
        fprintf(stderr, "an unknown condition %u\n", condition);
        exit(EXIT_FAILURE);
    }
    return at;
}

/* The words of lines. */

static unsigned int number_of(const char *text) { return (unsigned int)strtoul(text, NULL, 10); }

static const char *after(const char *word, const char *key) {
    return strncmp(word, key, strlen(key)) == 0 ? word + strlen(key) : NULL;
}

static unsigned int read_hex(const char *text, unsigned char *bytes) {
    unsigned int count = 0;
    for (char digits[3] = ""; strlen(text) >= 2; text += 2) {
        memcpy(digits, text, 2);
        bytes[count++] = (unsigned char)strtoul(digits, NULL, 16);
    }
    return count;
}

static unsigned int mode_of(const char *word) {
    static const char *const names[] = {"NL", "CR", "CW", "PR", "PW", "EX"};
    for (unsigned int mode = 0; mode < NAMES; mode++)
        if (strcmp(word, names[mode]) == 0)
            return mode;
    return NAMES;
}

/* A lock is named by its ID or by a status block. */
static unsigned int lock_of(const char *word) {
    return word[0] == '@' ? blocks[number_of(word + 1) % BLOCKS].lkid : number_of(word);
}

static unsigned int flag_of(const char *word) {
    static const struct {
        const char *name;
        unsigned int flag;
    } flags[] = {{"valblk", LCK$M_VALBLK},     {"noqueue", LCK$M_NOQUEUE},     {"syncsts", LCK$M_SYNCSTS},
                 {"system", LCK$M_SYSTEM},     {"expedite", LCK$M_EXPEDITE},   {"quecvt", LCK$M_QUECVT},
                 {"nodlckwt", LCK$M_NODLCKWT}, {"nodlckblk", LCK$M_NODLCKBLK}, {"wide", LCK$M_XVALBLK},
                 {"deqall", LCK$M_DEQALL},     {"cancel", LCK$M_CANCEL},       {"invvalblk", LCK$M_INVVALBLK}};
    for (size_t at = 0; at < sizeof flags / sizeof *flags; at++)
        if (strcmp(word, flags[at].name) == 0)
            return flags[at].flag;
    fprintf(stderr, "an unknown word %s\n", word);
    exit(EXIT_FAILURE);
}

static void read_name(struct asked *asked, const char *text) {
    const char *hex = after(text, "x:");
    asked->name.dsc$a_pointer = asked->bytes;
    snprintf(asked->bytes, sizeof asked->bytes, "%s", text);
    asked->name.dsc$w_length =
        (unsigned short)(hex != NULL ? read_hex(hex, (unsigned char *)asked->bytes) : strlen(text));
}

static void read_word(struct asked *asked, const char *word) {
    const char *rest;
    if ((rest = after(word, "name=")) != NULL)
        read_name(asked, rest);
    else if ((rest = after(word, "block=")) != NULL)
        asked->block = number_of(rest) % BLOCKS;
    else if ((rest = after(word, "parent=")) != NULL)
        asked->parent = lock_of(rest);
    else if ((rest = after(word, "param=")) != NULL)
        asked->param = number_of(rest);
    else if ((rest = after(word, "value=")) != NULL)
        asked->has_value = read_hex(rest, asked->value) != 0;
    else if ((rest = after(word, "tail=")) != NULL)
        asked->has_tail = read_hex(rest, asked->value + VALUE) != 0;
    else if ((rest = after(word, "ast=")) != NULL)
        asked->has_ast = (asked->ast = number_of(rest), true);
    else if ((rest = after(word, "bast=")) != NULL)
        asked->has_bast = (asked->bast = number_of(rest), true);
    else
        asked->flags |= flag_of(word);
}

/* ASTs. The parameter of both is the request. It lives as long as the program. */

static void note(const char *kind, unsigned int routine, const struct asked *asked) {
    snprintf(asts[ast_count++ % MOST_ASTS], sizeof *asts, "%s %u param %u lock %u", kind, routine, asked->param,
             asked->lkid);
}

static void complete(struct asked *asked) { note("completion", asked->ast, asked); }

static void block(struct asked *asked) { note("blocking", asked->bast, asked); }

/* The lines. ASTs are off. */

static struct asked *made(char **words, unsigned int from, unsigned int count) {
    struct asked *asked = calloc(1, sizeof *asked);
    if (asked == NULL)
        exit(EXIT_FAILURE);
    asked->next = all;
    all = asked;
    for (unsigned int at = from; at < count; at++)
        read_word(asked, words[at]);
    return asked;
}

/* `enq` and `cvt`. A refusal leaves the status block as it was. */
static void ask(struct asked *asked) {
    struct block *used = &blocks[asked->block];
    unsigned int before = used->lkid;
    if ((asked->flags & LCK$M_CONVERT) != 0)
        used->lkid = asked->lock;
    VMS$AST ast = asked->has_ast ? (VMS$AST)complete : NULL, bast = asked->has_bast ? (VMS$AST)block : NULL;
    unsigned int status = (unsigned int)sys$enq(asked->block % 64, asked->mode, used, asked->flags, &asked->name,
                                                asked->parent, ast, (uintptr_t)asked, bast, 0, 0);
    asked->lkid = used->lkid;
    if ((status & 1) == 0)
        used->lkid = before;
    printf("%s: %s", self, conditions[place_of(status)].name);
    if ((status & 1) != 0)
        printf(" lock %u", asked->lkid);
    printf("\n");
}

static void give_up(const struct asked *asked, unsigned int lock) {
    unsigned int flags = asked->flags | (asked->has_tail ? LCK$M_XVALBLK : 0);
    int status = sys$deq(lock, asked->has_value ? (void *)asked->value : NULL, 0, flags);
    printf("%s: %s\n", self, conditions[place_of((unsigned int)status)].name);
}

static void set_value(const struct asked *asked) {
    memcpy(blocks[asked->block].value, asked->value, asked->has_tail ? VALUE + TAIL : VALUE);
    printf("%s: NORMAL\n", self);
}

static void print_bytes(const unsigned char *bytes, int count) {
    for (int at = 0; at < count; at++)
        printf("%02x", bytes[at]);
    printf("\n");
}

static void print_block(unsigned int number) {
    const struct block *shown = &blocks[number % BLOCKS];
    unsigned int status = shown->status != 0 ? conditions[place_of(shown->status)].number : 0;
    printf("%s: block %u status %u lock %u value ", self, number, status, shown->lkid);
    print_bytes(shown->value, VALUE);
}

static void print_ast(void) {
    if (asts_told < ast_count)
        printf("%s: %s\n", self, asts[asts_told++ % MOST_ASTS]);
    else
        printf("%s: none\n", self);
}

static void run(char **words, unsigned int count) {
    bool is_cvt = strcmp(words[0], "cvt") == 0, is_enq = strcmp(words[0], "enq") == 0;
    struct asked *asked;
    if (is_enq || is_cvt) {
        asked = made(words, is_enq ? 3 : 4, count);
        asked->mode = mode_of(words[is_enq ? 2 : 3]);
        asked->lock = is_cvt ? lock_of(words[2]) : 0;
        asked->flags |= is_cvt ? LCK$M_CONVERT : 0;
        ask(asked);
    } else if (strcmp(words[0], "deq") == 0) {
        asked = made(words, 3, count);
        give_up(asked, lock_of(words[2]));
    } else if (strcmp(words[0], "set") == 0) {
        set_value(made(words, 2, count));
    } else if (strcmp(words[0], "ast") == 0) {
        print_ast();
    } else if (strcmp(words[0], "block") == 0) {
        print_block(number_of(words[2]));
    } else {
        printf("%s: tail %u ", self, number_of(words[2]));
        print_bytes(blocks[number_of(words[2]) % BLOCKS].value + VALUE, TAIL);
    }
}

/* Once a call is answered, all ASTs of earlier steps have come to this process; soon its routines are told. */
static void catch_up(void) {
    const struct timespec pause = {0, PAUSE};
    sys$deq(UINT32_MAX, NULL, 0, 0);
    nanosleep(&pause, NULL);
    sys$setast(1);
    sys$setast(0);
}

int main(int count, char **given) {
    char line[LINE], *words[WORDS], none[] = "";
    self = count > 1 ? given[1] : "";
    sys$setast(0);
    catch_up(); /* (the first call makes this a process of the lock manager) */
    printf("ready\n");
    fflush(stdout);
    while (fgets(line, sizeof line, stdin) != NULL) {
        unsigned int found = 0;
        char *rest = line, *word;
        while (found < WORDS && (word = strtok_r(rest, " \n", &rest)) != NULL)
            words[found++] = word;
        for (unsigned int at = found; at < WORDS; at++)
            words[at] = none;
        catch_up();
        if (found != 0)
            run(words, found);
        fflush(stdout);
    }
    return EXIT_SUCCESS;
}
