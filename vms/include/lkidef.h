/* Item codes of sys$getlki, and what the items have. The codes' numbers are this project's own. For LKI$_RSBREFCNT all
 * resources are read. */
#ifndef LKIDEF_H
#define LKIDEF_H
#pragma GCC system_header

#define LKI$_BLOCKEDBY 1  /* the locks that this request waits for: struct lkidef for each */
#define LKI$_BLOCKING 2   /* the requests that wait for this lock: struct lkidef for each */
#define LKI$_LOCKS 3      /* all locks on the resource: struct lkidef for each */
#define LKI$_CSID 4       /* longword, 0 */
#define LKI$_CVTCOUNT 5   /* longword: how many locks on the resource convert */
#define LKI$_GRANTCOUNT 6 /* longword: are granted */
#define LKI$_WAITCOUNT 7  /* longword: wait */
#define LKI$_LCKREFCNT 8  /* longword: how many locks have this one as their parent */
#define LKI$_LKID 9       /* longword: the lock's ID */
#define LKI$_LOCKID 10    /* the same */
#define LKI$_MSTLKID 11   /* the same */
#define LKI$_REMLKID 12   /* the same */
#define LKI$_MSTCSID 13   /* longword, 0 */
#define LKI$_NAMSPACE 14  /* longword: the fields below */
#define LKI$_PARENT 15    /* longword: the parent lock, or 0 */
#define LKI$_PID 16       /* longword: the process of the operating system that has the lock */
#define LKI$_REMSYSTEM 17 /* up to 15 bytes: the name of this machine */
#define LKI$_RESNAM 18    /* up to 31 bytes: the name of the resource */
#define LKI$_RSBREFCNT 19 /* longword: how many resources have it as their parent */
#define LKI$_STATE 20     /* three bytes: struct lkistate */
#define LKI$_SYSTEM 21    /* up to 15 bytes: the name of this machine */
#define LKI$_VALBLK 22    /* 16 bytes: the value block of the resource */
#define LKI$_XVALBLK 23   /* 64 bytes */

/* Queues. */
#define LKI$C_WAITING (-1)
#define LKI$C_CONVERT 0
#define LKI$C_GRANTED 1

/* Of LKI$_STATE. A granted lock wants what it holds, and a waiting one holds NL. */
typedef struct lkistate {
    unsigned char lki$b_state_rqmode;
    unsigned char lki$b_state_grmode;
    signed char lki$b_state_queue;
} LKISTATE;

/* Of LKI$_LOCKS, LKI$_BLOCKEDBY and LKI$_BLOCKING. */
#define LKI$K_LENGTH 24
#define LKI$C_LENGTH LKI$K_LENGTH
typedef struct lkidef {
    unsigned int lki$l_mstlkid;
    unsigned int lki$l_pid;
    unsigned int lki$l_mstcsid;
    unsigned char lki$b_rqmode;
    unsigned char lki$b_grmode;
    signed char lki$b_queue;
    unsigned char lki$b_reserved;
    unsigned int lki$l_lkid;
    unsigned int lki$l_csid;
} LKIDEF;

/* Of LKI$_NAMSPACE. */
#define LKI$M_GROUP 0xffffu
#define LKI$M_RMOD 0xff0000u
#define LKI$M_SYSNAM 0x80000000u

#endif
