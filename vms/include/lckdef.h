/* Lock modes, and the flags of sys$enq and sys$deq. A flag without a comment does what docs/MACHINE.md says of the same
 * name. */
#ifndef LCKDEF_H
#define LCKDEF_H
#pragma GCC system_header

#define LCK$K_NLMODE 0
#define LCK$K_CRMODE 1
#define LCK$K_CWMODE 2
#define LCK$K_PRMODE 3
#define LCK$K_PWMODE 4
#define LCK$K_EXMODE 5
#define LCK$C_NLMODE LCK$K_NLMODE
#define LCK$C_CRMODE LCK$K_CRMODE
#define LCK$C_CWMODE LCK$K_CWMODE
#define LCK$C_PRMODE LCK$K_PRMODE
#define LCK$C_PWMODE LCK$K_PWMODE
#define LCK$C_EXMODE LCK$K_EXMODE

/* Of sys$enq. */

#define LCK$M_VALBLK 0x1
/* The lock of the status block gets another mode. */
#define LCK$M_CONVERT 0x2
#define LCK$M_NOQUEUE 0x4
#define LCK$M_SYNCSTS 0x8
/* A root of the system's domain. It takes the privilege SYSLCK: vlmd gives it by its configuration, and this process
 * alone has it. */
#define LCK$M_SYSTEM 0x10
#define LCK$M_NOQUOTA 0x20  /* SS$_UNSUPPORTED */
#define LCK$M_CVTSYS 0x40   /* SS$_UNSUPPORTED */
#define LCK$M_RECOVER 0x80  /* SS$_UNSUPPORTED */
#define LCK$M_PROTECT 0x100 /* SS$_UNSUPPORTED */
#define LCK$M_NODLCKWT 0x200
#define LCK$M_NODLCKBLK 0x400
#define LCK$M_EXPEDITE 0x800
#define LCK$M_QUECVT 0x1000
/* With LCK$M_VALBLK, or in sys$deq, the value block has 64 bytes: the flag WIDE. The bit is this project's own. */
#define LCK$M_XVALBLK 0x100000

/* Of sys$deq, which takes LCK$M_XVALBLK too. */

#define LCK$M_DEQALL 0x1
#define LCK$M_CANCEL 0x2
#define LCK$M_INVVALBLK 0x4

#endif
