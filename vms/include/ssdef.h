/* Condition values of the system services for locks. The lowest three bits are the severity, and an odd value is a
 * success. The numbers are written from memory, and those from 0x7f00 on are this project's own: use the names, since
 * some numbers differ from the original's.
 *
 * A condition without a comment means what docs/MACHINE.md says of the same name, or what starlet.h says at the service
 * that answers it. */
#ifndef SSDEF_H
#define SSDEF_H
#pragma GCC system_header

#define SS$_NORMAL 1
#define SS$_WASCLR 1
#define SS$_WASSET 9
/* A pointer is null that may not be. Other wrong pointers are not found. */
#define SS$_ACCVIO 12
/* A mode, a flag or an item that does not exist, or flags that do not go together. */
#define SS$_BADPARAM 20
#define SS$_EXQUOTA 28
#define SS$_ABORT 44
#define SS$_ILLEFC 236
#define SS$_INSFMEM 292
#define SS$_UNASEFC 564
#define SS$_IVBUFLEN 844
#define SS$_SYNCH 1673
#define SS$_CANCEL 2096
/* Not answered by these services. */
#define SS$_NONEXPR 2280
#define SS$_NOTQUEUED 2536
/* A warning, so it is even, though the lock is granted. */
#define SS$_VALNOTVALID 2544
#define SS$_DEADLOCK 3594

/* This project's own numbers. */

/* In a status block: granted, and only the first 16 bytes of the value block are valid. */
#define SS$_XVALNOTVALID 0x7f00
#define SS$_CANCELGRANT 0x7f08
#define SS$_NOMORELOCK 0x7f10
/* What the layer does not keep of the original (docs/VMS.md), the flags of lckdef.h that say so, LCK$M_EXPEDITE at
 * another mode than NL, a wrong VLM$SERVICE, or a forked child. */
#define SS$_UNSUPPORTED 0x7f1a
#define SS$_SUBLOCKS 0x7f24
#define SS$_IVLOCKID 0x7f2c
#define SS$_CVTUNGRANT 0x7f34
#define SS$_PARNOTGRANT 0x7f3c
#define SS$_EXDEPTH 0x7f44
/* The quota, a limit of vlmd, or 255 requests under way. */
#define SS$_EXENQLM 0x7f4c
#define SS$_NOLOCKID 0x7f54
#define SS$_NOSYSLCK 0x7f5c
/* No vlmd where VLM$SERVICE says. */
#define SS$_UNREACHABLE 0x7f64
/* vlmd or the session has ended: all locks are gone. Each later call is answered so: end the program. */
#define SS$_NODELEAVE 0x7f6c

#endif
