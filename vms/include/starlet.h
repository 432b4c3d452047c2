/* The system services of OpenVMS for locks, event flags and ASTs, over the lock manager vlm. docs/VMS.md teaches how to
 * move a program, and has a table of what differs from the original. The layer is plain C11 and not proved; the lock
 * manager below it is.
 *
 * Each service returns a condition value of ssdef.h: odd is success. Link with -lvlmvms -lvlm.
 *
 * Any thread may call any service. The first service for locks opens the lock manager that VLM$SERVICE names in the
 * environment, and makes this process of the operating system a process there. Its locks end with it. In the child
 * after a fork the services for locks answer SS$_UNSUPPORTED, if the parent had called one of them or sys$dclast
 * before, whatever the answer was. Other services may wait for ever there: call exec first.
 *
 * A thread that is cancelled by pthread_cancel in a service ends after it, if its cancelability type is deferred.
 *
 * What the caller owes, which nothing checks: a pointer is null where that is allowed, or points to an object of the
 * right type. A lock status block lives until its request has ended, and nothing else writes it meanwhile. Services are
 * not called from signal handlers. An AST routine returns. */
#ifndef STARLET_H
#define STARLET_H
#pragma GCC system_header

#ifdef __cplusplus
extern "C" {
typedef void (*VMS$AST)(...);
#elif defined __STDC_VERSION__ && __STDC_VERSION__ > 201710L
/* (C23 has no pointer to a function with any arguments) */
typedef void *VMS$AST;
#else
typedef void (*VMS$AST)();
#endif
typedef unsigned long long VMS$PARAMETER;

/* Locks. */

/* Asks for a lock, or with LCK$M_CONVERT for another mode of one, and does not wait.
 *
 * efn: the event flag, 0 to 63 or EFN$C_ENF. It is cleared, and set when the request ends.
 * lkmode: LCK$K_NLMODE to LCK$K_EXMODE.
 * lksb: the lock status block. It gets the ID, and the status when the request ends: SS$_NORMAL,
 *   SS$_VALNOTVALID, SS$_XVALNOTVALID, SS$_ABORT, SS$_CANCEL, SS$_DEADLOCK or SS$_NODELEAVE. With LCK$M_CONVERT it
 *   names the lock. With LCK$M_VALBLK its 16 bytes, and with LCK$M_XVALBLK too its 64 bytes, are the value block.
 * flags: of lckdef.h.
 * resnam: a descriptor of a name of 1 to 31 bytes.
 * parid: the parent lock, or 0.
 * astadr: is called as an AST with astprm when the request has ended, or is null.
 * blkastadr: is called as an AST with astprm when the granted lock blocks another request, and when it is lost: then
 *   services answer SS$_NODELEAVE. Or it is null.
 * acmode: is not looked at. rsdm_id: 0. Further arguments are not looked at.
 *
 * SS$_NORMAL: accepted. SS$_SYNCH: granted at once, with LCK$M_SYNCSTS; the event flag is not set, and no AST comes. A
 * grant at once has written the status block when the call returns. With SS$_NORMAL it has also set the event flag, and
 * its AST has run, unless ASTs are turned off or an AST routine was running.
 * Refused: SS$_ACCVIO (lksb or resnam is null), SS$_BADPARAM, SS$_CVTUNGRANT, SS$_EXDEPTH, SS$_EXENQLM (the quota; or
 * 255 requests are under way), SS$_ILLEFC, SS$_INSFMEM, SS$_IVBUFLEN, SS$_IVLOCKID, SS$_NOLOCKID, SS$_NOSYSLCK,
 * SS$_NOTQUEUED, SS$_PARNOTGRANT, SS$_UNASEFC, SS$_UNREACHABLE, SS$_NODELEAVE, SS$_UNSUPPORTED. */
int sys$enq(unsigned int efn, unsigned int lkmode, void *lksb, unsigned int flags, void *resnam, unsigned int parid,
            VMS$AST astadr, VMS$PARAMETER astprm, VMS$AST blkastadr, unsigned int acmode, unsigned int rsdm_id, ...);

/* The same, and waits until the request has ended. How it ended is in the lock status block. */
int sys$enqw(unsigned int efn, unsigned int lkmode, void *lksb, unsigned int flags, void *resnam, unsigned int parid,
             VMS$AST astadr, VMS$PARAMETER astprm, VMS$AST blkastadr, unsigned int acmode, unsigned int rsdm_id, ...);

/* Gives a lock up, and writes valblk to the value block if it is not null and the lock holds PW or EX. With
 * LCK$M_DEQALL gives up all locks below it, or with lkid 0 all locks of the process. With LCK$M_CANCEL ends its
 * request. Requests that it ends have their status when it returns.
 * SS$_NORMAL, SS$_BADPARAM, SS$_CANCELGRANT, SS$_IVLOCKID, SS$_SUBLOCKS, SS$_UNREACHABLE, SS$_NODELEAVE,
 * SS$_UNSUPPORTED. */
int sys$deq(unsigned int lkid, void *valblk, unsigned int acmode, unsigned int flags);

/* Reads about a lock what the item list asks for. *lkidadr is the lock. With 0 or -1 there, a walk over all locks that
 * the process may see begins: each call reads the next lock and writes its ID, and SS$_NOMORELOCK ends it. The walk is
 * known by the address of its longword, and by what was written there last: leave both alone until it ends, and name a
 * lock that is read meanwhile in another longword. Locks that are made meanwhile are not in it. A walk that was not
 * ended keeps about 30 bytes for each lock, until its longword names another lock or begins another walk.
 * A return length has in the low word the bytes that were written, in the upper word 24 for a list, and bit 31 if there
 * was more. With vlmd each list is read for itself, so a lock may go between two items.
 * The reading is made before the call returns; the status is also written to iosb, if it is not null.
 * SS$_NORMAL, SS$_ACCVIO, SS$_BADPARAM (an unknown item), SS$_EXQUOTA (too many locks for the lock service to list),
 * SS$_ILLEFC, SS$_INSFMEM, SS$_IVLOCKID, SS$_NOMORELOCK, SS$_UNASEFC, SS$_UNREACHABLE, SS$_NODELEAVE,
 * SS$_UNSUPPORTED. */
int sys$getlki(unsigned int efn, unsigned int *lkidadr, void *itmlst, void *iosb, VMS$AST astadr, VMS$PARAMETER astprm,
               unsigned int nullarg);
int sys$getlkiw(unsigned int efn, unsigned int *lkidadr, void *itmlst, void *iosb, VMS$AST astadr, VMS$PARAMETER astprm,
                unsigned int nullarg);

/* Event flags. A process has 64, numbered from 0, in two clusters of 32. */

/* Set, clear and read a flag. SS$_WASCLR, SS$_WASSET: what it was before. SS$_ILLEFC, SS$_UNASEFC (64 to 127). readef
 * writes the cluster of the flag to *state. */
int sys$setef(unsigned int efn);
int sys$clref(unsigned int efn);
int sys$readef(unsigned int efn, unsigned int *state);

/* Wait for a flag; for one of those in the mask, of the cluster of a flag; for all of them. SS$_NORMAL, SS$_ILLEFC,
 * SS$_UNASEFC. */
int sys$waitfr(unsigned int efn);
int sys$wflor(unsigned int efn, unsigned int mask);
int sys$wfland(unsigned int efn, unsigned int mask);

/* Waits until the first word of a status block is not 0, or with a null iosb for the flag, and sets the flag. */
int sys$synch(unsigned int efn, void *iosb);

/* ASTs. One runs at a time: in a thread that is in a service of this header, while it waits and at the end of its call,
 * or in a thread of the layer if there is none. In an AST routine no other AST is delivered. The program's first thread
 * waits at each service until a routine that runs has returned. What it does between services may be at the same time
 * as a routine: turn the delivery off there, or set VLM$ASTS to wait, and no thread of the layer delivers.
 *
 * A blocking AST that is pending goes with its lock and with its grant; a completion AST stays. */

/* Turns the delivery on (1) or off (0). SS$_WASSET, SS$_WASCLR: it was on, off before. Off waits for the end of a
 * routine that another thread runs. On delivers what is pending. */
int sys$setast(char enbflg);

/* Queues an AST of this process. SS$_NORMAL, SS$_ACCVIO, SS$_INSFMEM. */
int sys$dclast(VMS$AST astadr, VMS$PARAMETER astprm, unsigned int acmode);

/* Waits until sys$wake is called, or was called since the last sys$hiber. SS$_NORMAL. */
int sys$hiber(void);

/* Wakes this process: pidadr is null or points to 0 or to its pid, and prcnam is null. SS$_NORMAL. SS$_UNSUPPORTED:
 * another process is named. */
int sys$wake(unsigned int *pidadr, void *prcnam);

/* Ends the program with status 0 if code is a success, 1 if it is a warning, 2 if it is an error, 4 if it is severe. */
int sys$exit(unsigned int code);

#ifdef __cplusplus
}
#endif
#endif
