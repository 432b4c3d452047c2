/* The lock status block: 8 bytes, and with LCK$M_VALBLK the value block after them. A program may have a struct of its
 * own with members of the same sizes. */
#ifndef LKSBDEF_H
#define LKSBDEF_H
#pragma GCC system_header

typedef struct _lksb {
    unsigned short lksb$w_status; /* 0 while the request is pending */
    unsigned short lksb$w_reserved;
    unsigned int lksb$l_lkid;
    unsigned char lksb$b_valblk[16];
} LKSB;

/* With LCK$M_XVALBLK. */
typedef struct _lksbx {
    unsigned short lksb$w_status;
    unsigned short lksb$w_reserved;
    unsigned int lksb$l_lkid;
    unsigned char lksb$b_valblk[64];
} LKSBX;

#endif
