/* The status block of sys$getlki: 8 bytes. */
#ifndef IOSBDEF_H
#define IOSBDEF_H
#pragma GCC system_header

typedef struct _iosb {
    unsigned short iosb$w_status;
    unsigned short iosb$w_bcnt;
    unsigned int iosb$l_dev_depend;
} IOSB;

#endif
