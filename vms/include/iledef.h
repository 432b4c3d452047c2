/* An entry of an item list. The last entry has length and code 0. */
#ifndef ILEDEF_H
#define ILEDEF_H
#pragma GCC system_header

typedef struct _ile3 {
    unsigned short ile3$w_length; /* of the buffer, in bytes */
    unsigned short ile3$w_code;
    void *ile3$ps_bufaddr;
    void *ile3$ps_retlen_addr; /* null, or a longword that gets the length */
} ILE3;

#endif
