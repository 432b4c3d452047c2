/* Access modes. A program runs in user mode, and all modes mean user mode. */
#ifndef PSLDEF_H
#define PSLDEF_H
#pragma GCC system_header

#define PSL$C_KERNEL 0
#define PSL$C_EXEC 1
#define PSL$C_SUPER 2
#define PSL$C_USER 3

#endif
