/* The number of no event flag. */
#ifndef EFNDEF_H
#define EFNDEF_H
#pragma GCC system_header

#define EFN$C_ENF 128

#endif
