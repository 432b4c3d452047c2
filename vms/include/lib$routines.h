/* Routines that programs call with the condition values of the services for locks. */
#ifndef LIB$ROUTINES_H
#define LIB$ROUTINES_H
#pragma GCC system_header

#ifdef __cplusplus
extern "C" {
#endif

/* Prints a condition on standard error, such as %SYSTEM-E-DEADLOCK, deadlock detected. A severe one ends the program as
 * sys$exit does; after another one the call returns SS$_NORMAL. Arguments after the condition are not looked at. */
unsigned int lib$signal(unsigned int condition, ...);

/* Prints a condition and ends the program as sys$exit does. */
unsigned int lib$stop(unsigned int condition, ...);

#ifdef __cplusplus
}
#endif
#endif
