/* Fields of a condition value. */
#ifndef STSDEF_H
#define STSDEF_H
#pragma GCC system_header

#define STS$K_WARNING 0
#define STS$K_SUCCESS 1
#define STS$K_ERROR 2
#define STS$K_INFO 3
#define STS$K_SEVERE 4
#define STS$M_SUCCESS 1
#define STS$M_SEVERITY 7
#define $VMS_STATUS_SUCCESS(status) ((status)&STS$M_SUCCESS)
#define $VMS_STATUS_SEVERITY(status) ((status)&STS$M_SEVERITY)

#endif
