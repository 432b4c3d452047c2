/* Conditions: those of the lock manager as numbers of ssdef.h, their names and texts, and what prints them. */
#include "parts.h"

#include "lib$routines.h"
#include "ssdef.h"
#include "stsdef.h"

#include <stdio.h>
#include <stdlib.h>

uint32_t vms_condition(uint32_t status) {
    static const uint16_t conditions[] = {[VLM_NORMAL] = SS$_NORMAL,           [VLM_SYNCH] = SS$_SYNCH,
                                          [VLM_NOTQUEUED] = SS$_NOTQUEUED,     [VLM_ABORT] = SS$_ABORT,
                                          [VLM_CANCEL] = SS$_CANCEL,           [VLM_DEADLOCK] = SS$_DEADLOCK,
                                          [VLM_VALNOTVALID] = SS$_VALNOTVALID, [VLM_CANCELGRANT] = SS$_CANCELGRANT,
                                          [VLM_SUBLOCKS] = SS$_SUBLOCKS,       [VLM_IVLOCKID] = SS$_IVLOCKID,
                                          [VLM_CVTUNGRANT] = SS$_CVTUNGRANT,   [VLM_PARNOTGRANT] = SS$_PARNOTGRANT,
                                          [VLM_EXDEPTH] = SS$_EXDEPTH,         [VLM_EXENQLM] = SS$_EXENQLM,
                                          [VLM_NOLOCKID] = SS$_NOLOCKID,       [VLM_INSFMEM] = SS$_INSFMEM,
                                          [VLM_IVBUFLEN] = SS$_IVBUFLEN,       [VLM_BADPARAM] = SS$_BADPARAM,
                                          [VLM_UNSUPPORTED] = SS$_UNSUPPORTED, [VLM_NOSYSLCK] = SS$_NOSYSLCK,
                                          [VLM_ACCVIO] = SS$_ACCVIO,           [VLM_NONEXPR] = SS$_NONEXPR,
                                          [VLM_DEPARTED] = SS$_NODELEAVE,      [VLM_WIDENOTVALID] = SS$_XVALNOTVALID};
    if (status == VLM_LOST || status == VLM_FULL)
        return status == VLM_LOST ? SS$_NODELEAVE : SS$_EXQUOTA;
    if (status >= sizeof conditions / sizeof *conditions || conditions[status] == 0)
        return SS$_ABORT;
    return conditions[status];
}

static const struct {
    uint32_t condition;
    const char *name, *text;
} messages[] = {{SS$_NORMAL, "NORMAL", "normal successful completion"},
                {SS$_WASSET, "WASSET", "the flag was set"},
                {SS$_ACCVIO, "ACCVIO", "access violation"},
                {SS$_BADPARAM, "BADPARAM", "bad parameter value"},
                {SS$_EXQUOTA, "EXQUOTA", "exceeded quota"},
                {SS$_ABORT, "ABORT", "abort"},
                {SS$_ILLEFC, "ILLEFC", "illegal event flag cluster"},
                {SS$_INSFMEM, "INSFMEM", "insufficient dynamic memory"},
                {SS$_UNASEFC, "UNASEFC", "unassociated event flag cluster"},
                {SS$_IVBUFLEN, "IVBUFLEN", "invalid buffer length"},
                {SS$_SYNCH, "SYNCH", "synchronous successful completion"},
                {SS$_CANCEL, "CANCEL", "operation canceled"},
                {SS$_NONEXPR, "NONEXPR", "nonexistent process"},
                {SS$_NOTQUEUED, "NOTQUEUED", "request not queued"},
                {SS$_VALNOTVALID, "VALNOTVALID", "value block is not valid"},
                {SS$_DEADLOCK, "DEADLOCK", "deadlock detected"},
                {SS$_XVALNOTVALID, "XVALNOTVALID", "only the first 16 bytes of the value block are valid"},
                {SS$_CANCELGRANT, "CANCELGRANT", "cannot cancel a granted lock"},
                {SS$_NOMORELOCK, "NOMORELOCK", "no more locks"},
                {SS$_UNSUPPORTED, "UNSUPPORTED", "unsupported operation or function"},
                {SS$_SUBLOCKS, "SUBLOCKS", "cannot dequeue a lock with sublocks"},
                {SS$_IVLOCKID, "IVLOCKID", "invalid lock id"},
                {SS$_CVTUNGRANT, "CVTUNGRANT", "cannot convert an ungranted lock"},
                {SS$_PARNOTGRANT, "PARNOTGRANT", "parent lock must be granted"},
                {SS$_EXDEPTH, "EXDEPTH", "exceeded allowed depth of resources"},
                {SS$_EXENQLM, "EXENQLM", "exceeded enqueue quota"},
                {SS$_NOLOCKID, "NOLOCKID", "no lock id available"},
                {SS$_NOSYSLCK, "NOSYSLCK", "operation requires SYSLCK privilege"},
                {SS$_UNREACHABLE, "UNREACHABLE", "the lock service is not reachable"},
                {SS$_NODELEAVE, "NODELEAVE", "the lock service has ended, and all locks are gone"}};

static void print(uint32_t condition) {
    char severity = "WSEIF???"[$VMS_STATUS_SEVERITY(condition)];
    for (size_t at = 0; at < sizeof messages / sizeof *messages; at++)
        if (messages[at].condition == condition) {
            fprintf(stderr, "%%SYSTEM-%c-%s, %s\n", severity, messages[at].name, messages[at].text);
            return;
        }
    fprintf(stderr, "%%NONAME-%c-NOMSG, Message number %08X\n", severity, condition);
}

int sys$exit(unsigned int code) {
    static const int statuses[] = {[STS$K_WARNING] = 1, [STS$K_ERROR] = 2, [STS$K_SEVERE] = 4};
    uint32_t severity = $VMS_STATUS_SEVERITY(code);
    exit($VMS_STATUS_SUCCESS(code) ? 0 : severity <= STS$K_SEVERE ? statuses[severity] : 4);
}

unsigned int lib$signal(unsigned int condition, ...) {
    print(condition);
    if ($VMS_STATUS_SEVERITY(condition) >= STS$K_SEVERE)
        sys$exit(condition);
    return SS$_NORMAL;
}

unsigned int lib$stop(unsigned int condition, ...) {
    print(condition);
    sys$exit(condition);
    return condition;
}
