/* The names of condition values. Not proved. */
#include "vlm.h"

const char *vlm_condition_name(uint32_t status) {
    switch (status) {
    case VLM_NORMAL: return "SS$_NORMAL";
    case VLM_SYNCH: return "SS$_SYNCH";
    case VLM_NOTQUEUED: return "SS$_NOTQUEUED";
    case VLM_ABORT: return "SS$_ABORT";
    case VLM_CANCEL: return "SS$_CANCEL";
    case VLM_DEADLOCK: return "SS$_DEADLOCK";
    case VLM_VALNOTVALID: return "SS$_VALNOTVALID";
    case VLM_CANCELGRANT: return "SS$_CANCELGRANT";
    case VLM_SUBLOCKS: return "SS$_SUBLOCKS";
    case VLM_IVLOCKID: return "SS$_IVLOCKID";
    case VLM_CVTUNGRANT: return "SS$_CVTUNGRANT";
    case VLM_PARNOTGRANT: return "SS$_PARNOTGRANT";
    case VLM_EXDEPTH: return "SS$_EXDEPTH";
    case VLM_EXENQLM: return "SS$_EXENQLM";
    case VLM_NOLOCKID: return "SS$_NOLOCKID";
    case VLM_INSFMEM: return "SS$_INSFMEM";
    case VLM_IVBUFLEN: return "SS$_IVBUFLEN";
    case VLM_BADPARAM: return "SS$_BADPARAM";
    case VLM_UNSUPPORTED: return "SS$_UNSUPPORTED";
    case VLM_NOSYSLCK: return "SS$_NOSYSLCK";
    case VLM_ACCVIO: return "SS$_ACCVIO";
    case VLM_NONEXPR: return "SS$_NONEXPR";
    case VLM_DEPARTED: return "DEPARTED";
    case VLM_WIDENOTVALID: return "WIDENOTVALID";
    case VLM_TIMEOUT: return "TIMEOUT";
    case VLM_LOST: return "LOST";
    case VLM_FULL: return "FULL";
    default: return NULL;
    }
}
