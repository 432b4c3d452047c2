/* The versions and sizes of structs of vlm_threads.h that the layers in C take, and which statuses are grants. Not a
 * header of programs. */
#ifndef VLM_SIZES_H
#define VLM_SIZES_H

#include "vlm_threads.h"

#include <string.h>

enum { SHORT_VALUE = VLM_VALUE_BYTES, WHOLE_VALUE = VLM_VALUE_BYTES + VLM_TAIL_BYTES };

/* How many bytes of structs programs with an older header have too. */
enum {
    FIRST_OPTIONS = offsetof(vlm_threads_options, victim_milliseconds),
    FIRST_DECLARATION = offsetof(vlm_threads_declaration, own_queue),
    FIRST_REQUEST = offsetof(vlm_threads_request, released),
    FIRST_DEQUEUE = 32,
    FIRST_COUNTERS = 672,
    FIRST_DEADLOCK = 3792
};

/* Whether the size of a struct is right. An older header may have made it shorter. */
static inline bool is_sized(uint32_t size, size_t first, size_t whole) { return size >= first && size <= whole; }

/* Whether a program's header is of a version that fits this library: the first two numbers are the same. */
static inline bool is_of_version(uint32_t version) { return version >> 8 == VLM_VERSION >> 8; }

/* Copies a struct of the caller's: whether its size is right. The members that it lacks are 0. */
static inline bool is_copied(void *whole, size_t size, const void *given, size_t first) {
    uint32_t given_size = *(const uint32_t *)given;
    if (given_size != size) {
        if (!is_sized(given_size, first, size))
            return false;
        memset(whole, 0, size);
        memcpy(whole, given, given_size);
        return true;
    }
    memcpy(whole, given, size);
    return true;
}

static inline bool is_grant(uint32_t status) {
    return status == VLM_NORMAL || status == VLM_VALNOTVALID || status == VLM_WIDENOTVALID;
}

#endif
