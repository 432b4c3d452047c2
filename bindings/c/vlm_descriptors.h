/* New descriptors of the layers in C. Not a header of programs. */
#ifndef VLM_DESCRIPTORS_H
#define VLM_DESCRIPTORS_H

#include "vlm_own_threads.h"

#include <fcntl.h>
#include <unistd.h>

/* Gives a new descriptor another number if it has that of a standard stream. In the place of one that is closed, it
 * would get what the program prints, and it would go when the program opens the stream again. -1 if it can't, and for
 * -1. The thread is not cancelled meanwhile. */
static inline int clear_of_streams(int descriptor) {
    if (descriptor < 0 || descriptor > STDERR_FILENO)
        return descriptor;
    int moved = fcntl(descriptor, F_DUPFD_CLOEXEC, STDERR_FILENO + 1);
    int before = cancels_off();
    close(descriptor);
    cancels_back(before);
    return moved;
}

#endif
