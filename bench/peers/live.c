// Stands in front of the C library's allocator and tells at the end the most bytes that were held at one time, by
// what the allocator keeps for them. A block that grows counts once.
#define _GNU_SOURCE
#include <errno.h>
#include <malloc.h>
#include <stdio.h>

extern void *__libc_malloc(size_t size);
extern void *__libc_calloc(size_t count, size_t size);
extern void *__libc_realloc(void *block, size_t size);
extern void *__libc_memalign(size_t alignment, size_t size);
extern void __libc_free(void *block);

static size_t held, most;

static void *taken(void *block) {
    held += malloc_usable_size(block);
    if (most < held)
        most = held;
    return block;
}

static void given_back(void *block) { held -= malloc_usable_size(block); }

void *malloc(size_t size) { return taken(__libc_malloc(size)); }

void *calloc(size_t count, size_t size) { return taken(__libc_calloc(count, size)); }

void *realloc(void *block, size_t size) {
    given_back(block);
    void *moved = __libc_realloc(block, size);
    return taken(moved ? moved : block);
}

int posix_memalign(void **block, size_t alignment, size_t size) {
    *block = taken(__libc_memalign(alignment, size));
    return *block ? 0 : ENOMEM;
}

void free(void *block) {
    given_back(block);
    __libc_free(block);
}

__attribute__((destructor)) static void tell(void) { fprintf(stderr, "%zu bytes\n", most); }
