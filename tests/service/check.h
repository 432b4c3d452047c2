/* What the tests of the service in C share: the first fact that does not hold ends a test. */
#ifndef CHECK_H
#define CHECK_H

#include <stdbool.h>
#include <stdio.h>
#include <stdlib.h>

#define CHECK(fact) check(fact, __LINE__, #fact)

static inline void check(bool fact, int line, const char *text) {
    if (fact)
        return;
    fprintf(stderr, "line %d: %s\n", line, text);
    exit(1);
}

#endif
