/* What the tests of the calls of vlm.h share: they count their calls, and tell which were answered otherwise. */
#ifndef CORE_TEST_H
#define CORE_TEST_H

#include "vlm.h"

#include <stdio.h>
#include <string.h>

static unsigned calls, wrong;

static inline void expect_at(int line, uint32_t got, uint32_t want) {
    calls++;
    if (got != want) {
        wrong++;
        fprintf(stderr, "line %d: %s, not %s\n", line, vlm_condition_name(got), vlm_condition_name(want));
    }
}
#define EXPECT(call, want) expect_at(__LINE__, (call), (want))

static inline void hold_at(int line, int fact, const char *text) {
    if (!fact) {
        wrong++;
        fprintf(stderr, "line %d: not %s\n", line, text);
    }
}
#define HOLD(fact) hold_at(__LINE__, (fact), #fact)

#endif
