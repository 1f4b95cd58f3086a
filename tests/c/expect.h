/* What the tests in C share. They compile as C99 and as C++17. */
#ifndef EXPECT_H
#define EXPECT_H

#include <stdint.h>
#include <stdio.h>
#include <stdlib.h>

#include "fieldmap.h"

/* The layout and the limits that the calls are given, which are named where something does not hold. */
static uint8_t width;
static size_t entries, longest = FIELDMAP_SERVER_LONGEST, depth = FIELDMAP_SERVER_DEPTH;

#define LAYOUT width, entries
#define LIMITS longest, depth

#define EXPECT(holds)                                                                                                                          \
    do {                                                                                                                                       \
        if (!(holds)) {                                                                                                                        \
            printf("%s:%d: with width %d, %zu entries a node, %zu bytes and depth %zu: %s\n", __FILE__, __LINE__, width, entries,              \
                   LIMITS, #holds);                                                                                                            \
            exit(1);                                                                                                                           \
        }                                                                                                                                      \
    } while (0)

/* A call is refused, also where its answer is cut to an int. */
#define REFUSED(call, why)                                                                                                                     \
    do {                                                                                                                                       \
        int64_t refusal = (call);                                                                                                              \
        EXPECT(refusal == -(why) && (int)refusal == -(why));                                                                                   \
    } while (0)

/* What a place holds before a call. */
#define BEFORE UINT64_C(0x5555555555555555)

/* A stored number between two others, which must stay. */
struct stored {
    uint64_t before, number, after;
};

static const struct stored fresh = {BEFORE, BEFORE, BEFORE};

static inline int kept(const struct stored *s)
{
    return s->before == BEFORE && s->after == BEFORE;
}

#endif
