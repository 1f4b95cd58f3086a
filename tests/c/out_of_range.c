/*
 * Holds every call that takes a layout, with entries a node outside 3 to 15, against docs/FORMAT.md: it is refused by 24, whatever else would refuse it,
 * and writes nothing. Prints a line and ends with 0, or names the first line that does not hold and ends with 1. It compiles as C99 and as C++17.
 */
#include <string.h>

#include "expect.h"
#include "fieldmap.h"

enum { ROOM = 4, LEAF = 96, TOO_LONG = FIELDMAP_SERVER_LONGEST + 1 };

static uint8_t archive[TOO_LONG], out[LEAF + 16];
static uint64_t keys[ROOM], values[ROOM], many[FIELDMAP_MOST_ENTRIES + 1];

#define OUT_OF_RANGE(call) REFUSED(call, FIELDMAP_ENTRIES_OUT_OF_RANGE)

/* The calls that read an archive of so many bytes, with lists of equal and of different lengths. */
static void readers(const uint8_t *bytes, size_t length)
{
    struct stored one = fresh, other = fresh;
    for (size_t i = 0; i < ROOM; i++)
        keys[i] = values[i] = BEFORE;
    OUT_OF_RANGE(fieldmap_check(LAYOUT, LIMITS, bytes, length));
    OUT_OF_RANGE(fieldmap_certify(LAYOUT, LIMITS, bytes, length));
    OUT_OF_RANGE(fieldmap_lookup(LAYOUT, LIMITS, bytes, length, 1, &one.number, &other.number));
    OUT_OF_RANGE(fieldmap_lookup_bytes(LAYOUT, LIMITS, bytes, length, 1, &one.number));
    for (size_t room = 0; room <= ROOM; room++) {
        OUT_OF_RANGE(fieldmap_lookup_many(LAYOUT, LIMITS, bytes, length, many, ROOM, values, room));
        OUT_OF_RANGE(fieldmap_walk(LAYOUT, LIMITS, bytes, length, keys, ROOM, values, room, &one.number));
        OUT_OF_RANGE(fieldmap_range(LAYOUT, LIMITS, bytes, length, FIELDMAP_INCLUDED, 1, FIELDMAP_UNBOUNDED, 0, keys, room, values, ROOM, &one.number));
    }
    for (uint8_t eye = 0; eye <= 2; eye++) {
        OUT_OF_RANGE(fieldmap_column(LAYOUT, LIMITS, bytes, length, FIELDMAP_TWOS_COMPLEMENT, 0, eye, 0, -1, keys, ROOM, values, ROOM, &one.number));
        OUT_OF_RANGE(fieldmap_column(LAYOUT, LIMITS, bytes, length, FIELDMAP_PLUS_128, 1 << 24, eye, -128, 127, keys, ROOM, values, ROOM, &one.number));
    }
    EXPECT(memcmp(&one, &fresh, sizeof fresh) == 0 && memcmp(&other, &fresh, sizeof fresh) == 0);
    for (size_t i = 0; i < ROOM; i++)
        EXPECT(keys[i] == BEFORE && values[i] == BEFORE);
}

/* Builds that would be taken, and those that 10 to 14 and 16 would refuse. */
static void builds(void)
{
    const uint64_t falling[2] = {2, 1};
    memset(out, 0xaa, sizeof out);
    OUT_OF_RANGE(fieldmap_build(LAYOUT, out, sizeof out, 0, many, 3, many, 3));
    OUT_OF_RANGE(fieldmap_build(LAYOUT, out, sizeof out, 0, many, 0, many, 0));
    OUT_OF_RANGE(fieldmap_build(LAYOUT, out, sizeof out, 0, many, 3, many, 2));
    OUT_OF_RANGE(fieldmap_build(LAYOUT, out, sizeof out, 0, many, FIELDMAP_MOST_ENTRIES + 1, many, FIELDMAP_MOST_ENTRIES + 1));
    OUT_OF_RANGE(fieldmap_build(LAYOUT, out, sizeof out, 0, falling, 2, falling, 2));
    OUT_OF_RANGE(fieldmap_build(LAYOUT, out, sizeof out, FIELDMAP_LONGEST_HEADER + 1, many, 3, many, 3));
    OUT_OF_RANGE(fieldmap_build(LAYOUT, NULL, 0, 0, NULL, 0, NULL, 0));
    OUT_OF_RANGE(fieldmap_build(LAYOUT, out, sizeof out, 0, many, FIELDMAP_MOST_ENTRIES, many, FIELDMAP_MOST_ENTRIES));
    for (size_t i = 0; i < sizeof out; i++)
        EXPECT(out[i] == 0xaa);

    OUT_OF_RANGE(fieldmap_build_length(LAYOUT, 3, 0));
    OUT_OF_RANGE(fieldmap_build_length(LAYOUT, FIELDMAP_MOST_ENTRIES + 1, 0));
    OUT_OF_RANGE(fieldmap_build_length(LAYOUT, 0, FIELDMAP_LONGEST_HEADER + 1));
    OUT_OF_RANGE(fieldmap_build_length(LAYOUT, SIZE_MAX, SIZE_MAX));
}

/* An archive of three entries that the common entries a node take, the same damaged, none, and one that is too long. */
static void refused(uint8_t bits, size_t in_node)
{
    width = bits;
    entries = FIELDMAP_COMMON_ENTRIES;
    memset(archive, 0, LEAF + 16);
    int64_t end = fieldmap_build(LAYOUT, archive, LEAF + 16, 0, many, 3, many, 3);
    EXPECT(end > 0 && fieldmap_certify(LAYOUT, LIMITS, archive, (size_t)end) == 3);
    entries = in_node;
    readers(archive, (size_t)end);
    archive[0] = 2;
    readers(archive, (size_t)end);
    readers(archive, (size_t)end - 1);
    readers(archive, TOO_LONG);
    readers(NULL, 0);
    builds();
}

int main(void)
{
    const uint8_t widths[5] = {FIELDMAP_WIDTH_16, FIELDMAP_WIDTH_32, FIELDMAP_WIDTH_64, 0, 255};
    const size_t outside[] = {0, 1, 2, 16, 17, 255, 256, 259, 261, (size_t)1 << 32, ((size_t)1 << 32) + 5, SIZE_MAX - 2, SIZE_MAX};
    for (size_t i = 0; i <= FIELDMAP_MOST_ENTRIES; i++)
        many[i] = i;
    for (size_t i = 0; i < 5; i++) {
        for (size_t j = 0; j < sizeof outside / sizeof outside[0]; j++)
            refused(widths[i], outside[j]);
        width = widths[i];
        for (entries = FIELDMAP_FEWEST_IN_NODE; entries <= FIELDMAP_MOST_IN_NODE; entries++)
            EXPECT(fieldmap_build_length(LAYOUT, 3, 0) > 0);
    }
    printf("every call refuses the entries a node outside 3 to 15\n");
    return 0;
}
