/*
 * Uses every call of fieldmap.h that takes a layout and holds what it gives against docs/FORMAT.md, with each number from 0 to 255 for a width, with 3,
 * 4, 5 and 15 entries a node, and with the limits of the viewer and of the server. Prints a line and ends with 0, or names the first line that does not
 * hold and ends with 1. It compiles as C99 and as C++17.
 */
#include <string.h>

#include "expect.h"
#include "fieldmap.h"

enum { COUNT = 36, ROOM = 40, MOST_BYTES = 904, MOST_IN_LEAF = 256 };

static uint64_t keys[ROOM], values[ROOM];

/* By the layout: the bytes of a record, a leaf, and the archive of the keys 1 to 36. A record that starts at position 1 is misaligned by each. */
static size_t record, leaf, length;

#define MISALIGNED (record + 1)

static void clear_lists(void)
{
    for (size_t i = 0; i < ROOM; i++)
        keys[i] = values[i] = BEFORE;
}

/* The first n keys are those from `first` on in steps of 1, each value is ten times its key, and the rest is as it was. */
static int holds_list(size_t n, uint64_t first)
{
    for (size_t i = 0; i < ROOM; i++) {
        uint64_t key = i < n ? first + i : BEFORE;
        if (keys[i] != key || values[i] != (i < n ? 10 * key : BEFORE))
            return 0;
    }
    return 1;
}

/* The archive of the keys 1 to 36. */
static void build(uint8_t *archive, size_t room)
{
    uint64_t given_keys[COUNT], given_values[COUNT];
    const uint64_t falling[2] = {2, 1};
    for (size_t i = 0; i < COUNT; i++) {
        given_keys[i] = i + 1;
        given_values[i] = 10 * (i + 1);
    }
    uint8_t first = archive[0];
    REFUSED(fieldmap_build(LAYOUT, archive, room, 0, given_keys, COUNT, given_values, COUNT - 1), FIELDMAP_ITERATOR_LENGTH_MISMATCH);
    REFUSED(fieldmap_build(LAYOUT, archive, room, 0, falling, 2, falling, 2), FIELDMAP_GIVEN_KEYS_NOT_ASCENDING);
    REFUSED(fieldmap_build(LAYOUT, archive, room, FIELDMAP_LONGEST_HEADER + 1, given_keys, 1, given_values, 1), FIELDMAP_HEADER_TOO_LONG);
    REFUSED(fieldmap_build(LAYOUT, archive, length - 1, 0, given_keys, COUNT, given_values, COUNT), FIELDMAP_OUTPUT_TOO_SHORT);
    EXPECT(archive[0] == first);
    EXPECT(fieldmap_build(LAYOUT, archive, room, 0, given_keys, COUNT, given_values, COUNT) == (int64_t)length);
    EXPECT(archive[length] == 0xaa);
}

static void lengths(void)
{
    int64_t most = fieldmap_build_length(LAYOUT, FIELDMAP_MOST_ENTRIES, FIELDMAP_LONGEST_HEADER);
    EXPECT(fieldmap_build_length(LAYOUT, 0, 0) == (int64_t)record && fieldmap_build_length(LAYOUT, COUNT, 0) == (int64_t)length);
    EXPECT(fieldmap_build_length(LAYOUT, 1, 5) == (int64_t)(8 + leaf + record));
    EXPECT(width == FIELDMAP_WIDTH_16 ? most == -FIELDMAP_OFFSET_OVERFLOW : most > 0 && most <= FIELDMAP_SERVER_LONGEST);
    REFUSED(fieldmap_build_length(LAYOUT, FIELDMAP_MOST_ENTRIES + 1, 0), FIELDMAP_TOO_MANY_ENTRIES);
    REFUSED(fieldmap_build_length(LAYOUT, SIZE_MAX, SIZE_MAX), FIELDMAP_TOO_MANY_ENTRIES);
    REFUSED(fieldmap_build_length(LAYOUT, 0, FIELDMAP_LONGEST_HEADER + 1), FIELDMAP_HEADER_TOO_LONG);
    REFUSED(fieldmap_build_length(LAYOUT, 0, SIZE_MAX), FIELDMAP_HEADER_TOO_LONG);
}

static void read_one(const uint8_t *archive)
{
    struct stored value = fresh, position = fresh, start = fresh;
    EXPECT(fieldmap_check(LAYOUT, LIMITS, archive, length) == COUNT);
    EXPECT(fieldmap_certify(LAYOUT, LIMITS, archive, length) == COUNT);
    REFUSED(fieldmap_check(LAYOUT, LIMITS, archive, record - 1), FIELDMAP_INVALID_SUBTREE_POINTER);
    REFUSED(fieldmap_certify(LAYOUT, LIMITS, archive, record - 1), FIELDMAP_INVALID_SUBTREE_POINTER);
    EXPECT(fieldmap_lookup(LAYOUT, LIMITS, archive, length, 37, &value.number, &position.number) == 0);
    REFUSED(fieldmap_lookup(LAYOUT, LIMITS, archive, MISALIGNED, 36, &value.number, &position.number), FIELDMAP_UNALIGNED_POINTER);
    EXPECT(value.number == BEFORE && position.number == BEFORE);
    EXPECT(fieldmap_lookup(LAYOUT, LIMITS, archive, length, 36, &value.number, &position.number) == 1);
    EXPECT(value.number == 360 && memcmp(archive + position.number, &value.number, 8) == 0);
    EXPECT(kept(&value) && kept(&position));

    EXPECT(fieldmap_lookup_bytes(LAYOUT, LIMITS, archive, length, 37, &start.number) == 0);
    REFUSED(fieldmap_lookup_bytes(LAYOUT, LIMITS, archive, MISALIGNED, 36, &start.number), FIELDMAP_UNALIGNED_POINTER);
    EXPECT(start.number == BEFORE);
    EXPECT(fieldmap_lookup_bytes(LAYOUT, LIMITS, archive, length, 36, &start.number) == 8 && start.number == position.number);
    EXPECT(kept(&start));
}

static void read_lists(const uint8_t *archive)
{
    struct stored number = fresh;
    uint64_t sought[3] = {36, 0, 5};
    clear_lists();
    REFUSED(fieldmap_lookup_many(LAYOUT, LIMITS, archive, MISALIGNED, sought, 3, values, ROOM), FIELDMAP_UNALIGNED_POINTER);
    EXPECT(fieldmap_lookup_many(LAYOUT, LIMITS, archive, length, sought, 3, values, ROOM) == 2);
    EXPECT(values[0] == 360 && values[1] == BEFORE && values[2] == 50 && values[3] == BEFORE);

    clear_lists();
    REFUSED(fieldmap_walk(LAYOUT, LIMITS, archive, MISALIGNED, keys, ROOM, values, ROOM, &number.number), FIELDMAP_UNALIGNED_POINTER);
    EXPECT(holds_list(0, 0) && number.number == BEFORE);
    EXPECT(fieldmap_walk(LAYOUT, LIMITS, archive, length, keys, 3, values, ROOM, &number.number) == 3);
    EXPECT(holds_list(3, 1) && number.number == COUNT);

    clear_lists();
    REFUSED(fieldmap_range(LAYOUT, LIMITS, archive, MISALIGNED, FIELDMAP_EXCLUDED, 3, FIELDMAP_INCLUDED, 7, keys, ROOM, values, ROOM, &number.number),
            FIELDMAP_UNALIGNED_POINTER);
    EXPECT(fieldmap_range(LAYOUT, LIMITS, archive, length, FIELDMAP_EXCLUDED, 3, FIELDMAP_INCLUDED, 7, keys, ROOM, values, ROOM, &number.number) == 4);
    EXPECT(holds_list(4, 4) && number.number == 4);
    clear_lists();
    EXPECT(fieldmap_range(LAYOUT, LIMITS, archive, length, FIELDMAP_UNBOUNDED, 0, FIELDMAP_EXCLUDED, 30, keys, 2, values, 1, &number.number) == 1);
    EXPECT(holds_list(1, 1) && number.number == 29);
    EXPECT(fieldmap_range(LAYOUT, LIMITS, archive, length, 255, 9, 3, 0, keys, ROOM, values, ROOM, &number.number) == COUNT);
    EXPECT(holds_list(COUNT, 1) && number.number == COUNT && kept(&number));
}

/* A column query of three points: from a to b it gives n of them, in the order of their keys, from the first on. */
struct query {
    int8_t a, b;
    size_t first, n;
};

/* Points at three x, which are in the order of their keys, and the queries of them. */
static const int8_t old_x[3] = {0, 1, -1}, new_x[3] = {-1, 0, 1};
static const struct query old_queries[5] = {{-1, -1, 2, 1}, {-1, 1, 0, 0}, {1, -1, 1, 2}, {0, -1, 0, 3}, {0, 1, 0, 2}};
static const struct query new_queries[8] = {{-1, -1, 0, 1}, {-1, 1, 0, 3},  {-128, 127, 0, 3}, {-128, 0, 0, 2},
                                            {0, 127, 1, 2}, {1, -1, 0, 0}, {0, -1, 0, 0},     {127, -128, 0, 0}};

static void read_columns(uint8_t packing, const int8_t *x, const struct query *queries, size_t number)
{
    uint8_t archive[MOST_IN_LEAF + 16];
    size_t end = leaf + record;
    uint64_t points[3];
    struct stored matching = fresh;
    for (size_t i = 0; i < 3; i++)
        EXPECT(fieldmap_pack(packing, 4, 1, x[i], -5, 6, &points[i]) == 0);
    EXPECT(fieldmap_build(LAYOUT, archive, end, 0, points, 3, points, 3) == (int64_t)end);
    REFUSED(fieldmap_column(LAYOUT, LIMITS, archive, end, packing, 4, 2, 0, 1, NULL, 0, NULL, 0, &matching.number), FIELDMAP_KEY_FIELD_OVERFLOW);
    REFUSED(fieldmap_column(LAYOUT, LIMITS, archive, end, packing, 1 << 24, 1, 0, 1, NULL, 0, NULL, 0, &matching.number), FIELDMAP_KEY_FIELD_OVERFLOW);
    REFUSED(fieldmap_column(LAYOUT, LIMITS, archive, MISALIGNED, packing, 4, 2, 0, 1, NULL, 0, NULL, 0, &matching.number), FIELDMAP_UNALIGNED_POINTER);
    EXPECT(matching.number == BEFORE);
    for (const struct query *q = queries; q < queries + number; q++) {
        uint64_t found[3] = {BEFORE, BEFORE, BEFORE}, theirs[3] = {BEFORE, BEFORE, BEFORE};
        EXPECT(fieldmap_column(LAYOUT, LIMITS, archive, end, packing, 4, 1, q->a, q->b, found, 3, theirs, 3, &matching.number) == (int64_t)q->n);
        EXPECT(matching.number == q->n && kept(&matching));
        for (size_t i = 0; i < 3; i++)
            EXPECT(found[i] == (i < q->n ? points[q->first + i] : BEFORE) && theirs[i] == found[i]);
    }
}

/* Every list of every call, empty and passed as a null pointer. */
static void null_lists(const uint8_t *archive)
{
    uint64_t one = 1, n = BEFORE;
    uint8_t out[16];
    REFUSED(fieldmap_check(LAYOUT, LIMITS, NULL, 0), FIELDMAP_INVALID_SUBTREE_POINTER);
    REFUSED(fieldmap_certify(LAYOUT, LIMITS, NULL, 0), FIELDMAP_INVALID_SUBTREE_POINTER);
    REFUSED(fieldmap_lookup(LAYOUT, LIMITS, NULL, 0, 1, &one, &n), FIELDMAP_INVALID_SUBTREE_POINTER);
    REFUSED(fieldmap_lookup_bytes(LAYOUT, LIMITS, NULL, 0, 1, &n), FIELDMAP_INVALID_SUBTREE_POINTER);
    REFUSED(fieldmap_lookup_many(LAYOUT, LIMITS, NULL, 0, NULL, 0, NULL, 0), FIELDMAP_INVALID_SUBTREE_POINTER);
    REFUSED(fieldmap_walk(LAYOUT, LIMITS, NULL, 0, NULL, 0, NULL, 0, &n), FIELDMAP_INVALID_SUBTREE_POINTER);
    REFUSED(fieldmap_range(LAYOUT, LIMITS, NULL, 0, 2, 0, 2, 0, NULL, 0, NULL, 0, &n), FIELDMAP_INVALID_SUBTREE_POINTER);
    REFUSED(fieldmap_column(LAYOUT, LIMITS, NULL, 0, 0, 0, 0, 0, 0, NULL, 0, NULL, 0, &n), FIELDMAP_INVALID_SUBTREE_POINTER);
    EXPECT(one == 1 && n == BEFORE);

    clear_lists();
    EXPECT(fieldmap_lookup_many(LAYOUT, LIMITS, archive, length, NULL, 0, NULL, 0) == 0);
    EXPECT(fieldmap_lookup_many(LAYOUT, LIMITS, archive, length, &one, 1, NULL, 0) == 0);
    EXPECT(fieldmap_lookup_many(LAYOUT, LIMITS, archive, length, NULL, 0, values, ROOM) == 0);
    EXPECT(fieldmap_walk(LAYOUT, LIMITS, archive, length, NULL, 0, NULL, 0, &n) == 0 && n == COUNT);
    EXPECT(fieldmap_walk(LAYOUT, LIMITS, archive, length, keys, ROOM, NULL, 0, &n) == 0 && n == COUNT);
    EXPECT(fieldmap_walk(LAYOUT, LIMITS, archive, length, NULL, 0, values, ROOM, &n) == 0 && n == COUNT);
    EXPECT(fieldmap_range(LAYOUT, LIMITS, archive, length, FIELDMAP_INCLUDED, 1, FIELDMAP_INCLUDED, 5, NULL, 0, NULL, 0, &n) == 0 && n == 5);
    EXPECT(fieldmap_range(LAYOUT, LIMITS, archive, length, FIELDMAP_INCLUDED, 1, FIELDMAP_INCLUDED, 6, keys, ROOM, NULL, 0, &n) == 0 && n == 6);
    EXPECT(fieldmap_range(LAYOUT, LIMITS, archive, length, FIELDMAP_INCLUDED, 1, FIELDMAP_INCLUDED, 7, NULL, 0, values, ROOM, &n) == 0 && n == 7);
    EXPECT(fieldmap_column(LAYOUT, LIMITS, archive, length, 0, 0, 0, 0, 0, NULL, 0, NULL, 0, &n) == 0 && n == COUNT);
    EXPECT(fieldmap_column(LAYOUT, LIMITS, archive, length, 0, 0, 0, 0, 0, keys, ROOM, NULL, 0, &n) == 0 && n == COUNT);
    EXPECT(fieldmap_column(LAYOUT, LIMITS, archive, length, 1, 0, 0, -128, 0, NULL, 0, values, ROOM, &n) == 0 && n == COUNT);
    EXPECT(holds_list(0, 0));

    REFUSED(fieldmap_build(LAYOUT, NULL, 0, 0, NULL, 0, NULL, 0), FIELDMAP_OUTPUT_TOO_SHORT);
    REFUSED(fieldmap_build(LAYOUT, out, record, 0, &one, 1, NULL, 0), FIELDMAP_ITERATOR_LENGTH_MISMATCH);
    REFUSED(fieldmap_build(LAYOUT, out, record, 0, NULL, 0, &one, 1), FIELDMAP_ITERATOR_LENGTH_MISMATCH);
    EXPECT(fieldmap_build(LAYOUT, out, record, 0, NULL, 0, NULL, 0) == (int64_t)record && fieldmap_certify(LAYOUT, LIMITS, out, record) == 0);
}

/* The sizes with so many entries a node: of an inner node by 16, 32 and 64 bits, and how many nodes 36 entries take. */
static const struct sizes {
    size_t entries, leaf, inner[3], leaves, inners;
} all[4] = {{3, 64, {64, 72, 88}, 9, 3}, {4, 80, {88, 96, 112}, 7, 2}, {5, 96, {104, 112, 136}, 6, 2}, {15, 256, {280, 312, 376}, 2, 1}};

/* The calls that take a layout. Any number but 16 and 64 is a width of 32 bits. The viewer takes all archives that are read here. */
static void archives(uint8_t number, const struct sizes *of)
{
    static uint8_t archive[MOST_BYTES + 8];
    const uint8_t plus_128[3] = {FIELDMAP_PLUS_128, 2, 255};
    size_t index = number == FIELDMAP_WIDTH_16 ? 0 : number == FIELDMAP_WIDTH_64 ? 2 : 1;
    width = number;
    entries = of->entries;
    record = (size_t)4 << index;
    leaf = of->leaf;
    length = of->leaves * leaf + of->inners * of->inner[index] + record;
    memset(archive, 0xaa, sizeof archive);
    build(archive, sizeof archive);
    lengths();
    read_one(archive);
    read_lists(archive);
    null_lists(archive);
    read_columns(FIELDMAP_TWOS_COMPLEMENT, old_x, old_queries, 5);
    for (size_t i = 0; i < 3; i++)
        read_columns(plus_128[i], new_x, new_queries, 8);
}

int main(void)
{
    const size_t limits[2][2] = {{FIELDMAP_VIEWER_LIMITS}, {FIELDMAP_SERVER_LIMITS}};
    for (int number = 0; number <= 255; number++)
        for (size_t i = 0; i < 8; i++) {
            longest = limits[i % 2][0];
            depth = limits[i % 2][1];
            archives((uint8_t)number, &all[i / 2]);
        }
    printf("every call that takes a layout answers as it should\n");
    return 0;
}
