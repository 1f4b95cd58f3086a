/*
 * Holds every call that reads an archive, with limits that the caller names, against docs/FORMAT.md: how long the archive may be, how deep its nodes may be
 * nested, and which refusal comes first; by 16, 32 and 64 bits with 3, 5 and 15 entries a node. Prints a line and ends with 0, or names the first line that
 * does not hold and ends with 1. It compiles as C99 and as C++17.
 */
#include <string.h>

#include "expect.h"
#include "fieldmap.h"

/* One node more than the server lets nest. */
enum { ROOM = 220, KEYS = 8, NESTED = FIELDMAP_SERVER_DEPTH - 1 };

/* The layouts, with the bytes of an offset or a count, of a leaf and of an inner node. */
static const struct sizes {
    uint8_t width;
    size_t entries, number, leaf, inner;
} all[9] = {
    {FIELDMAP_WIDTH_16, 3, 2, 64, 64}, {FIELDMAP_WIDTH_16, 5, 2, 96, 104}, {FIELDMAP_WIDTH_16, 15, 2, 256, 280},
    {FIELDMAP_WIDTH_32, 3, 4, 64, 72}, {FIELDMAP_WIDTH_32, 5, 4, 96, 112}, {FIELDMAP_WIDTH_32, 15, 4, 256, 312},
    {FIELDMAP_WIDTH_64, 3, 8, 64, 88}, {FIELDMAP_WIDTH_64, 5, 8, 96, 136}, {FIELDMAP_WIDTH_64, 15, 8, 256, 376},
};
static const struct sizes *of;

static uint8_t archive[FIELDMAP_SERVER_LONGEST + 16];
static uint64_t keys[ROOM], values[ROOM];

static void put(size_t at, uint64_t bits, size_t bytes)
{
    memcpy(archive + at, &bits, bytes);
}

/* The bytes of the shortest archive of so many nested nodes. */
static size_t shortest(size_t nodes)
{
    return 2 * of->number + (nodes == 0 ? 0 : of->leaf + (nodes - 1) * of->inner);
}

/* A node with the next keys, each value ten times its key. An inner one leads to the node at `below` as its first child. */
static void put_node(size_t at, int inner, size_t below, size_t *count)
{
    size_t slots = inner ? of->entries : 1, fields = at + of->leaf - 8;
    archive[at] = (uint8_t)inner;
    for (size_t slot = 0; slot < slots; slot++) {
        ++*count;
        put(at + KEYS + 8 * slot, *count, 8);
        put(at + KEYS + 8 * (of->entries + slot), 10 * *count, 8);
    }
    if (!inner)
        put(fields, 1, of->number);
    for (size_t child = 0; inner && child <= of->entries; child++) {
        size_t field = fields + of->number * child;
        put(field, child == 0 ? below - field : 1, of->number);
    }
}

/* The archive of so many bytes that ends with so many nested nodes, a leaf of one entry below inner nodes, and the record. The number of its entries. */
static size_t nest(size_t nodes, size_t length)
{
    size_t record = length - 2 * of->number, at = (length - shortest(nodes)) / 8 * 8, root = record + 1, count = 0;
    memset(archive, 0, length);
    for (size_t i = 0; i < nodes; i++) {
        put_node(at, i > 0, root, &count);
        root = at;
        at += i > 0 ? of->inner : of->leaf;
    }
    put(record, root - record, of->number);
    put(record + of->number, count, of->number);
    return count;
}

static void clear_lists(void)
{
    for (size_t i = 0; i < ROOM; i++)
        keys[i] = values[i] = BEFORE;
}

/* The lists have the keys from 1 on, each with ten times itself, and the rest is as it was. */
static int holds_list(size_t count)
{
    for (size_t i = 0; i < ROOM; i++)
        if (keys[i] != (i < count ? i + 1 : BEFORE) || values[i] != (i < count ? 10 * (i + 1) : BEFORE))
            return 0;
    return 1;
}

/* Every call reads the archive of so many bytes: it has so many entries. */
static void passes(size_t length, size_t count)
{
    uint64_t value = BEFORE, position = BEFORE, start = BEFORE, number = BEFORE, sought[2] = {count, count + 1}, found[2] = {BEFORE, BEFORE};
    int64_t all_of_them = (int64_t)count, one = count > 0;
    EXPECT(fieldmap_check(LAYOUT, LIMITS, archive, length) == all_of_them);
    EXPECT(fieldmap_certify(LAYOUT, LIMITS, archive, length) == all_of_them);
    EXPECT(fieldmap_lookup(LAYOUT, LIMITS, archive, length, count, &value, &position) == one && value == (one ? 10 * count : BEFORE));
    EXPECT(fieldmap_lookup_bytes(LAYOUT, LIMITS, archive, length, count, &start) == 8 * one && start == position);
    EXPECT(fieldmap_lookup_many(LAYOUT, LIMITS, archive, length, sought, 2, found, 2) == one && found[0] == value && found[1] == BEFORE);
    clear_lists();
    EXPECT(fieldmap_walk(LAYOUT, LIMITS, archive, length, keys, ROOM, values, ROOM, &number) == all_of_them && number == count);
    EXPECT(holds_list(count));
    clear_lists();
    EXPECT(fieldmap_range(LAYOUT, LIMITS, archive, length, FIELDMAP_INCLUDED, 1, FIELDMAP_UNBOUNDED, 0, keys, ROOM, values, ROOM, &number) == all_of_them);
    EXPECT(holds_list(count) && number == count);
    clear_lists();
    EXPECT(fieldmap_column(LAYOUT, LIMITS, archive, length, FIELDMAP_PLUS_128, 0, 0, -128, 127, keys, ROOM, values, ROOM, &number) == all_of_them);
    EXPECT(holds_list(count) && number == count);
}

/* Every call refuses the archive of so many bytes by the same number, also one that would be refused by 18, and writes nothing. */
static void refused(size_t length, int why)
{
    struct stored one = fresh, other = fresh;
    const uint64_t sought[2] = {1, 2};
    clear_lists();
    REFUSED(fieldmap_check(LAYOUT, LIMITS, archive, length), why);
    REFUSED(fieldmap_certify(LAYOUT, LIMITS, archive, length), why);
    REFUSED(fieldmap_lookup(LAYOUT, LIMITS, archive, length, 1, &one.number, &other.number), why);
    REFUSED(fieldmap_lookup_bytes(LAYOUT, LIMITS, archive, length, 1, &one.number), why);
    REFUSED(fieldmap_lookup_many(LAYOUT, LIMITS, archive, length, sought, 2, values, ROOM), why);
    REFUSED(fieldmap_walk(LAYOUT, LIMITS, archive, length, keys, ROOM, values, ROOM, &one.number), why);
    REFUSED(fieldmap_range(LAYOUT, LIMITS, archive, length, FIELDMAP_UNBOUNDED, 0, FIELDMAP_UNBOUNDED, 0, keys, ROOM, values, ROOM, &one.number), why);
    for (uint8_t eye = 0; eye <= 2; eye++) {
        REFUSED(fieldmap_column(LAYOUT, LIMITS, archive, length, FIELDMAP_TWOS_COMPLEMENT, 0, eye, 0, -1, keys, ROOM, values, ROOM, &one.number), why);
        REFUSED(fieldmap_column(LAYOUT, LIMITS, archive, length, FIELDMAP_PLUS_128, 0, eye, -128, 127, keys, ROOM, values, ROOM, &one.number), why);
    }
    EXPECT(holds_list(0) && memcmp(&one, &fresh, sizeof fresh) == 0 && memcmp(&other, &fresh, sizeof fresh) == 0);
}

static void limit(size_t bytes, size_t levels)
{
    longest = bytes;
    depth = levels;
}

/* An archive as long as the limit passes, one that is a byte longer does not. A limit above the server's is the server's. */
static void lengths(void)
{
    const size_t tried[5] = {320, 1008, FIELDMAP_VIEWER_LONGEST, 65536, FIELDMAP_SERVER_LONGEST};
    const size_t above[5] = {FIELDMAP_SERVER_LONGEST, FIELDMAP_SERVER_LONGEST + 1, (size_t)1 << 31, (size_t)1 << 32, SIZE_MAX};
    for (size_t i = 0; i < 5; i++) {
        size_t count = nest(1, tried[i]);
        for (size_t more = 0; more <= 1; more++) {
            limit(tried[i] + more, FIELDMAP_SERVER_DEPTH);
            passes(tried[i], count);
        }
        limit(tried[i] - 1, FIELDMAP_SERVER_DEPTH);
        refused(tried[i], FIELDMAP_ARCHIVE_TOO_LONG);
        limit(0, FIELDMAP_SERVER_DEPTH);
        refused(tried[i], FIELDMAP_ARCHIVE_TOO_LONG);
        refused(0, FIELDMAP_INVALID_SUBTREE_POINTER);
    }
    for (size_t i = 0; i < 5; i++) {
        limit(above[i], FIELDMAP_SERVER_DEPTH);
        passes(FIELDMAP_SERVER_LONGEST, nest(1, FIELDMAP_SERVER_LONGEST));
        refused(FIELDMAP_SERVER_LONGEST + 1, FIELDMAP_ARCHIVE_TOO_LONG);
        nest(1, FIELDMAP_SERVER_LONGEST + 2 * of->number);
        refused(FIELDMAP_SERVER_LONGEST + 2 * of->number, FIELDMAP_ARCHIVE_TOO_LONG);
    }
}

/* With depth d up to d - 2 nested nodes pass, with 0 as many as with 1, and with one above the server's as many as with the server's. */
static void depths(void)
{
    const size_t above[4] = {256, (size_t)1 << 32, ((size_t)1 << 32) + 5, SIZE_MAX};
    for (size_t nodes = 0; nodes <= NESTED; nodes++) {
        size_t length = shortest(nodes), count = nest(nodes, length);
        for (size_t i = 0; i <= FIELDMAP_SERVER_DEPTH + 6; i++) {
            size_t named = i <= FIELDMAP_SERVER_DEPTH + 2 ? i : above[i - FIELDMAP_SERVER_DEPTH - 3];
            limit(FIELDMAP_SERVER_LONGEST, named);
            if (nodes + 2 <= named && nodes + 2 <= FIELDMAP_SERVER_DEPTH)
                passes(length, count);
            else
                refused(length, FIELDMAP_EXCEEDED_MAXIMUM_SUBTREE_DEPTH);
        }
    }
}

/* The viewer takes 4,096 bytes and three nested nodes, the server 1,048,576 bytes and 14. */
static void viewer_and_server(void)
{
    limit(FIELDMAP_VIEWER_LIMITS);
    passes(4096, nest(3, 4096));
    nest(3, 4096 + 2 * of->number);
    refused(4096 + 2 * of->number, FIELDMAP_ARCHIVE_TOO_LONG);
    nest(4, 4096);
    refused(4096, FIELDMAP_EXCEEDED_MAXIMUM_SUBTREE_DEPTH);
    limit(FIELDMAP_SERVER_LIMITS);
    passes(1048576, nest(14, 1048576));
    nest(14, 1048576 + 2 * of->number);
    refused(1048576 + 2 * of->number, FIELDMAP_ARCHIVE_TOO_LONG);
    nest(15, 1048576);
    refused(1048576, FIELDMAP_EXCEEDED_MAXIMUM_SUBTREE_DEPTH);
}

/* 24 comes first, then 1, and of the record 2 and 3 before 5. */
static void order_at_the_record(void)
{
    size_t record = 2 * of->number;
    memset(archive, 0, 2 * record);
    for (size_t length = 0; length <= 2 * record; length++) {
        int of_record = length % of->number > 0 ? FIELDMAP_UNALIGNED_POINTER : FIELDMAP_EXCEEDED_MAXIMUM_SUBTREE_DEPTH;
        int why = length < record ? FIELDMAP_INVALID_SUBTREE_POINTER : of_record;
        for (size_t levels = 0; levels <= 1; levels++) {
            limit(FIELDMAP_SERVER_LONGEST, levels);
            refused(length, why);
            limit(0, levels);
            refused(length, length > 0 ? FIELDMAP_ARCHIVE_TOO_LONG : FIELDMAP_INVALID_SUBTREE_POINTER);
            for (entries = FIELDMAP_FEWEST_IN_NODE - 1; entries <= FIELDMAP_MOST_IN_NODE + 1; entries += FIELDMAP_MOST_IN_NODE - 1)
                refused(length, FIELDMAP_ENTRIES_OUT_OF_RANGE);
            entries = of->entries;
        }
    }
}

/* The archive of one leaf is refused by 5 with depth 1, and by these with depths 2 and 3. */
static void by_depths(int by_2, int by_3)
{
    limit(FIELDMAP_SERVER_LONGEST, 1);
    refused(shortest(1), FIELDMAP_EXCEEDED_MAXIMUM_SUBTREE_DEPTH);
    limit(FIELDMAP_SERVER_LONGEST, 2);
    refused(shortest(1), by_2);
    limit(FIELDMAP_SERVER_LONGEST, 3);
    refused(shortest(1), by_3);
}

/* Of a node 2, 3 and 4 come before 5, and all else behind it. */
static void order_at_a_node(void)
{
    size_t length = shortest(1), record = of->leaf;
    nest(1, length);
    put(record, -(uint64_t)(of->leaf + 8), of->number);
    by_depths(FIELDMAP_INVALID_SUBTREE_POINTER, FIELDMAP_INVALID_SUBTREE_POINTER);
    put(record, 1 - (uint64_t)of->leaf, of->number);
    by_depths(FIELDMAP_UNALIGNED_POINTER, FIELDMAP_UNALIGNED_POINTER);
    nest(1, length);
    archive[0] = 2;
    by_depths(FIELDMAP_INVALID_KIND, FIELDMAP_INVALID_KIND);
    nest(1, length);
    put(of->leaf - 8, of->entries + 1, of->number);
    by_depths(FIELDMAP_EXCEEDED_MAXIMUM_SUBTREE_DEPTH, FIELDMAP_INVALID_LENGTH);
    nest(1, length);
    put(record + of->number, 2, of->number);
    by_depths(FIELDMAP_EXCEEDED_MAXIMUM_SUBTREE_DEPTH, FIELDMAP_ENTRIES_LENGTH_MISMATCH);
}

int main(void)
{
    for (of = all; of < all + 9; of++) {
        width = of->width;
        entries = of->entries;
        lengths();
        depths();
        viewer_and_server();
        order_at_the_record();
        order_at_a_node();
    }
    printf("every call that reads keeps to the limits\n");
    return 0;
}
