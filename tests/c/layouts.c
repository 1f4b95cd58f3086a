/*
 * Holds archives of each width with 3, 4, 5 and 15 entries a node against docs/FORMAT.md: their bytes, what becomes of one that is read by another width
 * or by other entries a node, and how many entries offsets of 16 bits take. Prints `every layout is as it should be` and ends with 0, or names the first
 * line that does not hold and ends with 1. It compiles as C99 and as C++17.
 */
#include <string.h>

#include "expect.h"
#include "fieldmap.h"

static uint64_t keys[FIELDMAP_MOST_ENTRIES];
static uint8_t out[FIELDMAP_SERVER_LONGEST];

/* The widths, each with the bytes of an offset or a count. */
static const struct bits {
    uint8_t width;
    size_t number;
} widths[3] = {{FIELDMAP_WIDTH_16, 2}, {FIELDMAP_WIDTH_32, 4}, {FIELDMAP_WIDTH_64, 8}};

/* The bytes with so many entries a node: of a leaf, and of an inner node by each width. */
static const struct sizes {
    size_t entries, leaf, inner[3];
} all[4] = {{3, 64, {64, 72, 88}}, {4, 80, {88, 96, 112}}, {5, 96, {104, 112, 136}}, {15, 256, {280, 312, 376}}};

/* The most entries of a build by 16 bits with 3 to 15 entries a node. */
static const size_t most_at_16[13] = {2556, 2224, 2970, 2070, 2282, 2512, 2808, 3160, 3575, 2028, 2067, 2100, 2145};

/* The signed number of so many bytes at a position of the output. */
static int64_t number_at(size_t at, size_t bytes)
{
    uint64_t bits = 0;
    for (size_t i = 0; i < bytes; i++)
        bits |= (uint64_t)out[at + i] << 8 * i;
    uint64_t sign = UINT64_C(1) << (8 * bytes - 1);
    return (int64_t)((bits ^ sign) - sign);
}

static int64_t build(size_t count, size_t header)
{
    return fieldmap_build(LAYOUT, out, sizeof out, header, keys, count, keys, count);
}

/* The same in an output of one byte throughout. */
static int64_t built(size_t count, size_t header)
{
    memset(out, 0xaa, sizeof out);
    return build(count, header);
}

/* Every byte of the output from one position up to another is the given one. */
static int all_bytes(size_t from, size_t to, uint8_t byte)
{
    while (from < to && out[from] == byte)
        from++;
    return from >= to;
}

/* One entry more than a leaf takes: one in a leaf, which is the first child of the inner node that has the others. */
static void bytes_of_two_nodes(size_t number, size_t leaf, size_t inner)
{
    size_t count = 8 + 16 * entries, field = leaf + count, record = leaf + inner, end = record + 2 * number;
    EXPECT(built(entries + 1, 0) == (int64_t)end);
    EXPECT(out[0] == 0 && out[leaf] == 1);
    EXPECT(number_at(count, number) == 1 && all_bytes(count + number, leaf, 0));
    EXPECT(number_at(field, number) == -(int64_t)field);
    for (size_t child = 1; child <= entries; child++)
        EXPECT(number_at(field + child * number, number) == 1);
    EXPECT(all_bytes(field + (entries + 1) * number, record, 0));
    EXPECT(number_at(record, number) == -(int64_t)inner && number_at(record + number, number) == (int64_t)entries + 1);
    EXPECT(all_bytes(end, sizeof out, 0xaa));
}

/* No entries: a record alone, on its alignment, which is the size of its offset, whatever the entries a node. */
static void bytes_of_none(size_t number)
{
    size_t record = (5 + number - 1) / number * number, end = record + 2 * number;
    for (entries = FIELDMAP_FEWEST_IN_NODE; entries <= FIELDMAP_MOST_IN_NODE; entries++) {
        EXPECT(built(0, 5) == (int64_t)end && fieldmap_build_length(LAYOUT, 0, 5) == (int64_t)end);
        EXPECT(all_bytes(0, 5, 0xaa) && all_bytes(5, record, 0) && all_bytes(end, sizeof out, 0xaa));
        EXPECT(number_at(record, number) == 1 && number_at(record + number, number) == 0);
        EXPECT(fieldmap_certify(LAYOUT, LIMITS, out, end) == 0);
    }
}

/*
 * Read by a width above its own an archive with entries is refused, by one below it is one without entries. In one of 16 bits no record of 64 bits
 * could stand at a multiple of 8.
 */
static void by_another_width(size_t own)
{
    for (size_t count = 1; count <= 1000; count++) {
        width = widths[own].width;
        size_t end = (size_t)build(count, 0);
        for (size_t i = 0; i < 3; i++) {
            width = widths[i].width;
            int64_t refused = i == own + 2 ? -FIELDMAP_UNALIGNED_POINTER : -FIELDMAP_INVALID_SUBTREE_POINTER;
            EXPECT(fieldmap_certify(LAYOUT, LIMITS, out, end) == (i == own ? (int64_t)count : i < own ? 0 : refused));
        }
    }
}

/* Read by more entries a node than its own, an archive with entries is refused. */
static void by_more_entries(size_t own)
{
    for (size_t count = 1; count <= 300; count++) {
        entries = own;
        size_t end = (size_t)build(count, 0);
        EXPECT(fieldmap_certify(LAYOUT, LIMITS, out, end) == (int64_t)count);
        for (entries = own + 1; entries <= FIELDMAP_MOST_IN_NODE; entries++)
            REFUSED(fieldmap_check(LAYOUT, LIMITS, out, end), FIELDMAP_INVALID_SUBTREE_POINTER);
    }
}

/*
 * Read by fewer it is refused or passes, which its values decide. In a leaf of `own` entries the value numbered 2 * fewer - own stands where a leaf of
 * fewer has its count. Where it is the number of the entries the archive is certified, and its values are taken from elsewhere.
 */
static void by_fewer_entries(size_t own, size_t fewer)
{
    uint64_t values[FIELDMAP_MOST_IN_NODE] = {0}, found[FIELDMAP_MOST_IN_NODE], theirs[FIELDMAP_MOST_IN_NODE], recorded;
    size_t place = 2 * fewer - own, count = place + 1;
    for (uint64_t value = 0; value <= fewer + 1; value++) {
        values[place] = value;
        entries = own;
        int64_t end = fieldmap_build(LAYOUT, out, sizeof out, 0, keys, count, values, count);
        EXPECT(end > 0);
        entries = fewer;
        int64_t refused = value > fewer ? -FIELDMAP_INVALID_LENGTH : -FIELDMAP_ENTRIES_LENGTH_MISMATCH;
        EXPECT(fieldmap_certify(LAYOUT, LIMITS, out, (size_t)end) == (value == count ? (int64_t)count : refused));
        if (value == count) {
            EXPECT(fieldmap_walk(LAYOUT, LIMITS, out, (size_t)end, found, count, theirs, count, &recorded) == (int64_t)count);
            EXPECT(memcmp(found, keys, count * sizeof *keys) == 0 && theirs[place] == 0);
        }
    }
}

/* How many entries offsets of 16 bits take. */
static void most_by_16_bits(size_t most)
{
    int64_t end = built(most, 0);
    EXPECT(end > 0 && fieldmap_build_length(LAYOUT, most, 0) == end && fieldmap_certify(LAYOUT, LIMITS, out, (size_t)end) == (int64_t)most);
    for (size_t count = most + 1; count <= FIELDMAP_MOST_ENTRIES; count += 1 + count / 100)
        REFUSED(fieldmap_build_length(LAYOUT, count, 0), FIELDMAP_OFFSET_OVERFLOW);
    REFUSED(built(most + 1, FIELDMAP_LONGEST_HEADER), FIELDMAP_OFFSET_OVERFLOW);
    REFUSED(built(FIELDMAP_MOST_ENTRIES, 0), FIELDMAP_OFFSET_OVERFLOW);
    EXPECT(all_bytes(0, sizeof out, 0xaa));
}

/* The other refusals come before 16. */
static void refusals_before_16(size_t more)
{
    static uint64_t falling[FIELDMAP_MOST_ENTRIES];
    for (size_t i = 0; i < more; i++)
        falling[i] = more - i;
    memset(out, 0xaa, sizeof out);
    for (size_t count = more; count <= FIELDMAP_MOST_ENTRIES; count++)
        REFUSED(fieldmap_build_length(LAYOUT, count, 0), FIELDMAP_OFFSET_OVERFLOW);
    REFUSED(fieldmap_build(LAYOUT, out, sizeof out, 0, keys, more, keys, 1), FIELDMAP_ITERATOR_LENGTH_MISMATCH);
    REFUSED(fieldmap_build(LAYOUT, out, sizeof out, 0, falling, more, keys, more), FIELDMAP_GIVEN_KEYS_NOT_ASCENDING);
    REFUSED(built(more, FIELDMAP_LONGEST_HEADER + 1), FIELDMAP_HEADER_TOO_LONG);
    REFUSED(fieldmap_build_length(LAYOUT, more, FIELDMAP_LONGEST_HEADER + 1), FIELDMAP_HEADER_TOO_LONG);
    REFUSED(fieldmap_build_length(LAYOUT, FIELDMAP_MOST_ENTRIES + 1, 0), FIELDMAP_TOO_MANY_ENTRIES);
    REFUSED(fieldmap_build(LAYOUT, out, 57915, 0, keys, more, keys, more), FIELDMAP_OUTPUT_TOO_SHORT);
    REFUSED(fieldmap_build(LAYOUT, out, 57916, 0, keys, more, keys, more), FIELDMAP_OFFSET_OVERFLOW);
    EXPECT(all_bytes(0, sizeof out, 0xaa));
}

/* The largest build by 32 and 64 bits. */
static void largest(uint8_t bits, size_t in_node, int64_t length)
{
    width = bits;
    entries = in_node;
    EXPECT(built(FIELDMAP_MOST_ENTRIES, 0) == length && fieldmap_build_length(LAYOUT, FIELDMAP_MOST_ENTRIES, 0) == length);
    EXPECT(fieldmap_certify(LAYOUT, LIMITS, out, (size_t)length) == FIELDMAP_MOST_ENTRIES);
}

/* Of the most entries behind the longest header no layout makes a longer archive than 64 bits with 3 entries a node. */
static void longest_of_all(void)
{
    for (entries = FIELDMAP_FEWEST_IN_NODE; entries <= FIELDMAP_MOST_IN_NODE; entries++) {
        for (width = FIELDMAP_WIDTH_32; width <= FIELDMAP_WIDTH_64; width = (uint8_t)(2 * width)) {
            int64_t end = fieldmap_build_length(LAYOUT, FIELDMAP_MOST_ENTRIES, FIELDMAP_LONGEST_HEADER);
            EXPECT(end > 0 && (width == FIELDMAP_WIDTH_64 && entries == 3 ? end == 937504 : end < 937504));
        }
    }
}

static void by_width(size_t i)
{
    width = widths[i].width;
    bytes_of_none(widths[i].number);
    for (const struct sizes *of = all; of < all + 4; of++) {
        width = widths[i].width;
        entries = of->entries;
        bytes_of_two_nodes(widths[i].number, of->leaf, of->inner[i]);
        by_another_width(i);
    }
    width = widths[i].width;
    for (size_t own = FIELDMAP_FEWEST_IN_NODE; own <= FIELDMAP_MOST_IN_NODE; own++) {
        by_more_entries(own);
        for (size_t fewer = (own + 1) / 2; fewer < own; fewer++)
            if (fewer >= FIELDMAP_FEWEST_IN_NODE)
                by_fewer_entries(own, fewer);
    }
}

int main(void)
{
    for (size_t i = 0; i < FIELDMAP_MOST_ENTRIES; i++)
        keys[i] = i;
    for (size_t i = 0; i < 3; i++)
        by_width(i);
    width = FIELDMAP_WIDTH_16;
    for (entries = FIELDMAP_FEWEST_IN_NODE; entries <= FIELDMAP_MOST_IN_NODE; entries++)
        most_by_16_bits(most_at_16[entries - FIELDMAP_FEWEST_IN_NODE]);
    entries = FIELDMAP_COMMON_ENTRIES;
    refusals_before_16(2971);
    largest(FIELDMAP_WIDTH_32, 3, 880056);
    largest(FIELDMAP_WIDTH_64, 3, 933408);
    largest(FIELDMAP_WIDTH_32, 5, 789352);
    largest(FIELDMAP_WIDTH_64, 5, 821376);
    largest(FIELDMAP_WIDTH_32, 15, 692112);
    largest(FIELDMAP_WIDTH_64, 15, 702808);
    longest_of_all();
    printf("every layout is as it should be\n");
    return 0;
}
