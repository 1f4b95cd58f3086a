/*
 * The archived field map: rkyv 0.8.18's B-tree map with 64-bit keys and values, as proved code.
 *
 * The functions are those of the static library libexports.a, for x86-64 Linux. They call nothing but memcpy and memset, keep no state and
 * allocate nothing, so any number of threads may call them at once. docs/USING.md shows how to link it from C, C++, Python and Rust.
 *
 * What a function answers. A number from 0 on, or, where it refuses, minus the refusal's number, -1 to -18 and -24: a negative answer is a refusal,
 * and stays one if it is cut to an int. What the answer has no room for is stored through the pointers that come last. A refused call writes
 * nothing.
 *
 * How arguments pass. A list passes as a pointer to its first element and the number of its elements. Where that number is 0 the pointer is not
 * followed and may be null. A number that a function stores passes as a pointer to it, which must not be null. No two of the pointers of a call
 * may lead to the same memory, unless both are only read. The pointers to 64-bit numbers must be aligned to 8; an archive may stand at any
 * address. No other demand is made on what is passed: any bytes, lists, positions and lengths get an answer.
 */
#ifndef FIELDMAP_H
#define FIELDMAP_H

#include <stddef.h>
#include <stdint.h>

#ifdef __cplusplus
extern "C" {
#endif

/* The version of these declarations. */
#define FIELDMAP_VERSION_MAJOR 0
#define FIELDMAP_VERSION_MINOR 6
#define FIELDMAP_VERSION_PATCH 0
#define FIELDMAP_VERSION "0.6.0"

/* What is the same for every caller and by every layout. */
#define FIELDMAP_FEWEST_IN_NODE 3    /* the entries a node that a layout can have, at least */
#define FIELDMAP_MOST_IN_NODE 15     /* and at most */
#define FIELDMAP_MOST_ENTRIES 40000  /* entries of a build */
#define FIELDMAP_LONGEST_HEADER 4096 /* bytes in front of a built archive */

/* Where the compiler can, it warns of an answer, which may be a refusal, that is not looked at. */
#if defined(__GNUC__) || defined(__clang__)
#define FIELDMAP_MUST_USE __attribute__((warn_unused_result))
#else
#define FIELDMAP_MUST_USE
#endif

/* The refusals, in checking order, but for 24, which comes before every other. */
enum {
    FIELDMAP_ARCHIVE_TOO_LONG = 1,                /* the archive is longer than the limit */
    FIELDMAP_INVALID_SUBTREE_POINTER = 2,         /* the record or a node leaves its range */
    FIELDMAP_UNALIGNED_POINTER = 3,               /* the record or a node is not on its alignment */
    FIELDMAP_INVALID_KIND = 4,                    /* a node's kind byte is neither 0 nor 1 */
    FIELDMAP_EXCEEDED_MAXIMUM_SUBTREE_DEPTH = 5,  /* more nodes are nested than the depth limit allows */
    FIELDMAP_INVALID_LENGTH = 6,                  /* a leaf's count is above the layout's entries a node */
    FIELDMAP_ENTRIES_LENGTH_MISMATCH = 7,         /* the entries differ from the recorded count */
    FIELDMAP_HOLLOW_NODE = 8,                     /* a leaf is empty or an inner node has no first child */
    FIELDMAP_KEYS_NOT_ASCENDING = 9,              /* a key is not above the one before */
    FIELDMAP_ITERATOR_LENGTH_MISMATCH = 10,       /* build: there are not as many values as keys */
    FIELDMAP_TOO_MANY_ENTRIES = 11,               /* build: more than 40,000 entries */
    FIELDMAP_GIVEN_KEYS_NOT_ASCENDING = 12,       /* build: the keys do not strictly ascend */
    FIELDMAP_HEADER_TOO_LONG = 13,                /* build: the header is longer than 4,096 bytes */
    FIELDMAP_OUTPUT_TOO_SHORT = 14,               /* build: header, padding and archive are longer than the output */
    FIELDMAP_ISIZE_OVERFLOW = 15,                 /* a distance does not fit 64 bits signed */
    FIELDMAP_OFFSET_OVERFLOW = 16,                /* an offset does not fit its width, of 16 or 32 bits signed */
    FIELDMAP_INVALID_ALIGNMENT = 17,              /* not 1, 2, 4, 8, 16 or 32, or the next position is too large */
    FIELDMAP_KEY_FIELD_OVERFLOW = 18,             /* an examination, an eye or a presentation does not fit its field */
    FIELDMAP_ENTRIES_OUT_OF_RANGE = 24            /* the layout's entries a node are not 3 to 15 */
};

/*
 * The layouts. A layout is a width, the bits of each offset and of each count, and the entries a node. An archive does not say which layout it
 * has, so the caller names it, and each call that builds, checks or reads takes width and entries first. rkyv has 32 bits at its defaults, the
 * other widths with its features pointer_width_16 and pointer_width_64; the entries a node are the E of its ArchivedBTreeMap, by default 5.
 *
 * The entries a node, e, may be any of 3 to 15. A call with another number is refused by 24 before every other refusal, whatever else it is
 * given. The sizes in bytes, a number of the width having p bytes, which are 2, 4 or 8:
 *
 *   record                    2p, at a multiple of p
 *   leaf                      16 + 16e, at a multiple of 8
 *   inner node                8 + 16e + p(e + 1), rounded up to a multiple of 8; at a multiple of 8
 *
 * Reading by another width. What fieldmap_build writes of one entry or more is refused by a width above its own. By one below it passes, also
 * certification, as an archive without entries: the upper bits of its count are then read as the whole count. So where the width is not known,
 * a count of 0 says nothing.
 *
 * Reading by other entries a node. What fieldmap_build writes of one entry or more is refused by more entries a node than its own (2). By fewer
 * it is refused or passes, which its values decide; where it passes, also certification, it can show values that it does not have. Of no entries
 * the archive is the same by all.
 */
enum {
    FIELDMAP_WIDTH_16 = 16,
    FIELDMAP_WIDTH_32 = 32, /* any number other than 16 and 64 means the same */
    FIELDMAP_WIDTH_64 = 64
};

/* The layout that rkyv has at its defaults. As FIELDMAP_COMMON_LAYOUT it passes as both arguments. */
#define FIELDMAP_COMMON_WIDTH FIELDMAP_WIDTH_32
#define FIELDMAP_COMMON_ENTRIES 5
#define FIELDMAP_COMMON_LAYOUT FIELDMAP_COMMON_WIDTH, FIELDMAP_COMMON_ENTRIES

/*
 * The limits. Each call that reads an archive takes two numbers behind the layout, by which the caller says how much it reads:
 *
 *   longest                   the bytes of an archive at most; a longer one is refused by 1
 *   depth                     the depth that the check starts with, which counts the record too: with depth d up to d - 2 nested nodes pass,
 *                             and one more is refused by 5
 *
 * The viewer takes 4,096 bytes and depth 5, so three nested nodes; the server 1,048,576 bytes and depth 16, so 14 nested nodes. Any two numbers
 * may be named. Each that is above the server's counts as the server's. A depth of 0 counts as 1, by which the record itself is too deep: what
 * is not refused by 24, 1, 2 or 3 is refused by 5, also an archive without entries.
 *
 * The limits decide what is refused by 1 and 5, and nothing else: two callers to whom a call gives neither get the same answer.
 */
#define FIELDMAP_VIEWER_LONGEST 4096
#define FIELDMAP_VIEWER_DEPTH 5
#define FIELDMAP_SERVER_LONGEST 1048576
#define FIELDMAP_SERVER_DEPTH 16

/* As FIELDMAP_VIEWER_LIMITS and FIELDMAP_SERVER_LIMITS they pass as both arguments. */
#define FIELDMAP_VIEWER_LIMITS FIELDMAP_VIEWER_LONGEST, FIELDMAP_VIEWER_DEPTH
#define FIELDMAP_SERVER_LIMITS FIELDMAP_SERVER_LONGEST, FIELDMAP_SERVER_DEPTH

/* The kinds of a bound. */
enum {
    FIELDMAP_INCLUDED = 0,
    FIELDMAP_EXCLUDED = 1,
    FIELDMAP_UNBOUNDED = 2 /* any other number means the same; the key is not read */
};

/* The packings: how x and y stand in their eight bits of a key. Neither a key nor an archive says which it is, so the caller names it. */
enum {
    FIELDMAP_TWOS_COMPLEMENT = 0, /* in two's complement: old archives */
    FIELDMAP_PLUS_128 = 1         /* the degrees plus 128: new examinations; any other number means the same */
};

/* What a negative answer says, in English. */
static inline const char *fieldmap_refusal_text(int64_t answer) {
    switch (answer) {
    case -FIELDMAP_ARCHIVE_TOO_LONG: return "the archive is too long";
    case -FIELDMAP_INVALID_SUBTREE_POINTER: return "the record or a node leaves its range";
    case -FIELDMAP_UNALIGNED_POINTER: return "the record or a node is not on its alignment";
    case -FIELDMAP_INVALID_KIND: return "a node is neither a leaf nor an inner node";
    case -FIELDMAP_EXCEEDED_MAXIMUM_SUBTREE_DEPTH: return "the nodes are nested too deep";
    case -FIELDMAP_INVALID_LENGTH: return "a leaf counts more entries than a node may have";
    case -FIELDMAP_ENTRIES_LENGTH_MISMATCH: return "the entries are not as many as recorded";
    case -FIELDMAP_HOLLOW_NODE: return "a leaf is empty, or an inner node has no first child";
    case -FIELDMAP_KEYS_NOT_ASCENDING: return "a key is not above the one before";
    case -FIELDMAP_ITERATOR_LENGTH_MISMATCH: return "there are not as many values as keys";
    case -FIELDMAP_TOO_MANY_ENTRIES: return "there are more than 40,000 entries";
    case -FIELDMAP_GIVEN_KEYS_NOT_ASCENDING: return "a given key is not above the one before";
    case -FIELDMAP_HEADER_TOO_LONG: return "the header is longer than 4,096 bytes";
    case -FIELDMAP_OUTPUT_TOO_SHORT: return "the output is shorter than header, padding and archive";
    case -FIELDMAP_ISIZE_OVERFLOW: return "a distance does not fit 64 bits";
    case -FIELDMAP_OFFSET_OVERFLOW: return "an offset does not fit its width";
    case -FIELDMAP_INVALID_ALIGNMENT: return "the alignment is none of 1, 2, 4, 8, 16 and 32, or the next position is too large";
    case -FIELDMAP_KEY_FIELD_OVERFLOW: return "an examination, an eye or a presentation does not fit its field";
    case -FIELDMAP_ENTRIES_OUT_OF_RANGE: return "the entries a node are not 3 to 15";
    default: return "no refusal";
    }
}

/*
 * The calls that take a layout. The refusals that stand at each come behind 24, which all of them give where `entries` is not 3 to 15.
 */

/* The recorded count of an archive that rkyv's check, with the limits, accepts, or the first fault of 1 to 7. */
FIELDMAP_MUST_USE int64_t fieldmap_check(
    uint8_t width, size_t entries, size_t longest, size_t depth, const uint8_t *archive, size_t archive_len);

/* The recorded count of an accepted archive whose keys strictly ascend and that has no hollow node, or the first fault of 1 to 9. */
FIELDMAP_MUST_USE int64_t fieldmap_certify(
    uint8_t width, size_t entries, size_t longest, size_t depth, const uint8_t *archive, size_t archive_len);

/*
 * Each reader below runs the check first, range and column certification, with the limits, on every call.
 */

/*
 * Looks up a key. Where an entry is found, the answer is 1, and its value and the position of the value's first byte are stored. Where none is,
 * the answer is 0, and nothing is stored. On a certified archive that is the entry of the walk with that key, or that there is none. On an
 * archive that is only accepted it is what rkyv's search finds, which can miss an entry that the walk shows.
 */
FIELDMAP_MUST_USE int64_t fieldmap_lookup(
    uint8_t width, size_t entries, size_t longest, size_t depth, const uint8_t *archive, size_t archive_len, uint64_t key,
    uint64_t *value, uint64_t *position);

/*
 * The eight bytes of the value that fieldmap_lookup finds, as a part of the archive: the answer is the part's length, 8, and the position where
 * it starts is stored. Where it finds none, the part is empty: the answer is 0, and nothing is stored. It finds and misses what
 * fieldmap_lookup does.
 */
FIELDMAP_MUST_USE int64_t fieldmap_lookup_bytes(
    uint8_t width, size_t entries, size_t longest, size_t depth, const uint8_t *archive, size_t archive_len, uint64_t key,
    uint64_t *start);

/*
 * Looks up keys after one check, each as fieldmap_lookup does. The value of a key that is found goes to the place of its key in the values;
 * other places keep what they hold, and keys beyond the values' places are not looked up. The number of keys found.
 */
FIELDMAP_MUST_USE int64_t fieldmap_lookup_many(
    uint8_t width, size_t entries, size_t longest, size_t depth, const uint8_t *archive, size_t archive_len,
    const uint64_t *keys, size_t keys_len, uint64_t *values, size_t values_len);

/*
 * Writes keys and values in the order of the walk until the shorter list is full; other places keep what they hold. The number written; the
 * recorded count is stored.
 */
FIELDMAP_MUST_USE int64_t fieldmap_walk(
    uint8_t width, size_t entries, size_t longest, size_t depth, const uint8_t *archive, size_t archive_len,
    uint64_t *keys, size_t keys_len, uint64_t *values, size_t values_len, uint64_t *count);

/*
 * Writes keys and values of the entries of a certified archive that meet both bounds, as a walk does. The number written; the number of entries
 * that match is stored. Where the bounds cross, nothing matches.
 */
FIELDMAP_MUST_USE int64_t fieldmap_range(
    uint8_t width, size_t entries, size_t longest, size_t depth, const uint8_t *archive, size_t archive_len,
    uint8_t lower_kind, uint64_t lower, uint8_t upper_kind, uint64_t upper,
    uint64_t *keys, size_t keys_len, uint64_t *values, size_t values_len, uint64_t *matching);

/*
 * The range of a column query, for one eye of one examination, in an archive whose keys are of the named packing. Keys are ordered by the bits
 * of x: plus 128 they are in the order of the numbers, in two's complement -128 to -1 come after 0 to 127.
 *
 *   FIELDMAP_PLUS_128
 *     a up to b                                  the points with x from a to b, both included
 *     a above b                                  nothing
 *   FIELDMAP_TWOS_COMPLEMENT
 *     a and b both from 0 on, or both below 0    the points with x from a to b, both included
 *     a below 0, b from 0 on                     nothing; ask from a to -1 and from 0 to b
 *     a from 0 on, b below 0                     the points with x from a on and those with x up to b
 *
 * 18, where the examination or the eye does not fit its field, comes after 1 to 9.
 */
FIELDMAP_MUST_USE int64_t fieldmap_column(
    uint8_t width, size_t entries, size_t longest, size_t depth, const uint8_t *archive, size_t archive_len,
    uint8_t packing, uint32_t examination, uint8_t eye, int8_t a, int8_t b,
    uint64_t *keys, size_t keys_len, uint64_t *values, size_t values_len, uint64_t *matching);

/*
 * Writes the given entries as an archive behind the first `header` bytes of the output, which stay, as the bytes past the archive do. The
 * archive's end, or the first of 10 to 14, then 16. A reader takes the output up to that end. 16 arises with a width of 16 bits only, at the
 * common number of entries a node from 2,971 entries on.
 */
FIELDMAP_MUST_USE int64_t fieldmap_build(
    uint8_t width, size_t entries, uint8_t *out, size_t out_len, size_t header, const uint64_t *keys, size_t keys_len,
    const uint64_t *values, size_t values_len);

/*
 * How long an output has to be for a build of `count` entries behind a header: the end that fieldmap_build will answer, or the first of 11, 13
 * and 16 as there.
 */
FIELDMAP_MUST_USE int64_t fieldmap_build_length(uint8_t width, size_t entries, size_t count, size_t header);

/* The parts answer 0 and store what they give. */

/* The signed difference of two positions, or 15. */
FIELDMAP_MUST_USE int64_t fieldmap_signed_offset(uint64_t from, uint64_t to, int64_t *offset);

/* The 32-bit offset from a field to a position, or 15, or 16. */
FIELDMAP_MUST_USE int64_t fieldmap_offset32(uint64_t from, uint64_t to, int32_t *offset);

/* The offset that marks an absent pointer at a position, or 15. */
FIELDMAP_MUST_USE int64_t fieldmap_absent_offset(uint64_t at, int32_t *offset);

/* The next position on an alignment and the number of zeros before it, or 17. */
FIELDMAP_MUST_USE int64_t fieldmap_align(uint64_t pos, uint64_t alignment, uint64_t *next, uint64_t *zeros);

/*
 * The key of an examination's fields by the named packing, stored where the answer is 0, or 18. The examination has 24 bits, the eye is 0 for
 * the right one and 1 for the left, x and y are in degrees, the presentation has 23 bits.
 */
FIELDMAP_MUST_USE int64_t fieldmap_pack(
    uint8_t packing, uint32_t examination, uint8_t eye, int8_t x, int8_t y, uint32_t presentation, uint64_t *key);

/* Stores the fields of a key, read by the named packing. Every key has them by each packing: the answer is always 0. */
int64_t fieldmap_unpack(
    uint64_t key, uint8_t packing, uint32_t *examination, uint8_t *eye, int8_t *x, int8_t *y, uint32_t *presentation);

/* Whether the stimulus of a value was seen: 1 or 0. It is the value's highest bit. */
FIELDMAP_MUST_USE int64_t fieldmap_seen(uint64_t value);

/* The threshold of a value in tenths of a decibel, 0 to 1023. It is the ten bits below the highest. */
FIELDMAP_MUST_USE int64_t fieldmap_threshold(uint64_t value);

#ifdef __cplusplus
}
#endif

#endif
