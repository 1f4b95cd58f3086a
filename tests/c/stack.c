/*
 * stack LIMIT measures how much stack the calls that take lists use: on archives of 1 to 15 nested nodes and on the longest, and in builds up to
 * the largest, each by 16, 32 and 64 bits with 3, 5 and 15 entries a node. Prints the most bytes of each call, and ends with 1 if one uses more
 * than LIMIT, with 2 if an archive is not what it should be.
 *
 * A call runs on a stack of its own, every byte of which holds the same number; it has used what is above the lowest byte that holds another
 * one. It runs twice, since what it stores may be the number itself. What a call takes that does nothing is taken off. Linked with -z now, so
 * that no call includes the search for memcpy or memset.
 */
#define _XOPEN_SOURCE 700
#include <stdint.h>
#include <stdio.h>
#include <stdlib.h>
#include <string.h>
#include <ucontext.h>

#include "fieldmap.h"

/* One node more than may be nested with the server's limits, by which the calls read. */
enum { STACK = 1 << 18, KEYS = 8, NESTED = FIELDMAP_SERVER_DEPTH - 1 };

/* The key of the lowest leaf, and how far the keys of a node stand from those of the next. */
enum { SOUGHT = 999, STEP = 20 };

/* The layout that the calls are given, with the bytes of an offset or a count, of a leaf and of an inner node, and the most entries of a build. */
static struct {
    uint8_t bits;
    size_t in_node, number, leaf, inner, most;
} layout, layouts[9] = {
    {FIELDMAP_WIDTH_16, 3, 2, 64, 64, 2556},  {FIELDMAP_WIDTH_16, 5, 2, 96, 104, 2970},  {FIELDMAP_WIDTH_16, 15, 2, 256, 280, 2145},
    {FIELDMAP_WIDTH_32, 3, 4, 64, 72, 40000}, {FIELDMAP_WIDTH_32, 5, 4, 96, 112, 40000}, {FIELDMAP_WIDTH_32, 15, 4, 256, 312, 40000},
    {FIELDMAP_WIDTH_64, 3, 8, 64, 88, 40000}, {FIELDMAP_WIDTH_64, 5, 8, 96, 136, 40000}, {FIELDMAP_WIDTH_64, 15, 8, 256, 376, 40000},
};

/* A leaf's count stands where an inner node has its children, in the last eight bytes of a leaf. */
#define CHILDREN (layout.leaf - 8)

static uint8_t stack[STACK] __attribute__((aligned(64)));
static ucontext_t here, there;

static uint8_t archive[FIELDMAP_SERVER_LONGEST];
static size_t length, entries;
static uint64_t keys[FIELDMAP_MOST_ENTRIES], values[FIELDMAP_MOST_ENTRIES], number, position;
static volatile int64_t answer;

#define LAYOUT layout.bits, layout.in_node
#define LIMITS FIELDMAP_SERVER_LIMITS
#define LISTS keys, FIELDMAP_MOST_ENTRIES, values, FIELDMAP_MOST_ENTRIES

static void nothing(void) { answer = 0; }
static void check(void) { answer = fieldmap_check(LAYOUT, LIMITS, archive, length); }
static void certify(void) { answer = fieldmap_certify(LAYOUT, LIMITS, archive, length); }
static void lookup(void) { answer = fieldmap_lookup(LAYOUT, LIMITS, archive, length, SOUGHT, &number, &position); }
static void lookup_bytes(void) { answer = fieldmap_lookup_bytes(LAYOUT, LIMITS, archive, length, SOUGHT, &position); }
static void lookup_many(void) { answer = fieldmap_lookup_many(LAYOUT, LIMITS, archive, length, LISTS); }
static void walk(void) { answer = fieldmap_walk(LAYOUT, LIMITS, archive, length, LISTS, &number); }
static void range(void) { answer = fieldmap_range(LAYOUT, LIMITS, archive, length, FIELDMAP_EXCLUDED, 0, FIELDMAP_EXCLUDED, UINT64_MAX, LISTS, &number); }
static void old_column(void) { answer = fieldmap_column(LAYOUT, LIMITS, archive, length, FIELDMAP_TWOS_COMPLEMENT, 0, 0, 0, -1, LISTS, &number); }
static void new_column(void) { answer = fieldmap_column(LAYOUT, LIMITS, archive, length, FIELDMAP_PLUS_128, 0, 0, -128, 127, LISTS, &number); }
static void build(void) { answer = fieldmap_build(LAYOUT, archive, sizeof archive, 0, keys, entries, values, entries); }
static void build_length(void) { answer = fieldmap_build_length(LAYOUT, entries, 0); }

/* The calls, each with the most that it has used so far. The builds come last. */
static struct {
    const char *name;
    void (*call)(void);
    size_t most;
} calls[] = {
    {"fieldmap_check", check, 0},
    {"fieldmap_certify", certify, 0},
    {"fieldmap_lookup", lookup, 0},
    {"fieldmap_lookup_bytes", lookup_bytes, 0},
    {"fieldmap_lookup_many", lookup_many, 0},
    {"fieldmap_walk", walk, 0},
    {"fieldmap_range", range, 0},
    {"fieldmap_column, two's complement", old_column, 0},
    {"fieldmap_column, plus 128", new_column, 0},
    {"fieldmap_build", build, 0},
    {"fieldmap_build_length", build_length, 0},
};

enum { CALLS = sizeof calls / sizeof calls[0], READERS = CALLS - 2 };

/* The bytes of the stack from the lowest that changes to its end. */
static size_t reached(void (*call)(void), int filling)
{
    size_t lowest = 0;
    memset(stack, filling, sizeof stack);
    getcontext(&there);
    there.uc_stack.ss_sp = stack;
    there.uc_stack.ss_size = sizeof stack;
    there.uc_link = &here;
    makecontext(&there, call, 0);
    swapcontext(&here, &there);
    while (lowest < sizeof stack && stack[lowest] == filling)
        lowest++;
    return sizeof stack - lowest;
}

static void measure(size_t from, size_t to)
{
    for (size_t i = from; i < to; i++)
        for (int filling = 0x55; filling <= 0xaa; filling += 0x55) {
            size_t used = reached(calls[i].call, filling) - reached(nothing, filling);
            if (used > calls[i].most)
                calls[i].most = used;
        }
}

static void put(size_t at, uint64_t bits, size_t bytes)
{
    memcpy(archive + at, &bits, bytes);
}

static void put_leaf(size_t at, uint64_t key)
{
    put(at + KEYS, key, 8);
    put(at + CHILDREN, 1, layout.number);
}

/*
 * An inner node, so high above the lowest leaf, that leads to `below` as the given child. If that is not the first child, that one is the leaf
 * at `first`. Its keys before `below` are under those of all nodes below it, the others above them.
 */
static void put_inner(size_t at, size_t height, size_t child, size_t below, size_t first)
{
    put(at, 1, 1);
    for (size_t slot = 0; slot < layout.in_node; slot++)
        put(at + KEYS + 8 * slot, slot < child ? STEP * (NESTED - height) + 1 + slot : SOUGHT + 1 + STEP * height + slot, 8);
    for (size_t i = 0; i <= layout.in_node; i++) {
        size_t field = at + CHILDREN + layout.number * i;
        put(field, i == child ? below - field : i == 0 ? first - field : 1, layout.number);
    }
}

/* A leaf below inner nodes, each the given child of the next; so many in all. What is the first child of a node stands before the others. */
static size_t nest(size_t nodes, size_t child)
{
    size_t inner = nodes - 1, leaves = child > 0 ? inner : 0, root = leaves * layout.leaf;
    memset(archive, 0, NESTED * (layout.leaf + layout.inner));
    put_leaf(root, SOUGHT);
    length = root + layout.leaf;
    for (size_t height = 1; height <= inner; height++) {
        size_t first = child > 0 ? (inner - height) * layout.leaf : 0;
        if (child > 0)
            put_leaf(first, STEP * (NESTED - height));
        put_inner(length, height, child, root, first);
        root = length;
        length += layout.inner;
    }
    put(length, root - length, layout.number);
    put(length + layout.number, 1 + layout.in_node * inner + leaves, layout.number);
    length += 2 * layout.number;
    return 1 + layout.in_node * inner + leaves;
}

/* The archive of so many entries at the end of the longest archive in which its nodes are aligned, and whether it is certified. */
static int longest(void)
{
    build();
    size_t end = (size_t)answer, start = (sizeof archive - end) / 8 * 8;
    length = start + end;
    memmove(archive + start, archive, end);
    return fieldmap_certify(LAYOUT, LIMITS, archive, length) == (int64_t)entries;
}

static int measure_by_layout(void)
{
    for (size_t i = 0; i < FIELDMAP_MOST_ENTRIES; i++)
        keys[i] = values[i] = i;
    for (entries = 0; entries < layout.most; entries += 1 + entries / 2)
        measure(READERS, CALLS);
    entries = layout.most;
    measure(READERS, CALLS);
    if (!longest())
        return 0;
    measure(0, READERS);
    const size_t children[3] = {0, 1, layout.in_node};
    for (size_t i = 0; i < NESTED * 3; i++) {
        size_t nodes = 1 + i / 3, count = nest(nodes, children[i % 3]);
        if (fieldmap_certify(LAYOUT, LIMITS, archive, length) != (nodes < NESTED ? (int64_t)count : -FIELDMAP_EXCEEDED_MAXIMUM_SUBTREE_DEPTH))
            return 0;
        measure(0, READERS);
    }
    return 1;
}

int main(int argc, char **argv)
{
    long limit = argc == 2 ? atol(argv[1]) : 0;
    int status = 0;
    for (size_t i = 0; i < sizeof layouts / sizeof layouts[0]; i++) {
        layout = layouts[i];
        if (!measure_by_layout())
            return 2;
    }
    for (size_t i = 0; i < CALLS; i++) {
        printf("%5zu bytes of stack: %s\n", calls[i].most, calls[i].name);
        if (calls[i].most > (size_t)limit)
            status = 1;
    }
    return status;
}
