/*
 * list FILE PACKING prints what an archive is, and its points. PACKING is how x and y stand in its keys, twos-complement or plus-128, which the
 * archive does not say. It must have the common layout, 32 bits and 5 entries a node, which it does not say either: of one with 64 bits the list
 * is empty. It is read with the server's limits.
 *
 * The first line is `certified N`, `open N` where the archive is accepted and not certified, or `refused N: why`. Then comes a line a point, in
 * the order of the walk: the examination, the eye, x and y in degrees, the presentation, whether it was seen, and the threshold. Why an open
 * archive is not certified is said on standard error.
 *
 * The program ends with 0, with 1 where the archive is refused, and with 2 where the arguments are not understood, the file cannot be read or
 * the text not written.
 *
 * It compiles as C99 and as C++17.
 */
#include <errno.h>
#include <inttypes.h>
#include <stdio.h>
#include <stdlib.h>
#include <string.h>

#include "fieldmap.h"

enum { LISTED = 0, REFUSED = 1, FAILED = 2 };

/* Says on standard error what went wrong, and with what. */
static int failed(const char *what)
{
    fprintf(stderr, "list: %s: %s\n", what, strerror(errno));
    return FAILED;
}

/* The packing of that name, or -1. */
static int packing_named(const char *name)
{
    if (strcmp(name, "twos-complement") == 0)
        return FIELDMAP_TWOS_COMPLEMENT;
    return strcmp(name, "plus-128") == 0 ? FIELDMAP_PLUS_128 : -1;
}

static void print_point(uint64_t key, uint8_t packing, uint64_t value)
{
    uint32_t examination, presentation;
    uint8_t eye;
    int8_t x, y;
    fieldmap_unpack(key, packing, &examination, &eye, &x, &y, &presentation);
    int tenths = (int)fieldmap_threshold(value);
    printf("%" PRIu32 " %s %d %d %" PRIu32 " %s %d.%d dB\n", examination, eye == 0 ? "right" : "left", x, y, presentation,
           fieldmap_seen(value) ? "seen" : "unseen", tenths / 10, tenths % 10);
}

static int refused(int64_t answer)
{
    printf("refused %" PRId64 ": %s\n", -answer, fieldmap_refusal_text(answer));
    return REFUSED;
}

/* Prints an archive whose entries fit lists of so many places. */
static int print_list(
    const uint8_t *archive, size_t length, uint8_t packing, int certified, uint64_t *keys, uint64_t *values, size_t room)
{
    uint64_t count;
    int64_t written = fieldmap_walk(FIELDMAP_COMMON_LAYOUT, FIELDMAP_SERVER_LIMITS, archive, length, keys, room, values, room, &count);
    if (written < 0)
        return refused(written);
    printf("%s %" PRIu64 "\n", certified ? "certified" : "open", count);
    for (int64_t i = 0; i < written; i++)
        print_point(keys[i], packing, values[i]);
    return LISTED;
}

static int list(const uint8_t *archive, size_t length, uint8_t packing)
{
    int64_t certified = fieldmap_certify(FIELDMAP_COMMON_LAYOUT, FIELDMAP_SERVER_LIMITS, archive, length);
    int64_t count = certified >= 0 ? certified : fieldmap_check(FIELDMAP_COMMON_LAYOUT, FIELDMAP_SERVER_LIMITS, archive, length);
    if (count < 0)
        return refused(count);
    if (certified < 0)
        fprintf(stderr, "not certified: refused %" PRId64 ": %s\n", -certified, fieldmap_refusal_text(certified));

    /* malloc may give a null pointer for no entries; as an empty list it may pass. */
    size_t room = (size_t)count;
    uint64_t *keys = (uint64_t *)malloc(room * sizeof *keys);
    uint64_t *values = (uint64_t *)malloc(room * sizeof *values);
    int status;
    if (room > 0 && (keys == NULL || values == NULL))
        status = failed("its entries");
    else
        status = print_list(archive, length, packing, certified >= 0, keys, values, room);
    free(keys);
    free(values);
    return status;
}

int main(int argc, char **argv)
{
    /* One byte more than the server's longest archive, so that a longer file is refused as one. */
    static uint8_t archive[FIELDMAP_SERVER_LONGEST + 1];
    int packing = argc == 3 ? packing_named(argv[2]) : -1;
    if (packing < 0) {
        fprintf(stderr, "usage: list FILE twos-complement|plus-128\n");
        return FAILED;
    }
    FILE *file = fopen(argv[1], "rb");
    if (file == NULL)
        return failed(argv[1]);
    size_t length = fread(archive, 1, sizeof archive, file);
    if (ferror(file))
        return failed(argv[1]);
    fclose(file);
    int status = list(archive, length, (uint8_t)packing);
    return fflush(stdout) == 0 ? status : failed("standard output");
}
