/*
 * Uses every call of fieldmap.h that takes no layout and holds what it gives against docs/FORMAT.md, and the texts of the refusals. Prints a line and ends
 * with 0, or names the first line that does not hold and ends with 1. It compiles as C99 and as C++17.
 */
#include <string.h>

#include "expect.h"
#include "fieldmap.h"

static void parts(void)
{
    struct {
        int32_t before, number, after;
    } narrow = {-7, -7, -7};
    int64_t wide[3] = {-7, -7, -7};
    struct stored next = fresh, zeros = fresh;
    REFUSED(fieldmap_signed_offset(0, UINT64_C(1) << 63, &wide[1]), FIELDMAP_ISIZE_OVERFLOW);
    EXPECT(wide[1] == -7);
    EXPECT(fieldmap_signed_offset(UINT64_C(1) << 63, 0, &wide[1]) == 0 && wide[1] == INT64_MIN);
    EXPECT(wide[0] == -7 && wide[2] == -7);
    REFUSED(fieldmap_offset32(0, UINT64_C(1) << 31, &narrow.number), FIELDMAP_OFFSET_OVERFLOW);
    EXPECT(narrow.number == -7);
    EXPECT(fieldmap_offset32(776, 96, &narrow.number) == 0 && narrow.number == -680);
    REFUSED(fieldmap_absent_offset(UINT64_MAX, &narrow.number), FIELDMAP_ISIZE_OVERFLOW);
    EXPECT(narrow.number == -680);
    EXPECT(fieldmap_absent_offset(88, &narrow.number) == 0 && narrow.number == 1);
    EXPECT(narrow.before == -7 && narrow.after == -7);
    REFUSED(fieldmap_align(5, 64, &next.number, &zeros.number), FIELDMAP_INVALID_ALIGNMENT);
    EXPECT(next.number == BEFORE && zeros.number == BEFORE);
    EXPECT(fieldmap_align(5, 8, &next.number, &zeros.number) == 0 && next.number == 8 && zeros.number == 3);
    EXPECT(kept(&next) && kept(&zeros));
}

/* The key of a point by a packing, and its fields by the same. */
static void fields(uint8_t packing, uint64_t expected)
{
    struct stored key = fresh;
    uint32_t examination[3] = {9, 9, 9}, presentation[3] = {9, 9, 9};
    uint8_t eye[3] = {9, 9, 9};
    int8_t x[3] = {9, 9, 9}, y[3] = {9, 9, 9};
    REFUSED(fieldmap_pack(packing, UINT32_C(1) << 24, 0, -3, 3, 2, &key.number), FIELDMAP_KEY_FIELD_OVERFLOW);
    REFUSED(fieldmap_pack(packing, 1, 2, -3, 3, 2, &key.number), FIELDMAP_KEY_FIELD_OVERFLOW);
    REFUSED(fieldmap_pack(packing, 1, 0, -3, 3, UINT32_C(1) << 23, &key.number), FIELDMAP_KEY_FIELD_OVERFLOW);
    EXPECT(key.number == BEFORE);
    EXPECT(fieldmap_pack(packing, 1, 0, -3, 3, 2, &key.number) == 0 && key.number == expected && kept(&key));
    EXPECT(fieldmap_unpack(key.number, packing, &examination[1], &eye[1], &x[1], &y[1], &presentation[1]) == 0);
    EXPECT(examination[1] == 1 && eye[1] == 0 && x[1] == -3 && y[1] == 3 && presentation[1] == 2);
    EXPECT(fieldmap_unpack(0, packing, &examination[1], &eye[1], &x[1], &y[1], &presentation[1]) == 0);
    EXPECT(examination[1] == 0 && eye[1] == 0 && presentation[1] == 0);
    EXPECT(x[1] == (packing == FIELDMAP_TWOS_COMPLEMENT ? 0 : -128) && y[1] == x[1]);
    EXPECT(fieldmap_unpack(UINT64_MAX, packing, &examination[1], &eye[1], &x[1], &y[1], &presentation[1]) == 0);
    EXPECT(examination[1] == 0xffffff && eye[1] == 1 && presentation[1] == 0x7fffff);
    EXPECT(x[1] == (packing == FIELDMAP_TWOS_COMPLEMENT ? -1 : 127) && y[1] == x[1]);
    for (size_t i = 0; i < 3; i += 2)
        EXPECT(examination[i] == 9 && eye[i] == 9 && x[i] == 9 && y[i] == 9 && presentation[i] == 9);
}

static void bits_of_values(void)
{
    EXPECT(fieldmap_seen(UINT64_MAX) == 1 && fieldmap_seen(UINT64_MAX >> 1) == 0);
    EXPECT(fieldmap_threshold(UINT64_MAX) == 1023 && fieldmap_threshold(UINT64_C(324) << 53) == 324);
    EXPECT(fieldmap_threshold(UINT64_C(1) << 63) == 0 && fieldmap_threshold((UINT64_C(1) << 53) - 1) == 0);
}

/* Each refusal has a text of its own, and the version says the same twice. */
static void texts(void)
{
    char version[32];
    for (int i = -30; i <= 0; i++) {
        int none = strcmp(fieldmap_refusal_text(i), "no refusal") == 0;
        EXPECT(none == !(i == -24 || (-18 <= i && i <= -1)));
        for (int j = -30; j < i; j++)
            EXPECT(none || strcmp(fieldmap_refusal_text(i), fieldmap_refusal_text(j)) != 0);
    }
    sprintf(version, "%d.%d.%d", FIELDMAP_VERSION_MAJOR, FIELDMAP_VERSION_MINOR, FIELDMAP_VERSION_PATCH);
    EXPECT(strcmp(version, FIELDMAP_VERSION) == 0);
}

int main(void)
{
    parts();
    fields(FIELDMAP_TWOS_COMPLEMENT, UINT64_C(1642850156546));
    fields(FIELDMAP_PLUS_128, UINT64_C(1369045991426));
    fields(2, UINT64_C(1369045991426));
    fields(255, UINT64_C(1369045991426));
    bits_of_values();
    texts();
    printf("every other call answers as it should\n");
    return 0;
}
