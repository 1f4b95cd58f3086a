"""anew.py LIBRARY FILE NAME packs the keys of an archive anew, through the shared library, from two's complement to plus 128. FILE is the text that
`fieldlist` prints of the archive. It writes NAME.fieldmap, with the entries in the order of the new keys, and NAME.txt, its text."""
import ctypes as c
import sys

library, file, name = sys.argv[1:]
fieldmap = c.CDLL(library)
SIZE, U64 = c.c_size_t, c.POINTER(c.c_uint64)
FIELDS = c.c_uint32, c.c_uint8, c.c_int8, c.c_int8, c.c_uint32
TWOS_COMPLEMENT, PLUS_128 = 0, 1
LAYOUT = 32, 5
for call, *arguments in [
    (fieldmap.fieldmap_unpack, c.c_uint64, c.c_uint8, *map(c.POINTER, FIELDS)),
    (fieldmap.fieldmap_pack, c.c_uint8, *FIELDS, U64),
    (fieldmap.fieldmap_build_length, c.c_uint8, SIZE, SIZE, SIZE),
    (fieldmap.fieldmap_build, c.c_uint8, SIZE, c.POINTER(c.c_uint8), SIZE, SIZE, U64, SIZE, U64, SIZE),
]:
    call.argtypes, call.restype = arguments, c.c_int64


def anew(key):
    fields, packed = [field() for field in FIELDS], c.c_uint64()
    fieldmap.fieldmap_unpack(key, TWOS_COMPLEMENT, *fields)
    assert fieldmap.fieldmap_pack(PLUS_128, *fields, packed) == 0
    return packed.value


with open(file, encoding="ascii") as opened:
    _, *lines = opened.read().splitlines()
entries = sorted((anew(int(key)), int(value)) for key, value in map(str.split, lines))
count = len(entries)
keys, values = ((c.c_uint64 * count)(*numbers) for numbers in zip(*entries))
length = fieldmap.fieldmap_build_length(*LAYOUT, count, 0)
archive = (c.c_uint8 * length)()
assert fieldmap.fieldmap_build(*LAYOUT, archive, length, 0, keys, count, values, count) == length
with open(name + ".fieldmap", "wb") as written:
    written.write(archive)
with open(name + ".txt", "w", encoding="ascii") as text:
    print("certified", count, file=text)
    for key, value in entries:
        print(key, value, file=text)
