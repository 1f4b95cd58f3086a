"""list.py FILE PACKING [LIBRARY] prints what an archive is, and its points, as examples/c/list.c does.

PACKING is how x and y stand in the archive's keys, twos-complement or plus-128, which the archive does not say. It must have the common layout, 32
bits and 5 entries a node, which it does not say either: of one with 64 bits the list is empty. LIBRARY is the shared library, ./libfieldmap.so if none
is given. The program ends with 0, with 1 where the archive is refused, and with 2 where the arguments are not understood or the file or the library
cannot be read.
"""
import ctypes as c
import sys

# What certify refuses by at the common layout, from 1 on, in the words of fieldmap.h.
REFUSALS = """the archive is too long
the record or a node leaves its range
the record or a node is not on its alignment
a node is neither a leaf nor an inner node
the nodes are nested too deep
a leaf counts more entries than a node may have
the entries are not as many as recorded
a leaf is empty, or an inner node has no first child
a key is not above the one before""".splitlines()

# The packings by their names, as fieldmap.h numbers them.
PACKINGS = {"twos-complement": 0, "plus-128": 1}

# The archive's layout: the bits of its offsets and counts, and the entries a node.
LAYOUT = 32, 5

# The server's limits: the longest archive in bytes, and the depth.
LIMITS = 1048576, 16


def fail(*words):
    print("list.py:", *words, file=sys.stderr)
    sys.exit(2)


if len(sys.argv) not in (3, 4) or sys.argv[2] not in PACKINGS:
    fail("usage: list.py FILE twos-complement|plus-128 [LIBRARY]")
file, named, library = (sys.argv[1:] + ["./libfieldmap.so"])[:3]
packing = PACKINGS[named]
try:
    fieldmap = c.CDLL(library)
    with open(file, "rb") as opened:
        archive = opened.read()
except OSError as error:
    fail(error)
BITS, BYTES, SIZE, U64 = c.c_uint8, c.c_char_p, c.c_size_t, c.POINTER(c.c_uint64)
FIELDS = c.c_uint32, c.c_uint8, c.c_int8, c.c_int8, c.c_uint32
for call, *arguments in [
    (fieldmap.fieldmap_check, BITS, SIZE, SIZE, SIZE, BYTES, SIZE),
    (fieldmap.fieldmap_certify, BITS, SIZE, SIZE, SIZE, BYTES, SIZE),
    (fieldmap.fieldmap_walk, BITS, SIZE, SIZE, SIZE, BYTES, SIZE, U64, SIZE, U64, SIZE, U64),
    (fieldmap.fieldmap_unpack, c.c_uint64, c.c_uint8, *map(c.POINTER, FIELDS)),
    (fieldmap.fieldmap_seen, c.c_uint64),
    (fieldmap.fieldmap_threshold, c.c_uint64),
]:
    call.argtypes, call.restype = arguments, c.c_int64


def refused(answer):
    return f"refused {-answer}: {REFUSALS[-answer - 1]}"


certified = fieldmap.fieldmap_certify(*LAYOUT, *LIMITS, archive, len(archive))
count = certified if certified >= 0 else fieldmap.fieldmap_check(*LAYOUT, *LIMITS, archive, len(archive))
if count < 0:
    print(refused(count))
    sys.exit(1)
if certified < 0:
    print("not certified:", refused(certified), file=sys.stderr)
keys, values, recorded = (c.c_uint64 * count)(), (c.c_uint64 * count)(), c.c_uint64()
written = fieldmap.fieldmap_walk(*LAYOUT, *LIMITS, archive, len(archive), keys, count, values, count, recorded)
print("certified" if certified >= 0 else "open", count)
for key, value in zip(keys[:written], values[:written]):
    fields = [field() for field in FIELDS]
    fieldmap.fieldmap_unpack(key, packing, *fields)
    examination, eye, x, y, presentation = (field.value for field in fields)
    seen = "seen" if fieldmap.fieldmap_seen(value) else "unseen"
    decibels = fieldmap.fieldmap_threshold(value) / 10
    print(examination, "left" if eye else "right", x, y, presentation, seen, f"{decibels:.1f} dB")
