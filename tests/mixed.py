"""mixed.py NAME PACKING writes an archive of one leaf, NAME.fieldmap, with both eyes and the ends of every field, and NAME.txt, the text that
`fieldlist` prints of it. PACKING is how x and y stand in the keys, twos-complement or plus-128; the points have the same order by both."""
import struct
import sys

# Examination, eye, x, y, presentation; whether it was seen, the threshold in tenths of a decibel, and the bits that mean nothing.
POINTS = [
    (0, 0, 127, -128, 0, 0, 0, 0),
    (1, 0, -1, 3, 2, 1, 1023, 1),
    (1, 1, -27, 9, (1 << 23) - 1, 1, 9, (1 << 53) - 1),
    ((1 << 24) - 1, 0, 0, 0, 5, 0, 1000, 7),
    ((1 << 24) - 1, 1, -128, 127, (1 << 23) - 1, 1, 305, 0),
]


added = {"twos-complement": 0, "plus-128": 128}[sys.argv[2]]


def entry(examination, eye, x, y, presentation, seen, threshold, rest):
    key = examination << 40 | eye << 39 | (x + added & 255) << 31 | (y + added & 255) << 23 | presentation
    return key, seen << 63 | threshold << 53 | rest


entries = [entry(*point) for point in POINTS]
keys, values = zip(*entries)
with open(sys.argv[1] + ".fieldmap", "wb") as archive:
    archive.write(struct.pack("<8x5Q5QI4xiI", *keys, *values, len(entries), -96, len(entries)))
with open(sys.argv[1] + ".txt", "w", encoding="ascii") as text:
    print("certified", len(entries), file=text)
    for key, value in entries:
        print(key, value, file=text)
