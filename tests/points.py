"""points.py FILE PACKING prints what the programs `list` must print of an archive, from the text that `fieldlist` prints of it: the first line, and
the fields of each key and value by their bits, x and y by the packing that the programs are given. Where the archive is refused, the first line has
no reason."""
import sys


def twos_complement(byte):
    return byte - 256 if byte > 127 else byte


def plus_128(byte):
    return byte - 128


degrees = {"twos-complement": twos_complement, "plus-128": plus_128}[sys.argv[2]]
with open(sys.argv[1], encoding="ascii") as file:
    first, *entries = file.read().splitlines()
print(first)
for key, value in (map(int, line.split()) for line in entries):
    eye = "left" if key >> 39 & 1 else "right"
    seen = "seen" if value >> 63 else "unseen"
    tenths = value >> 53 & 1023
    print(key >> 40, eye, degrees(key >> 31 & 255), degrees(key >> 23 & 255), key & (1 << 23) - 1, seen, f"{tenths // 10}.{tenths % 10}", "dB")
