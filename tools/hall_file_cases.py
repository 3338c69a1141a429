#!/usr/bin/env python3
"""An independent judge of hall files: writes the cases of the program hall_file_cases and what it must print.

Run in the repository's root: it writes crates/hall_file_cases/src/cases.rt and crates/hall_file_cases/stdout.
Run `rt fmt` afterwards: the cases are kept in its layout.
"""
import struct

LIMIT = 999_999_999
FLIPS = (0x01, 0x04, 0x80, 0xFF)


def well_made(b):
    """Whether bytes are a well-made file, byte by byte from the front."""
    at = 0

    def take(n):
        nonlocal at
        if at + n > len(b):
            raise ValueError
        at += n
        return b[at - n:at]

    def need(fact):
        if not fact:
            raise ValueError

    try:
        need(take(3) == b"TLY")
        need(struct.unpack("<H", take(2))[0] == 1)
        fields, columns = take(2)
        (rows,) = struct.unpack("<I", take(4))
        need(1 <= fields <= 8 and 1 <= columns <= 8 and rows <= 1_000_000)
        for _ in range(columns):
            kind, measured, mask = take(3)
            need(1 <= kind <= 5)
            need(measured == 255 if kind == 1 else measured < fields)
            need(mask >> fields == 0 and bin(mask).count("1") <= 4)
            (groups,) = struct.unpack("<H", take(2))
            last, total = None, 0
            for _ in range(groups):
                key = [struct.unpack("<i", take(4))[0] for _ in range(bin(mask).count("1"))]
                need(all(abs(k) <= LIMIT for k in key))
                need(last is None or last < key)
                last = key
                n, value = struct.unpack("<Iq", take(12))
                need(n >= 1)
                total += n
                if kind == 1:
                    need(value == n)
                elif kind in (2, 5):
                    need(abs(value) <= LIMIT * n)
                else:
                    need(abs(value) <= LIMIT)
            need(total == rows)
        need(at == len(b))
    except ValueError:
        return False
    return True


def head(fields, columns, rows, mark=b"TLY", version=1):
    return mark + struct.pack("<HBBI", version, fields, columns, rows)


def column(kind, measured, mask, groups, count=None):
    out = struct.pack("<BBBH", kind, measured, mask, len(groups) if count is None else count)
    for key, n, value in groups:
        out += b"".join(struct.pack("<i", k) for k in key) + struct.pack("<Iq", n, value)
    return out


def example(value=3, key=7, n=2, rows=2, **more):
    return head(2, 1, rows, **more) + column(2, 1, 1, [([key], n, value)])


several = (
    head(3, 4, 3)
    + column(2, 1, 0b101, [([-5, 2], 1, -4), ([-5, 3], 1, 7), ([0, -1], 1, 2)])
    + column(1, 255, 0, [([], 3, 3)])
    + column(4, 2, 1, [([-5], 2, 3), ([0], 1, -1)])
    + column(5, 0, 2, [([1], 1, 0), ([2], 2, -10)])
)
two = [([7], 1, 2), ([8], 1, 1)]
cases = [
    ("the example", example()),
    ("the greatest sum of two rows", example(1_999_999_998)),
    ("a sum too great for two rows", example(1_999_999_999)),
    ("no rows", head(2, 2, 0) + column(2, 1, 1, []) + column(1, 255, 0, [])),
    ("another mark", example(mark=b"TLX")),
    ("another version", example(version=2)),
    ("version 257", example(version=257)),
    ("no row fields", head(0, 1, 0) + column(1, 255, 0, [])),
    ("nine row fields", head(9, 1, 0) + column(1, 255, 0, [])),
    ("no columns", head(2, 0, 0)),
    ("nine columns", head(2, 9, 0) + 9 * column(1, 255, 0, [])),
    ("eight columns", head(8, 8, 0) + 8 * column(3, 7, 0b11110000, [])),
    ("kind 0", head(2, 1, 0) + column(0, 255, 0, [])),
    ("kind 6", head(2, 1, 0) + column(6, 1, 0, [])),
    ("a count of a field", head(2, 1, 0) + column(1, 1, 0, [])),
    ("a sum of no field", head(2, 1, 0) + column(2, 255, 0, [])),
    ("a sum of field 2 of two", head(2, 1, 0) + column(2, 2, 0, [])),
    ("a mask past the fields", head(2, 1, 0) + column(1, 255, 4, [])),
    ("a mask of five fields", head(8, 1, 0) + column(1, 255, 31, [])),
    ("a mask of four fields", head(8, 1, 0) + column(1, 255, 30, [])),
    ("a group more than there is", head(2, 1, 2) + column(2, 1, 1, [([7], 2, 3)], 2)),
    ("a group less than there is", head(2, 1, 2) + column(2, 1, 1, two, 1)),
    ("a key over the range", example(key=1_000_000_000)),
    ("the greatest key", example(key=LIMIT)),
    ("a key under the range", example(key=-1_000_000_000)),
    ("the least key", example(key=-LIMIT)),
    ("equal keys", head(2, 1, 2) + column(2, 1, 1, [([7], 1, 2), ([7], 1, 1)])),
    ("keys that descend", head(2, 1, 2) + column(2, 1, 1, two[::-1])),
    ("a negative key first", head(2, 1, 2) + column(2, 1, 1, [([-7], 1, 2), ([7], 1, 1)])),
    ("a negative key last", head(2, 1, 2) + column(2, 1, 1, [([7], 1, 2), ([-7], 1, 1)])),
    ("a group of no rows", head(2, 1, 2) + column(2, 1, 1, [([7], 2, 2), ([8], 0, 0)])),
    ("counts that add to less", example(n=1)),
    ("counts that add to more", example(n=3)),
    ("one column of two adds to less", head(2, 2, 2) + column(1, 255, 0, [([], 2, 2)]) + column(1, 255, 0, [([], 1, 1)])),
    ("a count that is not its rows", head(2, 1, 2) + column(1, 255, 0, [([], 2, 3)])),
    ("a least value out of range", head(2, 1, 2) + column(3, 1, 0, [([], 2, 1_000_000_000)])),
    ("a million rows", head(2, 1, 1_000_000) + column(1, 255, 0, [([], 1_000_000, 1_000_000)])),
    ("a million rows and one", head(2, 1, 1_000_001) + column(1, 255, 0, [([], 1_000_001, 1_000_001)])),
    ("a byte too few", example()[:-1]),
    ("a byte too many", example() + b"\0"),
    ("no bytes", b""),
]
many = head(1, 1, 65535) + column(1, 255, 1, [([k], 1, 1) for k in range(65535)])


def listed(data):
    return "[" + ", ".join(f"0x{x:02x}" for x in data) + "]"


def word(ok):
    return "well made" if ok else "refused"


with open("crates/hall_file_cases/src/cases.rt", "w") as f:
    f.write("// Files and other bytes, written by tools/hall_file_cases.py.\n")
    f.write("// What each is, and its bytes.\n")
    f.write(f"pub static CASES: [(&str, &[u8]); {len(cases)}] = [")
    f.write(", ".join(f'("{text}", &{listed(data)})' for text, data in cases) + "];\n\n")
    f.write("// A file of several columns.\n")
    f.write(f"pub const SEVERAL: [u8; {len(several)}] = {listed(several)};\n")
with open("crates/hall_file_cases/stdout", "w") as f:
    for text, data in cases:
        f.write(f"{text}: {word(well_made(data))}\n")
    f.write(f"65535 groups: {word(well_made(many))}\n")
    f.write(f"several columns: {word(well_made(several))}\n")
    for i in range(len(several)):
        signs = "".join("+" if well_made(several[:i] + bytes([several[i] ^ x]) + several[i + 1:]) else "-" for x in FLIPS)
        f.write(f"byte {i}: {signs}\n")
