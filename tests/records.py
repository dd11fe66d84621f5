"""Writes what the program `strays` has to print: crates/strays/stdout.

    python3 tests/records.py

A line for each record: the place, the field, its value, and the numbers of receive, query and
clear. By document 01, "14 STATE: a field of the table's own record is outside its range", all three
refuse a record out of range with 14. One in range is refused by receive with 2, for the datagram is
empty, and by query and clear not at all. Which value is in range is written here by hand, from
document 01's bounds: four conditions; at most 256 fragments, which fit 12,288 bytes, as does the
last, which is no longer than the others; with FEC k 1 to 207 and z below k. The sound place that
one field is changed of has FEC, f 10, s 100, k 100, z 5.

Behind them stand three records in range that no calls leave, and what a fragment is answered there:
its number, and how many bytes are handed out. Without FEC, f 2, the fragments that are there make
all: where fragment 0 is marked kept with s unknown, the last one alone, and where the last is
marked kept with no bytes, fragment 0 alone, each an AF packet of 12 bytes that passes the AF
checks. With FEC, all kept and the place open, the fragment is kept already: 12.
"""
import pathlib

import usage

usage.help_or_use(__doc__)
IN, OUT = "2 0 0", "14 14 14"
FIELDS = (
    ("condition", ((0, IN), (3, IN), (4, OUT), (255, OUT))),  # free, open, delivered, spoiled are 0 to 3
    ("count", ((0, IN), (256, IN), (257, OUT), (2**32 - 1, OUT))),  # with s 0
    ("size", ((48, IN), (49, OUT), (65535, OUT))),  # 256 fragments of 48 bytes are 12,288
    ("last", ((12288, IN), (12289, OUT))),  # one fragment without FEC, s unknown
    ("last", ((100, IN), (101, OUT))),  # s is 100
    ("rsk", ((0, OUT), (1, IN), (207, IN), (208, OUT))),  # with FEC, z 0
    ("rsk", ((255, IN),)),  # without FEC it is not looked at
    ("rsz", ((99, IN), (100, OUT))),  # with FEC, k 100
    ("rsz", ((255, IN),)),  # without FEC it is not looked at
)
OLDEST = ((3, IN), (4, OUT), (255, OUT))  # one of four places

lines = [f"{place} {field} {value} {numbers}" for place in range(4) for field, values in FIELDS for value, numbers in values]
lines += [f"4 oldest {value} {numbers}" for value, numbers in OLDEST]
lines += ["stray size 0 12", "stray last 0 12", "stray open 12 0"]
target = pathlib.Path(__file__).resolve().parent.parent / "crates" / "strays" / "stdout"
target.write_text("".join(line + "\n" for line in lines))
