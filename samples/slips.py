#!/usr/bin/env python3
"""Shows a bundle: a line for each entry, `START SIZE TYPE`, the slip's desk and where the slip starts in the bundle.

usage: samples/slips.py BUNDLE

It helps to find the slips that name an object, and judges nothing: whether the bundle is right says `mshelovat check`.
At a slip that is cut short or has a wrong length it stops, and says so.
"""
import struct
import sys

if len(sys.argv) != 2:
    sys.exit("usage: samples/slips.py BUNDLE")
bundle = open(sys.argv[1], "rb").read()
at = 0
while at < len(bundle):
    length = int.from_bytes(bundle[at : at + 4], "big")
    end = at + 4 + length
    if length < 2 or (length - 2) % 12 != 0 or end > len(bundle):
        sys.exit(f"the slip at {at} has no right length")
    desk, entries = bundle[at + 5], bundle[at + 6 : end]
    print(f"# desk {desk}, slip at {at}, {len(entries) // 12} entries")
    for start, size, kind in struct.iter_unpack(">III", entries):
        print(f"{start} {size} {kind} desk {desk}, slip at {at}")
    at = end
