#!/usr/bin/env python3
"""Makes the sample: a log of forty wake-ups among other objects, and two bundles of slips over it.

41/bundle  names one wake-up on two slips: desk by desk the slips are in order, and together they count 41 wake-ups.
40/bundle  is honest: each object stands on one slip, once.
The files are made once and kept; running this again gives the same bytes.
"""
import pathlib
import struct

here = pathlib.Path(__file__).parent


def padded(size, kind, data):
    """Size and type of an object, and its bytes with as many zero bytes behind as the size leaves over by four."""
    return size, kind, data + bytes(size % 4)


def obj(kind, stamp, body):
    """An object of a listed type; the time unit is nanoseconds."""
    size = 32 + len(body)
    head = b"LOBJ" + struct.pack("<HHIIIHHQ", 32, 1, size, kind, 2, 0, 0, stamp)
    return padded(size, kind, head + body)


def wake_up(n, stamp):
    return obj(62, stamp, struct.pack("<QIHHBBBB", stamp, 19200, 1, 0, 0, 0x80, n % 2, 0))


def message(n, stamp):
    return obj(1, stamp, struct.pack("<HBBI", 1, 0, 8, 0x100 + n) + bytes((n + i) % 256 for i in range(8)))


def overload(n, stamp):
    return obj(3, stamp, struct.pack("<HH", 2, 0))


def frame(n, stamp):
    data = bytes((7 * n + i) % 256 for i in range(60 + n % 5))
    return obj(120, stamp, struct.pack("<HHHHQIHHII", 32, 0, 1, 0, 0, 0, 0, len(data), n, 0) + data)


def foreign(n, stamp):
    size = 20 + n // 10
    return padded(size, 9999, b"LOBJ" + struct.pack("<HHII", 16, 7, size, 9999) + bytes(range(size - 16)))


objects, starts, log, stamp = [], [], b"", 0
for n in range(40):
    for make in (message, wake_up, *((overload,) if n % 8 == 3 else ()), *((frame,) if n % 4 == 1 else ()), *((foreign,) if n % 10 == 6 else ())):
        stamp += 1_250_000
        size, kind, data = make(n, stamp)
        objects.append((len(log), size, kind))
        log += data


def slip(desk, entries):
    body = bytes((1, desk)) + b"".join(struct.pack(">III", *e) for e in entries)
    return struct.pack(">I", len(body)) + body


can = [o for o in objects if o[2] in (1, 3)]
lin = [o for o in objects if o[2] == 62]
ethernet = [o for o in objects if o[2] == 120]
other = [o for o in objects if o[2] == 9999]
honest = slip(1, can) + slip(2, lin) + slip(3, ethernet) + slip(7, other)
twice = slip(1, can) + slip(2, lin) + slip(3, sorted(ethernet + [lin[16]])) + slip(7, other)

for name, bundle in (("40", honest), ("41", twice)):
    folder = here / name
    folder.mkdir(exist_ok=True)
    (folder / "log").write_bytes(log)
    (folder / "bundle").write_bytes(bundle)
print(f"{len(objects)} objects, {len(lin)} wake-ups, {len(log)} bytes; the wake-up named twice starts at {lin[16][0]}")
