#!/usr/bin/env python3
"""How fast `ferretd pipe` reads: bytes a second, beside `cat` over the same stream.

Each message has a document of about 1 kB with all twelve types under a command that is unknown, so that what is timed is reading.

    (cd crates/ferretd && rt run -- pipe < stdin > /dev/null)     # leaves the proved program at out/ferretd
    python3 bench/reading.py crates/ferretd/out/ferretd
"""

import os
import struct
import subprocess
import sys
import tempfile
import time


def element(code, name, value):
    return bytes([code]) + name.encode() + b"\0" + value


def document(*elements):
    inside = b"".join(elements)
    return struct.pack("<i", len(inside) + 5) + inside + b"\0"


def string(text):
    data = text.encode() + b"\0"
    return struct.pack("<i", len(data)) + data


def every_type():
    inner = document(element(0x02, "street", string("12 Long Lane")), element(0x10, "number", struct.pack("<i", 12)))
    items = document(*[element(0x12, str(place), struct.pack("<q", place)) for place in range(20)])
    return [
        element(0x02, "title", string("a line of text that says a little about the thing " * 4)),
        element(0x03, "address", inner),
        element(0x04, "numbers", items),
        element(0x05, "picture", struct.pack("<i", 200) + b"\0" + bytes(200)),
        element(0x07, "reference", bytes(range(12))),
        element(0x08, "open", b"\1"),
        element(0x09, "since", struct.pack("<q", 1_700_000_000_000)),
        element(0x0A, "nothing", b""),
        element(0x0B, "pattern", b"^a.*z$\0i\0"),
        element(0x10, "count", struct.pack("<i", 7)),
        element(0x11, "stamp", struct.pack("<Q", 5)),
        element(0x12, "total", struct.pack("<q", 1 << 40)),
    ]


def message():
    body = document(element(0x10, "bench", struct.pack("<i", 1)), *every_type(), element(0x02, "$db", string("t")))
    return struct.pack("<iiiiIB", len(body) + 21, 1, 0, 2013, 0, 0) + body


def seconds(command, stream):
    """The least of three runs."""
    times = []
    for _ in range(3):
        with open(stream, "rb") as given:
            begun = time.perf_counter()
            subprocess.run(command, stdin=given, stdout=subprocess.DEVNULL, check=True)
            times.append(time.perf_counter() - begun)
    return min(times)


def main():
    program = sys.argv[1]
    count = int(sys.argv[2]) if len(sys.argv) > 2 else 100_000
    one = message()
    with tempfile.NamedTemporaryFile(delete=False) as stream:
        for _ in range(count):
            stream.write(one)
    size = count * len(one)
    try:
        for name, command in [("ferretd pipe", [program, "pipe"]), ("cat", ["cat"])]:
            took = seconds(command, stream.name)
            print(f"{name:13} {size} bytes in {count} messages, {took:.2f} s, {size / took / 1e6:.0f} MB/s")
    finally:
        os.unlink(stream.name)


main()
