#!/usr/bin/env python3
"""How long `ferretd pipe` takes for a message: usual ones in microseconds, and as wide as a stranger may send them in seconds.

    (cd crates/ferretd && rt run -- pipe < stdin > /dev/null)     # leaves the proved program at out/ferretd
    python3 bench/messages.py crates/ferretd/out/ferretd [--no-wide]

Each time is the least of several runs, less that of the same input without the messages that are measured.
"""

import os
import struct
import subprocess
import sys
import tempfile
import time

RUNS = 7


def element(code, name, value):
    return bytes([code]) + name.encode() + b"\0" + value


def document(*elements):
    inside = b"".join(elements)
    return struct.pack("<i", len(inside) + 5) + inside + b"\0"


def string(text):
    data = text.encode() + b"\0"
    return struct.pack("<i", len(data)) + data


def int32(number):
    return struct.pack("<i", number)


def message(*elements, sequences=b""):
    body = document(*elements)
    return struct.pack("<iiiiIB", len(body) + 21 + len(sequences), 1, 0, 2013, 0, 0) + body + sequences


def ping(*fields):
    return message(element(0x10, "ping", int32(1)), *fields, element(0x02, "$db", string("t")))


def insert(coll, doc):
    documents = document(element(0x03, "0", doc))
    return message(element(0x02, "insert", string(coll)), element(0x04, "documents", documents), element(0x02, "$db", string("t")))


def find(coll, *filter):
    return message(element(0x02, "find", string(coll)), element(0x03, "filter", document(*filter)), element(0x02, "$db", string("t")))


def count(coll, *query):
    return message(element(0x02, "count", string(coll)), element(0x03, "query", document(*query)), element(0x02, "$db", string("t")))


def distinct(coll, key):
    return message(element(0x02, "distinct", string(coll)), element(0x02, "key", string(key)), element(0x02, "$db", string("t")))


def update(coll, query, change):
    items = document(element(0x03, "0", document(element(0x03, "q", query), element(0x03, "u", change))))
    return message(element(0x02, "update", string(coll)), element(0x04, "updates", items), element(0x02, "$db", string("t")))


def person(number):
    """A document of 236 bytes: an `_id`, five ints, a long, two strings, an array of three strings, a document of two fields."""
    ints = [element(0x10, name, int32(number)) for name in ["age", "height", "weight", "visits", "orders"]]
    tags = document(*[element(0x02, str(place), string(tag)) for place, tag in enumerate(["new", "north", "often"])])
    address = document(element(0x02, "street", string("12 Long Lane")), element(0x10, "number", int32(12)))
    return document(
        element(0x10, "_id", int32(number)), *ints, element(0x12, "since", struct.pack("<q", 1_700_000_000_000)),
        element(0x02, "name", string("Ada Lovelace")), element(0x02, "mail", string("ada@example.org")),
        element(0x04, "tags", tags), element(0x03, "address", address))


def seconds(program, pieces, runs=RUNS):
    """The least of some runs over this input."""
    with tempfile.NamedTemporaryFile(delete=False) as stream:
        for piece in pieces:
            stream.write(piece)
    times = []
    try:
        for _ in range(runs):
            with open(stream.name, "rb") as given:
                begun = time.perf_counter()
                subprocess.run([program, "pipe"], stdin=given, stdout=subprocess.DEVNULL, check=True)
                times.append(time.perf_counter() - begun)
    finally:
        os.unlink(stream.name)
    return min(times)


def each(program, before, one, count):
    """Microseconds for each of so many of these messages, behind those before."""
    return (seconds(program, [before, one * count]) - seconds(program, [before])) / count * 1e6


def usual(program):
    collections = b"".join(insert(f"c{place}", person(number)) for place in range(50) for number in range(200))
    inserts = (seconds(program, [collections]) - seconds(program, [])) / 10_000 * 1e6
    hundred = b"".join(insert("c", person(number)) for number in range(100))
    print(f"one insert into up to 200 documents  {inserts:7.1f} us")
    print(f"a find of 100 documents              {each(program, hundred, find('c'), 2_000):7.1f} us")
    print(f"a ping                               {each(program, b'', ping(), 100_000):7.1f} us")


def wide(program, count):
    names = [f"{number:x}" for number in range(count)]
    fields = b"".join(element(0x0A, name, b"") for name in names)
    doc = document(element(0x10, "_id", int32(1)), fields)
    sequences = b"".join(b"\1" + int32(len(name) + 5) + name.encode() + b"\0" for name in names)
    for words, given in [
        ("a ping with so many fields", ping(fields)),
        ("an insert of a document with so many fields", insert("c", doc)),
        ("a ping with so many empty sequences", message(
            element(0x10, "ping", int32(1)), element(0x02, "$db", string("t")), sequences=sequences)),
    ]:
        print(f"{count:9} {words:45} {seconds(program, [given], 3):7.2f} s", flush=True)


def main():
    program = sys.argv[1]
    usual(program)
    if "--no-wide" not in sys.argv:
        for count in [250_000, 1_000_000]:
            wide(program, count)


if __name__ == "__main__":
    main()
