#!/usr/bin/env python3
"""Inserts documents through `ferretd pipe`, finds, counts, updates and deletes them. The program's path is the one argument."""

import struct
import subprocess
import sys


# ---- BSON: documents with bools, int32s, strings, documents and arrays, which is all that these messages need

def spell(document):
    inside = b""
    for name, value in document.items():
        name = name.encode() + b"\0"
        if isinstance(value, bool):
            inside += b"\x08" + name + bytes([value])
        elif isinstance(value, int):
            inside += b"\x10" + name + struct.pack("<i", value)
        elif isinstance(value, str):
            text = value.encode() + b"\0"
            inside += b"\x02" + name + struct.pack("<i", len(text)) + text
        elif isinstance(value, list):
            inside += b"\x04" + name + spell({str(place): item for place, item in enumerate(value)})
        else:
            inside += b"\x03" + name + spell(value)
    return struct.pack("<i", len(inside) + 5) + inside + b"\0"


def read(bytes_, place=0):
    """The document at a place, and the place behind it."""
    end = place + struct.unpack_from("<i", bytes_, place)[0] - 1
    document, place = {}, place + 4
    while place < end:
        code = bytes_[place]
        stop = bytes_.index(0, place)
        name, place = bytes_[place + 1:stop].decode(), stop + 1
        if code == 0x10:
            value, place = struct.unpack_from("<i", bytes_, place)[0], place + 4
        elif code == 0x12:
            value, place = struct.unpack_from("<q", bytes_, place)[0], place + 8
        elif code == 0x08:
            value, place = bytes_[place] == 1, place + 1
        elif code == 0x02:
            size = struct.unpack_from("<i", bytes_, place)[0]
            value, place = bytes_[place + 4:place + 3 + size].decode(), place + 4 + size
        else:
            value, place = read(bytes_, place)
            if code == 0x04:
                value = list(value.values())
        document[name] = value
    return document, end + 1


# ---- messages: OP_MSG with one body, and perhaps a document sequence

def message(number, body, sequence=None):
    sections = b"\0" + spell(body)
    for name, documents in (sequence or {}).items():
        inside = name.encode() + b"\0" + b"".join(map(spell, documents))
        sections += b"\1" + struct.pack("<i", len(inside) + 4) + inside
    return struct.pack("<iiiiI", len(sections) + 20, number, 0, 2013, 0) + sections


def replies(written):
    place = 0
    while place < len(written):
        yield read(written, place + 21)[0]
        place += struct.unpack_from("<i", written, place)[0]


asked = b"".join([
    message(1, {"insert": "people", "documents": [{"_id": 1, "name": "Ada"}], "$db": "town"}),
    message(2, {"insert": "people", "documents": [{"_id": 1, "name": "Eve"}], "$db": "town"}),
    message(3, {"insert": "people", "$db": "town"}, {"documents": [{"_id": 2, "name": "Eve"}]}),
    message(4, {"find": "people", "$db": "town"}),
    message(5, {"find": "people", "filter": {"name": {"$gt": "Bob"}}, "$db": "town"}),
    message(6, {"count": "people", "query": {"_id": {"$gte": 1}}, "$db": "town"}),
    message(7, {"distinct": "people", "key": "name", "$db": "town"}),
    message(8, {"update": "people", "updates": [
        {"q": {"_id": 1}, "u": {"$inc": {"visits": 1}}},
        {"q": {"_id": 3}, "u": {"$set": {"name": "Fay"}}, "upsert": True},
    ], "$db": "town"}),
    message(9, {"findAndModify": "people", "query": {"name": "Eve"}, "update": {"$set": {"name": "Eva"}}, "new": True, "$db": "town"}),
    message(10, {"find": "people", "sort": {"name": -1}, "limit": 2, "projection": {"_id": 0, "name": 1}, "$db": "town"}),
    message(11, {"delete": "people", "deletes": [{"q": {"name": {"$gt": "Bob"}}, "limit": 0}], "$db": "town"}),
    message(12, {"find": "people", "$db": "town"}),
])
for reply in replies(subprocess.run([sys.argv[1], "pipe"], input=asked, stdout=subprocess.PIPE, check=True).stdout):
    print(reply)
