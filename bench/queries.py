#!/usr/bin/env python3
"""How many operations a second `ferretd pipe` does on a collection of 1,000 and of 10,000 documents, and how that grows.

    (cd crates/ferretd && rt run -- pipe < stdin > /dev/null)     # leaves the proved program at out/ferretd
    python3 bench/queries.py crates/ferretd/out/ferretd

Each document has 236 bytes. Each time is the least of some runs, less that of the inserts alone.
"""

import sys

from messages import count, distinct, document, element, find, insert, int32, message, person, seconds, string, update

SIZES = 1_000, 10_000
RUNS = 3


def grouped(number, count):
    """A person, whose age is that of nine others of so many."""
    return person(number).replace(element(0x10, "age", int32(number)), element(0x10, "age", int32(number % (count // 10))))


def rates(program, size):
    """Operations a second, by their name."""
    inserts = b"".join(insert("c", grouped(number, size)) for number in range(size))
    alone = seconds(program, [inserts], RUNS)
    rates = {"insert": size / alone}
    for words, one, many in [
        ("find by _id", find("c", element(0x10, "_id", int32(7))), 20_000),
        ("$inc by _id", update("c", document(element(0x10, "_id", int32(7))), raised("visits")), 20_000),
        ("find that 10 documents meet", find("c", element(0x10, "age", int32(7))), 1_000_000 // size),
        ("find by $gte that 10 documents meet", find("c", element(0x03, "_id", at_least(size - 10))), 100_000 // size),
        ("find of all, more than a batch", find("c"), 100_000 // size),
        ("find of 10, no sort", page("c", element(0x10, "limit", int32(10))), 1_000_000 // size),
        ("find of 10, sorted by age", page("c", by_age(), element(0x10, "limit", int32(10))), 100_000 // size),
        ("find of 10 names, by a projection", page("c", names_alone(), element(0x10, "limit", int32(10))), 1_000_000 // size),
        ("count by $gte that half meet", count("c", element(0x03, "_id", at_least(size // 2))), 100_000 // size),
        ("count of all", count("c"), 100_000 // size),
        ("distinct, each document another", distinct("c", "_id"), 100_000 // size),
        ("distinct, 10 documents one", distinct("c", "age"), 100_000 // size),
    ]:
        rates[words] = many / (seconds(program, [inserts, one * many], RUNS) - alone)
    return rates


def page(coll, *fields):
    return message(element(0x02, "find", string(coll)), *fields, element(0x02, "$db", string("t")))


def by_age():
    return element(0x03, "sort", document(element(0x10, "age", int32(1))))


def names_alone():
    return element(0x03, "projection", document(element(0x10, "name", int32(1))))


def at_least(number):
    return document(element(0x10, "$gte", int32(number)))


def raised(name):
    return document(element(0x03, "$inc", document(element(0x10, name, int32(1)))))


def main():
    few, many = (rates(sys.argv[1], count) for count in SIZES)
    print(f"{'':36} {SIZES[0]:>12,} {SIZES[1]:>12,}  times as long")
    for words, rate in few.items():
        print(f"{words:36} {rate:10,.0f}/s {many[words]:10,.0f}/s  {rate / many[words]:8.1f}")


main()
