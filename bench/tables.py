#!/usr/bin/env python3
"""How long calls on tables take, over a keeper in memory: inserts, and selects by a key and of all rows.

    python3 bench/tables.py FOLDER [--try]

FOLDER is a copy of the repository that may be changed, with what `rt check` left in it, so that only the program below is proved in it.
It is proved, built as `rt run` builds it, and run with counts of calls; each time is the least of some runs, less that of the same
program without the calls that are measured. With --try the program is only run once for each of its words, as `rt try` does, and no
time is told.
"""

import pathlib
import subprocess
import sys
import time

RUNS = 5

DEPENDENCIES = "std_words table_store table_words table_rows notation naming typed_json jsonb_contain bson_order bson_values outside history_lock"

PROGRAM = r"""//! Bench: calls on tables over a keeper in memory, as many as its words say.
#![tactic(auto)]

ghost use Rattle.std.specs.Prelude.{◌≡◌, true, IfSome};
ghost use Rattle.naming.specs.Names.{is_valid};
ghost use Rattle.table_words.specs.Sound.{IsSound, accepted};

use bson_order::id_key;
use bson_values::{Document, List, Space, Text, Value, storable};
use history_lock::Object;
use jsonb_contain::Cond;
use naming::{can_be_id, is_valid};
use notation::document;
use outside::{Kept, SureKeeper};
use std::alloc::Global;
use std::env;
use std::io;
use std::process::ExitCode;
use table_rows::Row;
use table_store::Tables;
use table_words::{TableCall, TableReply};
use typed_json::to_row;

fn row_of(alloc: Global, document: &Document) -> Option<Row>
    ensures { IfSome result IsSound }
{
    let id = document.get("_id")?;
    if !can_be_id(id) {
        return None;
    }
    match storable(document) {
        Ok(()) => {}
        Err(_) => return None,
    }
    let json = to_row(alloc, document).ok()?;
    let key = id_key(alloc, id).ok()?;
    Row::new(alloc, key, json).ok()
}

/// The row of a document of three fields.
fn row(alloc: Global, id: u64) -> Option<Row>
    ensures { IfSome result IsSound }
{
    let text = format!(in alloc; "{{_id: {id}L, name: \"Ada Lovelace\", age: 36}}").ok()?;
    let document = document(alloc, text.as_str())?;
    let row = row_of(alloc, &document);
    drop(document);
    row
}

/// Makes so many rows, and answers how many.
fn make_rows(alloc: Global, count: u64) -> u64 {
    let mut made = 0u64;
    for id in 0..count {
        if row(alloc, id).is_some() {
            made = made.wrapping_add(1);
        }
    }
    made
}

fn create(alloc: Global) -> Option<TableCall>
    ensures { IfSome result accepted }
{
    let db = Text::of(alloc, "t").ok()?;
    let coll = Text::of(alloc, "c").ok()?;
    let space = Space { db, coll };
    if is_valid(&space) {
        Some(TableCall::Create { space })
    } else {
        None
    }
}

/// A store with the table 1.
fn tables(alloc: Global) -> Option<Tables<SureKeeper>> {
    let kept = Kept {
        tables: List::new(alloc),
    };
    let keeper = SureKeeper::new(alloc, kept).ok()?;
    let mut tables = Tables::load(alloc, keeper).ok()?;
    let call = create(alloc)?;
    let reply = tables.run(call);
    drop(reply);
    Some(tables)
}

fn inserts(alloc: Global, tables: &mut Tables<SureKeeper>, id: u64) -> bool {
    match row(alloc, id) {
        Some(row) => {
            let reply = tables.run(TableCall::Insert { table: 1, row });
            matches!(reply, TableReply::Inserted { .. })
        }
        None => false,
    }
}

/// Inserts so many rows, and answers how many.
fn insert_rows(alloc: Global, tables: &mut Tables<SureKeeper>, count: u64) -> u64 {
    let mut made = 0u64;
    for id in 0..count {
        if inserts(alloc, tables, id) {
            made = made.wrapping_add(1);
        }
    }
    made
}

fn by_key(alloc: Global, id: i64) -> Option<Cond> {
    let key = id_key(alloc, &Value::Long(id)).ok()?;
    Some(Cond::KeyIs(key))
}

fn selected(tables: &mut Tables<SureKeeper>, cond: Option<Cond>) -> u64 {
    match cond {
        Some(cond) => match tables.run(TableCall::Select { table: 1, cond }) {
            TableReply::Rows { rows, .. } => rows.len() as u64,
            _ => 0,
        },
        None => 0,
    }
}

/// So many selects, with the number of all rows that they gave.
fn select_keys(alloc: Global, tables: &mut Tables<SureKeeper>, count: u64) -> u64 {
    let mut given = 0u64;
    for number in 0..count {
        let cond = by_key(alloc, (number.wrapping_mul(7) % 1000) as i64);
        given = given.wrapping_add(selected(tables, cond));
    }
    given
}

/// Likewise, of all rows.
fn select_all(alloc: Global, tables: &mut Tables<SureKeeper>, count: u64) -> u64 {
    let mut given = 0u64;
    for _ in 0..count {
        let cond = Cond::All(List::new(alloc));
        given = given.wrapping_add(selected(tables, Some(cond)));
    }
    given
}

/// What is done so often: `rows` are made, or inserted, or selected, in a table of 1,000, by `keys` or `all`.
fn done(alloc: Global, word: &str, count: u64) -> Option<u64> {
    let mut tables = tables(alloc)?;
    let before = match word {
        "keys" | "all" => insert_rows(alloc, &mut tables, 1000),
        _ => 0,
    };
    let given = match word {
        "rows" => make_rows(alloc, count),
        "inserts" => insert_rows(alloc, &mut tables, count),
        "keys" => select_keys(alloc, &mut tables, count),
        "all" => select_all(alloc, &mut tables, count),
        _ => 0,
    };
    drop(tables);
    Some(before.wrapping_add(given))
}

/// The word and the count behind the program's name.
fn words(rt: HostRuntime) -> io::Result<Vec<String>> {
    let mut words = Vec::new(rt.alloc());
    for word in env::args(&rt)?.skip(1) {
        words.push(word)?;
    }
    Ok(words)
}

fn asked(rt: HostRuntime) -> Option<u64> {
    let words = words(rt).ok()?;
    let count = words.get(1)?.as_str().parse::<u64>().ok()?;
    done(rt.alloc(), words.get(0)?.as_str(), count)
}

fn main(rt: HostRuntime) -> ExitCode {
    match asked(rt) {
        Some(given) => {
            let _ = println!(rt; "{given}");
            ExitCode::SUCCESS
        }
        None => ExitCode::FAILURE,
    }
}
"""


def add_crate(folder):
    """Makes the program a crate of the copy."""
    source = folder / "crates/table_times/src"
    source.mkdir(parents=True, exist_ok=True)
    (source / "main.rt").write_text(PROGRAM)
    names = folder / "crates.txt"
    line = f"table_times: {DEPENDENCIES}\n"
    if line not in names.read_text():
        names.write_text(names.read_text() + line)
    return source.parent


def seconds(program, word, count, wanted):
    """The least of some runs, each of which has to tell that it gave so much."""
    times = []
    for _ in range(RUNS):
        begun = time.perf_counter()
        told = subprocess.run([program, word, str(count)], stdout=subprocess.PIPE, check=True).stdout
        times.append(time.perf_counter() - begun)
        if told.split() != [str(wanted).encode()]:
            sys.exit(f"{word} {count} told {told}, and not {wanted}")
    return min(times)


def tell(words, count, took):
    print(f"{count:7,} {words:48} {took:7.2f} s, {took / count * 1e6:8.2f} us each", flush=True)


def measure(program):
    rows = seconds(program, "rows", 100_000, 100_000)
    full = seconds(program, "keys", 0, 1_000)
    tell("rows made of the texts of documents", 100_000, rows)
    tell("inserts of such rows into one table", 100_000, seconds(program, "inserts", 100_000, 100_000) - rows)
    tell("selects by a key in a table of 1,000 rows", 100_000, seconds(program, "keys", 100_000, 101_000) - full)
    tell("selects of all rows of it", 2_000, seconds(program, "all", 2_000, 2_001_000) - full)


def main():
    crate = add_crate(pathlib.Path(sys.argv[1]).resolve())
    if "--try" in sys.argv:
        for word in ["rows", "inserts", "keys", "all"]:
            subprocess.run(["rt", "try", "--", word, "10"], cwd=crate, check=True)
        return
    subprocess.run(["rt", "run", "--", "rows", "1"], cwd=crate, check=True, stdout=subprocess.DEVNULL)
    measure(crate / "out/table_times")


main()
