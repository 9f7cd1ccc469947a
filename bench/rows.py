#!/usr/bin/env python3
"""Measures the decisions on rows: difference constraints, and elimination.

usage: bench/rows.py FOLDER

FOLDER is made if need be. A copy of the crates is proved and built there, with a small program that reads
rows from standard input, and decides them. The processor time of a whole run of the program counts, reading
included. Each input is run five times, and the quickest run counts, since other work on the machine only
adds to it. This script ends with status 1 where 4,000 difference rows over 64 names take more than 50 ms,
or where the rows of a chain of 30 atoms with 100 rows take more than 100 ms.
"""
import os, pathlib, random, shutil, subprocess, sys

CRATES = {"linear_rows": "sqlite_items", "diff_certs": "sqlite_items", "linear_certs": "linear_rows sqlite_items"}

PROGRAM = '''//! Reads rows from standard input, one a line, and decides them. `d LEFT RIGHT BOUND` is a difference
//! row, a side of 64 being 0. `l BOUND ATOM FACTOR ..` is an inequality.
#![tactic(auto)]

use diff_certs::{DiffLeaf, DiffRow, are_inside, refute_diff};
use linear_certs::{Leaf, are_given, refute};
use linear_rows::Row;
use sqlite_items::Items;
use std::alloc::{AllocError, Global};
use std::io;
use std::io::Read;

fn word(word: Option<&str>) -> i64 {
    match word {
        Some(text) => match text.parse::<i64>() {
            Ok(number) => number,
            Err(_) => 0,
        },
        None => 0,
    }
}

fn side(number: i64) -> Option<u32> {
    if number >= 0 && number < 64 { Some(number as u32) } else { None }
}

fn linear(alloc: Global, line: &str) -> Result<Row, AllocError> {
    let mut words = line.split_whitespace();
    let _kind = words.next();
    let bound = word(words.next()) as i128;
    let mut parts = Vec::new(alloc);
    let mut atom: u32 = 0;
    for text in words {
        let factor = word(Some(text)) as i128;
        if factor != 0 {
            parts.push((atom, factor))?;
        }
        atom = atom.saturating_add(1);
    }
    Ok(Row {
        parts: Items::from_vec(parts),
        bound,
        equal: false,
    })
}

fn difference(line: &str) -> DiffRow {
    let mut words = line.split_whitespace();
    let _kind = words.next();
    let left = side(word(words.next()));
    let right = side(word(words.next()));
    let bound = word(words.next());
    DiffRow { left, right, bound }
}

fn decide_linear(alloc: Global, rows: &[Row]) -> &'static str {
    if !are_given(rows) {
        return "not given";
    }
    match refute(alloc, rows) {
        Leaf::Found(_) => "found",
        Leaf::Point { den: _, nums: _ } => "point",
        Leaf::Wide {
            left: _,
            right: _,
            atom: _,
        } => "wide",
        Leaf::Far(_) => "far",
        Leaf::Rows(_) => "rows",
        Leaf::NoMemory => "no memory",
    }
}

fn decide_differences(alloc: Global, rows: &[DiffRow]) -> &'static str {
    if !are_inside(rows) {
        return "outside";
    }
    match refute_diff(alloc, rows) {
        DiffLeaf::Found(_) => "found",
        DiffLeaf::Point(_) => "point",
        DiffLeaf::NoMemory => "no memory",
    }
}

fn read(alloc: Global, text: &str, differences: &mut Vec<DiffRow>, rows: &mut Vec<Row>) -> Result<(), AllocError> {
    for line in text.lines() {
        if line.as_bytes().first() == Some(&b'd') {
            differences.push(difference(line))?;
        } else {
            rows.push(linear(alloc, line)?)?;
        }
    }
    Ok(())
}

fn main(rt: HostRuntime) -> io::Result<()> {
    let mut text = String::new(rt.alloc());
    rt.reader().read_to_string(&mut text)?;
    let mut differences = Vec::new(rt.alloc());
    let mut rows = Vec::new(rt.alloc());
    if read(rt.alloc(), text.as_str(), &mut differences, &mut rows).is_err() {
        return Ok(());
    }
    let said = if rows.is_empty() {
        decide_differences(rt.alloc(), &differences)
    } else {
        decide_linear(rt.alloc(), &rows)
    };
    println!(rt; "{said}")?;
    Ok(())
}
'''


def differences(last):
    """4,000 rows over 64 names: every one is satisfied by x(n) = -n, and a chain of all 64 is tight. The rows
    stand in an order in which each pass improves one more name. With a last row that closes the chain too
    tightly there is a cycle."""
    draw = random.Random(1)
    rows = [(n, n + 1 if n < 63 else 64, 1) for n in range(64)]
    while len(rows) < 3999:
        left, right = draw.randrange(64), draw.randrange(64)
        rows.append((left, right, max(0, right - left) + draw.randrange(50)))
    rows = rows[::-1]
    return "".join(f"d {a} {b} {c}\n" for a, b, c in rows) + f"d 64 0 {last}\n"


def worst():
    """Rows whose shortest walks have 64 rows, in the order that improves one name a pass."""
    rows = [(n, n + 1 if n < 63 else 64, -1) for n in range(64)]
    rows = rows + [(a, b, 0 if b > a else 100) for a in range(63) for b in range(63) if a != b][: 4000 - len(rows)]
    return "".join(f"d {a} {b} {c}\n" for a, b, c in rows)


def chain(last):
    """Rows of a chain of 30 atoms, 100 in all: x(n) - x(n + 1) <= b, bounds on each atom, and a last row."""
    rows = []
    for n in range(29):
        rows.append((3, {n: 1, n + 1: -1}))
        rows.append((-1, {n: -1, n + 1: 1}))
    for n in range(30):
        rows.append((1000 + n, {n: 1}))
    for n in range(11):
        rows.append((n, {n: -1}))
    rows.append((last, {0: -1, 29: 1}))
    text = ""
    for bound, parts in rows:
        text += f"l {bound} " + " ".join(str(parts.get(n, 0)) for n in range(30)) + "\n"
    return text


def many():
    """150 upper and 150 lower rows of one atom, whose 22,500 pairs differ."""
    text = ""
    for n in range(150):
        parts = {0: 1, n + 1: 1}
        text += "l 0 " + " ".join(str(parts.get(m, 0)) for m in range(301)) + "\n"
    for n in range(150):
        parts = {0: -1, n + 151: 1}
        text += "l 0 " + " ".join(str(parts.get(m, 0)) for m in range(301)) + "\n"
    return text


def build(folder):
    root = pathlib.Path(__file__).resolve().parent.parent
    for crate in CRATES:
        copy = folder / "crates" / crate
        shutil.rmtree(copy, ignore_errors=True)
        shutil.copytree(root / "crates" / crate, copy, ignore=shutil.ignore_patterns("out"))
    source = folder / "crates" / "rows_bench" / "src"
    source.mkdir(parents=True, exist_ok=True)
    (source / "main.rt").write_text(PROGRAM)
    lines = [f"{crate}: {uses}\n" for crate, uses in CRATES.items()]
    (folder / "crates.txt").write_text("".join(lines) + "rows_bench: linear_rows diff_certs linear_certs sqlite_items\n")
    subprocess.run(["rt", "run"], cwd=source.parent, check=True, stdin=subprocess.DEVNULL, stdout=subprocess.DEVNULL, stderr=subprocess.DEVNULL)
    return source.parent / "out" / "rows_bench"


def measure(program, text):
    """What the program says, the quickest of five runs in seconds, and the largest run's memory in bytes."""
    times, memory, said = [], 0, ""
    for _ in range(5):
        run = subprocess.Popen([program], stdin=subprocess.PIPE, stdout=subprocess.PIPE)
        run.stdin.write(text.encode())
        run.stdin.close()
        said = run.stdout.read().decode().strip()
        _, status, used = os.wait4(run.pid, 0)
        if status:
            sys.exit(f"the program ended with {status}")
        times.append(used.ru_utime + used.ru_stime)
        memory = max(memory, used.ru_maxrss * 1024)
    return said, min(times), memory


def main():
    folder = pathlib.Path(sys.argv[1])
    program = build(folder)
    cases = [
        ("4,000 difference rows with a point", differences(0), "point", 0.05),
        ("4,000 difference rows with a cycle", differences(-65), "found", 0.05),
        ("4,000 difference rows in a bad order", worst(), "point", 0.05),
        ("a chain of 30 atoms with a point", chain(-29), "point", 0.1),
        ("a chain of 30 atoms that is refuted", chain(-200), "found", 0.1),
        ("a stage of more than 20,000 rows", many(), "rows", 60),
    ]
    good = True
    for name, text, want, limit in cases:
        said, seconds, memory = measure(program, text)
        print(f"{name}: {said}, {seconds * 1000:.1f} ms, {memory / 1e6:.1f} MB")
        good = good and said == want and seconds <= limit
    sys.exit(0 if good else 1)


main()
