#!/usr/bin/env python3
"""Measures the printer: time over merged texts of 1, 2 and 4 MB.

usage: bench/printer.py FOLDER

FOLDER is made if need be. A copy of the crates is proved and built there, with two small programs that
read a merged text from standard input and parse it; one prints the program once, the other eleven times.
A tenth of the difference of their processor times is the printer's. Each text is run nine times with each
program, and the quickest runs count. This script ends with status 1 where a text of twice the size takes
more than 2.3 times as long, or where fewer than 20 MB are printed a second.
"""
import pathlib, sys
from measuring import build, measure, merged

PRINTS = '''//! Reads a merged text from standard input, prints its program TIMES times, and says how long the last text is.
#![tactic(auto)]

use c_lang::Unit;
use c_lexer::lex;
use c_parser::parse;
use merge_printer::program_text;
use std::alloc::Global;
use std::io;
use std::io::Read;

fn length(alloc: Global, text: &[u8]) -> usize {
    let Ok(tokens) = lex(alloc, Unit::Merge, text) else {
        return 0;
    };
    let Ok(program) = parse(alloc, Unit::Merge, 72, &tokens) else {
        return 0;
    };
    let mut size = 0;
    for _ in 0..TIMES {
        if let Ok(text) = program_text(alloc, &program) {
            size = text.len();
        }
    }
    size
}

fn main(rt: HostRuntime) -> io::Result<()> {
    let mut text = Vec::new(rt.alloc());
    rt.reader().read_to_end(&mut text)?;
    let size = length(rt.alloc(), &text);
    println!(rt; "{size}")?;
    Ok(())
}
'''
CRATES = ["c_lang", "c_grammar", "c_lexer", "c_expressions", "c_statements", "c_parser", "c_types", "merge_printer"]
USES = "c_grammar c_lang c_lexer c_parser merge_printer sqlite_items"
PROGRAMS = [("print_once", USES, PRINTS.replace("TIMES", "1")), ("print_often", USES, PRINTS.replace("TIMES", "11"))]


def main():
    folder = pathlib.Path(sys.argv[1])
    once, often = build(folder, CRATES, PROGRAMS)
    good, before = True, None
    for megabytes in [1, 2, 4]:
        text = merged(megabytes * 1_000_000)
        path = folder / "text"
        path.write_bytes(text)
        size, first, _ = measure(once, path)
        _, whole, _ = measure(often, path)
        seconds = (whole - first) / 10
        speed, ratio = size / seconds / 1e6, seconds / before if before else None
        print(
            f"{size} bytes: {seconds * 1000:.1f} ms, {speed:.0f} MB/s"
            + (f", {ratio:.2f} times the time of half the size" if ratio else "")
        )
        good = good and size == len(text) and speed >= 20 and (ratio is None or ratio <= 2.3)
        before = seconds
    sys.exit(0 if good else 1)


main()
