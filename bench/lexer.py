#!/usr/bin/env python3
"""Measures the lexer: time and memory over merged texts of 1, 2 and 4 MB.

usage: bench/lexer.py FOLDER

FOLDER is made if need be. A copy of the crates is proved and built there, with a small program that reads
a merged text from standard input and prints how many tokens it has. The processor time of a whole run of
the program counts. Each text is run fifteen times, and the quickest run counts, since other work on the
machine only adds to it. This script ends with status 1 where a text of twice the size takes more than 2.3
times as long, where fewer than 20 MB are read a second, or where a byte of text takes more than 80 bytes
of memory.
"""
import pathlib, sys
from measuring import build, measure, merged

PROGRAM = '''//! Reads a merged text from standard input, and prints how many tokens it has.
#![tactic(auto)]

use c_lang::Unit;
use c_lexer::lex;
use std::io;
use std::io::Read;

fn main(rt: HostRuntime) -> io::Result<()> {
    let mut text = Vec::new(rt.alloc());
    rt.reader().read_to_end(&mut text)?;
    let count = match lex(rt.alloc(), Unit::Merge, &text) {
        Ok(tokens) => tokens.len(),
        Err(_) => 0,
    };
    println!(rt; "{count}")?;
    Ok(())
}
'''


def main():
    folder = pathlib.Path(sys.argv[1])
    [program] = build(folder, ["c_lang", "c_grammar", "c_lexer"], [("lex_bench", "c_grammar c_lang c_lexer sqlite_items", PROGRAM)])
    good, before = True, None
    for megabytes in [1, 2, 4]:
        text = merged(megabytes * 1_000_000)
        path = folder / "text"
        path.write_bytes(text)
        count, seconds, memory = measure(program, path, 15)
        speed, a_byte = len(text) / seconds / 1e6, memory / len(text)
        ratio = seconds / before if before else None
        print(
            f"{len(text)} bytes, {count} tokens: {seconds * 1000:.1f} ms, {speed:.0f} MB/s, "
            f"{a_byte:.0f} bytes of memory a byte" + (f", {ratio:.2f} times the time of half the size" if ratio else "")
        )
        good = good and count > 0 and speed >= 20 and a_byte <= 80 and (ratio is None or ratio <= 2.3)
        before = seconds
    sys.exit(0 if good else 1)


main()
