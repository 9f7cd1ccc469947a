#!/usr/bin/env python3
"""Measures the parser: time and memory over merged texts of 1, 2 and 4 MB.

usage: bench/parser.py FOLDER

FOLDER is made if need be. A copy of the crates is proved and built there, with two small programs that
read a merged text from standard input: one cuts it into tokens, the other parses these too and prints how
many functions there are. The parser's time is the difference of their processor times. Each text is run
nine times with each program, and the quickest runs count, since other work on the machine only adds to
them. Memory is that of the whole second program. This script ends with status 1 where a text of twice the
size takes more than 2.3 times as long, where fewer than 5 MB are parsed a second, or where a byte of text
takes more than 300 bytes of memory.
"""
import pathlib, sys
from measuring import build, measure, merged

LEXES = '''//! Reads a merged text from standard input, and prints how many tokens it has.
#![tactic(auto)]

use c_lang::Unit;
use c_lexer::lex;
use std::io;
use std::io::Read;

fn main(rt: HostRuntime) -> io::Result<()> {
    let mut text = Vec::new(rt.alloc());
    rt.reader().read_to_end(&mut text)?;
    let count = match lex(rt.alloc(), Unit::Merge, &text) {
        Ok(tokens) => tokens.len(),
        Err(_) => 0,
    };
    println!(rt; "{count}")?;
    Ok(())
}
'''

PARSES = '''//! Reads a merged text from standard input, and prints how many functions it has.
#![tactic(auto)]

use c_lang::Unit;
use c_lexer::lex;
use c_parser::parse;
use std::alloc::Global;
use std::io;
use std::io::Read;

fn count(alloc: Global, text: &[u8]) -> usize {
    let Ok(tokens) = lex(alloc, Unit::Merge, text) else {
        return 0;
    };
    match parse(alloc, Unit::Merge, 72, &tokens) {
        Ok(program) => program.funcs.len(),
        Err(_) => 0,
    }
}

fn main(rt: HostRuntime) -> io::Result<()> {
    let mut text = Vec::new(rt.alloc());
    rt.reader().read_to_end(&mut text)?;
    let functions = count(rt.alloc(), &text);
    println!(rt; "{functions}")?;
    Ok(())
}
'''

CRATES = ["c_lang", "c_grammar", "c_lexer", "c_expressions", "c_statements", "c_parser"]
PROGRAMS = [
    ("lex_bench", "c_lang c_lexer sqlite_items", LEXES),
    ("parse_bench", "c_grammar c_lang c_lexer c_parser sqlite_items", PARSES),
]


def main():
    folder = pathlib.Path(sys.argv[1])
    lexes, parses = build(folder, CRATES, PROGRAMS)
    good, before = True, None
    for megabytes in [1, 2, 4]:
        text = merged(megabytes * 1_000_000)
        path = folder / "text"
        path.write_bytes(text)
        _, lexing, _ = measure(lexes, path)
        count, whole, memory = measure(parses, path)
        seconds = whole - lexing
        speed, a_byte = len(text) / seconds / 1e6, memory / len(text)
        ratio = seconds / before if before else None
        print(
            f"{len(text)} bytes, {count} functions: {seconds * 1000:.1f} ms, {speed:.0f} MB/s, "
            f"{a_byte:.0f} bytes of memory a byte" + (f", {ratio:.2f} times the time of half the size" if ratio else "")
        )
        good = good and count > 0 and speed >= 5 and a_byte <= 300 and (ratio is None or ratio <= 2.3)
        before = seconds
    sys.exit(0 if good else 1)


main()
