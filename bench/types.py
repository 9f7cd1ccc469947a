#!/usr/bin/env python3
"""Measures the check of types: time over programs of 5,000 globals, 2,000 functions and a function of
2,000 locals, and of twice and four times as many.

usage: bench/types.py FOLDER

FOLDER is made if need be. A copy of the crates is proved and built there, with two small programs that
read a merged text from standard input: one parses it, the other checks it too and prints how many
functions are typed. The check's time is the difference of their processor times. Each text is run nine
times with each program, and the quickest runs count, since other work on the machine only adds to them.
This script ends with status 1 where twice as many names take more than 2.6 times as long, or where a
program isn't typed.
"""
import pathlib, sys
from measuring import build, measure

PARSES = '''//! Reads a merged text from standard input, and prints how many functions it has.
#![tactic(auto)]

use c_lang::{Fail, Unit};
use c_lexer::lex;
use c_parser::parse;
use std::alloc::Global;
use std::io;
use std::io::Read;

fn count(alloc: Global, text: &[u8]) -> Result<usize, Fail> {
    let tokens = lex(alloc, Unit::Merge, text)?;
    let program = parse(alloc, Unit::Merge, 72, &tokens)?;
    Ok(program.funcs.len())
}

fn main(rt: HostRuntime) -> io::Result<()> {
    let mut text = Vec::new(rt.alloc());
    rt.reader().read_to_end(&mut text)?;
    match count(rt.alloc(), &text) {
        Ok(functions) => println!(rt; "{functions}")?,
        Err(_) => println!(rt; "0")?,
    }
    Ok(())
}
'''

CHECKS = PARSES.replace("how many functions it has", "how many functions are typed").replace(
    "use c_parser::parse;", "use c_parser::parse;\nuse c_types::check;"
).replace(
    "    Ok(program.funcs.len())", "    let typed = check(alloc, Unit::Merge, program)?;\n    Ok(typed.program().funcs.len())"
)

CRATES = ["c_lang", "c_grammar", "c_lexer", "c_expressions", "c_statements", "c_parser", "c_types"]
PROGRAMS = [
    ("parse_bench", "c_grammar c_lang c_lexer c_parser sqlite_items", PARSES),
    ("check_bench", "c_grammar c_lang c_lexer c_parser c_types sqlite_items", CHECKS),
]


def program(times):
    """Globals, functions that use them and each other, and a function with many locals and blocks."""
    names, functions = 5000 * times, 2000 * times
    lines = [f"int g{i} = {i};" for i in range(names)]
    for i in range(functions):
        lines.append(f"int f{i}(int a, int b) {{")
        lines.append(f"if (a < g{i * 2}) {{ int c = g{names - 1 - i} + b; g{i} = c; }} else {{ int d = a; g{i} = d; }}")
        lines.append(f"return a * b - g{i * 7919 % names}; }}")
    lines.append("int locals(void) {\nint l0 = 1;")
    for i in range(1, 2000 * times):
        lines.append(f"int l{i} = l{i - 1} + g{i};")
        if i % 4 == 0:
            lines.append(f"if (l{i}) {{ int in{i} = f{i % functions}(l{i // 2}, l0); l{i} = in{i}; }}")
    lines.append("return l0; }\nint main(void) { return 0; }\n")
    return "\n".join(lines).encode()


def main():
    folder = pathlib.Path(sys.argv[1])
    parses, checks = build(folder, CRATES, PROGRAMS)
    good, before = True, None
    for times in [1, 2, 4]:
        path = folder / "text"
        path.write_bytes(program(times))
        _, parsing, _ = measure(parses, path)
        count, whole, _ = measure(checks, path)
        seconds = whole - parsing
        ratio = seconds / before if before else None
        print(
            f"{5000 * times} globals, {2000 * times} functions, {2000 * times} locals: {seconds * 1000:.1f} ms"
            + (f", {ratio:.2f} times the time of half as many" if ratio else "")
        )
        good = good and count == 2000 * times + 2 and (ratio is None or ratio <= 2.6)
        before = seconds
    sys.exit(0 if good else 1)


main()
