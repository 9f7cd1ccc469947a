#!/usr/bin/env python3
"""Measures certificates: time and memory of reading and writing 100,000 and 2,000,000 rules.

usage: bench/certificates.py FOLDER

FOLDER is made if need be. A copy of the crates is proved and built there, with two small programs: one
reads certificates from standard input and prints how many there are, the other also writes them and prints
the text's length. The processor time of a whole run of a program counts. Each text is run nine times, and
the quickest run counts, since other work on the machine only adds to it. This script ends with status 1
where 100,000 rules take more than 0.5 seconds to read or 0.3 seconds to write, where another number of rules
takes longer than in proportion, or where reading takes more than 40 bytes of memory a byte of text.
"""
import json, pathlib, sys
from measuring import build, measure

CRATES = ["c_lang", "c_grammar", "c_lexer", "terms", "formula_texts", "cert_form"]
USES = "c_lang cert_form sqlite_items"

READS = '''//! Reads certificates from standard input, and prints how many there are.
#![tactic(auto)]

use cert_form::read_certs;
use std::io;
use std::io::Read;

fn main(rt: HostRuntime) -> io::Result<()> {
    let mut text = Vec::new(rt.alloc());
    rt.reader().read_to_end(&mut text)?;
    let count = match read_certs(rt.alloc(), &text) {
        Ok(certs) => certs.len(),
        Err(_) => 0,
    };
    println!(rt; "{count}")?;
    Ok(())
}
'''

WRITES = '''//! Reads certificates from standard input, writes them, and prints how long the text is.
#![tactic(auto)]

use cert_form::{read_certs, write_certs};
use std::io;
use std::io::Read;

fn main(rt: HostRuntime) -> io::Result<()> {
    let mut text = Vec::new(rt.alloc());
    rt.reader().read_to_end(&mut text)?;
    let length = match read_certs(rt.alloc(), &text) {
        Ok(certs) => match write_certs(rt.alloc(), certs.as_slice()) {
            Ok(written) => written.len(),
            Err(_) => 0,
        },
        Err(_) => 0,
    };
    println!(rt; "{length}")?;
    Ok(())
}
'''


def rule(i):
    """The i-th rule of a text."""
    sums = [[i % 1000, str(i * 7919 % 2000003 - 1000001)], [i % 977, "1"]]
    return [
        ["close", sums[: 1 + i % 2]],
        ["both", i],
        ["case", i],
        ["cut", f"(x'{i % 90 + 1} + 1) <= (y * {i})"],
        ["round", sums, str(i % 1000 + 1)],
        ["range", f"x'{i % 90 + 1}"],
        ["range", i, 0],
        ["same", i, i + 1],
        ["read", i, 0],
        ["inst", i, f"n + {i}"],
        ["truth", i, 3],
        ["divide", i, 2],
    ][i % 12]


def text(rules, each):
    """Certificates of so many rules each, together as many as that."""
    certs = [[rule(i) for i in range(first, min(rules, first + each))] for first in range(0, rules, each)]
    return (json.dumps(certs, separators=(",", ":")) + "\n").encode()


def main():
    folder = pathlib.Path(sys.argv[1])
    reads, writes = build(folder, CRATES, [("reads_certs", USES, READS), ("writes_certs", USES, WRITES)])
    good = True
    for rules, each in [(100_000, 1_000), (100_000, 100_000), (2_000_000, 2_000_000)]:
        path = folder / "certificates.json"
        content = text(rules, each)
        path.write_bytes(content)
        count, read, memory = measure(reads, path)
        length, both, _ = measure(writes, path)
        if count != -(-rules // each) or length != len(content):
            sys.exit(f"{count} certificates were read and {length} bytes written")
        per_byte = memory / len(content)
        print(f"{rules} rules in {count}: {len(content)} bytes, read in {read:.2f} s, written in {both - read:.2f} s, {per_byte:.0f} bytes a byte")
        times = rules / 100_000
        good = good and read <= 0.5 * times and both - read <= 0.3 * times and per_byte <= 40
    sys.exit(0 if good else 1)


if __name__ == "__main__":
    main()
