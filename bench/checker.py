#!/usr/bin/env python3
"""Measures the checker of certificates on lists of 100,000, 200,000 and 400,000 rules.

usage: bench/checker.py FOLDER

FOLDER is made if need be. A copy of the crates is proved and built there, with two small programs that read
certificates from standard input: one prints how many rules they have, the other checks each of them against the same
sequent and prints how many check. The checker's time is the difference of their processor times. Each text is run nine
times with each program, and the quickest runs count, since other work on the machine only adds to them. There are two
kinds of lists: many small certificates that split, and one certificate of rules that each add a fact. This script ends
with status 1 where fewer than 200,000 rules are checked a second, or where a list of twice the size takes more than 2.3
times as long.
"""
import pathlib, sys
from measuring import build, measure

HEAD = '''#![tactic(auto)]

use cert_form::{Cert, read_certs};
use sqlite_items::Items;
use std::alloc::Global;
use std::io;
use std::io::Read;

fn given(alloc: Global, text: &[u8]) -> Items<Option<Cert>> {
    match read_certs(alloc, text) {
        Ok(certs) => certs,
        Err(_) => Items::new(alloc),
    }
}
'''

MAIN = '''
fn main(rt: HostRuntime) -> io::Result<()> {
    let mut text = Vec::new(rt.alloc());
    rt.reader().read_to_end(&mut text)?;
    let count = count(rt.alloc(), &text);
    println!(rt; "{count}")?;
    Ok(())
}
'''

READS = "//! Reads certificates from standard input, and prints how many rules they have.\n" + HEAD + '''
fn count(alloc: Global, text: &[u8]) -> usize {
    let certs = given(alloc, text);
    let mut count: usize = 0;
    for cert in certs.as_slice() {
        if let Some(cert) = cert {
            count = count.saturating_add(cert.rules.as_slice().len());
        }
    }
    count
}
''' + MAIN

CHECKS = "//! Reads certificates from standard input, and prints how many of them check.\n" + HEAD.replace("use cert_form", "use c_lang::{Pos, Unit};\nuse cert_checker::check_cert;\nuse cert_form").replace("use std::io::Read;", "use std::io::Read;\nuse formula_texts::read_form;\nuse terms::{Fact, Form, Label, Sequent, What};") + '''
fn form(alloc: Global, text: &str) -> Option<Form> {
    match read_form(alloc, text.as_bytes()) {
        Ok(form) => form,
        Err(_) => None,
    }
}

fn sequent(alloc: Global) -> Option<Sequent> {
    let given = form(alloc, "x <= y or x <= y - 1")?;
    let goal = form(alloc, "x <= y")?;
    let mut hyps = Items::new(alloc);
    if hyps.push(Fact::Plain(given)).is_err() {
        return None;
    }
    let pos = Pos {
        unit: Unit::Old,
        line: 1,
    };
    Some(Sequent {
        sorts: Items::new(alloc),
        hyps,
        goal: Fact::Plain(goal),
        label: Label {
            pos,
            what: What::Assert,
        },
    })
}

fn count(alloc: Global, text: &[u8]) -> usize {
    let certs = given(alloc, text);
    let Some(sequent) = sequent(alloc) else {
        return 0;
    };
    let mut count: usize = 0;
    for cert in certs.as_slice() {
        if let Some(cert) = cert {
            if let Ok(true) = check_cert(alloc, &sequent, cert) {
                count = count.saturating_add(1);
            }
        }
    }
    count
}
''' + MAIN

CRATES = ["c_lang", "c_grammar", "c_lexer", "terms", "linear_rows", "formula_texts", "cert_form", "cert_checker"]
PROGRAMS = [
    ("cert_reads", "cert_form sqlite_items", READS),
    ("cert_checks", "c_lang cert_checker cert_form formula_texts sqlite_items terms", CHECKS),
]
SPLIT = '[["case",0],["close",[[2,"1"],[1,"1"]]],["close",[[2,"1"],[1,"1"]]]]'
END = '["case",0],["close",[[1,"1"],[{0},"1"]]],["close",[[1,"1"],[{0},"1"]]]'


def split(rules):
    return "[" + ",".join([SPLIT] * (rules // 3)) + "]"


def chain(rules):
    """Each rule rounds the same row, so each adds a fact."""
    adding = rules - 3
    return '[[' + ",".join(['["round",[[1,"1"]],"1"]'] * adding) + "," + END.format(adding + 2) + "]]"


def main():
    folder = pathlib.Path(sys.argv[1])
    reads, checks = build(folder, CRATES, PROGRAMS)
    good = True
    for kind, made, checking in [("small", split, lambda rules: rules // 3), ("one", chain, lambda rules: 1)]:
        before = None
        for rules in [100_000, 200_000, 400_000]:
            path = folder / "text"
            path.write_text(made(rules))
            count, read, _ = measure(reads, path)
            checked, whole, memory = measure(checks, path)
            check = max(whole - read, 0.001)
            print(f"{kind}: {count} rules: {checked} certificates check, {check:.3f} s, {count / check:.0f} rules a second, {memory / 1e6:.0f} MB in all")
            good = good and checked == checking(rules) and count / check >= 200_000
            good = good and (before is None or check <= 2.3 * before)
            before = check
    sys.exit(0 if good else 1)


if __name__ == "__main__":
    main()
