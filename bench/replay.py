#!/usr/bin/env python3
"""Measures `dsu replay`: steps a second beside those of `dsu run`, memory over a long run, and the start of large worlds.

Build the program first, by `rt run` in crates/dsu. Then run this script at the top of the repository.

The same loop is run as a merged text and replayed as the old version of a world, three times with 100,000 and with
10,000,000 steps, and the difference of the quickest runs' processor times counts. The worlds have versions of 64, 128
and 256 KB and make one step, the quickest of nine runs counting. This script ends with status 1 where a replay makes fewer than half as many steps a second
as a run, where its long run takes more than 1 MB more memory than its short one, or where a doubling of the size
takes more than 2.3 times as long.
"""
import pathlib, sys, tempfile
from measuring import LOOP, measure_steps, speed

MAIN = b"int main(void) { return 0; }\n"
NOTHING = b"void dsu_transform(void) { }\n"


def version(size, step):
    """A version of about this size, with a global and a function in every few lines."""
    text, number = [], 0
    while sum(map(len, text)) < size - 200:
        text.append(b"int g%d = %d;\nint f%d(int x) {\nif (x < g%d) {\nreturn x + %d;\n}\nreturn g%d;\n}\n" % (number, number, number, number, step, number))
        number += 1
    return b"".join(text) + MAIN


def main():
    good, few, many = True, 100_000, 10_000_000
    with tempfile.TemporaryDirectory() as folder:
        old, new, xform = (pathlib.Path(folder) / name for name in ("old.c", "new.c", "xform.c"))
        old.write_bytes(LOOP)
        new.write_bytes(MAIN)
        xform.write_bytes(NOTHING)
        plain, _, _ = speed(["run", old], few, many)
        replayed, before, after = speed(["replay", old, new, xform], few, many)
        print(f"run: {plain:,.0f} steps a second; replay: {replayed:,.0f}")
        print(f"  memory of a replay: {before / 1e6:.1f} MB after {few:,} steps, {after / 1e6:.1f} MB after {many:,}")
        good = replayed >= plain / 2 and after - before <= 1_000_000
        times = []
        for size in [64_000, 128_000, 256_000]:
            old.write_bytes(version(size, 1))
            new.write_bytes(version(size, 2))
            seconds, memory = measure_steps(["replay", old, new, xform], 1, runs=9)
            times.append(seconds)
            print(f"versions of {size // 1000} KB: {seconds:.2f} s and {memory / 1e6:.0f} MB until the first step")
        good = good and all(later <= 2.3 * earlier for earlier, later in zip(times, times[1:]))
    sys.exit(0 if good else 1)


main()
