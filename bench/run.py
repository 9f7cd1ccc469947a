#!/usr/bin/env python3
"""Measures `dsu run`: steps a second, memory over a long run, and the start of a large text.

Build the program first, by `rt run` in crates/dsu. Then run this script at the top of the repository.

Each loop is run three times with 100,000 and with 10,000,000 steps, and the difference of the quickest runs'
processor times counts. The large texts have 5, 10 and 20 MB and make one step. This script ends with status 1
where a loop over a few names makes fewer than 500,000 steps a second, where its long run takes more than 1 MB
more memory than its short one, or where 10 MB take more than 10 seconds or 4 GB until the first step is made.
"""
import pathlib, sys, tempfile
from measuring import LOOP, measure_steps, merged, speed

CALLS = b"""int add(int a, int b) {
return a + b;
}
int main(void) {
int i = 0;
while (1) {
int j = add(i, 1);
i = j % 1000;
}
}
"""

# What the functions of a large text name, and a start for them.
DECLARATIONS = b"""int dsu_now = 0;
int dsu_both_total = 0;
int dsu_both_table[100];
void dsu_xform_dsu_transform(void) {
dsu_both_total = 0;
}
int main(void) {
return 0;
}
"""


def main():
    good, few, many = True, 100_000, 10_000_000
    with tempfile.TemporaryDirectory() as folder:
        path = pathlib.Path(folder) / "merged.c"
        for name, text in [("a loop", LOOP), ("a loop of calls", CALLS)]:
            path.write_bytes(text)
            steps, before, after = speed(["run", path], few, many)
            print(f"{name}: {steps:,.0f} steps a second")
            print(f"  memory: {before / 1e6:.1f} MB after {few:,} steps, {after / 1e6:.1f} MB after {many:,}")
            if name == "a loop":
                good = good and steps >= 500_000
            good = good and after - before <= 1_000_000
        for size in [5_000_000, 10_000_000, 20_000_000]:
            path.write_bytes(merged(size) + DECLARATIONS)
            seconds, memory = measure_steps(["run", path], 1)
            print(f"{size / 1e6:.0f} MB: {seconds:.2f} s and {memory / 1e6:.0f} MB until the first step")
            if size == 10_000_000:
                good = good and seconds <= 10 and memory <= 4_000_000_000
    sys.exit(0 if good else 1)


main()
