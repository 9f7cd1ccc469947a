"""What the measuring scripts share: merged texts, programs over a copy of the crates, and timed runs."""
import os, pathlib, shutil, subprocess, sys

ROOT = pathlib.Path(__file__).resolve().parent.parent
PROGRAM = ROOT / "crates/dsu/out/dsu"

# A loop over two names that doesn't end.
LOOP = b"""int n = 0;
int main(void) {
int i = 0;
while (1) {
i = (i + 1) % 1000;
if (i % 3 == 0) {
n = n + i % 7;
} else {
n = n - 1;
}
}
}
"""


def function(i):
    """The merged text of a function with a point, a loop and outputs."""
    return (
        f'#line {i} "old"\nint dsu_old_work{i}(int count, int limit) {{\n'
        f'#line {i + 1} "old"\nif (dsu_now == 0) {{\n'
        f'#line {i + 1} "old"\nint dsu_c = dsu_choice({i % 97 + 1});\n'
        f'#line {i + 1} "old"\nif (dsu_c != 0) {{\n'
        f'#line {i + 1} "old"\ndsu_now = 1;\n'
        f'#line {i + 1} "old"\ndsu_xform_dsu_transform();\n}}\n}}\n'
        f'#line {i + 2} "old"\nwhile (count + {i} * 3 <= limit && dsu_both_table[count - 1] != {i * 7919 % 2147483647}) {{\n'
        f'#line {i + 3} "old"\ncount = count + 1;\n}}\n'
        f'#line {i + 4} "old"\nclient_out(dsu_both_total - (count - {i}));\n'
        f'#line {i + 5} "old"\nreturn count;\n}}\n'
    ).encode()


def merged(size):
    """Whole functions, up to about this size."""
    pieces, length = [b'#include "dsu.h"\n'], 0
    while length < size:
        pieces.append(function(len(pieces)))
        length += len(pieces[-1])
    return b"".join(pieces)


def build(folder, crates, programs):
    """Builds programs, each given by its name, the crates that it uses and its text, over a copy of the crates."""
    lines = [line for line in (ROOT / "crates.txt").read_text().splitlines() if line.split(":")[0] in crates]
    for crate in crates:
        copy = folder / "crates" / crate
        shutil.rmtree(copy, ignore_errors=True)
        shutil.copytree(ROOT / "crates" / crate, copy, ignore=shutil.ignore_patterns("out"))
    lines += [f"{name}: {uses}" for name, uses, _ in programs]
    (folder / "crates.txt").write_text("\n".join(lines) + "\n")
    for name, _, text in programs:
        source = folder / "crates" / name / "src"
        source.mkdir(parents=True, exist_ok=True)
        (source / "main.rt").write_text(text)
    for name, _, _ in programs:
        quiet = {"stdin": subprocess.DEVNULL, "stdout": subprocess.DEVNULL, "stderr": subprocess.DEVNULL}
        subprocess.run(["rt", "run"], cwd=folder / "crates" / name, check=True, **quiet)
    return [folder / "crates" / name / "out" / name for name, _, _ in programs]


def measure(program, path, runs=9):
    """The number that it prints, the quickest of some runs in seconds, and the largest run's memory in bytes."""
    times, memory, count = [], 0, 0
    for _ in range(runs):
        with open(path, "rb") as text:
            run = subprocess.Popen([program], stdin=text, stdout=subprocess.PIPE)
            said = run.stdout.read()
        _, status, used = os.wait4(run.pid, 0)
        if status:
            sys.exit(f"the program ended with {status}")
        count = int(said)
        times.append(used.ru_utime + used.ru_stime)
        memory = max(memory, used.ru_maxrss * 1024)
    return count, min(times), memory


def measure_steps(words, steps, runs=3):
    """The quickest of some runs of the built program with these words and so many steps, in seconds of processor time, and
    the largest run's memory in bytes."""
    times, memory = [], 0
    for _ in range(runs):
        run = subprocess.Popen([PROGRAM, *words, f"--steps={steps}"], stdout=subprocess.DEVNULL)
        _, status, used = os.wait4(run.pid, 0)
        if status:
            sys.exit(f"dsu ended with {os.waitstatus_to_exitcode(status)}")
        times.append(used.ru_utime + used.ru_stime)
        memory = max(memory, used.ru_maxrss * 1024)
    return min(times), memory


def speed(words, few, many):
    """Steps a second, and the memory after few and after many steps."""
    short, before = measure_steps(words, few)
    long, after = measure_steps(words, many)
    return (many - few) / (long - short), before, after
