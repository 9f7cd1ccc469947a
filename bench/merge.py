#!/usr/bin/env python3
"""Times `dsu merge` on versions with many functions, and measures its memory.

Build the program first, by `rt run` in crates/dsu. Then run this script at the top of the repository.

Both versions have the size that is printed. In the first kind a function of ten lines and a global stand in every 440 bytes, laid out as
people do. In the second kind three declarations stand in every 150 bytes: a global, a function that is shared and one
that changed. The quickest of forty runs counts. This script ends with status 1 where a doubling of the size takes more than 2.3
times as long, where a byte of written text takes more than 60 bytes of memory beyond what a merge of small versions
takes, or where less than 5 MB of source are merged a second.
"""
import os, pathlib, subprocess, sys, tempfile
from measuring import PROGRAM


def laid_out(number, step, _):
    return f"""// counts what the service has done for customer {number}
int total{number} = {number};

int work{number}(int count, int limit) {{
    int result = 0;
    while (count < limit) {{
        total{number} = total{number} + count * {step};
        if (total{number} > 1000) {{
            result = result + limit - count;
        }} else {{
            result = result - 1;
        }}
        count = count + 1;
    }}
    return result;
}}

"""


def dense(number, step, params):
    return (
        f"int g{number} = {number};\nint f{number}(int x) {{\nif (x < g{number}) {{\nreturn x + {step};\n}}\n"
        f"int y = h{number}({params[1]});\nreturn y;\n}}\nint h{number}({params[0]}) {{\nreturn a * {step};\n}}\n"
    )


def version(piece, size, step, params):
    """A version of about this size."""
    text, length = [], 0
    while length < size - 500:
        text.append(piece(len(text), step, params))
        length += len(text[-1])
    return "".join(text) + "int main(void) {\ndsu_update(1);\nreturn 0;\n}\n"


def merge_once(folder):
    """The seconds and the bytes of memory of a merge."""
    with open(folder / "merged.c", "wb") as sink:
        run = subprocess.Popen([PROGRAM, "merge", "old.c", "new.c", "xform.c"], cwd=folder, stdout=sink)
        _, status, used = os.wait4(run.pid, 0)
    if status:
        sys.exit(f"dsu ended with {os.waitstatus_to_exitcode(status)}")
    return used.ru_utime + used.ru_stime, used.ru_maxrss * 1024


def write_versions(folder, piece, size):
    folder.mkdir()
    (folder / "xform.c").write_text("void dsu_transform(void) { }\n")
    (folder / "old.c").write_text(version(piece, size * 1000, 1, ("int a", "x")))
    (folder / "new.c").write_text(version(piece, size * 1000, 2, ("int a, int b", "x, 0")))


def measure(folder, piece):
    """A row for each size: how much is read, the quickest run, the largest run's memory, how much is written. The sizes take
    turns, since the speed of a machine changes from second to second."""
    folders = {size: folder / f"{piece.__name__}{size}" for size in (1, 64, 128, 256)}
    for size, place in folders.items():
        write_versions(place, piece, size)
    runs = {size: [] for size in folders}
    for _ in range(40):
        for size, place in folders.items():
            runs[size].append(merge_once(place))
    return [
        (
            size,
            sum((place / file).stat().st_size for file in ("old.c", "new.c")),
            min(seconds for seconds, _ in runs[size]),
            max(memory for _, memory in runs[size]),
            (place / "merged.c").stat().st_size,
        )
        for size, place in folders.items()
    ]


def measure_kind(folder, piece):
    """Prints the figures of a kind of versions, and says whether they are within the bounds."""
    rows = measure(folder, piece)
    _, _, _, least, _ = rows[0]
    good = True
    for size, read, seconds, memory, written in rows[1:]:
        each = (memory - least) / written
        print(f"{size:12}   {seconds:7.3f}   {read / seconds / 1e6:16.1f}   {memory / 1e6:12.1f}   {written / 1e3:10.0f}   {each:30.1f}")
        good = good and read / seconds >= 5e6 and each <= 60
    return good and all(after <= 2.3 * before for (_, _, before, _, _), (_, _, after, _, _) in zip(rows[1:], rows[2:]))


def main():
    with tempfile.TemporaryDirectory() as name:
        folder = pathlib.Path(name)
        print("KB a version   seconds   MB read a second   MB of memory   KB written   bytes of memory a byte written")
        good = [measure_kind(folder, kind) for kind in (laid_out, dense)]
    sys.exit(0 if all(good) else 1)


main()
