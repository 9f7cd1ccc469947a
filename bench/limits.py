#!/usr/bin/env python3
"""Runs the built program on merged texts of the size limit, each with one long list.

Build the program first, by `rt run` in crates/dsu. Then run this script at the top of the repository:

    bench/limits.py [BYTES]

For each kind of list it prints the status, what the program put, the seconds and the most memory. A text that ends the
stack has a status below 0."""
import pathlib
import resource
import subprocess
import sys
import tempfile
import time

PROGRAM = pathlib.Path("crates/dsu/out/dsu").resolve()
MAIN = b"int main(void) { return 0; }\n"


def repeated(piece, head, tail, size, between=b""):
    """A piece as often as there is room for it."""
    room = size - len(head) - len(tail)
    count = (room + len(between)) // (len(piece) + len(between))
    return head + between.join([piece] * count) + tail


def numbered(piece, head, tail, size, between=b""):
    """The same, with a number in each piece."""
    pieces, room = [], size - len(head) - len(tail)
    while True:
        one = piece.replace(b"@", str(len(pieces)).encode())
        if room < len(one) + len(between):
            return head + between.join(pieces) + tail
        pieces.append(one)
        room -= len(one) + len(between)


LISTS = {
    "arguments": lambda size: repeated(b"1000000000", b"int main(void) { int r = main(", b"); return r; }\n", size, b","),
    "arguments of a pointer": lambda size: repeated(
        b"1000000000", b"int main(void) { int (*p)(int) = 0; int r = p(", b"); return r; }\n", size, b","
    ),
    "parameters": lambda size: numbered(b"int a@     ", b"int f(", b") { return 0; }\n" + MAIN, size, b","),
    "statements": lambda size: repeated(b"assert(1);          ", b"int main(void) { ", b"return 0; }\n", size),
    "globals": lambda size: numbered(b"int a@;      ", b"", MAIN, size),
    "initializers": lambda size: repeated(b"1000000000", b"int a[65536] = {", b"};\n" + MAIN, size, b","),
    "functions": lambda size: numbered(b"void f@(void){}       ", b"", MAIN, size),
}


def main():
    size = int(sys.argv[1]) if len(sys.argv) > 1 else 67_108_864
    with tempfile.TemporaryDirectory() as folder:
        path = pathlib.Path(folder) / "text.c"
        for name, text in LISTS.items():
            path.write_bytes(text(size))
            began = time.time()
            done = subprocess.run([PROGRAM, "run", path, "--steps=10"], capture_output=True, check=False)
            seconds = time.time() - began
            put = done.stdout[:40].decode().replace("\n", " ").strip()
            most = resource.getrusage(resource.RUSAGE_CHILDREN).ru_maxrss // 1024
            print(f"{name}: status {done.returncode}, {put}, {seconds:.1f} s, at most {most} MB so far")


main()
