#!/usr/bin/env python3
"""What a whole gate costs, crate by crate.

    tools/gate_times.py record LOG [WORD ..]   runs `rt ci` with these words, passes its output on, and writes to LOG
                                               a line for each process of the prover: crate, kind, processor seconds
    tools/gate_times.py table LOG              makes the table of docs/PROOFS.md from the log

The kinds are proof, tests and edits. Processor time is sampled each second, so what ends in less isn't seen."""
import collections
import os
import subprocess
import sys
import time

TICKS = os.sysconf("SC_CLK_TCK")


def read(path):
    try:
        with open(path, "rb") as source:
            return source.read()
    except OSError:
        return b""


def parents():
    """Each process with its parent."""
    found = {}
    for name in os.listdir("/proc"):
        if name.isdigit():
            stat = read(f"/proc/{name}/stat").decode("latin-1")
            if stat:
                found[int(name)] = int(stat.rsplit(")", 1)[1].split()[1])
    return found


def is_below(process, top, parent):
    while process in parent:
        if process == top:
            return True
        process = parent[process]
    return process == top


def prover(process):
    """The crate, the kind and the processor seconds of a process of the prover."""
    words = read(f"/proc/{process}/cmdline").decode("utf-8", "replace").split("\0")
    if not words or os.path.basename(words[0]) != "rattle" or "--crate-name" not in words:
        return None
    fields = read(f"/proc/{process}/stat").decode("latin-1").rsplit(")", 1)[-1].split()
    if len(fields) < 20:
        return None
    try:
        folder = os.readlink(f"/proc/{process}/cwd")
    except OSError:
        folder = ""
    kind = "edits" if "rt-edit" in folder else "tests" if "--test" in words else "proof"
    crate = words[words.index("--crate-name") + 1]
    return (process, fields[19]), crate, kind, (int(fields[11]) + int(fields[12])) / TICKS


def record(log, words):
    began = time.time()
    gate = subprocess.Popen(["rt", "ci", *words])
    seen = {}
    while gate.poll() is None:
        parent = parents()
        for process in list(parent):
            if is_below(process, gate.pid, parent):
                found = prover(process)
                if found:
                    seen[found[0]] = found[1:]
        time.sleep(1)
    with open(log, "w", encoding="utf-8") as out:
        for crate, kind, seconds in seen.values():
            out.write(f"{crate} {kind} {seconds:.1f}\n")
        out.write(f"gate wall {time.time() - began:.1f}\n")
    return gate.returncode


def table(log):
    costs = collections.defaultdict(lambda: collections.Counter())
    wall = 0.0
    for line in open(log, encoding="utf-8"):
        crate, kind, seconds = line.split()
        if kind == "wall":
            wall = float(seconds)
        else:
            costs[crate][kind] += float(seconds)
    print("| Crate | Proof | Tests | Edits | Together |")
    print("|---|---|---|---|---|")
    whole = collections.Counter()
    for crate, parts in sorted(costs.items(), key=lambda entry: -sum(entry[1].values())):
        whole.update(parts)
        row = [parts["proof"], parts["tests"], parts["edits"], sum(parts.values())]
        print(f"| `{crate}` | " + " | ".join(f"{seconds / 60:.1f}" for seconds in row) + " |")
    row = [whole["proof"], whole["tests"], whole["edits"], sum(whole.values())]
    print("| all | " + " | ".join(f"{seconds / 60:.1f}" for seconds in row) + " |")
    print(f"\nProcessor minutes; the gate took {wall / 60:.0f} minutes.")


if sys.argv[1:2] == ["record"] and len(sys.argv) > 2:
    sys.exit(record(sys.argv[2], sys.argv[3:]))
elif sys.argv[1:2] == ["table"] and len(sys.argv) == 3:
    table(sys.argv[2])
else:
    sys.exit(__doc__)
