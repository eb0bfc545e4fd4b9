#!/usr/bin/env python3
"""What a run of the test command costs, by crate: processor minutes of its own proof, of its tests,
of its edits (with the check that they begin with), and the minutes on the clock.

    bench/gate.py [--anew]        runs `rt ci` at the top of the checkout and prints the table

The processors' times are those of the prover's processes under the run and of all below them, looked
at twice a second, so a process that lives for less may be missed.
"""
import os
import subprocess
import sys
import time
from collections import defaultdict

TICK = os.sysconf("SC_CLK_TCK")


def processes():
    """Each process: its parent, its words, its folder and its seconds."""
    for name in os.listdir("/proc"):
        if not name.isdigit():
            continue
        try:
            with open(f"/proc/{name}/stat") as file:
                fields = file.read().rpartition(")")[2].split()
            with open(f"/proc/{name}/cmdline", "rb") as file:
                words = file.read().decode(errors="replace").split("\0")
            folder = os.readlink(f"/proc/{name}/cwd")
        except OSError:
            continue
        yield int(name), int(fields[1]), words, folder, (int(fields[11]) + int(fields[12])) / TICK


def sample(top, root, seconds, kinds):
    """Notes the seconds of each prover's process below the run."""
    found = {pid: rest for pid, *rest in processes()}
    for pid, (_, _, _, used) in found.items():
        # a kernel's process counts for the prover's above it, which names the crate
        prover, above = None, pid
        while above in found and above != top:
            if prover is None and "--crate-name" in found[above][1]:
                prover = above
            above = found[above][0]
        if above != top or prover is None:
            continue
        _, words, folder, _ = found[prover]
        crate = words[words.index("--crate-name") + 1]
        own = folder.startswith(f"{root}/crates/")
        kind = "edits" if not own else "tests" if "--test" in words else "proof"
        seconds[pid], kinds[pid] = used, (crate, kind)


def main():
    root = os.path.dirname(os.path.dirname(os.path.abspath(__file__)))
    seconds, kinds, began = {}, {}, time.time()
    run = subprocess.Popen(["rt", "ci", *sys.argv[1:]], cwd=root)
    while run.poll() is None:
        sample(run.pid, root, seconds, kinds)
        time.sleep(0.5)
    clock = (time.time() - began) / 60
    table = defaultdict(lambda: defaultdict(float))
    for pid, used in seconds.items():
        crate, kind = kinds[pid]
        table[crate][kind] += used / 60
    print("| crate | own proof | tests | edits |\n|---|---|---|---|")
    for crate, row in sorted(table.items(), key=lambda it: -sum(it[1].values())):
        print(f"| {crate} | {row['proof']:.1f} | {row['tests']:.1f} | {row['edits']:.1f} |")
    whole = [sum(row[kind] for row in table.values()) for kind in ("proof", "tests", "edits")]
    print(f"| all | {whole[0]:.1f} | {whole[1]:.1f} | {whole[2]:.1f} |")
    print(f"{clock:.1f} minutes on the clock, {sum(whole):.0f} of processors")
    return run.returncode


if __name__ == "__main__":
    sys.exit(main())
