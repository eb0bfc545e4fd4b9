#!/usr/bin/env python3
"""Times atomx on a module near the limit of a module file, and on 1,000,000 steps.

Run by hand: bench/largest.py PATH_OF_ATOMX. Prints seconds and peak memory of each run.
"""
import os
import resource
import subprocess
import sys
import tempfile
import time

GLOBALS = 256
FUNCTIONS = 33  # more of such functions pass the limit of a module file
LINES = 2047


def largest_module():
    lines = ["@g%d = global i64 %d, align 8" % (g, g) for g in range(GLOBALS)]
    lines.append("declare void @out(i64)")
    for f in range(FUNCTIONS):
        lines.append("define void @f%d() {" % f)
        for k in range(LINES):
            g = (f + k) % GLOBALS
            lines.append("  %%v%d = atomicrmw add ptr @g%d, i64 %d seq_cst, align 8" % (k, g, k + 1))
        lines.append("  ret void")
        lines.append("}")
    return "\n".join(lines) + "\n"


def timed(atomx, words):
    begin = time.monotonic()
    with open(os.devnull, "wb") as null:
        status = subprocess.run([atomx] + words, stdout=null).returncode
    peak = resource.getrusage(resource.RUSAGE_CHILDREN).ru_maxrss / 1024
    return status, time.monotonic() - begin, peak


def main():
    atomx = os.path.abspath(sys.argv[1])
    with tempfile.TemporaryDirectory() as folder:
        module = os.path.join(folder, "m")
        open(module, "w").write(largest_module())
        for name, steps in (("largest module, no step", []), ("largest module, 1,000,000 steps of 8 processors", ["step %d 125000" % p for p in range(8)])):
            schedule = os.path.join(folder, "s")
            heads = ["processors " + " ".join("@f%d" % p for p in range(8))]
            open(schedule, "w").write("\n".join(heads + steps) + "\n")
            print("%s: status %d, %.2f s, peak %.0f MB so far" % ((name,) + timed(atomx, ["run", "rv64", module, schedule])))


if __name__ == "__main__":
    main()
