#!/usr/bin/env python3
"""Times atomx on a module of 64 functions whose blocks stand in the reverse of their order.

Run by hand: bench/checking.py PATH_OF_ATOMX. Each function has 1,024 blocks and 2,047 instructions,
and each value is used in the block behind it on the walk. The module has no fault; where it needs
a loop or a routine, atomx answers `unbuilt module`, and else lowers it. Prints seconds and peak memory.
"""
import os
import sys
import tempfile

from largest import timed

FUNCTIONS = 64
BLOCKS = 1023  # behind the entry block, which has one instruction


def hostile_function(f):
    lines = ["define void @f%d() {" % f, "e:", "  br label %%b%d" % (BLOCKS - 1)]
    for k in range(BLOCKS):
        value = "1" if k == BLOCKS - 1 else "%%v%d" % (k + 1)
        end = "ret void" if k == 0 else "br label %%b%d" % (k - 1)
        lines += ["b%d:" % k, "  %%v%d = add i8 %s, 1" % (k, value), "  " + end]
    return lines + ["}"]


def main():
    atomx = os.path.abspath(sys.argv[1])
    with tempfile.TemporaryDirectory() as folder:
        module = os.path.join(folder, "m")
        lines = [line for f in range(FUNCTIONS) for line in hostile_function(f)]
        open(module, "w").write("\n".join(lines) + "\n")
        size = os.path.getsize(module)
        print("%d bytes: status %d, %.2f s, peak %.0f MB" % ((size,) + timed(atomx, ["run", "rv64", module, "s"])))


if __name__ == "__main__":
    main()
