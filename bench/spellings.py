#!/usr/bin/env python3
"""Hands each spelled instruction of the three instruction sets to LLVM's assembler.

Run by hand at the top of the repository: bench/spellings.py [LLVM_MC]. The program of
crates/calls_isa writes the instructions that its rows name, each once; llvm-mc reads them, and the
script prints how many there are of each set and which of them it refuses.
"""
import os
import re
import subprocess
import sys
import tempfile

SETS = {
    "rv": ["-triple=riscv64", "-mattr=+m,+a"],
    "x86": ["-triple=x86_64"],
    "arm": ["-triple=aarch64", "-mattr=+lse"],
}


def spellings(crate):
    """The spellings of each set, which the program tells as a row's answer that differs."""
    with tempfile.TemporaryDirectory() as folder:
        rows = os.path.join(folder, "spellings.rows")
        with open(rows, "w") as file:
            file.write("group spellings\n" + "".join(f"spellings {name} => none\n" for name in SETS))
        run = subprocess.run(["rt", "try", "--", rows], cwd=crate, capture_output=True, text=True)
    told = dict(re.findall(r"spellings (\w+) => none: got (.*)", run.stdout))
    if set(told) != set(SETS):
        sys.exit(f"the program did not tell its spellings:\n{run.stdout}{run.stderr}")
    return {name: [line.strip() for line in text.split(" / ") if line.strip()] for name, text in told.items()}


def refused(assembler, options, lines):
    """The lines that the assembler refuses, with its words."""
    run = subprocess.run([assembler, *options], input="\n".join(lines) + "\n", capture_output=True, text=True)
    found = re.findall(r"^<stdin>:(\d+):\d+: error: (.*)$", run.stderr, re.M)
    return [(lines[int(number) - 1], words) for number, words in found], run.returncode


def main():
    assembler = sys.argv[1] if len(sys.argv) > 1 else "llvm-mc"
    version = subprocess.run([assembler, "--version"], capture_output=True, text=True, check=True)
    print(next(line.strip() for line in version.stdout.split("\n") if "version" in line))
    for name, lines in spellings(os.path.join("crates", "calls_isa")).items():
        bad, status = refused(assembler, SETS[name], lines)
        print(f"{name}: {len(lines)} spellings, {len(set(lines))} different, {len(bad)} refused, status {status}")
        for line, words in bad:
            print(f"  {line}: {words}")


main()
