#!/usr/bin/env python3
"""Times 1,000,000 steps of a loop on 1 and on 8 processors beside a plain interpreter in C.

Run by hand: bench/steps.py PATH_OF_ATOMX. Both run the same instructions, those of the assembly that
atomx prints, under the same schedule, and end with the same first global. The seconds of atomx are
those of its run with the steps less those of its run without: the steps, the source schedule and
the lines of the report.
"""
import os
import subprocess
import sys
import tempfile
import time

MODULE = """@x = global i64 0, align 8
define void @f() {
entry:
  br label %loop
loop:
  %i = phi i64 [ 0, %entry ], [ %n, %loop ]
  %n = add i64 %i, 1
  %o = atomicrmw add ptr @x, i64 1 seq_cst, align 8
  %c = icmp eq i64 %n, 1000000
  br i1 %c, label %done, label %loop
done:
  ret void
}
"""
STEPS = 1000000
RUNS = 5


def run(atomx, folder, processors, directive):
    """The output and the least seconds of a few runs."""
    module, schedule = os.path.join(folder, "m"), os.path.join(folder, "s")
    with open(module, "w") as file:
        file.write(MODULE)
    with open(schedule, "w") as file:
        file.write("processors" + " @f" * processors + "\n" + directive)
    best, text = None, ""
    for _ in range(RUNS):
        begin = time.monotonic()
        text = subprocess.run([atomx, "run", "rv64", module, schedule], stdout=subprocess.PIPE, text=True, check=True).stdout
        seconds = time.monotonic() - begin
        best = seconds if best is None else min(best, seconds)
    return text, best


def interpreted(program, folder, text, processors):
    assembly = os.path.join(folder, "a")
    with open(assembly, "w") as file:
        file.write(text)
    entry = next(line.split()[3] for line in text.splitlines() if line.startswith("# entry"))
    answers = [subprocess.run([program, assembly, str(processors), str(STEPS), entry], stdout=subprocess.PIPE, text=True, check=True).stdout.split() for _ in range(RUNS)]
    return min(float(seconds) for seconds, _ in answers), answers[0][1]


def main():
    atomx = os.path.abspath(sys.argv[1])
    with tempfile.TemporaryDirectory() as folder:
        program = os.path.join(folder, "steps")
        source = os.path.join(os.path.dirname(os.path.abspath(__file__)), "steps.c")
        subprocess.run(["gcc", "-O2", "-o", program, source], check=True)
        for processors in (1, 8):
            _, without = run(atomx, folder, processors, "")
            text, whole = run(atomx, folder, processors, "round %d\n" % STEPS)
            seconds, number = interpreted(program, folder, text, processors)
            found = next(line.split()[3] for line in text.splitlines() if line.startswith("object @x 0"))
            if found != number:
                sys.exit("atomx has %s and the interpreter %s" % (found, number))
            print("%d processors: atomx %.3f s, interpreter %.3f s, factor %.1f, object %s" % (processors, whole - without, seconds, (whole - without) / seconds, number))


if __name__ == "__main__":
    main()
