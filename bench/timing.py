"""Builds a program over crates of this repository in a folder of its own, and times it."""
import os
import shutil
import subprocess
import tempfile
import time

# Each program takes one word, a number, and ends with the status of its own function `status_of`.
MAIN = r"""
fn main(rt: HostRuntime) -> ExitCode {
    let Ok(words) = env::args(&rt) else {
        return ExitCode::from(71);
    };
    let Ok(words) = words.skip(1).collect::<Vec<String>>(rt.alloc()) else {
        return ExitCode::from(71);
    };
    let number = match words.as_slice() {
        [word] => word.as_str().parse::<u32>().unwrap_or(0),
        _ => 0,
    };
    ExitCode::from(status_of(rt.alloc(), number))
}
"""

TOP = os.path.dirname(os.path.dirname(os.path.abspath(__file__)))


def lines_of(crates):
    with open(os.path.join(TOP, "crates.txt")) as file:
        return [line for line in file.read().split("\n") if line.split(":")[0] in crates]


def built(folder, name, program, crates, proofs):
    """The path of the program, whose first crate it names and which stands on these crates.

    The proofs are the texts of its proof files, by their paths in the program's folder.
    """
    for crate in crates:
        shutil.copytree(os.path.join(TOP, "crates", crate), os.path.join(folder, "crates", crate), ignore=shutil.ignore_patterns("out"))
    shutil.copy(os.path.join(TOP, "HANDLES"), folder)
    with open(os.path.join(folder, "crates.txt"), "w") as file:
        file.write("\n".join(lines_of(crates) + ["%s: %s" % (name, " ".join(crates)), ""]))
    crate = os.path.join(folder, "crates", name)
    os.makedirs(os.path.join(crate, "src"))
    with open(os.path.join(crate, "src", "main.rt"), "w") as file:
        file.write(program.lstrip() + MAIN)
    for path, text in proofs.items():
        os.makedirs(os.path.dirname(os.path.join(crate, path)), exist_ok=True)
        with open(os.path.join(crate, path), "w") as file:
            file.write(text.lstrip())
    subprocess.run(["rt", "run", "--", "0"], cwd=crate, stdout=subprocess.DEVNULL, stderr=subprocess.DEVNULL)
    return os.path.join(crate, "out", name)


def measure(name, program, crates, words, proofs={}):
    """Prints the seconds and the peak memory of the program for each word, after its label."""
    with tempfile.TemporaryDirectory() as folder:
        path = built(folder, name, program, crates, proofs)
        for label, word in words:
            begin = time.monotonic()
            process = subprocess.Popen([path, str(word)])
            _, status, usage = os.wait4(process.pid, 0)
            seconds = time.monotonic() - begin
            print("%s: status %d, %.2f s, peak %.0f MB" % (label, os.waitstatus_to_exitcode(status), seconds, usage.ru_maxrss / 1024))
