"""What the benches of single crates share: a program that reads its input some times over, and the time of one reading.

The program reads standard input, and reads it again for each word that it is given. What one reading takes is the difference
of two runs, over the readings that one has more: processor time in the program and in the system for it, and, where valgrind
is there, the instructions in the program, which other work on the machine leaves as they are.
"""
import os
import re
import shutil
import subprocess
import sys

ROOT = os.path.dirname(os.path.dirname(os.path.abspath(__file__)))
sys.path.insert(0, os.path.join(ROOT, "tools"))
from parts import kit as kits  # noqa: E402

RUNS = 5
MORE = 20
MORE_COUNTED = 2
SMALL, LARGE = 1 << 20, 1 << 24


def make_program(folder, name, crates, main, printed):
    """Proves and builds a program of this main over copies of these crates; `printed` is what it prints of no input.

    What the gate proved of the same files on this machine isn't proved again, if the toolchain's rt ci caches proofs.
    """
    listed = kits.listed_crates()
    kits.copy_crates(ROOT, set().union(*(kits.crates_below(crate, listed) for crate in crates)), folder)
    where = os.path.join(folder, "crates", name)
    os.makedirs(os.path.join(where, "src"))
    for file, text in (("src/main.rt", main), ("stdin", ""), ("stdout", printed)):
        with open(os.path.join(where, file), "w") as made:
            made.write(text)
    with open(os.path.join(folder, "crates.txt"), "a") as file:
        file.write(f"{name}: {' '.join(crates)}\n")
    subprocess.run(["rt", "ci"], cwd=folder, check=True, stdout=subprocess.DEVNULL)
    return os.path.join(where, "out", name)


def seconds(program, path, times):
    """Processor time of so many readings, in the program and in the system."""
    with open(path, "rb") as source:
        child = subprocess.Popen([program] + ["again"] * times, stdin=source, stdout=subprocess.DEVNULL)
        _, status, usage = os.wait4(child.pid, 0)
    child.returncode = os.waitstatus_to_exitcode(status)
    if child.returncode != 0:
        sys.exit(f"bench: the program ended with status {child.returncode}")
    return usage.ru_utime, usage.ru_stime


def instructions(program, path, times):
    """How many instructions so many readings take in the program."""
    words = ["valgrind", "--tool=callgrind", "--callgrind-out-file=/dev/null", program] + ["again"] * times
    with open(path, "rb") as source:
        ran = subprocess.run(words, stdin=source, stdout=subprocess.DEVNULL, stderr=subprocess.PIPE, check=True)
    return int(re.search(rb"Collected\s*:\s*(\d+)", ran.stderr)[1])


def measure(program, folder, label, data):
    """Prints what one reading of the data takes, and its speed, by the least time of each kind."""
    path = os.path.join(folder, "input")
    with open(path, "wb") as file:
        file.write(data)
    one, many = ([seconds(program, path, times) for _ in range(RUNS)] for times in (1, 1 + MORE))
    own, of_system = ((min(it[i] for it in many) - min(it[i] for it in one)) / MORE for i in (0, 1))
    said = f"{label}: {len(data)} bytes, {1000 * own:.1f} ms a reading and {1000 * of_system:.1f} in the system, "
    said += f"{len(data) / (own + of_system) / 1e6:.0f} MB/s"
    if shutil.which("valgrind"):
        count = instructions(program, path, 1 + MORE_COUNTED) - instructions(program, path, 1)
        said += f", {count / MORE_COUNTED / len(data):.1f} instructions a byte"
    print(said, flush=True)


def peak(program, path, times):
    """The most memory that a run of so many readings has, as the system says of it until it ends (VmHWM of Linux)."""
    most = 0
    with open(path, "rb") as source:
        child = subprocess.Popen([program] + ["again"] * times, stdin=source, stdout=subprocess.DEVNULL)
        while child.poll() is None:
            with open(f"/proc/{child.pid}/status", encoding="ascii", errors="replace") as status:
                found = re.search(r"VmHWM:\s*(\d+) kB", status.read())
            most = max(most, int(found[1]) * 1024 if found else 0)
    return most


def hostile(made_of, size):
    """A text of this size: of a function of it, of a text over and over, or of one between two others."""
    if callable(made_of):
        return made_of(size).encode()
    before, body, behind = made_of if isinstance(made_of, tuple) else ("", made_of, "")
    inside = size - len(before) - len(behind)
    return (before + body * (inside // len(body.encode())) + behind).encode()


def growth(program, folder, label, made_of):
    """Prints how the time and the instructions a byte grow from a small text to a large one."""
    path = os.path.join(folder, "input")
    own, of_system, counts = [], [], []
    for size, times in ((SMALL, 129), (LARGE, 9)):
        with open(path, "wb") as file:
            file.write(hostile(made_of, size))
        one, many = ([seconds(program, path, n) for _ in range(RUNS)] for n in (1, times))
        for each, i in ((own, 0), (of_system, 1)):
            each.append((min(it[i] for it in many) - min(it[i] for it in one)) / (times - 1) / size)
        if shutil.which("valgrind"):
            counts.append((instructions(program, path, 2) - instructions(program, path, 1)) / size)
    small, large = own
    said = f"{label}: {1e-6 / small:.0f} and {1e-6 / large:.0f} MB/s, ratio {large / small:.2f}; "
    said += "in the system " + " and ".join(f"{1e9 * each:.1f}" for each in of_system) + " ns a byte"
    if counts:
        said += f"; {counts[0]:.1f} and {counts[1]:.1f} instructions a byte, ratio {counts[1] / counts[0]:.2f}"
    print(said, flush=True)
