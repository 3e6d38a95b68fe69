"""Runs all that can be run of this repository, unproved: the crates' tests, and the programs on their stored words.

usage: tests.py [CRATE..]     (scripts/test calls it; without a name it takes every crate)

A program runs once on the args, stdin, stdout, status and data/ of its crate, and once on those of each folder of
its runs/, whose other files lie where it runs. It has to write that stdout, and that stderr where there is one, and end
with that status, or with 0 where there is none. `kaxtubor` also tries a fault at each call of the network, in the examples and in all transcripts.

Each crate's programs are built by scripts/unproved, as many side by side as processors and memory allow.
"""

import concurrent.futures
import os
import re
import shutil
import subprocess
import sys
import tempfile
import time

from crates import TOP, below, is_program, needs, sources

UNPROVED = f"{TOP}/scripts/unproved"
# What a run may take, and each test.
RUN_SECONDS = 600
TEST_SECONDS = 60
# What a build takes of memory at most, with room to spare.
BUILD_BYTES = 1_800_000_000
# What stands beside the files of a run, and isn't one.
WORDS = ("args", "stdin", "stdout", "stderr", "status")
# The program that tries faults, and what tries them by it.
FAULTS = ("kaxtubor", f"{TOP}/bench/faults/network")
IS_TEST = re.compile(rb"^\s*#\[test\]", re.M)
# A test's name, how it ended, and indented what it said.
OF_TEST = re.compile(r"^test (\S+) \.\.\. (.*)\n((?:    .*\n)*)", re.M)


class Came:
    """What the runs of one crate came to."""

    def __init__(self, crate):
        self.crate = crate
        self.passed = 0
        self.failures = []

    def judge(self, name, why):
        """Counts what has this name: as passed, if nothing is wrong."""
        if why:
            self.failures.append(f"{self.crate}: {name}: {why}")
        else:
            self.passed += 1


def read(path):
    """Returns the bytes of the file, or none where there is no such file."""
    try:
        with open(path, "rb") as it:
            return it.read()
    except FileNotFoundError:
        return b""


def has_tests(crate):
    """Tells whether the crate's code has a test."""
    return any(IS_TEST.search(read(it)) for it in sources(crate) if it.endswith(".rt"))


def build(crate, *flags):
    """Returns the path of the crate's program, or of its tests, and why there is none."""
    words = [UNPROVED, crate, "--optimized", *flags]
    done = subprocess.run(words, capture_output=True, text=True, errors="replace", check=False)
    return done.stdout.strip(), done.stderr.strip()[-4000:] if done.returncode else ""


def first_difference(wrote, wanted):
    """Returns where the program's output differs from what is wanted, or an empty text."""
    if wrote == wanted:
        return ""
    had, want = wrote.splitlines(True), wanted.splitlines(True)
    at = next((i for i, (one, other) in enumerate(zip(had, want)) if one != other), min(len(had), len(want)))
    shown = [repr(lines[at].decode(errors="replace")) if at < len(lines) else "its end" for lines in (had, want)]
    return f"line {at + 1} of its output is {shown[0]}, and not {shown[1]}"


def ran(program, words, files):
    """Returns what is wrong with a run of the program on these stored words, over these files."""
    args = read(f"{words}/args").decode(errors="surrogateescape").splitlines()
    wanted = int(read(f"{words}/status") or 0)
    with tempfile.TemporaryDirectory(prefix="kaxtubor-test-") as folder:
        for name in files:
            shutil.copy(name, folder)
        how = {"input": read(f"{words}/stdin"), "capture_output": True, "cwd": folder}
        try:
            done = subprocess.run([program, *args], timeout=RUN_SECONDS, check=False, **how)
        except subprocess.TimeoutExpired:
            return f"it had not ended after {RUN_SECONDS} seconds"
    said = done.stderr.decode(errors="replace").strip()[-1000:]
    if done.returncode != wanted:
        return f"it ended with {done.returncode}, and not {wanted}; it said: {said}"
    if os.path.exists(f"{words}/stderr") and (why := first_difference(done.stderr, read(f"{words}/stderr"))):
        return f"standard error: {why}"
    return first_difference(done.stdout, read(f"{words}/stdout"))


def files_in(folder, but=()):
    """Returns the files of the folder but these, by path."""
    names = sorted(os.listdir(folder)) if os.path.isdir(folder) else []
    return [f"{folder}/{it}" for it in names if it not in but]


def run_program(crate, came):
    """Runs the program on each of its stored words."""
    program, why = build(crate)
    folder = f"{TOP}/crates/{crate}"
    if why:
        came.judge("build", why)
        return
    came.judge("stored run", ran(program, folder, files_in(f"{folder}/data")))
    for words in files_in(f"{folder}/runs"):
        came.judge(f"runs/{os.path.basename(words)}", ran(program, words, files_in(words, WORDS)))
    if crate == FAULTS[0]:
        done = subprocess.run([FAULTS[1], program], capture_output=True, text=True, check=False)
        came.judge("faults", f"{done.stdout}{done.stderr}" if done.returncode else "")


def run_tests(crate, came):
    """Runs each test of the crate in a process of its own."""
    program, why = build(crate, "--test")
    if why:
        came.judge("build of its tests", why)
        return
    kit = os.path.dirname(os.path.dirname(os.path.realpath(shutil.which("rt"))))
    runner = [f"{kit}/bin/rattle-test", "--seconds", str(TEST_SECONDS), program]
    with tempfile.TemporaryDirectory(prefix="kaxtubor-test-") as folder:
        done = subprocess.run(runner, capture_output=True, text=True, errors="replace", cwd=folder, check=False)
    found = OF_TEST.findall(done.stdout)
    for name, end, said in found:
        came.judge(name, "" if end == "ok" else f"{end}\n{said[-2000:].rstrip()}")
    if done.returncode and not came.failures or not found:
        came.judge("tests", f"{done.stdout[-2000:]}{done.stderr[-2000:]}")


def run_crate(job):
    """Does what one job says, and prints a line on what it came to."""
    crate, what = job
    came, began = Came(crate), time.monotonic()
    (run_tests if what == "tests" else run_program)(crate, came)
    seconds = time.monotonic() - began
    print(f"{crate}: {what}: {came.passed} passed, {len(came.failures)} failed ({seconds:.0f} s)", flush=True)
    for failure in came.failures:
        print(f"  {failure}", flush=True)
    return came


def size(job):
    """Returns how many bytes of code the crate and those below it have."""
    return sum(os.path.getsize(file) for name in below(job[0]) for file in sources(name) if file.endswith(".rt"))


def lanes():
    """Returns how many builds fit side by side."""
    with open("/proc/meminfo", encoding="utf-8") as it:
        free = int(re.search(r"MemAvailable: +(\d+) kB", it.read())[1]) * 1024
    return max(1, min(len(os.sched_getaffinity(0)), free // BUILD_BYTES))


def main(names):
    unknown = [it for it in names if it not in needs()]
    if unknown:
        sys.exit(f"crates.txt lists no crate {', '.join(unknown)}")
    crates = names or list(needs())
    jobs = [(it, "program") for it in crates if is_program(it)] + [(it, "tests") for it in crates if has_tests(it)]
    os.environ["PYTHONDONTWRITEBYTECODE"] = "1"
    with concurrent.futures.ThreadPoolExecutor(lanes()) as pool:
        ended = list(pool.map(run_crate, sorted(jobs, key=size, reverse=True)))
    passed, failed = sum(it.passed for it in ended), sum(len(it.failures) for it in ended)
    print(f"{passed} passed, {failed} failed")
    return 1 if failed or not passed else 0


if __name__ == "__main__":
    sys.exit(main(sys.argv[1:]))
