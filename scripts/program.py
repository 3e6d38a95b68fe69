"""Runs the program of this repository in the folder that it is called from.

usage: program.py NAME CRATE MINUTES [WORD..]     (the wrapper at the top, ./kaxtubor, calls it)

The proved program is run where it was built and is up to date. `--build` as the first word proves and builds it.
Otherwise the program runs unproved, as `scripts/unproved` builds and keeps it: no contract is checked.
"""

import os
import subprocess
import sys

sys.dont_write_bytecode = True
from crates import TOP, below, sources

# Where the wrapper passes on the input.
INPUT = 3
# What is wrong with the build, and not with what the program was given.
NOT_RUN = 70


def changed(crate):
    """Returns when a source, a definition or a proof of these crates was last changed."""
    files = [f"{TOP}/crates.txt", *(file for name in below(crate) for file in sources(name))]
    return max(os.stat(file).st_mtime for file in files)


def is_built(crate, program):
    """Tells whether the proved program is there and up to date."""
    return os.access(program, os.X_OK) and changed(crate) <= os.stat(program).st_mtime


def build(name, crate, program):
    """Proves and builds the program."""
    command = ["rt", "run", "--", "--version"]
    folder = f"{TOP}/crates/{crate}"
    if run(command, cwd=folder, stdin=subprocess.DEVNULL, stdout=sys.stderr).returncode:
        stop(f"{name}: the program did not build")
    os.utime(program)


def unproved(name, crate):
    """Returns the program as it is built without a proof."""
    command = [f"{TOP}/scripts/unproved", crate]
    built = run(command, stdin=subprocess.DEVNULL, stdout=subprocess.PIPE, text=True)
    if built.returncode:
        stop(f"{name}: the program did not build")
    return built.stdout.splitlines()[-1]


def run(command, **how):
    try:
        return subprocess.run(command, check=False, **how)
    except FileNotFoundError:
        return stop(f"{command[0]} isn't on this machine: the program needs the Rattle kit")


def stop(why):
    print(why, file=sys.stderr)
    sys.exit(NOT_RUN)


def main(name, crate, minutes, *words):
    program = f"{TOP}/crates/{crate}/out/{crate}"
    built = is_built(crate, program)
    if words[:1] == ("--build",):
        if not built:
            build(name, crate, program)
        words = words[1:]
        if not words:
            return
    elif not built:
        print(
            f"not proved here, so it runs unproved; ./{name} --build proves and builds it, about {minutes} minutes",
            file=sys.stderr,
            flush=True,
        )
        program = unproved(name, crate)
    os.dup2(INPUT, 0)
    os.close(INPUT)
    os.execv(program, [name, *words])


if __name__ == "__main__":
    main(*sys.argv[1:])
