"""The scripts that are tried: those of examples/, and the cases of the files of transcripts, each with its scenario."""

import collections
import glob
import os

HERE = os.path.dirname(os.path.abspath(__file__))
TOP = os.path.dirname(os.path.dirname(HERE))

Script = collections.namedtuple("Script", "name scenario text")


def read(path):
    with open(path, "rb") as it:
        return it.read()


def examples():
    """Returns each example's script, with the scenario of its folder."""
    found = []
    for path in sorted(glob.glob(f"{TOP}/examples/**/*.script", recursive=True)):
        scenario = f"{os.path.dirname(path)}/scenario.txt"
        found.append(Script(os.path.relpath(path, TOP), read(scenario) if os.path.exists(scenario) else b"", read(path)))
    return found


def cases(path):
    """Returns the cases of a file of transcripts."""
    found = []
    for case in read(path).split(b"\n\n"):
        lines = case.split(b"\n")
        if lines[0].startswith(b"# "):
            scenario, text = (b"".join(it[len(front):] + b"\n" for it in lines if it.startswith(front)) for front in (b"given ", b"> "))
            found.append(Script(f"{os.path.basename(path)}: {lines[0][2:].decode()}", scenario, text))
    return found


def files():
    """Returns the files of transcripts, those with the most lines first."""
    return sorted(glob.glob(f"{TOP}/crates/kaxtubor/data/*.txt"), key=lambda it: read(it).count(b"\n"), reverse=True)


def longest(count):
    """Returns so many of all cases, those with the most lines in their scripts."""
    return sorted((case for path in files() for case in cases(path)), key=lambda it: it.text.count(b"\n"), reverse=True)[:count]
