"""The crates of this repository, as crates.txt lists them."""

import os

TOP = os.path.dirname(os.path.dirname(os.path.abspath(__file__)))


def needs():
    """Returns what each crate builds on, of this repository and of the kit, by its name."""
    found = {}
    with open(f"{TOP}/crates.txt", encoding="utf-8") as it:
        for line in it:
            head, colon, libraries = line.partition(":")
            if colon and not line.startswith("#"):
                found[head.split()[0]] = libraries.split()
    return found


def below(crate):
    """Returns the crate and all of the repository's crates that it builds on, by name."""
    all_needs = needs()
    found, left = set(), [crate]
    while left:
        name = left.pop()
        if name in all_needs and name not in found:
            found.add(name)
            left += all_needs[name]
    return sorted(found)


def sources(crate):
    """Returns the files with this crate's code, definitions and proofs."""
    found = []
    for part in ("src", "specs", "proofs"):
        for at, _, files in os.walk(f"{TOP}/crates/{crate}/{part}"):
            found += [f"{at}/{it}" for it in files if it.endswith((".rt", ".antt"))]
    return sorted(found)


def is_program(crate):
    """Tells whether the crate is a program."""
    return os.path.isfile(f"{TOP}/crates/{crate}/src/main.rt")
