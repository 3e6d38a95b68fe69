"""Writes an LLVM module's text with a call beside each atomic operation, which announces it to a tool for threads.

An operation that writes is announced before it, as what comes before another thread's later read; one that reads is
announced after it. An exchange that will find another value than it wants writes nothing, and is announced as a read alone.
"""

import re
import sys

ATOMIC = re.compile(r"\s+(?:%[\w.]+ = )?(load atomic|store atomic|cmpxchg|atomicrmw)\b")
PLACE = re.compile(r"\bptr ([%@][\w.]+)")
WANTED = re.compile(r", (i\d+) (\S+), ")


def announced(line, kind):
    """The line of an atomic operation, with the calls that announce it."""
    place = PLACE.findall(line)[-1]
    before, after = "", ""
    if kind == "cmpxchg":
        width, wanted = WANTED.search(line).groups()
        before = f"  call void @announce_exchange_{width}(ptr {place}, {width} {wanted})\n"
    elif kind != "load atomic":
        before = f"  call void @announce_write(ptr {place})\n"
    if kind != "store atomic":
        after = f"  call void @announce_read(ptr {place})\n"
    return before + line + after


def main(source, target):
    lines = []
    for line in open(source):
        atomic = ATOMIC.match(line)
        lines.append(announced(line, atomic[1]) if atomic else line)
    lines.append("declare void @announce_write(ptr)\ndeclare void @announce_read(ptr)\n")
    for width in (8, 16, 32, 64):
        lines.append(f"declare void @announce_exchange_i{width}(ptr, i{width})\n")
    open(target, "w").writelines(lines)


main(*sys.argv[1:])
