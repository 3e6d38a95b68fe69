#!/usr/bin/env python3
"""Runs `kaxtubor live --record` as one would who needs the log: over files that can't be written or are there, killed in
the middle, under rules, and long; and says what became of the log. Loopback addresses alone are used.

    examples/live/records.py [PROGRAM..]     PROGRAM: the words that run the program; ./kaxtubor at the top without
"""

import os
import signal
import socket
import subprocess
import sys
import tempfile
import time

TOP = os.path.dirname(os.path.dirname(os.path.dirname(os.path.abspath(__file__))))
PROGRAM = sys.argv[1:] or [os.path.join(TOP, "kaxtubor")]
# How long an end or a file is waited for, in seconds.
PATIENCE = 60
# A listener that no peer connects to: the last line waits without limit after --wait.
LISTENS = ["0 network", "0 tcp-create 4", "0 tcp-start-bind 2 1 4 127 0 0 1 {port}", "0 tcp-finish-bind 2"]
LISTENS += ["0 tcp-start-listen 2", "0 tcp-finish-listen 2", "0 subscribe 2", "0 ready 3"]


def ended(words, lines, folder):
    """Returns the status, the output and the errors of these words for these lines."""
    text = "".join(line + "\n" for line in lines)
    done = subprocess.run([*PROGRAM, *words], input=text, cwd=folder, capture_output=True, text=True, check=False)
    return done.returncode, done.stdout.splitlines(), done.stderr


def same(name, got, wanted):
    print("ok   " if got == wanted else "WRONG", name, flush=True)
    if got != wanted:
        print(f"      {got}\n      in place of\n      {wanted}")
    return got == wanted


def free_port():
    with socket.socket() as probe:
        probe.bind(("127.0.0.1", 0))
        return probe.getsockname()[1]


def read(path):
    with open(path, "rb") as it:
        return it.read()


def write(path, data):
    with open(path, "wb") as it:
        it.write(data)


def listens(port):
    return [line.format(port=port) for line in LISTENS]


def a_path_that_cannot_be_written(folder):
    """No line of the script is done."""
    words = ["live", "--record", "no/such/folder/log.txt", "1000", "0"]
    status, replies, _ = ended(words, ["0 network", "0 tcp-create 4"], folder)
    return same("a path that can't be written", (status, replies), (14, []))


def a_file_that_is_there(folder):
    """It is left as it is, and no line of the script is done; after --force it is overwritten."""
    path = os.path.join(folder, "log.txt")
    write(path, b"mine\n")
    kept = ended(["live", "--record", "log.txt", "1000", "0"], ["0 network"], folder)[:2], read(path)
    forced = ended(["live", "--record", "log.txt", "--force", "1000", "0"], ["0 network"], folder)[:2]
    got = (kept, forced, read(path).splitlines()[-1])
    return same("a file that is there", got, (((14, []), b"mine\n"), (0, ["ok 1"]), b"end"))


def a_disk_that_is_full(folder):
    """What was asked can't be taken back: the run goes on, and its status at the end is that of the log."""
    words = ["live", "--record", "/dev/full", "--force", "1000", "0"]
    got = ended(words, ["0 network", "0 tcp-create 4"], folder)[:2]
    return same("a disk that is full", got, (14, ["ok 1", "ok 2"]))


def killed(how, folder):
    """Runs a script that waits in its last line, ends it by this signal there, and returns its replies before."""
    port = free_port()
    words = [*PROGRAM, "live", "--wait", "--record", "log.txt", "1000", str(port)]
    lines = [*listens(port), "0 ready 3"]
    with subprocess.Popen(words, cwd=folder, stdin=subprocess.PIPE, stdout=subprocess.PIPE, text=True) as run:
        run.stdin.write("".join(line + "\n" for line in lines))
        run.stdin.flush()
        replies = [run.stdout.readline().rstrip("\n") for _ in lines[:-1]]
        time.sleep(0.5)
        run.send_signal(how)
        run.wait(PATIENCE)
    return lines, replies


def a_run_that_is_ended_by_a_signal(folder):
    """The log has what was asked until then: it is drawn, and replayed up to there."""
    good = True
    for how in (signal.SIGTERM, signal.SIGINT, signal.SIGKILL):
        with tempfile.TemporaryDirectory(dir=folder) as own:
            lines, replies = killed(how, own)
            drawn = ended(["draw"], [], own)[0]
            status, again, _ = ended(["replay", "100000"], lines, own)
            name = f"a run that is ended by {how.name}"
            good &= same(name, (drawn, status, again), (0, 25, replies))
    return good


def a_log_that_was_cut_anywhere(folder):
    """What follows the last newline is dropped; the replay has the replies up to there."""
    port = free_port()
    path = os.path.join(folder, "log.txt")
    lines = listens(port)[:-2] + ["0 tcp-create 4", "0 drop 2"]
    status, replies, _ = ended(["live", "--record", "log.txt", "1000", str(port)], lines, folder)
    log = read(path)
    counts = []
    head = log.index(b"\n") + 1
    for cut in range(head, len(log)):
        write(path, log[:cut])
        status, again, _ = ended(["replay", "100000"], lines, folder)
        if status not in (0, 25) or again != replies[: len(again)]:
            return same("a log that was cut anywhere", (cut, status, again), (cut, 25, "a front of the replies"))
        counts.append(len(again))
    write(path, log[: head - 1])
    got = (counts == sorted(counts), counts[0], counts[-1], ended(["replay", "100000"], lines, folder)[0])
    return same("a log that was cut anywhere", got, (True, 0, len(lines), 13))


def a_log_under_rules(folder):
    """--policy and --record go together: the log has what the rules decided."""
    port = free_port()
    write(os.path.join(folder, "rules.txt"), f"allow tcp-bind 4 127 0 0 1 32 {port} {port}\n".encode())
    lines = ["0 network", "0 tcp-create 4", "0 tcp-start-bind 2 1 4 127 0 0 1 1", "0 tcp-finish-bind 2"]
    lines += [f"0 tcp-start-bind 2 1 4 127 0 0 1 {port}", "0 tcp-finish-bind 2"]
    run = ended(["live", "--policy", "rules.txt", "--record", "log.txt", "1000"], lines, folder)[:2]
    again = ended(["replay", "1000"], lines, folder)[:2]
    return same("a log under rules", (run[0], run[1][2:4], again == run), (0, ["err access-denied", "err not-in-progress"], True))


def a_long_log(folder):
    """A log of more than 16,777,216 bytes is replayed; where a line of it is wrong, that line is named."""
    write(os.path.join(folder, "scenario.txt"), b"")
    lines = ["0 network", "0 udp-create 4", "0 udp-start-bind 2 1 4 127 0 0 1 80", "0 udp-finish-bind 2", "0 udp-stream 2"]
    lines += ["0 udp-check-send 4", "0 udp-send 4 to 4 127 0 0 1 80 " + "61" * 4096] * 2100
    run = ended(["record", "100000000"], lines, folder)[:2]
    size = os.path.getsize(os.path.join(folder, "log.txt"))
    again = ended(["replay", "100000000"], lines, folder)[:2]
    log = read(os.path.join(folder, "log.txt")).splitlines(keepends=True)
    write(os.path.join(folder, "log.txt"), b"".join([*log[:2], b"no entry\n", *log[2:]]))
    status, _, said = ended(["replay", "100000000"], lines, folder)
    got = (run[0], len(run[1]), size > 16777216, again[0], again == run, status, "`no entry`" in said)
    return same("a long log", got, (0, len(lines), True, 0, True, 13, True))


CASES = [
    a_path_that_cannot_be_written,
    a_file_that_is_there,
    a_disk_that_is_full,
    a_run_that_is_ended_by_a_signal,
    a_log_that_was_cut_anywhere,
    a_log_under_rules,
    a_long_log,
]


def main():
    good = True
    for case in CASES:
        with tempfile.TemporaryDirectory() as folder:
            good &= case(folder)
    sys.exit(0 if good else 1)


if __name__ == "__main__":
    main()
