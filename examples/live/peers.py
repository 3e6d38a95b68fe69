#!/usr/bin/env python3
"""Runs `kaxtubor live` and `kaxtubor relay --live` against peers in python3, over loopback addresses alone, and says what
was seen. Each script's run is recorded, and `kaxtubor replay` replays it.

    examples/live/peers.py [PROGRAM..]     PROGRAM: the words that run the program; ./kaxtubor at the top without
"""

import os
import resource
import select
import socket
import struct
import subprocess
import sys
import tempfile
import threading
import time

TOP = os.path.dirname(os.path.dirname(os.path.dirname(os.path.abspath(__file__))))
PROGRAM = sys.argv[1:] or [os.path.join(TOP, "kaxtubor")]
LIVE = [*PROGRAM, "live"]
# How long a peer waits before it gives up, in seconds.
PATIENCE = 600


def free_port(kind):
    with socket.socket(socket.AF_INET, kind) as probe:
        probe.bind(("127.0.0.1", 0))
        return probe.getsockname()[1]


def ran(words, text, folder=None):
    """Returns what these words write for this input."""
    done = subprocess.run(words, input=text, cwd=folder, capture_output=True, text=True, check=False)
    if done.returncode != 0:
        raise SystemExit(f"{words} ended with {done.returncode}: {done.stderr}")
    return done.stdout


def live(lines, *ports):
    """Returns the replies to these lines, with these ports allowed; the run's log gives the same."""
    text = "".join(line + "\n" for line in lines)
    with tempfile.TemporaryDirectory() as folder:
        log = os.path.join(folder, "log.txt")
        replies = ran([*LIVE, "--record", log, "100000", *map(str, ports)], text)
        if ran([*PROGRAM, "replay", "100000"], text, folder) != replies:
            raise SystemExit(f"the replay of {lines} has other replies than {replies}")
    return replies.splitlines()


def example(name):
    with open(os.path.join(TOP, "examples", "live", name), encoding="utf-8") as it:
        return it.read().splitlines()


def same(name, got, wanted):
    print("ok   " if got == wanted else "WRONG", name, flush=True)
    if got != wanted:
        print(f"      {got}\n      in place of\n      {wanted}")
    return got == wanted


def beside(peer):
    """Starts this peer in a thread."""
    thread = threading.Thread(target=peer, daemon=True)
    thread.start()
    return thread


def the_two_scripts():
    """The script that connects is run again until the one that serves listens."""
    served = []
    serving = beside(lambda: served.extend(live(example("serve.script"), 8080)))
    connected = ["err connection-refused"]
    while serving.is_alive() and "err connection-refused" in connected:
        time.sleep(0.1)
        connected = live(example("connect.script"), 8080)
    serving.join()
    # A look before the connection is there is `ok false`, after a second.
    looks = [reply.replace("ok false", "ok true") for reply in served[:19]]
    return same("the two scripts", (looks + served[19:], connected), (example("serve.replies"), example("connect.replies")))


def connect_from_a_bound_port():
    own = free_port(socket.SOCK_STREAM)
    seen = []
    with socket.create_server(("127.0.0.1", 0)) as server:
        port = server.getsockname()[1]

        def serve():
            one, peer = server.accept()
            seen.extend([peer[1], one.recv(9)])
            one.close()

        peer = beside(serve)
        replies = live(
            [
                "0 network",
                "0 tcp-create 4",
                f"0 tcp-start-bind 2 1 4 127 0 0 1 {own}",
                "0 tcp-finish-bind 2",
                f"0 tcp-start-connect 2 1 4 127 0 0 1 {port}",
                "0 tcp-finish-connect 2",
                "0 check-write 4",
                "0 write 4 6869",
                "0 tcp-shutdown 2 send",
                "0 subscribe 3",
                "0 ready 5",
                "0 read 3 9",
            ],
            own,
            port,
        )
        peer.join(PATIENCE)
    return same("a connect from a bound port", (seen, replies[5], replies[-1]), ([own, b"hi"], "ok 3 4", "closed"))


def a_peer_that_resets():
    with socket.create_server(("127.0.0.1", 0)) as server:
        port = server.getsockname()[1]

        def serve():
            one, _ = server.accept()
            one.recv(9)
            one.setsockopt(socket.SOL_SOCKET, socket.SO_LINGER, struct.pack("ii", 1, 0))
            one.close()

        peer = beside(serve)
        replies = live(
            [
                "0 network",
                "0 tcp-create 4",
                f"0 tcp-start-connect 2 1 4 127 0 0 1 {port}",
                "0 tcp-finish-connect 2",
                "0 check-write 4",
                "0 write 4 6869",
                "0 subscribe 3",
                "0 ready 5",
                "0 read 3 9",
                "0 read 3 9",
            ],
            port,
        )
        peer.join(PATIENCE)
    return same("a peer that resets", replies[6:], ["ok 5", "ok true", "failed connection-reset 6", "closed"])


def a_backlog_of_one_with_ten_connects():
    port = free_port(socket.SOCK_STREAM)
    clients = []

    def connect():
        """The first connect is made again until `live` listens; the other nine wait for nothing."""
        end = time.monotonic() + PATIENCE
        while not clients and time.monotonic() < end:
            try:
                clients.append(socket.create_connection(("127.0.0.1", port)))
            except ConnectionRefusedError:
                time.sleep(0.01)
        for _ in range(9):
            one = socket.socket()
            one.setblocking(False)
            one.connect_ex(("127.0.0.1", port))
            clients.append(one)

    peer = beside(connect)
    replies = live(
        [
            "0 network",
            "0 tcp-create 4",
            "0 tcp-set 2 listen-backlog-size 1",
            f"0 tcp-start-bind 2 1 4 127 0 0 1 {port}",
            "0 tcp-finish-bind 2",
            "0 tcp-start-listen 2",
            "0 tcp-finish-listen 2",
            "0 subscribe 2",
            "0 ready 3",
            "0 tcp-accept 2",
            "0 ready 3",
            "0 tcp-accept 2",
        ],
        port,
    )
    peer.join(PATIENCE)
    for one in clients:
        one.close()
    return same("a backlog of one", replies[-4:], ["ok true", "ok 4 5 6", "ok true", "ok 7 8 9"])


def datagrams_each_way():
    own = free_port(socket.SOCK_DGRAM)
    seen = []
    with socket.socket(socket.AF_INET, socket.SOCK_DGRAM) as other:
        other.bind(("127.0.0.1", 0))
        other.settimeout(PATIENCE)
        there = other.getsockname()[1]

        def answer():
            data, sender = other.recvfrom(99)
            seen.append((data, sender[1]))
            other.sendto(b"back", sender)

        peer = beside(answer)
        replies = live(
            [
                "0 network",
                "0 udp-create 4",
                f"0 udp-start-bind 2 1 4 127 0 0 1 {own}",
                "0 udp-finish-bind 2",
                "0 udp-stream 2",
                "0 udp-check-send 4",
                f"0 udp-send 4 to 4 127 0 0 1 {there} 6869",
                "0 subscribe 3",
                "0 ready 5",
                "0 udp-receive 3 9",
            ],
            own,
            there,
        )
        peer.join(PATIENCE)
    wanted = ["ok true", f"ok 1 4 127 0 0 1 {there} 6261636b"]
    return same("a datagram each way", (seen, replies[-2:]), ([(b"hi", own)], wanted))


def a_peer_that_closes_half():
    seen = []
    with socket.create_server(("127.0.0.1", 0)) as server:
        port = server.getsockname()[1]

        def serve():
            one, _ = server.accept()
            one.sendall(b"bye")
            one.shutdown(socket.SHUT_WR)
            while data := one.recv(9):
                seen.append(data)
            one.close()

        peer = beside(serve)
        replies = live(
            [
                "0 network",
                "0 tcp-create 4",
                f"0 tcp-start-connect 2 1 4 127 0 0 1 {port}",
                "0 tcp-finish-connect 2",
                "0 subscribe 3",
                "0 ready 5",
                "0 read 3 9",
                "0 ready 5",
                "0 read 3 9",
                "0 check-write 4",
                "0 write 4 6869",
                "0 tcp-shutdown 2 send",
            ],
            port,
        )
        peer.join(PATIENCE)
    return same("a peer that closes half", (b"".join(seen), replies[6], replies[8]), (b"hi", "ok 627965", "closed"))


class Talk:
    """A run of `live` whose lines go by its replies."""

    def __init__(self, *words):
        self.program = subprocess.Popen([*LIVE, *map(str, words)], stdin=subprocess.PIPE, stdout=subprocess.PIPE, text=True)

    def __enter__(self):
        return self

    def __exit__(self, *cause):
        self.program.communicate()

    def ask(self, *lines):
        """Returns the replies to these lines, which are short enough for a pipe."""
        self.program.stdin.write("".join(line + "\n" for line in lines))
        self.program.stdin.flush()
        return [self.program.stdout.readline().rstrip("\n") for _ in lines]

    def soon(self, line, most):
        """Returns the reply to this line and how many seconds it took, or no reply where it takes more than so many: the
        run ends then."""
        began = time.monotonic()
        try:
            self.program.stdin.write(line + "\n")
            self.program.stdin.flush()
        except BrokenPipeError:
            return None, most
        if not select.select([self.program.stdout], [], [], most)[0]:
            self.program.kill()
            return None, most
        return self.program.stdout.readline().rstrip("\n"), time.monotonic() - began

    def descriptors(self):
        return len(os.listdir(f"/proc/{self.program.pid}/fd"))


def connected(talk, server, handle):
    """Connects the socket that has this handle next, and returns its peer. The input has the handle after it."""
    port = server.getsockname()[1]
    talk.ask("0 tcp-create 4", f"0 tcp-start-connect {handle} 1 4 127 0 0 1 {port}", f"0 tcp-finish-connect {handle}")
    return server.accept()[0]


def a_list_with_one_ready():
    """Of an output with room and an idle input the output is found ready at once, and once more; and so it is behind 19 idle
    inputs."""
    replies = []
    for words in (["--wait"], []):
        with socket.create_server(("127.0.0.1", 0)) as server, Talk(*words, 100000, server.getsockname()[1]) as talk:
            talk.ask("0 network")
            peers = [connected(talk, server, handle) for handle in range(2, 62, 3)]
            talk.ask(*(f"0 subscribe {handle}" for handle in range(3, 60, 3)), "0 subscribe 61")
            for line in ("0 poll-list 81 62", "0 poll-list 81 62", f"0 poll-list {' '.join(map(str, range(62, 82)))}"):
                replies.append(talk.soon(line, 0.9)[0])
            for peer in peers:
                peer.close()
    return same("a list with one ready", replies, ["ok 0", "ok 0", "ok 19"] * 2)


def a_poll_of_a_list():
    """Two inputs are waited for, and bytes come for one of them."""
    replies = []
    for words in (["--wait"], []):
        for which in (0, 1):
            with socket.create_server(("127.0.0.1", 0)) as server, Talk(*words, 100000, server.getsockname()[1]) as talk:
                talk.ask("0 network")
                peers = [connected(talk, server, handle) for handle in (2, 5)]
                talk.ask("0 subscribe 3", "0 subscribe 6")
                pending = talk.soon("0 poll-list 8 9", 5)[0]
                late = threading.Timer(0.2, peers[which].sendall, [b"hi"])
                late.start()
                replies.append((pending, *talk.soon("poll 10", 0.9)[:1]))
                late.join()
                for peer in peers:
                    peer.close()
    return same("a poll of a list", replies, [("pending 10", "ok 0"), ("pending 10", "ok 1")] * 2)


def a_turn_of_two_receives():
    """Two receives are pending, and a datagram comes for one of them."""
    replies = []
    for words in (["--wait"], []):
        for which in (0, 1):
            own = [free_port(socket.SOCK_DGRAM) for _ in range(2)]
            with socket.socket(socket.AF_INET, socket.SOCK_DGRAM) as other:
                other.bind(("127.0.0.1", 0))
                with Talk(*words, 100000, *own, other.getsockname()[1]) as talk:
                    talk.ask("0 network")
                    for handle, port in zip((2, 5), own):
                        bind = f"0 udp-start-bind {handle} 1 4 127 0 0 1 {port}"
                        talk.ask("0 udp-create 4", bind, f"0 udp-finish-bind {handle}", f"0 udp-stream {handle}")
                    begun = talk.ask("0 subscribe 3", "0 subscribe 6", "0 ready 8", "0 ready 9")[2:]
                    late = threading.Timer(0.2, sent, [other, b"hi", own[which]])
                    late.start()
                    turned = talk.soon("turn", 0.9)[0]
                    late.join()
                    replies.append((begun, turned, talk.soon(f"0 ready {8 + which}", 5)[0]))
    return same("a turn of two receives", replies, [(["ok false"] * 2, "ok", "ok true")] * 4)


def many_idle_inputs():
    """A look at 1,500 idle inputs takes a second in all, and bytes for the last of them end it."""
    soft, hard = resource.getrlimit(resource.RLIMIT_NOFILE)
    if hard < 4096:
        return same("many idle inputs", hard, "at least 4096 descriptors")
    resource.setrlimit(resource.RLIMIT_NOFILE, (4096, hard))
    with socket.create_server(("127.0.0.1", 0), backlog=64) as server, Talk(10000000, server.getsockname()[1]) as talk:
        talk.ask("0 network")
        peers = [connected(talk, server, handle) for handle in range(2, 4502, 3)]
        for handle in range(3, 4502, 3):
            talk.ask(f"0 subscribe {handle}")
        line = 1 + 1500 * 3 + 1500 + 1
        pending, took = talk.soon(f"0 poll-list {' '.join(map(str, range(4502, 6002)))}", 60)
        peers[-1].sendall(b"hi")
        found = talk.soon(f"poll {line}", 60)[0]
        for peer in peers:
            peer.close()
    resource.setrlimit(resource.RLIMIT_NOFILE, (soft, hard))
    return same("many idle inputs", (pending, found, 0.9 < took < 10), (f"pending {line}", "ok 1499", True))


def a_peer_that_never_reads():
    """Writes until there is no room. What was taken is there when the peer reads at last, and no more."""
    seen = []
    with socket.create_server(("127.0.0.1", 0)) as server, Talk(1000000000, port := server.getsockname()[1]) as talk:
        talk.ask("0 network", "0 tcp-create 4", f"0 tcp-start-connect 2 1 4 127 0 0 1 {port}", "0 tcp-finish-connect 2")
        peer, _ = server.accept()
        talk.ask("0 subscribe 4")
        written, reply = 0, "ok 65536"
        while reply != "ok 0" and written < 1 << 30:
            [reply] = talk.ask("0 check-write 4")
            room = min(int(reply.removeprefix("ok ")), 4096)
            if room and talk.ask(f"0 write 4 {'2e' * room}") == ["ok"]:
                written += room
        full = talk.ask("0 ready 5")
        while len(seen) == 0 or sum(seen) < written:
            seen.append(len(peer.recv(1 << 20)))
            talk.ask("turn")
        room = talk.ask("0 ready 5", "0 check-write 4", "0 drop 5", "0 drop 4", "0 tcp-shutdown 2 send")
        rest = peer.recv(9)
        peer.close()
    wanted = (["ok false"], ["ok true", "ok 65536", "ok", "ok", "ok"], 0, b"")
    return same("a peer that never reads", (full, room, sum(seen) - written, rest), wanted)


def a_thousand_at_once():
    """A thousand sockets of each kind are open at once; each UDP socket sends a datagram, each TCP socket connects."""
    soft, hard = resource.getrlimit(resource.RLIMIT_NOFILE)
    if hard < 4096:
        return same("a thousand at once", hard, "at least 4096 descriptors")
    resource.setrlimit(resource.RLIMIT_NOFILE, (4096, hard))
    connected, sent_from = [], set()
    with socket.socket(socket.AF_INET, socket.SOCK_DGRAM) as other, socket.create_server(("127.0.0.1", 0)) as server:
        other.bind(("127.0.0.1", 0))
        there, port = other.getsockname()[1], server.getsockname()[1]
        with Talk(10000000, 0, there, port) as talk:
            talk.ask("0 network")
            before = talk.descriptors()
            handle = 2
            for _ in range(1000):
                one, stream = handle, handle + 2
                talk.ask(
                    "0 udp-create 4",
                    f"0 udp-start-bind {one} 1 4 127 0 0 1 0",
                    f"0 udp-finish-bind {one}",
                    f"0 udp-stream {one}",
                    f"0 udp-check-send {stream}",
                    f"0 udp-send {stream} to 4 127 0 0 1 {there} 6869",
                )
                sent_from.add(other.recvfrom(9)[1][1])
                handle += 3
            for _ in range(1000):
                [_, _, reply] = talk.ask(
                    "0 tcp-create 4",
                    f"0 tcp-start-connect {handle} 1 4 127 0 0 1 {port}",
                    f"0 tcp-finish-connect {handle}",
                )
                connected.append((server.accept()[0], reply == f"ok {handle + 1} {handle + 2}"))
                handle += 3
            opened = talk.descriptors() - before
        seen = (opened, len(sent_from), sum(good for _, good in connected), {one.recv(9) for one, _ in connected})
        for one, _ in connected:
            one.close()
    resource.setrlimit(resource.RLIMIT_NOFILE, (soft, hard))
    return same("a thousand at once", seen, (2000, 1000, 1000, {b""}))


def rules_over_every_address():
    """The rules allow one port of this machine, and a bind to an address that no machine has. Without --any-address that
    bind is denied too; after it the system refuses it, and opens nothing."""
    with socket.create_server(("127.0.0.1", 0)) as server, tempfile.NamedTemporaryFile("w", suffix=".txt") as file:
        port = server.getsockname()[1]
        file.write(
            "allow tcp-bind any 0 0\nallow tcp-bind 4 192 0 2 1 32 0 65535\n"
            f"allow tcp-connect 4 127 0 0 1 32 {port} {port}\n"
        )
        file.flush()
        got = []
        for words in (["--any-address"], []):
            with Talk(*words, "--policy", file.name, 100000) as talk:
                replies = talk.ask(
                    "0 network",
                    "0 tcp-create 4",
                    "0 tcp-create 4",
                    "0 tcp-create 4",
                    "0 tcp-start-bind 2 1 4 192 0 2 1 8080",
                    f"0 tcp-start-connect 3 1 4 127 0 0 1 {port}",
                    "0 tcp-finish-connect 3",
                    f"0 tcp-start-connect 4 1 4 192 0 2 1 {port}",
                    "0 tcp-finish-connect 4",
                )
                got.append([replies[4], replies[6], replies[8]])
    last = ["ok 5 6", "err access-denied"]
    return same("rules over every address", got, [["err address-not-bindable", *last], ["err access-denied", *last]])


def sent(sender, data, own):
    """Sends a datagram to the port of `live`."""
    sender.sendto(data, ("127.0.0.1", own))


def datagrams_from_elsewhere():
    """Each of two runs gets a datagram from one socket and then one from another: the first run's rules deny the first
    sender, the second run's socket has the second for its remote address."""
    own = free_port(socket.SOCK_DGRAM)
    with socket.socket(socket.AF_INET, socket.SOCK_DGRAM) as first, socket.socket(socket.AF_INET, socket.SOCK_DGRAM) as second:
        first.bind(("127.0.0.1", 0))
        second.bind(("127.0.0.1", 0))
        there = second.getsockname()[1]
        rules = f"allow udp-bind 4 127 0 0 1 32 {own} {own}\nallow udp-receive 4 127 0 0 1 32 {there} {there}\n"
        begin = ["0 network", "0 udp-create 4", f"0 udp-start-bind 2 1 4 127 0 0 1 {own}", "0 udp-finish-bind 2"]
        end = ["0 subscribe 3", "0 ready 5", "0 udp-receive 3 9", "0 udp-receive 3 9"]
        with tempfile.NamedTemporaryFile("w", suffix=".txt") as file:
            file.write(rules)
            file.flush()
            runs = [
                (["--policy", file.name, "100000"], "0 udp-stream 2"),
                (["100000", str(own), str(there)], f"0 udp-stream 2 4 127 0 0 1 {there}"),
            ]
            got = []
            for words, stream in runs:
                program = subprocess.Popen([*LIVE, *words], stdin=subprocess.PIPE, stdout=subprocess.PIPE, text=True)
                program.stdin.write("".join(line + "\n" for line in [*begin, stream]))
                program.stdin.flush()
                for _ in range(5):
                    program.stdout.readline()
                sent(first, b"first", own)
                sent(second, b"second", own)
                replies, _ = program.communicate("".join(line + "\n" for line in end))
                got.append(replies.splitlines()[-2:])
    wanted = [f"ok 1 4 127 0 0 1 {there} {b'second'.hex()}", "ok 0"]
    return same("datagrams from elsewhere", got, [wanted, wanted])


def no_descriptor_is_left():
    """Counts the descriptors of `live` before and after 10,000 creates and drops of each kind of socket."""
    counts = []
    for create in ["tcp-create 4", "tcp-create 6", "udp-create 4", "udp-create 6"]:
        words = [*LIVE, "10000000", "8080"]
        with subprocess.Popen(words, stdin=subprocess.PIPE, stdout=subprocess.PIPE, text=True) as program:
            folder = f"/proc/{program.pid}/fd"
            program.stdin.write("0 network\n")
            program.stdin.flush()
            program.stdout.readline()
            before = len(os.listdir(folder))
            lines = [f"0 {create}\n0 drop {handle}\n" for handle in range(2, 10002)]
            writer = beside(lambda: (program.stdin.write("".join(lines)), program.stdin.flush()))
            replies = [program.stdout.readline() for _ in range(20000)]
            writer.join()
            counts.append((replies[-2], len(os.listdir(folder)) - before))
    return same("no descriptor is left", counts, [("ok 10001\n", 0)] * 4)


class Relay:
    """A run of `relay --live` to a listener of our own. `descriptors`: how many it may have. `port`: where it listens."""

    def __init__(self, connections, descriptors=None, port=None):
        self.server = socket.create_server(("127.0.0.1", 0), backlog=64)
        self.server.settimeout(PATIENCE)
        self.port = free_port(socket.SOCK_STREAM) if port is None else port
        words = [self.port, self.server.getsockname()[1], connections]
        few = None if descriptors is None else lambda: resource.setrlimit(resource.RLIMIT_NOFILE, (descriptors, descriptors))
        pipe = subprocess.PIPE
        self.program = subprocess.Popen([*PROGRAM, "relay", "--live", *map(str, words)], stdout=pipe, stderr=pipe, text=True, preexec_fn=few)

    def __enter__(self):
        return self

    def __exit__(self, *cause):
        self.server.close()
        self.program.kill()
        self.program.communicate()

    def connect(self):
        """Returns a client of the relay, which may have to begin to listen first."""
        end = time.monotonic() + PATIENCE
        while True:
            try:
                one = socket.create_connection(("127.0.0.1", self.port), timeout=PATIENCE)
            except ConnectionRefusedError:
                if time.monotonic() > end or self.program.poll() is not None:
                    raise
                time.sleep(0.01)
            else:
                one.settimeout(10)
                return one

    def pair(self):
        """Returns a client and its target, which have talked."""
        client = self.connect()
        client.sendall(b"hi")
        target, _ = self.server.accept()
        target.settimeout(10)
        heard = target.recv(9)
        target.sendall(b"ok")
        if (heard, client.recv(9)) != (b"hi", b"ok"):
            raise SystemExit("the relay gave other bytes")
        return client, target

    def end(self):
        """Returns the lines, the status and what was said."""
        lines, said = self.program.communicate(timeout=10)
        return lines.splitlines(), self.program.returncode, said


def reset(one):
    one.setsockopt(socket.SOL_SOCKET, socket.SO_LINGER, struct.pack("ii", 1, 0))
    one.close()


def seen_by(one):
    """Returns what this socket reads, or why it reads nothing."""
    try:
        return one.recv(9)
    except OSError as why:
        return str(why)


def resets_in_a_relay(name, which):
    """In each of 16 pairs, which are as many as may be open, one side resets and the other waits. Then one more is served."""
    with Relay(17) as relay:
        pairs = [relay.pair() for _ in range(16)]
        for pair in pairs:
            reset(pair[which])
        seen = set()
        for pair in pairs:
            if seen <= {b""}:
                seen.add(seen_by(pair[1 - which]))
        try:
            client, target = relay.pair()
            target.close()
            seen.add(client.recv(9))
            client.close()
            ended = relay.end()
        except (OSError, subprocess.TimeoutExpired) as why:
            ended = why
    lines = [f"pair {k} up broken 2 down broken 2" for k in range(1, 17)] + ["pair 17 up clean 2 down clean 2"]
    return same(name, (seen, ended), ({b""}, (lines, 0, "")))


def clients_that_reset():
    return resets_in_a_relay("clients of a relay that reset", 0)


def targets_that_reset():
    return resets_in_a_relay("targets of a relay that reset", 1)


def an_answer_before_a_reset():
    """A target answers with more than one turn copies and closes, with bytes of its client unread: so it resets."""
    answer = b"no" * 10000
    with Relay(1) as relay:
        client, target = relay.pair()
        client.sendall(b"." * 100)
        time.sleep(0.5)
        target.sendall(answer)
        target.close()
        got = b""
        try:
            while data := client.recv(1 << 16):
                got += data
        except OSError as why:
            got = why
        client.close()
        _, status, _ = relay.end()
    return same("an answer before a reset", (got == answer, status), (True, 0))


def few_descriptors():
    """Twelve clients at once, with descriptors for eight pairs; with one more, which an accept takes and no target gets; and
    no client, with none for any pair. No target answers before all pairs are open that there can be."""
    seen = []
    for descriptors, count in ((20, 12), (21, 12), (4, 0)):
        go = threading.Event()
        with Relay(12, descriptors) as relay:

            def answer(target, go=go):
                data = target.recv(9)
                go.wait(PATIENCE)
                target.sendall(data.upper())
                target.close()

            def serve(server):
                try:
                    while True:
                        beside(lambda target=server.accept()[0]: answer(target))
                except OSError:
                    pass

            beside(lambda server=relay.server: serve(server))
            clients = [relay.connect() for _ in range(count)]
            answers = []
            for client in clients:
                client.sendall(b"hi")
            time.sleep(1)
            go.set()
            for client in clients:
                answers.append(seen_by(client))
                client.close()
            try:
                lines, status, said = relay.end()
                ended = (len(lines), status, said.splitlines()[:1])
            except subprocess.TimeoutExpired as why:
                ended = why
            seen.append((answers.count(b"HI"), ended))
    return same("few descriptors", seen, [(12, (12, 0, [])), (12, (12, 0, [])), (0, (0, 26, ["status 26"]))])


def a_port_that_the_system_chooses():
    with Relay(1, port=0) as relay:
        select.select([relay.program.stderr], [], [], 10)
        told = os.read(relay.program.stderr.fileno(), 99).decode()
        words = told.split()
        if words[:3] == ["listening", "on", "port"]:
            relay.port = int(words[3])
            for one in relay.pair():
                one.close()
        lines, status, _ = relay.end()
    wanted = (f"listening on port {relay.port} of 127.0.0.1\n", ["pair 1 up clean 2 down clean 2"], 0)
    return same("a port that the system chooses", (told, lines, status), wanted)


def logs_of_runs_that_are_ended():
    """Signals, logs that are cut and files that are there: see records.py."""
    done = subprocess.run([sys.executable, os.path.join(TOP, "examples", "live", "records.py"), *PROGRAM], check=False)
    return same("logs of runs that are ended", done.returncode, 0)


TESTS = [
    the_two_scripts,
    connect_from_a_bound_port,
    a_peer_that_resets,
    a_backlog_of_one_with_ten_connects,
    datagrams_each_way,
    a_peer_that_closes_half,
    a_peer_that_never_reads,
    a_list_with_one_ready,
    a_poll_of_a_list,
    a_turn_of_two_receives,
    many_idle_inputs,
    datagrams_from_elsewhere,
    rules_over_every_address,
    a_thousand_at_once,
    no_descriptor_is_left,
    clients_that_reset,
    targets_that_reset,
    an_answer_before_a_reset,
    few_descriptors,
    a_port_that_the_system_chooses,
    logs_of_runs_that_are_ended,
]

if __name__ == "__main__":
    sys.exit(0 if all([test() for test in TESTS]) else 1)
