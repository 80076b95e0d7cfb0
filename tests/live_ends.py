"""How a run ends: each peer is told all texts and a close frame, and no connection is reset.

A peer has a second for its answer to the close, and after that the program may cut it. These peers answer at once.
Where the machine was too busy for that, the reset comes late, and the run is tried again. One that comes within the
second is the program's own, and counts in each try."""
import socket, threading, time

from live_edge import (PATIENCE, Beside, Clock, Listener, companion, dial_soon, end_of, greet, has_ended,
                       long_programme, patiently, processor_times, slower, state, stop, until_open, wait_for)
from live_peer import PING, SETUP, start

NOTHING = [], "nothing"
CUT = []  # The sessions that were closed and then reset within the second.
CONTROL = {"contentTime": "900000", "wallClockTime": "0", "timelineSpeedMultiplier": 1}
SCRIPT = "0 programme dvb://1\n0 timeline 1 urn:dvb:css:timeline:pts 1 90000 0\n0 change 1\n"


def pings_until_close(peer):
    """Says pings until the session is closed, so that something unread waits at the other end all the time. How the
    session ends."""
    over = threading.Event()

    def say():
        try:
            while not over.is_set():
                peer.say(b"p" * 100, PING)
                time.sleep(0.0005)
        except OSError:
            pass
    threading.Thread(target=say, daemon=True).start()
    codes, _, how = end_of(peer, over=over)
    over.set()
    return codes, how


def told_end(check, name, kind, end):
    """Whether a session was closed, and its connection then ended in order."""
    if end == ([1000], "by a reset"):
        CUT.append((name, kind))
    check(f"{name}: the session of {kind} is closed with 1000, and not reset",
          end == ([1000], "in order") and (name, kind) not in CUT, end)


class Television:
    """A server of both sessions that tells these texts after its state, once its sessions are open at the other end,
    and notes how each of them ends."""

    def __init__(self, texts, has_ts=True):
        self.ends, self.clock, self.has_ts = {}, Clock(), has_ts
        self.opened = threading.Event()
        self.timestamps = Listener(self.ts)
        self.texts = [state(self.clock.port, self.timestamps.port if has_ts else None), *texts]
        self.server = Listener(self.cii)

    def cii(self, peer):
        greet(peer)
        peer.say(self.texts[0])
        if self.has_ts:
            self.opened.wait(PATIENCE)
        for text in self.texts[1:]:
            until_open(peer)
            peer.say(text)
        self.ends["cii"] = pings_until_close(peer)

    def ts(self, peer):
        greet(peer)
        peer.say(CONTROL)
        until_open(peer)
        self.opened.set()
        self.ends["ts"] = pings_until_close(peer)

    def end_of(self, kind):
        wait_for(lambda: kind in self.ends)
        return self.ends.get(kind, NOTHING)

    def end(self):
        for one in (self.clock, self.timestamps, self.server):
            one.end()


def of_companion(check, times, program, name, texts, wanted, every=500_000_000, words=(), output=None,
                 kinds=("cii", "ts")):
    """How a companion's run ends against such a television."""
    server = Television(texts, "ts" in kinds)
    program = program if output is None else ["sh", "-c", f'exec "$@" >{output}', "sh", *program]
    lasting = slower(["--turns", "3000", "--report-every", str(every)], times)
    child = companion(program, server.server.port, *lasting, *words)
    status = child.wait(60)
    told = child.stderr.read().decode().strip()
    stop(child)
    check(f"a companion {name} has its status", status == wanted, (status, told))
    for kind in kinds:
        told_end(check, f"a companion {name}", kind, server.end_of(kind))
    server.end()


def of_television(check, times, program, port, name, wanted, refused_after=None):
    """How a television's run ends for two peers: when it made its turns, or when a line of its script is refused."""
    script, turns = SCRIPT, 700
    if refused_after:
        script, turns = f"{script}{time.monotonic_ns() + times * refused_after} speed 65\n", 20_000
    child = start(program, ["tv", "--port", str(port), *slower(["--turns", str(turns)], times)], script)
    ends, peers = {}, [("cii", dial_soon(port, "/cii")), ("ts", dial_soon(port + 1, "/ts"))]
    peers[1][1].say(SETUP)
    threads = [threading.Thread(target=lambda kind=kind, peer=peer: ends.update({kind: pings_until_close(peer)}))
               for kind, peer in peers]
    for thread in threads:
        thread.start()
    for thread in threads:
        thread.join()
    status = child.wait(PATIENCE)
    check(f"a television {name} has its status", status == wanted, (status, child.stderr.read().decode().strip()))
    for kind in ("cii", "ts"):
        told_end(check, f"a television {name}", kind, ends.get(kind, NOTHING))
    stop(child)


def of_relay(check, times, program, port):
    """How a relay's run ends for its television, and for a peer of its own."""
    server, ends = Television([], False), {}
    child = companion(program, server.server.port, "--port", str(port), *slower(["--turns", "700"], times),
                      command="relay")
    ends["its peer"] = pings_until_close(dial_soon(port, "/cii"))
    ends["its television"] = server.end_of("cii")
    check("a relay that made its turns has its status", child.wait(PATIENCE) == 0, child.stderr.read().decode().strip())
    for whose, end in ends.items():
        told_end(check, "a relay that made its turns", whose, end)
    stop(child)
    server.end()


def read_fast(peer):
    """Lets a peer take a lot at once from now on, so that this program has little to do for what it reads."""
    peer.conn.setsockopt(socket.SOL_SOCKET, socket.SO_RCVBUF, 1 << 20)
    peer.conn.setsockopt(socket.IPPROTO_TCP, socket.TCP_WINDOW_CLAMP, 1 << 20)


def texts_at_the_end(check, times, program, port):
    """A peer that reads nothing until the end of a run is then told all that was said to it: about a megabyte. It has a
    second for that, so it reads as soon as another peer is told the close."""
    due, count, over, end = time.monotonic_ns() + times * 4_000_000_000, 8, threading.Event(), []
    script = long_programme(1) + long_programme(2)
    script += "".join(f"{due} change {at % 2 + 1}\n" for at in range(count))
    child = start(program, ["tv", "--port", str(port), *slower(["--seconds", "7"], times)], script)
    witness, slow = dial_soon(port, "/cii"), dial_soon(port, "/cii", room=4096)
    reader = threading.Thread(target=lambda: (over.wait(2 * PATIENCE), read_fast(slow), end.append(end_of(slow))))
    reader.start()
    _, wanted, _ = end_of(witness, 2 * PATIENCE, over)
    reader.join()
    stop(child)
    codes, texts, how = end[0]
    check("a peer that is slow at the end of a run is told all texts", texts == wanted and wanted > count // 2,
          f"{texts} of {wanted}")
    told_end(check, "a peer that is slow at the end of a run", "cii", (codes, how))


def held(check, _, program, port):
    """Peers that don't answer the close hold the end of a run for a second at most, and not for good."""
    child = start(program, ["tv", "--port", str(port), "--turns", "700"], SCRIPT)
    peers = [dial_soon(port, "/cii"), dial_soon(port + 1, "/ts")]
    peers[0].ending()
    begun, before = time.monotonic(), processor_times(child.pid)[1]
    wait_for(lambda: has_ended(child))
    took = time.monotonic() - begun - processor_times(child.pid)[1] + before
    check("peers that don't answer a close hold the end of a run for a second at most", took < 3, f"{took:.2f} s")
    for peer in peers:
        peer.conn.close()
    stop(child)


def ends(port, program, check):
    moved = {**state(), "wcUrl": "udp://127.0.0.1:9"}
    every = 500_000_000
    Beside([(patiently, *call) for call in [
        (of_companion, program, "that made its reports", [], 0, every, ("--reports", "5")),
        (of_companion, program, "that is told no object", [b"[]"], 7),
        (of_companion, program, "whose television moves", [moved], 8),
        (of_companion, program, "that is told a bad address", [{"tsUrl": "nowhere"}], 13, every, (), None, ("cii",)),
        (of_companion, program, "that can't write its reports", [], 5, 6 * every, (), "/dev/full"),
        (of_television, program, port, "that made its turns", 0),
        (of_television, program, port + 2, "whose script is refused", 2, 8 * every),
        (of_relay, program, port + 4),
        (texts_at_the_end, program, port + 6),
        (held, program, port + 8),
    ]]).tell(check)
