"""Peers that say nothing, and more peers than there is room for.

A session on which nothing came for 30 seconds is pinged, and one on which nothing came for 60 is closed."""
import threading, time

from live_edge import Beside, Clock, Listener, companion, dial_soon, end_of, greet, state, stop, wait_for
from live_peer import CLOSE, PING, PONG, serves, start

PINGED, CLOSED, OVER = (29.9, 45), (59.9, 90), 68  # A busy machine is late, and never early.
MOST = 256
CONTROL = {"contentTime": "900000", "wallClockTime": "0", "timelineSpeedMultiplier": 1}


class Watched:
    """A session that began after a time, and is read by a thread: when it was pinged first, and when it ended, counted
    from then. Pings are answered or not."""

    def __init__(self, begun, peer, answers):
        self.peer, self.answers, self.begun = peer, answers, begun
        self.pinged = self.ended = None
        threading.Thread(target=self.read, daemon=True).start()

    def read(self):
        try:
            while True:
                opcode, payload = self.peer.hear(100)
                if opcode == PING:
                    self.pinged = self.pinged or time.monotonic() - self.begun
                    if self.answers:
                        self.peer.say(payload, PONG)
                if opcode == CLOSE:
                    break
        except (EOFError, OSError):
            pass
        self.ended = time.monotonic() - self.begun

    def wait(self):
        """Waits until it is over, or has lasted longer than a silent one does."""
        last = OVER if self.answers else CLOSED[1]
        wait_for(lambda: self.ended is not None, self.begun + last - time.monotonic())


def watched(port, path, answers):
    """A session that this program dials."""
    begun = time.monotonic()
    return Watched(begun, dial_soon(port, path), answers)


def is_in(moment, bounds):
    return moment is not None and bounds[0] <= moment <= bounds[1]


def told(moment):
    return "never" if moment is None else f"after {moment:.1f} s"


def is_dropped(check, name, each):
    check(f"{name} that says nothing is pinged after 30 seconds", is_in(each.pinged, PINGED), told(each.pinged))
    check(f"{name} that says nothing is closed after 60 seconds", is_in(each.ended, CLOSED), told(each.ended))


def stays(check, name, each):
    check(f"{name} that answers pings is pinged and stays", is_in(each.pinged, PINGED) and each.ended is None,
          f"pinged {told(each.pinged)}, ended {told(each.ended)}")


def of_television(check, program, port):
    """A television's peers say nothing, all of them but one, and take all its room."""
    child = start(program, ["tv", "--port", str(port), "--seconds", "3600"], "0 programme dvb://1\n0 change 1\n")
    dial_soon(port, "/cii").conn.close()
    silent = {"a peer on /cii": watched(port, "/cii", False), "a peer on /ts": watched(port + 1, "/ts", False)}
    good = watched(port, "/cii", True)
    others = [dial_soon(port, "/cii") for _ in range(MOST - 3)]
    for peer in others:
        peer.conn.setblocking(False)  # Nobody reads them: they are those of a process that was stopped.
    codes, _, how = end_of(dial_soon(port, "/cii"))
    check("the 257th session is closed with 1013", codes == [1013], (codes, how))
    good.wait()
    for name, each in silent.items():
        each.wait()
        is_dropped(check, name, each)
    stays(check, "a peer", good)
    check("once the silent ones are closed, another peer is served", serves(port))
    stop(child)


def of_companion(check, program, answers):
    """A television that says nothing more, and answers pings or doesn't."""
    seen, clock = {}, Clock()

    def session(name, text):
        def serve(peer):
            greet(peer)
            begun = time.monotonic()
            peer.say(text)
            seen[name] = Watched(begun, peer, answers)
        return serve
    timestamps = Listener(session("CSS-TS", CONTROL))
    server = Listener(session("CSS-CII", state(clock.port, timestamps.port)))
    child = companion(program, server.port, "--seconds", "3600", "--reports", "1000000")
    wait_for(lambda: len(seen) == 2)
    for name, each in sorted(seen.items()):
        each.wait()
        (stays if answers else is_dropped)(check, f"a television on {name}", each)
    check("a companion opens both its sessions", len(seen) == 2, sorted(seen))
    stop(child)
    for one in (clock, timestamps, server):
        one.end()


def silent(port, program, check):
    Beside([
        (of_television, program, port),
        (of_companion, program, False),
        (of_companion, program, True),
    ]).tell(check)
