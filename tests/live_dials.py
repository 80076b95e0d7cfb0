"""A server that refuses is dialled again and again, and twice a second at most for each kind of session.

Dials of a kind begin at least half a second apart, so the dial of number N, counted from 0, can't come before N half
seconds after the run began. A busy machine makes it come later, and never sooner."""
import time

from live_edge import Beside, Listener, companion, reset, state, stop, teller, wait_for
from live_peer import start
from own_network import alone, refused_dials, why_not

DIALS, APART = 8, 0.5
LONG = ("--seconds", "3600", "--reports", "1000000")


def forbidden(peer):
    peer.head()
    peer.conn.sendall(b"HTTP/1.1 403 Forbidden\r\nContent-Length: 0\r\nConnection: close\r\n\r\n")
    peer.conn.close()


def unavailable(peer):
    peer.head()
    peer.conn.sendall(b"HTTP/1.1 503 Service Unavailable\r\nRetry-After: 120\r\nConnection: close\r\n\r\nNot now.\r\n")
    peer.conn.close()


def resetting(peer):
    peer.head()
    reset(peer.conn)


def closing(peer):
    peer.conn.close()


def dialled(check, program, kind, how, serve):
    """A companion dials a server."""
    server = Listener(serve)
    television = server if kind == "cii" else Listener(teller(state(timestamps=server.port)))
    begun = time.monotonic()
    child = companion(program, television.port, *LONG)
    wait_for(lambda: len(server.times) >= DIALS)
    times = [at - begun for at in server.times]
    stop(child)
    check(f"a server of {kind} that {how} is dialled on and on", len(times) >= DIALS, f"{len(times)} times")
    early = [round(at, 2) for number, at in enumerate(times) if at < APART * number]
    check(f"a server of {kind} that {how} is dialled at most twice a second", not early,
          early or f"the last after {times[-1]:.2f} s" if times else "")
    for one in {server, television}:
        one.end()


def refused(check, program, command, words):
    """Nobody listens at all. What is dialled is counted by the system, in a network of the program's own."""
    why = why_not()
    if why:
        check.skip(f"how often a {command} dials a port where nobody listens", why)
        return
    begun = time.monotonic()
    cii = ["--cii", "ws://127.0.0.1:6699/cii", "--seconds", "3600"]
    child = start(alone(program), [command, *cii, *words])
    wait_for(lambda: refused_dials(child.pid) >= DIALS)
    count = refused_dials(child.pid)
    took = time.monotonic() - begun
    stop(child)
    check(f"a {command} dials a port where nobody listens on and on, and at most twice a second",
          count >= DIALS and took >= APART * (count - 1), f"{count} times in {took:.2f} s")


def dials(port, program, check):
    Beside([(dialled, program, kind, how, serve) for kind in ("cii", "ts")
            for how, serve in (("answers 403", forbidden), ("answers 503", unavailable), ("resets", resetting),
                               ("hangs up", closing))] +
           [(refused, program, "companion", ["--reports", "1000000"]),
            (refused, program, "relay", ["--port", str(port)])]).tell(check)
