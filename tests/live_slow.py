"""A peer that reads slowly, but takes all in the end.

How much the system keeps for a sender decides how much a program must keep itself, and mostly that is a lot. So this
runs in a network of its own, in which it is little:

    unshare -r -n python3 tests/own_network.py python3 tests/live_slow.py TIMES PROGRAM ..

The texts come so many times as slowly as they could. Two changes that a busy television makes in one turn come to no
text, so fewer than all may come, and then it is tried again.
"""
import json, os, select, subprocess, sys, time

from live_edge import PATIENCE, dial_soon, long_programme, patiently, stop
from live_peer import Peer, start
from own_network import alone, why_not

TEXTS, EACH, PORT = 44, 0.8, 6677
KEPT = "/proc/sys/net/ipv4/tcp_wmem"


class SlowPeer(Peer):
    """A peer that reads 16 KiB each 4 milliseconds at most."""

    def take(self, count, seconds):
        while len(self.bytes) < count:
            if not select.select([self.conn], [], [], seconds)[0]:
                raise TimeoutError
            more = self.conn.recv(16384)
            if not more:
                raise EOFError
            self.bytes += more
            time.sleep(0.004)
        taken, self.bytes = self.bytes[:count], self.bytes[count:]
        return taken


def read_all(peer):
    """Reads texts until all have come. How many it was, how many bytes, and how that ended."""
    texts, count = 0, 0
    try:
        while texts < TEXTS:
            texts, count = texts + 1, count + len(peer.hear(PATIENCE)[1])
        return texts, count, "it stays" if peer.answers(b"still") else "it is gone"
    except (EOFError, OSError) as error:
        return texts, count, repr(error)


def try_it(times, program):
    """A television says long texts, each of which waits in part. A peer has taken all of it before the next."""
    begun = time.monotonic() + 10  # By then the peer is there, also on a busy machine.
    script = long_programme(1) + long_programme(2)
    script += "".join(f"{int((begun + at * times * EACH) * 1e9)} change {at % 2 + 1}\n" for at in range(TEXTS))
    child = start(program, ["tv", "--port", str(PORT), "--seconds", "3600"], script)
    fast = dial_soon(PORT, "/cii", room=16384)
    fast.text()
    peer = SlowPeer(fast.conn, True)
    peer.bytes = fast.bytes
    texts, count, end = read_all(peer)
    stop(child)
    return texts, count, end


def slow_reader(check, program):
    """Tries it in a network of its own."""
    why = why_not()
    if why:
        check.skip("a slow reader", why)
    else:
        patiently(check, read_slowly, program)


def read_slowly(check, times, program):
    own = alone([sys.executable, os.path.abspath(__file__), str(times), *program])
    done = subprocess.run(own, capture_output=True, check=False, timeout=600)
    told = json.loads(done.stdout or "[0, 0, \"it didn't run\"]")
    if isinstance(told, str):
        check.skip("a slow reader", told)
        return
    texts, count, end = told
    check("a peer that is slow, but takes all in the end, isn't hung up after 4 MiB",
          texts == TEXTS and end == "it stays", f"{texts} texts of {TEXTS}, {count} bytes, then {end}")


def main(times, program):
    """A sender has 64 KiB at most, where that can be set. Else why it can't."""
    try:
        with open(KEPT, "w", encoding="ascii") as file:
            file.write("4096 16384 65536\n")
    except OSError as error:
        return str(error)
    return try_it(times, program)


if __name__ == "__main__":
    print(json.dumps(main(int(sys.argv[1]), sys.argv[2:])))
