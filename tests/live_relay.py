#!/usr/bin/env python3
"""Tries `css relay` on real sockets where its television goes away and comes back with another clock.

    tests/live_relay.py [PROGRAM ..]   the program's words before the command; ./css where there are none

The television comes back with its wall clock 5 s ahead, over a way that is slower, so that what was known before is
narrower than all that comes now. A peer asks the relay's wall clock all the time, and a `css watch` stands behind it.
All read the same monotone clock of this machine, so what is true at a reading is known to the nanosecond. Each check
prints a line. The exit status is 1 where one failed.
"""
import json
import math
import socket
import sys
import threading
import time

from checks import Checks, ports, program
from live_edge import companion, dial_soon, stop, wait_for
from live_peer import nanos, request
from television import SECOND, Set, answer_of, tick_at

PORT = ports()
AHEAD, ONE_WAY, ENOUGH = 5, 0.15, 50
ASK, REPORT = "50000000", "100000000"
check = Checks()


class Moving(Set):
    """A television to which there is a way of so many seconds, and one back."""
    way = 0.0

    def answer(self, clock, data, sender):
        threading.Timer(self.way, self.receive, (clock, data[8:16], sender)).start()

    def receive(self, clock, originate, sender):
        received = self.wall(time.monotonic_ns())
        datagram = answer_of(1, originate, received, self.wall(time.monotonic_ns()))
        threading.Timer(self.way, clock.say, (datagram, sender)).start()

    def come_back(self):
        """With another clock, by another way. When it did."""
        self.way = ONE_WAY
        self.jump(AHEAD)
        begun = time.monotonic_ns()
        self.switch_on()
        return begun

    def control_at(self, reading):
        return [control for begin, control, _ in self.controls if begin <= reading][-1]


class Asker:
    """Asks the wall clock at a port every 20 ms, and keeps each response with the readings around it."""

    def __init__(self, port):
        self.socket = socket.socket(socket.AF_INET, socket.SOCK_DGRAM)
        self.socket.connect(("127.0.0.1", port))
        self.socket.settimeout(0.02)
        self.kept, self.ends = [], False
        self.thread = threading.Thread(target=self.ask, daemon=True)
        self.thread.start()

    def ask(self):
        while not self.ends:
            try:
                self.socket.send(request(time.monotonic_ns()))
                data = self.socket.recv(64)
                self.kept.append((data, time.monotonic_ns()))
            except OSError:
                pass  # Nobody answers, or nobody listens.
            time.sleep(0.02)

    def since(self, begun):
        """The responses to requests that were sent since then."""
        return [(data, landed) for data, landed in self.kept if nanos(data[8:16]) >= begun]

    def end(self):
        self.ends = True
        self.thread.join()
        self.socket.close()


class Reports(threading.Thread):
    """The reports of a `watch` that have ticks, as they come: each reading and its ticks."""

    def __init__(self, child):
        super().__init__(daemon=True)
        self.child, self.kept = child, []
        self.start()

    def run(self):
        for line in map(json.loads, self.child.stdout):
            if "ticks" in line:
                self.kept.append((int(line["reading"]), [int(tick) for tick in line["ticks"]]))

    def since(self, begun):
        return [report for report in self.kept if report[0] >= begun]


def is_true(tv, data, landed):
    """Whether both times of a response read the television's clock, within the precision, while it was under way."""
    precision = math.ceil(SECOND * 2.0 ** int.from_bytes(data[2:3], "big", signed=True))
    asked, received, transmitted = (nanos(data[at:at + 8]) for at in (8, 16, 24))
    least, greatest = tv.wall(asked) - precision, tv.wall(landed) + precision
    return data[1] == 1 and least <= received <= greatest and least <= transmitted <= greatest


def are_true(tv, responses):
    """Whether there are responses and all of them are true, and how many are."""
    count = sum(is_true(tv, *response) for response in responses)
    return 0 < count == len(responses), f"{count} of {len(responses)}"


def contain_the_position(tv, reports):
    """Whether there are reports and the ticks of each contain the television's position, and how many do."""
    count = sum(ticks[0] <= tick_at(tv.wall(reading), tv.control_at(reading), tv.rate) <= ticks[1]
                for reading, ticks in reports)
    return 0 < count == len(reports), f"{count} of {len(reports)}"


def state_of(peer):
    """The state that a session was told by the time that it has the address of a wall clock."""
    state = peer.told()
    while state.get("wcUrl") is None and (more := peer.told()):
        state.update(more)
    return state


def comes_back(port):
    tv = Moving(port)
    relay = companion(PROGRAM, port, "--port", str(port + 4), "--ask-every", ASK, "--seconds", "3600", command="relay")
    watch = companion(PROGRAM, port + 4, "--ask-every", ASK, "--report-every", REPORT, command="watch")
    told, session = Reports(watch), dial_soon(port + 4, "/cii")
    check("a relay tells its television's state", state_of(session).get("contentId") == tv.state()["contentId"])
    asker = Asker(port + 4)
    check("requests are answered", wait_for(lambda: len(asker.kept) >= ENOUGH and len(told.kept) >= ENOUGH))
    tv.switch_off()
    check("once its television is off, a relay hangs up its sessions", session.ending() == 1000)
    off = time.monotonic_ns()
    time.sleep(1)
    check("and answers nobody", not asker.since(off), len(asker.since(off)))
    back = tv.come_back()
    session = dial_soon(port + 4, "/cii")
    check("once it is back, the state is told again", state_of(session).get("contentId") == tv.state()["contentId"])
    check("and requests are answered again",
          wait_for(lambda: len(asker.since(back)) >= ENOUGH and len(told.since(back)) >= ENOUGH))
    asker.end()
    check("each response is true of the clock of its time", *are_true(tv, asker.kept))
    check("each response since then is true of the new clock", *are_true(tv, asker.since(back)))
    check("each interval of a watch behind it contains the position", *contain_the_position(tv, told.kept))
    check("the relay goes on", relay.poll() is None)
    stop(watch)
    stop(relay)
    tv.end()


if __name__ == "__main__":
    PROGRAM = program(sys.argv[1:])
    comes_back(PORT)
    sys.exit(check.end())
