"""What follows a television is tried with: one with loss and delay, that of css, and whether what is said is true."""
import pathlib
import socket
import subprocess
import sys
import threading

sys.path.insert(0, str(pathlib.Path(__file__).resolve().parent.parent / "tools"))
from live_edge import wait_for
from page_tv import SLOW_RATE
from television import RATE, SECOND, Set, tick_at

DELAY = 0.06
SCRIPT = """\
0 programme dvb://233a.1004.1044
0 timeline 1 urn:dvb:css:timeline:pts 1 90000 900000
0 change 1
3000000000 speed 0
4000000000 speed 1
5000000000 seek 30000000000
"""


class Later:
    """A wall clock whose answers are half of the delay on their way."""

    def __init__(self, clock):
        self.clock = clock

    def say(self, datagram, sender):
        later(self.clock.say, datagram, sender)


def later(call, *words):
    timer = threading.Timer(DELAY / 2, call, words)
    timer.daemon = True
    timer.start()


class Late(Set):
    """A television to which a request is half of the delay on its way, and its answer too. One in four is lost. It
    pauses, goes on, changes its programme and closes CSS-TS, as `go` is told that so many reports were made."""

    STORY = {10: lambda tv: tv.go_on(speed=0), 20: lambda tv: tv.go_on(speed=1),
             30: lambda tv: tv.programme(SLOW_RATE), 40: lambda tv: tv.hang_up("TS"),
             50: lambda tv: tv.programme(RATE)}

    def __init__(self, port):
        self.done = 0
        super().__init__(port)
        self.loss = 0.25
        self.cii = f"ws://127.0.0.1:{port}/cii"

    def answer(self, clock, data, sender):
        later(super().answer, Later(clock), data, sender)

    def go(self, reports):
        while self.done < reports:
            self.done += 1
            if self.done in self.STORY:
                self.STORY[self.done](self)

    def knows(self, control):
        """Whether it said this control timestamp."""
        said = [text for _, text, _ in self.controls]
        return control in said

    def clock_at(self, reading):
        return self.wall(reading)


def is_heard(port):
    """Whether somebody listens on a port of this machine."""
    try:
        socket.create_connection(("127.0.0.1", port)).close()
        return True
    except OSError:
        return False


class OfCss:
    """The television of css, whose wall clock is the machine's."""

    def __init__(self, css, port):
        self.cii = f"ws://127.0.0.1:{port}/cii"
        words = ["tv", "--relative", "--port", str(port), "--seconds", "600"]
        self.child = subprocess.Popen([*css, *words], stdin=subprocess.PIPE)
        self.child.stdin.write(SCRIPT.encode())
        self.child.stdin.close()
        wait_for(lambda: is_heard(port), 60)

    def go(self, reports):
        pass

    def knows(self, control):
        """Only what it says itself is known of it."""
        return True

    def clock_at(self, reading):
        return reading

    def end(self):
        self.child.kill()
        self.child.wait()


def is_true(tv, ticks, control, rate, first, last):
    """Whether the television said this control timestamp, and the ticks contain what it assigns to the television's
    clock at some reading from the first to the last."""
    if not tv.knows(control) or rate not in (RATE, SLOW_RATE):
        return False
    true = sorted(tick_at(tv.clock_at(reading), control, rate) for reading in (first, last))
    return ticks[0] <= true[1] and true[0] <= ticks[1]
