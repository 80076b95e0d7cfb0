"""Where the lines come from that tests/page.py feeds to the page: a simulation, `tv` and `watch` of the program, or
`watch` beside a television that is wrong.

The first two tell the same story by the same times, in seconds: the content is paused and goes on, the programme
changes, the television is off and on again. The simulation has more, which a television that keeps its word doesn't do.
"""
import pathlib
import subprocess
import sys
import threading
import time

from live_peer import STARTED
from page_tv import BEGIN, SECOND, Evening, tick_at

PAUSE, RESUME, CHANNEL, OFF, ON, CLOCK, OVER = 3, 5, 7, 9, 12, 17, 18
STORY = [(PAUSE, "pause"), (RESUME, "resume"), (6.05, "news"), (CHANNEL, "channel"), (OFF, "off"), (ON, "on"),
         (ON + 2, "tell"), (15.1, "garble"), (15.8, "mend"), (16.3, "stray"), (CLOCK, "set clock")]
EVERY = SECOND // 4


class Simulated:
    """A television that is made up, at the pace of its times."""

    cii = "ws://192.168.1.20:6677/cii"

    def __init__(self):
        self.evening = Evening(STORY, OVER, EVERY, EVERY)

    def lines(self):
        begun = time.monotonic()
        for at, line in self.evening.lines():
            time.sleep(max(0, begun + at / SECOND - time.monotonic()))
            yield line

    def truth(self, reading, control, rate):
        """The tick that a control timestamp assigns to what the television's clock shows, while it keeps its word."""
        if reading - BEGIN >= CLOCK * SECOND:
            return None
        return tick_at(self.evening.tv.wall(reading - BEGIN), control, rate)


class Program:
    """`tv` and `watch` of a program, the television being started anew where the story has it on again."""

    def __init__(self, words, port):
        self.words, self.port, self.tv = words, port, None
        self.cii = f"ws://127.0.0.1:{port}/cii"

    def start(self, command, words, script=None):
        child = subprocess.Popen([*self.words, command, *words], text=True, stdin=subprocess.PIPE,
                                 stdout=subprocess.PIPE)
        STARTED.append(child)
        child.stdin.write(script or "")
        child.stdin.close()
        return child

    def start_tv(self, script):
        self.tv = self.start("tv", ["--relative", "--port", str(self.port), "--seconds", "60"], script)

    def story(self):
        """The television goes off and on, beside the lines."""
        time.sleep(OFF)
        self.tv.kill()
        self.tv.wait()
        time.sleep(ON - OFF)
        self.start_tv(FIRST)

    def lines(self):
        self.start_tv(SCRIPT)
        threading.Thread(target=self.story, daemon=True).start()
        watch = self.start("watch", ["--cii", self.cii, "--report-every", str(EVERY), "--ask-every", str(EVERY),
                                     "--seconds", str(OVER)])
        for line in watch.stdout:
            yield line.rstrip("\n")
        self.tv.kill()
        self.tv.wait()

    def truth(self, _reading, _control, _rate):
        """Nobody knows it."""
        return None


class Wrong:
    """`watch` of a program beside tools/wrong_tv.py, which is wrong so often, once in so many seconds."""

    TOOL, EVERY = pathlib.Path(__file__).resolve().parent.parent / "tools" / "wrong_tv.py", 3
    WAYS = ("text", "control", "strange", "clock", "address", "closed")

    def __init__(self, words, port):
        self.words, self.port = words, port

    def lines(self):
        tv = subprocess.Popen([sys.executable, self.TOOL, "--port", str(self.port), "--every", str(self.EVERY),
                               *self.WAYS], text=True, stdout=subprocess.PIPE)
        often = ["--report-every", str(EVERY), "--ask-every", str(EVERY)]
        seconds = str(self.EVERY * len(self.WAYS) * 3 // 2 + 2)
        cii = f"ws://127.0.0.1:{self.port}/cii"
        watch = subprocess.Popen([*self.words, "watch", "--cii", cii, *often, "--seconds", seconds],
                                 text=True, stdout=subprocess.PIPE)
        STARTED.extend((tv, watch))
        for line in watch.stdout:
            yield line.rstrip("\n")
        tv.kill()
        self.said = tv.communicate()[0].splitlines()


SCRIPT = f"""\
0 programme dvb://233a.1004.1044
0 timeline 1 urn:dvb:css:timeline:pts 1 90000 900000
0 programme dvb://233a.1004.1045
0 timeline 2 urn:dvb:css:timeline:pts 1 1000 3600000
0 change 1
{PAUSE * SECOND} speed 0
{RESUME * SECOND} speed 1
{CHANNEL * SECOND} change 2
"""
FIRST = SCRIPT[:SCRIPT.index(f"{PAUSE * SECOND} speed")]  # What the television shows that is started anew.
