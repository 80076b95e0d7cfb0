"""What the checks of the edge share: plain servers for a companion, what a run takes, checks beside one another, and
checks at a pace that a busy machine keeps."""
import os, select, socket, struct, sys, threading, time

from live_peer import CLOSE, PING, PONG, dial, nanos, start
from peer import PATIENCE, UPGRADED, Listener, end_of, greet, state, upgraded  # noqa: F401 (for the others)

PACES = (1, 3, 9)  # How many times as long a run has for what it does, where a busy machine left it too little.
LASTING = ("--seconds", "--turns", "--report-every")
HELD = []


class Recorder:
    """Keeps checks, and what was skipped, to be told later."""

    def __init__(self):
        self.kept = []

    def __call__(self, *told):
        self.kept.append((False, told))

    def skip(self, *told):
        self.kept.append((True, told))

    def failed(self):
        """The checks that failed."""
        return [told for is_skipped, told in self.kept if not is_skipped and not told[1]]

    def tell(self, check):
        for is_skipped, told in self.kept:
            (check.skip if is_skipped else check)(*told)

    def make(self, call, *words):
        """Makes the checks of a call, and one more where it doesn't go through."""
        try:
            call(self, *words)
        except Exception as error:
            self(f"{call.__name__} goes through", False, repr(error))


class Beside:
    """Calls that go on beside one another. Each is a function and its words, and is handed a check of its own first."""

    def __init__(self, calls):
        self.recorders = [Recorder() for _ in calls]
        self.threads = [threading.Thread(target=recorder.make, args=call, daemon=True)
                        for recorder, call in zip(self.recorders, calls)]
        for thread in self.threads:
            thread.start()

    def tell(self, check):
        """Waits for all of them, and tells their checks in order."""
        for thread, recorder in zip(self.threads, self.recorders):
            thread.join()
            recorder.tell(check)


def patiently(check, call, *words):
    """Makes the checks of a call that go by a time, until all of them hold: what a program does wrong it does again,
    and a busy machine needn't. The call is handed how many times as long it has for it."""
    for times in PACES:
        recorder = Recorder()
        recorder.make(call, times, *words)
        if not recorder.failed() or times == PACES[-1]:
            break
        print(f"again   {call.__name__}: {recorder.failed()}", file=sys.stderr, flush=True)
    recorder.tell(check)


def slower(words, times):
    """The words of a run that has so many times as long for what it does."""
    return [str(int(word) * times) if before in LASTING else word for before, word in zip(["", *words], words)]


# ---- servers

class Clock:
    """A socket of datagrams that answers nothing, and notes the time in each request that came."""

    def __init__(self):
        self.socket = socket.socket(socket.AF_INET, socket.SOCK_DGRAM)
        self.socket.bind(("127.0.0.1", 0))
        self.port, self.asked, self.ends = self.socket.getsockname()[1], [], False
        threading.Thread(target=self.take, daemon=True).start()

    def take(self):
        while not self.ends:
            if select.select([self.socket], [], [], 0.1)[0]:
                self.asked.append(nanos(self.socket.recv(64)[8:16]))

    def end(self):
        self.ends = True


def closed_port():
    """A port at which nobody listens. It is held, so that no other run gets it."""
    one = socket.socket(socket.AF_INET, socket.SOCK_STREAM)
    one.bind(("127.0.0.1", 0))
    HELD.append(one)
    return one.getsockname()[1]


def hold(peer, seconds=60):
    """Keeps a session open: what comes is passed over, and a ping isn't answered. Its close is answered."""
    end = time.monotonic() + seconds
    while time.monotonic() < end:
        try:
            opcode, payload = peer.hear(end - time.monotonic())
        except TimeoutError:
            return
        if opcode == CLOSE:
            peer.say(payload, CLOSE)
            return


def until_open(peer):
    """Waits until the other end has a session open: it answers a ping. What comes before is passed over."""
    peer.say(b"open?", PING)
    while peer.hear() != (PONG, b"open?"):
        pass


def teller(*texts):
    """A server that tells these texts on each session, and keeps it open."""
    def serve(peer):
        greet(peer)
        for text in texts:
            peer.say(text)
        hold(peer)
    return serve


def flood(peer, count, seconds):
    """Sends so many pings a second, in bursts of one millisecond."""
    burst, end = max(1, count // 1000), time.monotonic() + seconds
    while time.monotonic() < end:
        for _ in range(burst):
            peer.say(b"p", PING)
        time.sleep(burst / count)


# ---- runs

def companion(program, port, *words, command="companion"):
    """A run against the server at this port."""
    return start(program, [command, "--cii", f"ws://127.0.0.1:{port}/cii", *words])


def stop(child):
    """Ends a run that still goes on."""
    child.kill()
    child.wait()
    child.stdout.close()
    child.stderr.close()


def processor_times(process):
    """How long a process was on a processor so far, and how long it waited for one, in seconds."""
    with open(f"/proc/{process}/schedstat", encoding="ascii") as file:
        return [int(word) / 1e9 for word in file.read().split()[:2]]


def has_ended(child):
    """Whether a run has ended. It is kept, so that its times can be read."""
    return bool(os.waitid(os.P_PID, child.pid, os.WEXITED | os.WNOHANG | os.WNOWAIT))


def wait_for(holds, seconds=PATIENCE):
    """Waits until something holds, and tells whether it does."""
    end = time.monotonic() + seconds
    while not holds() and time.monotonic() < end:
        time.sleep(0.005)
    return bool(holds())


def reset(conn):
    """Ends a connection at once, so that its other end is told of a reset."""
    conn.setsockopt(socket.SOL_SOCKET, socket.SO_LINGER, struct.pack("ii", 1, 0))
    conn.close()


def dial_soon(port, path, room=None, host="127.0.0.1", seconds=PATIENCE):
    """A session with a television that may not listen yet."""
    end = time.monotonic() + seconds
    while True:
        try:
            return dial(port, path, room, host)
        except (OSError, EOFError):
            if time.monotonic() > end:
                raise
            time.sleep(0.02)


def long_programme(number):
    """Script lines of a programme whose state is a text of about 120,000 bytes: quotation marks are escaped in it."""
    lines, marks = f"0 programme dvb://{number}\n", 3900 * '"'
    for letter in "abcdefghijklmnop":
        lines += f"0 timeline {number} {number}{letter}{marks} 1 90000 0\n"
    return lines
