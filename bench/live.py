#!/usr/bin/env python3
"""Times the program on this machine's own network: how wide a companion's intervals are, how soon a television
answers, and how seldom a quiet end wakes.

    bench/live.py [PROGRAM ..]          the program's words before the command; ./css where there are none
    bench/live.py --rest [PROGRAM ..]   only what comes of rests, in three minutes

Printed are, in microseconds:

- the round trip of a plain echo of datagrams, by two processes of this script;
- the width of a companion's intervals, of a timeline whose ticks are nanoseconds, where it asks every 10 ms and every
  100 ms, just before the next request; and what the round trip of the echo would allow then, with what both ends
  declare of their clocks;
- the time from a request's sending to the transmit value of its response, with 0, 16 and 250 sessions open at the
  television, half of each kind;
- of a television with 16 quiet sessions, and of a watch that asks and reports once a second: how often it wakes in a
  second, and how much of a processor it takes, beside a television and a companion that run by turns and never rest;
- how long after a television sent it a text is told by a watch, each at a time of its own, beside a plain process that
  reads and writes; and how late its reports are;
- how much longer than its seconds a run takes.

All clocks are this machine's one monotone clock, so no time is estimated.
"""
import json, multiprocessing, os, random, socket, sys, time

HERE = os.path.dirname(os.path.dirname(os.path.abspath(__file__)))
sys.path.insert(0, os.path.join(HERE, "tests"))
from live_edge import companion, processor_times, stop  # noqa: E402 (the folder comes first)
from live_peer import dial, nanos, request, set_up, start, television  # noqa: E402
from peer import frame  # noqa: E402
from television import SECOND, Set  # noqa: E402

REST = sys.argv[1:2] == ["--rest"]
PROGRAM = sys.argv[1 + REST:] or [os.path.join(HERE, "css")]
PORT = 20000 + os.getpid() % 600 * 16
NANOSECONDS = "urn:x-ns"
SCRIPT = f"0 programme dvb://1\n0 timeline 1 {NANOSECONDS} 1 1000000000 0\n0 change 1\n"
SETUP = {"contentIdStem": "", "timelineSelector": NANOSECONDS}
# A width has the precision of the television twice (2^-20 s), that of the companion four times (1000 ns), and 2 ns.
DECLARED = 2 * 954 + 4 * 1000 + 2
# By how much a width grows in each nanosecond, where both ends declare errors of 500 ppm.
GROWTH = 0.002
ROUNDS = 3000


def told(name, values, note=""):
    values = sorted(values)
    middle, late = values[len(values) // 2], values[len(values) * 99 // 100]
    rows = " ".join(f"{word} {value / 1000:9.1f}" for word, value in
                    (("median", middle), ("99th percentile", late), ("greatest", values[-1])))
    print(f"{name:46} {rows}{note}", flush=True)
    return middle, late


def echo(udp):
    while True:
        data, sender = udp.recvfrom(64)
        udp.sendto(data, sender)


def round_trips():
    """Of a plain echo, every 10 ms."""
    here, there = (socket.socket(socket.AF_INET, socket.SOCK_DGRAM) for _ in range(2))
    there.bind(("127.0.0.1", 0))
    process = multiprocessing.Process(target=echo, args=(there,), daemon=True)
    process.start()
    here.connect(there.getsockname())
    times = []
    for _ in range(ROUNDS // 4):
        time.sleep(0.01)
        before = time.monotonic_ns()
        here.send(bytes(32))
        here.recv(64)
        times.append(time.monotonic_ns() - before)
    process.kill()
    return times


def widths(port, ask_every, report_every, reports):
    """Of a companion's intervals. The first ones, before all is told, have none."""
    child = start(PROGRAM, ["companion", "--cii", f"ws://127.0.0.1:{port}/cii", "--selector", NANOSECONDS,
                            "--reports", str(reports), "--turns", "1000000", "--ask-every", str(ask_every),
                            "--report-every", str(report_every)])
    rows = [line.split() for line in child.stdout.read().decode().splitlines()]
    if child.wait() != 0:
        sys.exit(child.stderr.read().decode())
    return [int(row[3]) - int(row[2]) for row in rows if row[1] == "ticks"]


def answers(port):
    """Times from the sending of a request to the transmit value of its response."""
    udp = socket.socket(socket.AF_INET, socket.SOCK_DGRAM)
    udp.settimeout(1)
    udp.connect(("127.0.0.1", port))
    times = []
    for _ in range(ROUNDS):
        before = time.monotonic_ns()
        udp.send(request(before))
        try:
            times.append(nanos(udp.recv(64)[24:32]) - before)
        except TimeoutError:
            times.append(1_000_000_000)
        time.sleep(0.0007)
    return times


# ---- rests

def quiet(name, child, seconds=20):
    """How often a run wakes in a second, and how much of a processor it takes."""
    def wakes():
        with open(f"/proc/{child.pid}/status", encoding="ascii") as file:
            return sum(int(row.split()[1]) for row in file if row.startswith("voluntary_ctxt"))
    before, used = wakes(), processor_times(child.pid)[0]
    time.sleep(seconds)
    woke, took = wakes() - before, processor_times(child.pid)[0] - used
    print(f"{name:46} wakes {woke / seconds:.1f} times a second, and takes {took / seconds:.3%} of a processor",
          flush=True)


def line_of(child, event):
    """The next line of a watch that tells such an event."""
    for row in child.stdout:
        line = json.loads(row)
        if line["event"] == event:
            return line
    sys.exit(child.stderr.read().decode())


def told_after(name, lines, conn, event, text_of, count=1000):
    """How long after it was sent a text is told by a line of this event. Each comes at a time of its own."""
    times, mark = [], f'"event":"{event}"'.encode()
    for at in range(count):
        one = frame(1, json.dumps(text_of(at)).encode(), masked=False)
        time.sleep(random.uniform(0.02, 0.06))
        before = time.monotonic_ns()
        conn.sendall(one)
        while mark not in lines.readline():
            pass
        times.append(time.monotonic_ns() - before)
    told(name, times)


def hand_on(conn, pipe):
    while conn.recv(4096):
        os.write(pipe, b'{"event":"plain"}\n')


def handed_on():
    """The same of a plain process, which reads and writes and does no more."""
    listener = socket.create_server(("127.0.0.1", 0))
    here = socket.create_connection(listener.getsockname())
    there, _ = listener.accept()
    reading, writing = os.pipe()
    process = multiprocessing.Process(target=hand_on, args=(there, writing), daemon=True)
    process.start()
    with open(reading, "rb") as lines:
        told_after("a plain process hands a text on", lines, here, "plain", lambda at: {"at": at})
        process.kill()


def lateness(port, every, count):
    """How late each report of a watch is."""
    child = companion(PROGRAM, port, "--seconds", "3600", "--report-every", str(every), command="watch")
    first = int(line_of(child, "visit")["reading"])
    times = [int(line_of(child, "report")["reading"]) - first - (at + 1) * every for at in range(count)]
    stop(child)
    told(f"a report is late, one every {every // 1_000_000} ms", times)


def over_time(port):
    """How much longer than its two seconds a run takes, with its closing."""
    times = []
    for words in (("tv", "--port", str(port)), ("watch", "--cii", f"ws://127.0.0.1:{port}/cii"),
                  ("relay", "--cii", f"ws://127.0.0.1:{port + 8}/cii", "--port", str(port))):
        begun = time.monotonic_ns()
        child = start(PROGRAM, [*words, "--seconds", "2"])
        child.wait()
        times.append(time.monotonic_ns() - begun - 2 * SECOND)
    told("a run of two seconds is longer", times)


def quiet_television(port, note, *limit):
    """One with 16 sessions, of which it gives the run."""
    tv = start(PROGRAM, ["tv", "--port", str(port), *limit, "--relative"], SCRIPT)
    time.sleep(1)
    sessions = [dial(port, "/cii") if at % 2 else set_up(port, SETUP)[0] for at in range(16)]
    time.sleep(1)
    quiet("a television with 16 sessions" + note, tv)
    for session in sessions:
        session.conn.close()
    return tv


def rests(port):
    # A run by turns never rests, as every run was before.
    stop(quiet_television(port + 6, ", by turns", "--turns", "1000000"))
    tv = quiet_television(port, "", "--seconds", "3600")
    runs = (("companion", ("--turns", "1000000", "--reports", "1000000")), ("watch", ("--seconds", "3600")))
    for name, words in runs:
        child = companion(PROGRAM, port, *words, command=name)
        time.sleep(2)
        quiet("a watch" if name == "watch" else "a companion, by turns", child)
        stop(child)
    lateness(port, SECOND, 20)
    lateness(port, 37_000_000, 500)
    stop(tv)
    over_time(port)
    one = Set(port + 4)
    watch = companion(PROGRAM, one.port, "--seconds", "3600", command="watch")
    line_of(watch, "control")
    handed_on()
    told_after("a text of CSS-TS is told", watch.stdout, one.peers["TS"][0].conn, "control",
               lambda at: {**one.control, "contentTime": str(at)})
    told_after("a text of CSS-CII is told", watch.stdout, one.peers["CII"][0].conn, "state",
               lambda at: {"contentId": f"dvb://{at}"})
    stop(watch)
    one.end()


def main():
    port = PORT
    if REST:
        rests(port)
        return
    tv = television(PROGRAM, port, SCRIPT)
    trip, _ = told("round trip of a plain echo", round_trips())
    for every, reports in ((10_000_000, ROUNDS // 4), (100_000_000, 60)):
        width, _ = told(f"width, asked every {every // 1_000_000} ms", widths(port, every, every, reports))
        allowed = trip + DECLARED + every * GROWTH
        print(f"  the round trip allows {allowed / 1000:.1f}: {width / allowed:.2f} times as wide")
    open_ones = []
    for count in (0, 16, 250):
        while len(open_ones) < count:
            open_ones.append(dial(port, "/cii") if len(open_ones) % 2 else set_up(port, SETUP)[0])
        name = f"from request to response, {count} sessions"
        _, late = told(name, answers(port))
        if count == 16:
            print(f"  99 in 100 of them within 1 ms: {'yes' if late < 1_000_000 else 'NO'}")
    tv.kill()
    rests(port + 8)


if __name__ == "__main__":
    main()
