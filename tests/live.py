#!/usr/bin/env python3
"""Tries `css tv` and `css companion` on real sockets against plain peers of its own, good and bad.

    tests/live.py [PROGRAM ..]         the program's words before the command; ./css where there are none
    tests/live.py --edge [PROGRAM ..]  the checks of the edge alone, in live_turns.py and the files beside it

A television is watched by a prober, which asks its wall clock every 2 ms all the time. Both read the same monotone
clock of this machine, so the time from the sending of a request to its receive value is told exactly: the greatest of
them bounds the longest turn. Time in which the television waited for a processor is taken off, as Linux tells it. A
machine may stall otherwise too, so an attack with a long turn, or with requests that aren't answered, is made again:
what the program does comes again, and of five attacks the best one counts. A run that had no time for what it was to
tell is made again at a slower pace. Each check prints a line. The exit status is 1 where one failed.
"""
import json, multiprocessing, os, socket, struct, sys, time

from checks import Checks, ports, program
from live_peer import (CLOSE, PATIENCE, PING, SETUP, TEXT, Peer, connection, dial, frame, nanos, request, serves,
                       sets_up, start, television)
from live_dials import dials
from live_edge import Beside, dial_soon, patiently, slower, stop
from live_ends import ends
from live_hosts import published_hosts
from live_names import named_hosts
from live_rest import rests
from live_server import against_companion
from live_silent import silent
from live_slow import slow_reader
from live_system import system
from live_time import lasting
from live_turns import turns
from live_upgrades import upgrades
from live_words import statuses

EDGE = sys.argv[1:2] == ["--edge"]
PROGRAM = program(sys.argv[2 if EDGE else 1:])
PORT = ports()
SCRIPT = "0 programme dvb://1.2.3\n0 timeline 1 urn:dvb:css:timeline:pts 1 90000 900000\n0 change 1\n"
LONGEST_TURN, ATTACKS = 20_000_000, 5
check = Checks()


# ---- the wall clock

def waited(process):
    """How long a process has waited for a processor so far, in nanoseconds; 0 where the system doesn't tell."""
    try:
        with open(f"/proc/{process}/schedstat", encoding="ascii") as file:
            return int(file.read().split()[1])
    except OSError:
        return 0


def probe(port, process, ends, told):
    """Asks every 2 ms until told to end, and waits for the answers: until all are there, or none came for a second.
    Tells how many requests there were, and how long each answered one took from its sending to its receive value."""
    udp = socket.socket(socket.AF_INET, socket.SOCK_DGRAM)
    udp.connect(("127.0.0.1", port))
    udp.setblocking(False)
    asked, delays, sent, last = 0, [], {}, time.monotonic()
    while not ends.is_set() or sent and time.monotonic() < last + 1:
        if not ends.is_set():
            now, before, last = time.monotonic_ns(), waited(process), time.monotonic()
            try:
                udp.send(request(now))
                asked += 1
                sent[now] = time.monotonic_ns(), before
            except OSError:
                pass
        time.sleep(0.002)
        try:
            while True:
                answer = udp.recv(64)
                last = time.monotonic()
                at, before = sent.pop(nanos(answer[8:16]))
                delays.append(max(0, nanos(answer[16:24]) - at - (waited(process) - before)))
        except OSError:
            pass
    told.put((asked, delays))


class Prober:
    def __init__(self, port, process):
        self.ends, self.told = multiprocessing.Event(), multiprocessing.Queue()
        self.process = multiprocessing.Process(target=probe, args=(port, process, self.ends, self.told), daemon=True)
        self.process.start()

    def end(self):
        self.ends.set()
        told = self.told.get(timeout=10 * PATIENCE)
        self.process.join()
        return told


# ---- a television, and its peers

def good_session(port):
    state = dial(port, "/cii").told()
    wanted = {
        "protocolVersion": "1.1", "mrsUrl": None, "contentId": "dvb://1.2.3", "contentIdStatus": "final",
        "presentationStatus": "okay", "wcUrl": f"udp://127.0.0.1:{port}", "tsUrl": f"ws://127.0.0.1:{port + 1}/ts",
        "teUrl": None, "timelines": [{"timelineSelector": "urn:dvb:css:timeline:pts",
                                      "timelineProperties": {"unitsPerTick": 1, "unitsPerSecond": 90000}}]}
    check("a session of CSS-CII is told the full state", state == wanted, state if state != wanted else "")
    peer = dial(port + 1, "/ts")
    peer.say(SETUP)
    control = peer.told()
    holds = control.get("contentTime") == "900000" and control.get("timelineSpeedMultiplier") == 1
    check("a setup is answered by the control timestamp", holds, control)
    check("a ping is answered", peer.answers(b"are you there"))
    peer.say(struct.pack(">H", 1000), CLOSE)
    check("a close is answered", peer.ending() == 1000)
    check("and the connection ends", peer.ending() is None)


def fragments(port):
    peer = dial(port + 1, "/ts")
    text = json.dumps(SETUP).encode()
    peer.say(text[:10], TEXT, False)
    check("a ping between fragments is answered", peer.answers(b"between"))
    peer.say(text[10:30], 0, False)
    time.sleep(0.02)
    peer.say(text[30:], 0)
    control = peer.told()
    check("a text in fragments is a setup", "contentTime" in control)
    wall = int(control.get("wallClockTime", 0))
    bound = {"contentTime": "900000", "wallClockTime": str(wall + 40_000_000)}
    peer.say({"earliest": bound, "latest": {"contentTime": "900000", "wallClockTime": "plusinfinity"}})
    check("a presentation delays the timeline", peer.told().get("wallClockTime") == str(wall + 40_000_000))
    peer.conn.close()


def datagrams(port):
    """A request is sent again where no answer comes for a second: beside the prober's it may have had no room."""
    udp, asked, answer = socket.socket(socket.AF_INET, socket.SOCK_DGRAM), [], bytes(32)
    udp.settimeout(1)
    udp.connect(("127.0.0.1", port))
    for bad in (b"", b"x", bytes(31), bytes(33), bytes(2000), b"\1" + bytes(31), b"\0\1" + bytes(30)):
        udp.send(bad)
    while answer == bytes(32) and len(asked) < PATIENCE:
        asked.append(time.monotonic_ns())
        udp.send(request(asked[-1]))
        try:
            answer = udp.recv(64)
        except OSError:
            pass
    after = time.monotonic_ns()
    before, received, sent = (nanos(answer[at:at + 8]) for at in (8, 16, 24))
    check("bad datagrams aren't answered, and a request is", before in asked and len(answer) == 32)
    check("its times are in order", before <= received <= sent <= after)
    check("type, precision and error are declared", answer[:8] == struct.pack(">BBbxI", 0, 1, -20, 128000))


def refusals(port):
    try:
        dial(port, "/other")
        check("another path is refused", False)
    except ConnectionError as told:
        check("another path is refused", "404" in str(told), told)
    peer = Peer(connection(port), True)
    peer.conn.sendall(os.urandom(400) + b"\r\n\r\n")
    check("garbage ends its connection", peer.has_ended())
    peer = Peer(connection(port), True)
    try:
        for _ in range(4000):
            peer.conn.sendall(b"GET /cii HTTP/1.1\r\n" + b"X: " + b"a" * 60 + b"\r\n")
    except OSError:
        pass
    check("a head without end ends its connection", peer.has_ended())
    peer = dial(port, "/cii")
    peer.text()
    peer.say("a text")
    check("a text on CSS-CII is hung up", peer.ending() == 1000)


def slow_head(port):
    begun = time.monotonic()
    peer = Peer(connection(port), True)
    peer.conn.sendall(b"GET /cii HT")
    ended = peer.has_ended()
    took = time.monotonic() - begun
    check("a handshake that stops is dropped after 5 s", ended and 4.9 < took < 15, f"{took:.2f} s")


def ending_of(port, *frames):
    """How a session of CSS-TS ends on which these frames are said. It may be cut off before all of them are."""
    peer = dial(port + 1, "/ts")
    try:
        for words in frames:
            peer.say(*words)
    except OSError:
        pass
    return peer.ending()


def long_messages(port):
    peer = dial(port + 1, "/ts")
    text = json.dumps(SETUP).encode()
    peer.say(text + b" " * (262_144 - len(text)))
    check("a text of 262,144 bytes is taken", "contentTime" in peer.told())
    check("one more byte is closed with 1009", ending_of(port, [text + b" " * (262_145 - len(text))]) == 1009)
    check("a message of 20 MiB is closed with 1009", ending_of(port, [b"a" * 20_971_520]) == 1009)
    fragments = [(b"a" * 1000, 0 if at else TEXT, False) for at in range(400)]
    check("so are fragments without end", ending_of(port, *fragments) == 1009)
    check("a text that isn't UTF-8 is closed with 1007", ending_of(port, [b"\xff\xfe"]) == 1007)


def crowds(port):
    idle = [connection(port) for _ in range(300)]
    check("300 connections that say nothing leave room", serves(port))
    for conn in idle:
        conn.close()
    open_ones, told = [], 0
    for _ in range(300):
        try:
            peer = dial(port, "/cii")
            peer.text()
            open_ones.append(peer)
        except (EOFError, OSError):
            told += 1
    check("of 300 sessions about 256 stay and the others are hung up", 250 <= len(open_ones) <= 256, len(open_ones))
    check("the first of them is served", bool(open_ones) and open_ones[0].answers(b"still"))
    for peer in open_ones:
        peer.conn.close()
    time.sleep(0.3)


def unread(port):
    peer = dial(port + 1, "/ts", room=4096)
    peer.say(SETUP)
    peer.conn.setblocking(False)
    # One ping is answered in a turn: it takes some seconds until no more pongs go out.
    flood, sent, end = frame(PING, b"p" * 125), 0, time.monotonic() + 6
    while time.monotonic() < end:
        try:
            sent += peer.conn.send(flood * 100)
        except BlockingIOError:
            time.sleep(0.001)
        except OSError:
            break
    check("a peer that never reads is no bother", serves(port), f"{sent} bytes of pings")
    peer.conn.close()


def tiny_frames(port):
    peer = dial(port + 1, "/ts")
    peer.conn.sendall(frame(TEXT, b"{", False))
    flood, end = frame(0, b"", False) * 10000, time.monotonic() + 2
    peer.conn.settimeout(1)
    try:
        while time.monotonic() < end:
            peer.conn.sendall(flood)
    except OSError:
        pass
    check("a flood of empty fragments is no bother", serves(port))
    peer.conn.close()


def cut_off(port):
    for part in (b"\x81", b"\x81\xfe\x10", frame(TEXT, b"a" * 500)[:200]):
        peer = dial(port + 1, "/ts")
        peer.conn.sendall(part)
        peer.conn.close()
    peer = dial(port + 1, "/ts")
    peer.conn.setsockopt(socket.SOL_SOCKET, socket.SO_LINGER, struct.pack("ii", 1, 0))
    peer.conn.sendall(b"\x81\xfe")
    peer.conn.close()
    peer = dial(port + 1, "/ts")
    peer.conn.sendall(b"\xf1\x80abcd")
    check("a bad frame is closed with 1002", peer.ending() == 1002)
    check("peers that close in mid-frame are no bother", sets_up(port))


def attacked(attack, port, process, witness):
    """Makes an attack: whether another session was served, how many requests were asked, and their delays."""
    prober = Prober(port, process)
    time.sleep(0.1)
    served = False
    try:
        attack(port)
        served = witness.answers(b"w")
    except Exception as error:
        check(f"{attack.__name__} goes through", False, repr(error))
    asked, delays = prober.end()
    return served, asked, sorted(delays)


def against_television():
    port = PORT
    child = television(PROGRAM, port, SCRIPT)
    witness = dial(port, "/cii")
    witness.text()
    for attack in (good_session, fragments, datagrams, refusals, slow_head, long_messages, crowds, unread,
                   tiny_frames, cut_off):
        longest, share, told = LONGEST_TURN, 0.0, []
        while (longest >= LONGEST_TURN or share <= 0.98) and len(told) < ATTACKS:
            served, asked, delays = attacked(attack, port, child.pid, witness)
            check(f"{attack.__name__}: the session of another peer is served", served)
            longest = min(longest, delays[-1] if delays else LONGEST_TURN)
            share = max(share, len(delays) / max(1, asked))
            told.append(f"{delays[-1] / 1e6:.2f} ms, in the middle {delays[len(delays) // 2] / 1e6:.3f} ms" if delays
                        else "nothing was answered")
        check(f"{attack.__name__}: requests are answered", share > 0.98, f"{100 * share:.1f} %")
        check(f"{attack.__name__}: the longest turn is below 20 ms", longest < LONGEST_TURN, "; ".join(told))
    check("the television still runs", child.poll() is None)
    child.kill()
    child.wait()


def in_use(port):
    other = socket.socket(socket.AF_INET, socket.SOCK_DGRAM)
    other.bind(("127.0.0.1", port))
    child = start(PROGRAM, ["tv", "--port", str(port), "--turns", "1"], SCRIPT)
    check("a port in use is a net fault", child.wait(60) == 6, child.stderr.read().decode().strip())
    other.close()


# ---- hosts and addresses

def status_of(words, given=""):
    child = start(PROGRAM, words, given)
    status = child.wait(60)
    return status, child.stderr.read().decode().strip()


def hosts(port):
    for host, wanted in (("localhost", 0), ("192.0.2.1", 6), ("no-such-name.invalid", 6), ("a b", 1)):
        told = status_of(["tv", "--port", str(port), "--turns", "1", "--host", host], SCRIPT)
        check(f"a television at the host '{host}'", told[0] == wanted, told)


def addresses(check, times, port):
    """A companion reaches a television by some of these, and has no answer by the others."""
    child = television(PROGRAM, port, SCRIPT)
    rest = slower(["--reports", "1", "--report-every", "3000000000"], times)
    urls = (("ws://127.0.0.1:{}/cii", "1 ticks "), ("ws://localhost:{}/cii", "1 ticks "),
            ("ws://user:word@127.0.0.1:{}/cii", "1 ticks "), ("ws://127.0.0.1:{}/cii#part", "1 ticks "),
            ("ws://127.0.0.1:0/cii", "1 none NoAnswer"), ("ws://127.0.0.1:{}/other", "1 none NoAnswer"),
            ("ws://no-such-name.invalid:{}/cii", "1 none NoAnswer"))
    companions = [start(PROGRAM, ["companion", "--cii", url.format(port), *rest]) for url, _ in urls]
    for (url, wanted), companion in zip(urls, companions):
        line = companion.stdout.read().decode().strip()
        check(f"a companion of {url.format('PORT')}", companion.wait(60) == 0 and line.startswith(wanted), line)
    told = status_of(["companion", "--cii", f"http://127.0.0.1:{port}/cii", *rest])
    check("a companion of another scheme", told[0] == 1, told)
    stop(child)


def pair(check, times, port):
    words = ["--reports", "5", "--report-every", "500000000", "--ask-every", "50000000", "--turns", "3000"]
    child = start(PROGRAM, ["pair", "--port", str(port), *slower(words, times)], SCRIPT)
    lines = child.stdout.read().decode().splitlines()
    told = child.wait(60), lines[-1:]
    check("a pair makes its reports", told[0] == 0 and len(lines) == 5 and lines[-1].startswith("5 ticks "), told)


def relay(check, times, port):
    """A companion that knows a relay alone has its wall clock and state from it, and its timeline from the other."""
    child = television(PROGRAM, port, SCRIPT, [])
    words = ["relay", "--cii", f"ws://127.0.0.1:{port}/cii", "--port", str(port + 2), "--ask-every", "50000000"]
    relay = start(PROGRAM, [*words, "--turns", "1000000"])
    dial_soon(port + 2, "/cii").conn.close()
    rest = slower(["--reports", "4", "--report-every", "500000000", "--ask-every", "50000000"], times)
    companion = start(PROGRAM, ["companion", "--cii", f"ws://127.0.0.1:{port + 2}/cii", *rest])
    lines = companion.stdout.read().decode().splitlines()
    told = companion.wait(60), lines[-1:]
    check("a companion of a relay", told[0] == 0 and len(lines) == 4 and lines[-1].startswith("4 ticks "), told)
    stop(relay)
    number, told = status_of([*words, *slower(["--turns", "600"], times)])
    check("a relay makes its turns", number == 0, told)
    stop(child)
    number, told = status_of([*words, "--turns", "20"])
    # a hint follows the status
    is_told = told.splitlines()[:1] == ["css: unreachable after 20 turns"]
    check("a relay of no television", number == 10 and is_told, (number, told))


# ---- all of it

def edge(port):
    """What a person meets at the edge, where peers or the system don't do what they should. What takes a minute of
    silence goes on beside the others."""
    long_ones = Beside([(lambda check: silent(port + 62, PROGRAM, check),),
                        (lambda check: named_hosts(port + 64, PROGRAM, check),), (slow_reader, PROGRAM)])
    for call, ports in ((turns, 6), (dials, 2), (ends, 10), (upgrades, 2), (published_hosts, 10),
                        (system, 16), (lasting, 10), (statuses, 6)):
        call(port, PROGRAM, check)
        port += ports
    rests(port + 4, PROGRAM, check)
    long_ones.tell(check)


if __name__ == "__main__":
    if not EDGE:
        against_television()
        in_use(PORT)
        hosts(PORT + 2)
        patiently(check, addresses, PORT + 4)
        patiently(check, pair, PORT + 6)
        against_companion(PORT + 8, PROGRAM, check)
        patiently(check, relay, PORT + 28)
    edge(PORT + 32)
    sys.exit(check.end())
