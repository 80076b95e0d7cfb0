#!/usr/bin/env python3
"""Tries `css watch` through an evening: on real sockets, against a television whose truth is known.

    tests/live_watch.py [PROGRAM ..]         the program's words before the command; ./css where there are none
    tests/live_watch.py --cost [PROGRAM ..]  what a minute costs beside a quiet television, against `companion`
    tests/live_watch.py --long [PROGRAM ..]  what 1,000 visits leave in memory; it takes ten minutes

In under two minutes there is what happens to a set over many evenings: programmes change, addresses move, it is off,
starts anew with another clock, says what can't be read, is silent, and floods. After each event there are ticks again,
and each line is right by the lines before it and by what the television said. Both read the same monotone clock, so
what is true at a reading is known to the nanosecond. Each check prints a line. The exit status is 1 where one failed.
"""
import collections
import json
import os
import re
import subprocess
import sys
import threading
import time

from checks import Checks, ports, program
from live_edge import Beside, companion, patiently, processor_times, stop, wait_for
from live_peer import TIMELINE
from live_words import told_by
from own_network import alone, refused_dials, why_not
from page_tv import SECOND, SLOW_RATE
from peer import LATE
from television import UNAVAILABLE, Set
from watch_lines import Story, read

PORT = ports()
SECONDS, ASK, REPORT = 120, 100_000_000, 200_000_000
PATIENCE = 10  # Only what hangs takes so many seconds; on a machine with nothing else to do it is under one.
PAUSE = 4_000_000  # So long a turn of the companion takes at least, where no datagram comes.
check = Checks()


class Lines:
    """The lines of a run, each with the reading at which it came. What is waited for is counted as they come."""

    def __init__(self, child):
        self.child, self.kept, self.ends, self.ticks = child, [], 0, None
        self.thread = threading.Thread(target=self.take, daemon=True)
        self.thread.start()

    def take(self):
        for line in self.child.stdout:
            self.kept.append((time.monotonic_ns(), line))
            if b'"event":"end"' in line:
                self.ends += 1
                self.ticks = None
            elif b'"ticks"' in line:
                self.ticks = time.monotonic()


# ---- the events of an evening

# What happens, the reasons with which visits end by it, how many of them there are at least and at most, and what the
# television does then.
Event = collections.namedtuple("Event", "name why least most act")
Happened = collections.namedtuple("Happened", "event begun back")


def hang_up(*kinds, how="closed", programme=False):
    def act(tv):
        if programme:
            tv.programme()
        for kind in kinds:
            tv.hang_up(kind, how)
    return act


def off(seconds, jump=0):
    def act(tv):
        tv.switch_off()
        time.sleep(seconds)
        if jump:
            tv.jump(jump)
        tv.switch_on()
    return act


def lasts(seconds, name, value, kind=None):
    """Something is otherwise for some seconds, from the end of the sessions of a kind on."""
    def act(tv):
        before = getattr(tv, name)
        setattr(tv, name, value)
        if kind:
            tv.hang_up(kind)
        time.sleep(seconds)
        setattr(tv, name, before)
        if name == "instead":
            tv.update()
    return act


def lose(tv):
    tv.loss = 1 / 3
    tv.hang_up("TS")


def lose_no_more(tv):
    time.sleep(4)
    tv.loss = 0


def unavailable(tv):
    tv.tell(UNAVAILABLE)
    time.sleep(1)
    tv.go_on(speed=1)


def unreadable(tv):
    speed = "timelineSpeedMultiplier"
    for text, fault in ((b"[]", "NotObject"), (b"{", "NotJson"), ({"contentTime": "1"}, f"Field {speed}"),
                        ({**tv.control, speed: 65}, f"Range {speed}"), ({**tv.control, speed: 0.5}, "Fractional")):
        tv.tell(text, fault)
        time.sleep(0.3)
    tv.go_on(speed=1)


def strange(tv):
    tv.refused = tv.strange()
    time.sleep(0.3)


def flood(tv):
    tv.flooded += tv.flood(4)


def flood_both(tv):
    """What waits in the sockets then is read for some seconds more."""
    texts = Beside([(lambda _, kind=kind: tv.say_many(kind, 4, 300),) for kind in ("CII", "TS")])
    flood(tv)
    texts.tell(check)


def flood_texts(tv):
    """A megabyte of texts for each session, as fast as the sockets take them."""
    Beside([(lambda _, kind=kind: tv.say_many(kind, 30, 0, 250, 4000),) for kind in ("CII", "TS")]).tell(check)


CLOSED = "closed (CII|TS)"
EVENTS = [
    Event("another programme, with CSS-TS closed", "closed TS", 1, 1, hang_up("TS", programme=True)),
    Event("another one, with CSS-CII closed", "closed CII", 1, 1, hang_up("CII", programme=True)),
    Event("another one, with both cut", CLOSED, 1, 1, hang_up("TS", "CII", how="cut", programme=True)),
    Event("another one, with both reset", CLOSED, 1, 1, hang_up("CII", "TS", how="reset", programme=True)),
    Event("another one at another rate, with the sessions open", "", 0, 0, lambda tv: tv.programme(SLOW_RATE)),
    Event("one at the old rate again", "", 0, 0, lambda tv: tv.programme()),
    Event("a pause", "", 0, 0, lambda tv: tv.go_on(speed=0)),
    Event("a seek", "", 0, 0, lambda tv: tv.go_on(90_000_000)),
    Event("twice the speed", "", 0, 0, lambda tv: tv.go_on(speed=2)),
    Event("backwards", "", 0, 0, lambda tv: tv.go_on(speed=-1)),
    Event("the plain speed again", "", 0, 0, lambda tv: tv.go_on(speed=1)),
    Event("another wcUrl", "moved wcUrl", 1, 1, lambda tv: tv.move_clock()),
    Event("another tsUrl", "moved tsUrl", 1, 1, lambda tv: tv.move_ts()),
    Event("the set is off for ten seconds", CLOSED, 1, 1, off(10)),
    Event("a restart with another clock, sessions closed", CLOSED, 1, 1, off(0.3, -3600)),
    Event("a clock half a minute ahead, sessions open", "disagree", 1, 1, lambda tv: tv.jump(30)),
    Event("a clock an hour behind, sessions open", "disagree", 1, 1, lambda tv: tv.jump(-3600)),
    Event("a clock 100 ms ahead, sessions open", "disagree", 1, 1, lambda tv: tv.jump(0.1)),
    Event("a third of all datagrams is lost", "closed TS", 1, 1, lose),
    Event("and all of them come again", "", 0, 0, lose_no_more),
    Event("a CII text that is no object", "CII text [0-9]+: not object", 1, 1, lambda tv: tv.say("CII", b"[]")),
    Event("one that is no JSON", "CII text [0-9]+: not json", 1, 1, lambda tv: tv.say("CII", b"{")),
    Event("one with a property of another form", "CII text 2: field timelines", 1, 1,
          lambda tv: tv.say("CII", {"timelines": 5})),
    Event("each first text is no object for two seconds", "closed CII|CII text 1: not object", 2, 12,
          lasts(2, "first", b"[]", "CII")),
    Event("each session is closed at once for three seconds", "closed CII", 2, 12, lasts(3, "greets", "closed", "CII")),
    Event("each connection is cut at once for three seconds", "closed CII", 1, 1, lasts(3, "greets", "cut", "CII")),
    Event("no wcUrl for two seconds", "closed CII", 1, 1, lasts(2, "instead", {"wcUrl": None}, "CII")),
    Event("no tsUrl for two seconds", "closed CII", 1, 1, lasts(2, "instead", {"tsUrl": None}, "CII")),
    Event("neither of them for a second", "closed CII", 1, 1,
          lasts(1, "instead", {"wcUrl": None, "tsUrl": None, "contentId": None}, "CII")),
    Event("a wcUrl that is none for a second", "closed CII|(bad|moved) wcUrl", 2, 8,
          lasts(1, "instead", {"wcUrl": "nowhere"}, "CII")),
    Event("a tsUrl that is none for a second", "closed CII|(bad|moved) tsUrl", 2, 8,
          lasts(1, "instead", {"tsUrl": "nowhere"}, "CII")),
    Event("a wall clock that doesn't answer for two seconds", "closed TS", 1, 1, lasts(2, "mute", True, "TS")),
    Event("no such timeline for a second", "", 0, 0, unavailable),
    Event("control timestamps that can't be read", "", 0, 0, unreadable),
    Event("a datagram of each kind that is refused", "", 0, 0, strange),
    Event("follow-ups for two seconds", "closed TS", 1, 1, lasts(2, "follows", True, "TS")),
    Event("10,000 datagrams a second for four seconds", "", 0, 0, flood),
    Event("the same, and 600 texts a second", "", 0, 0, flood_both),
    Event("texts as fast as they are taken", "", 0, 0, flood_texts),
]


def wait_for_ticks(lines, ends, since):
    """Waits until so many visits have ended in all and a report came with ticks since then, or it is too late."""
    while time.monotonic() < since + PATIENCE + 0.5:
        came = lines.ticks
        if lines.ends >= ends and came is not None and came > since + 0.3:
            return
        time.sleep(0.02)


def happen(tv, lines):
    """Lets all events happen, each when there are ticks after the one before. When each began, and when all was as it
    should be again."""
    happened = []
    for event in [Event("the beginning", "", 0, 0, lambda tv: None), *EVENTS]:
        ends, begun = lines.ends, time.monotonic_ns()
        try:
            event.act(tv)
        except Exception as error:
            check(f"{event.name} goes through", False, repr(error))
        back = time.monotonic_ns()
        wait_for_ticks(lines, ends + event.least, back / SECOND)
        happened.append(Happened(event, begun, back))
        if lines.child.poll() is not None:
            break
    return happened


def well_again(story, happened):
    """After each event there are ticks again, and its visits ended for its reasons."""
    ends = list(zip(story.visits[1:], story.ends))
    for (event, begun, back), after in zip(happened, [each.begun for each in happened[1:]] + [2**63]):
        whys = [why for reading, why in ends if begun <= reading < after]
        right = event.least <= len(whys) <= event.most and all(re.fullmatch(event.why, why) for why in whys)
        check(f"{event.name}: visits end so", right, dict(collections.Counter(whys)) or "none ends")
        number = max((at for at, reading in enumerate(story.visits, 1) if reading < after), default=0)
        least = number if whys else 0
        ticks = [reading for reading, visit, true in story.reports if true and reading >= back and visit >= least]
        took = (ticks[0] - back) / SECOND if ticks else None
        check(f"{event.name}: ticks again within {PATIENCE} s", ticks and took <= PATIENCE, took and f"{took:.2f} s")


def noticed(story, happened):
    """A clock that is set while the sessions are open ends the visit; that it is by the next answer, `Story` tells."""
    for event, begun, _ in happened:
        if event.why == "disagree":
            late = min((reading - begun for reading in story.visits if reading > begun), default=2**63)
            check(f"{event.name}: it is noticed", late < PATIENCE * SECOND, f"{late / 1e6:.0f} ms")


def spaced(tv):
    """No dial of a kind begins within half a second of the last one, so five in a row take two seconds. What is told is
    how long they took at most: each came when this program noted it, or before. What isn't known is how long the watch
    was kept from going on with the first one; of the wall clock, until its first request."""
    for kind, enough in (("CII", 1.8), ("WC", 1.5), ("TS", 1.8)):
        times = tv.dials(kind)
        least = min((after[1] - before[0] for before, after in zip(times, times[4:])), default=0)
        check(f"dials of {kind} begin at least 500 ms apart", len(times) > 10 and least >= enough,
              f"{len(times)} dials, five of them in {least:.2f} s at most")


def ended(child, seconds):
    """The status of a run that ends within so many seconds, and is ended where it doesn't."""
    try:
        return child.wait(seconds)
    except subprocess.TimeoutExpired:
        child.kill()
        return child.wait()


def evening(program):
    """A watch through all events."""
    tv = Set(PORT)
    child = companion(program, PORT, "--seconds", str(SECONDS), "--ask-every", str(ASK), "--report-every", str(REPORT),
                      command="watch")
    begun, lines = time.monotonic(), Lines(child)
    happened = happen(tv, lines)
    took = time.monotonic() - begun
    check(f"all events happen within {SECONDS} s", took < SECONDS and len(happened) > len(EVENTS), f"{took:.0f} s")
    status = ended(child, SECONDS)
    took = time.monotonic() - begun
    check("a watch ends when its time is over, with 0", status == 0 and SECONDS <= took < SECONDS + PATIENCE,
          (status, f"{took:.2f} s", child.stderr.read().decode().strip()))
    lines.thread.join(10)
    time.sleep(0.5)
    tv.end()
    story = Story(tv, REPORT)
    for _, line in lines.kept:
        story.take(line)
    story.tell(check)
    well_again(story, happened)
    noticed(story, happened)
    spaced(tv)
    rest(tv, story, lines)


def rest(tv, story, lines):
    """What is told of the whole evening."""
    late = sorted(came - reading for came, reading in zip(
        (came for came, line in lines.kept if b'"event":"report"' in line), (each[0] for each in story.reports)))
    check("a report comes when it is made, before the next one is", late and late[len(late) // 2] < REPORT,
          late and f"{late[len(late) // 2] / 1e6:.2f} ms in the middle, {late[-1] / 1e6:.2f} ms at most")
    wanted = SECONDS * SECOND // REPORT
    # Those that are late come one in a turn; the last ones may be missing where the machine stalled at the end.
    check("and there is one in each time", wanted * 0.8 <= len(story.reports) <= wanted, len(story.reports))
    told, faults = " ".join(story.refused), tv.refused
    check("each refused datagram is told, with its fault", faults and " ".join(faults) in told, len(faults))
    count = sum(fault in ("Undecodable Length", "NotAnAnswer", "Unasked") for fault in story.refused)
    check("so are those of a flood, as many as were taken", count > 100 and tv.flooded > 10_000,
          f"{count} of {tv.flooded}")
    late = sum(how == LATE for _, _, how in tv.ends)
    ends = [end for end in tv.ends if end[1] != [1000] or end[2] not in ("in order", LATE)]
    check("each session that is hung up has a close with 1000", len(tv.ends) > 20 and not ends, ends or len(tv.ends))
    check("and then ends in order, where the machine isn't late", 2 * late < len(tv.ends), f"{late} of them late")
    setup = {"contentIdStem": "", "timelineSelector": TIMELINE}
    check("each setup is the wanted one", tv.setups and all(each == setup for each in tv.setups), len(tv.setups))


# ---- statuses

def usages(check, program):
    good = ["watch", "--cii", "ws://127.0.0.1:9/cii"]
    for words in (["watch"], ["watch", "--cii", "wss://h/cii"], ["watch", "--cii", "http://h/cii"],
                  [*good, "--seconds", "0"], [*good, "--seconds", "31536001"], [*good, "--turns", "5"],
                  [*good, "--reports", "5"], [*good, "--record"], [*good, "--earliest", "1,2", "--latest", "3,4"],
                  [*good, "--ask-every", "0"], [*good, "--report-every", "1000000000001"],
                  [*good, "--local-error", "2560001"], [*good, "--local-precision", "1000000001"],
                  [*good, "--stem", "a", "--stem", "a"], [*good, "more"]):
        made = subprocess.run([*program, *words], stdin=subprocess.DEVNULL, capture_output=True, check=False,
                              timeout=60)
        lines = made.stderr.decode().splitlines()
        check(f"css {' '.join(words)}: status 1", (made.returncode, made.stdout, lines[:1]) == (1, b"", ["css: usage"]),
              (made.returncode, lines))


def ends_so(check, name, child, status, pattern, events):
    """A run ends with this status and such a status line, and its lines have these events alone."""
    out = child.stdout.read().splitlines(keepends=True)
    got, told, _ = told_by(child)
    seen = {event.decode() for line in out for event in re.findall(rb'"event":"([a-z]+)"', line)}
    check(f"{name}: status {status}", got == status and told and re.fullmatch(pattern, told[0]), (got, told))
    check(f"{name}: its lines", seen == events and all(map(read, out)), (len(out), seen))
    return out


def nobody(check, program):
    """Nobody listens, in a network of the watch's own, where what is refused is counted."""
    why = why_not()
    if why:
        check.skip("a watch of nobody", why)
        return
    begun = time.monotonic()
    child = companion(alone(program), 6699, "--seconds", "6", "--report-every", str(SECOND), command="watch")
    wait_for(lambda: refused_dials(child.pid) >= 6, 5)
    count = refused_dials(child.pid)
    took = time.monotonic() - begun
    check("a port where nobody listens is dialled on and on, and at most twice a second",
          1 < count <= 1 + 2 * took, f"{count} times in {took:.2f} s")
    out = ends_so(check, "nobody is there", child, 10, "css: unreachable after [0-9]+ turns",
                  {"visit", "dial", "report"})
    whys = [json.loads(line)["why"] for line in out if b'"dial"' in line]
    check("and a failed dial is told once, as refused", whys in (["refused"], ["no answer", "refused"]), whys)
    reports = [line for line in out if b'"report"' in line]
    check("and each report says so", 0 < len(reports) <= 6 and all(
        b'"cause":"NoAnswer","detail":"CII isn\'t open"' in line for line in reports), len(reports))


def no_interval(check, times, program, port):
    """A television that tells no addresses; two reports are due, or none."""
    tv = Set(port)
    tv.instead = {"wcUrl": None, "tsUrl": None}
    for every, count in ((times * SECOND, 2), (9 * times * SECOND, 0)):
        child = companion(program, port, "--seconds", str(2 * times), "--report-every", str(every), command="watch")
        events = {"visit", "dial", "state", "report"} if count else {"visit", "dial", "state"}
        ends_so(check, "no report had ticks", child, 16, f"css: no interval in {count} reports", events)
    tv.end()


def shut_output(check, program, port):
    """Whoever reads the lines goes away after the first one, or never takes one."""
    tv = Set(port)
    words = [*program, "watch", "--cii", f"ws://127.0.0.1:{port}/cii", "--seconds", "20"]
    begun = time.monotonic()
    made = subprocess.run(["bash", "-c", '"$@" | head -n 1; exit ${PIPESTATUS[0]}', "bash", *words], check=False,
                          stdin=subprocess.DEVNULL, capture_output=True, timeout=60)
    lines = made.stderr.decode().splitlines()
    check("a reader who goes after one line: status 5", made.returncode == 5 and lines[:1] == ["css: write fault"],
          (made.returncode, lines))
    check("at once, and with the first visit", time.monotonic() - begun < 15 and b'"event":"visit"' in made.stdout)
    with open("/dev/full", "wb") as full:
        made = subprocess.run(words, check=False, stdin=subprocess.DEVNULL, stdout=full, stderr=subprocess.PIPE,
                              timeout=60)
    check("a full disk: status 5", made.returncode == 5 and made.stderr.startswith(b"css: write fault\n"), made.stderr)
    tv.end()


def descriptors(check, times, program, port):
    """With too few descriptors for its sockets a watch ends with 14; with enough it has ticks."""
    tv, told = Set(port), []
    for most in (4, 5, 6, 7, 8, 16):
        limited = ["sh", "-c", f'ulimit -n {most}; exec "$@"', "sh", *program]
        child = companion(limited, port, "--seconds", str(4 * times), "--ask-every", str(ASK), "--report-every",
                          str(REPORT), command="watch")
        ticks = b'"ticks"' in child.stdout.read()
        status, lines, _ = told_by(child)
        told.append((most, status, ticks, lines[:1]))
    check("with few descriptors: status 14, or ticks", all(end[1:3] == (0, True) or end[1::2] == (14, ["css: memory"])
                                                           for end in told), told)
    check("with the least of them 14, with the most of them ticks", (told[0][1], told[-1][1]) == (14, 0), told)
    tv.end()


def leaves(check, program, port, wanted=12):
    """A set closes CSS-TS, and says half a turn later where it is now. Requests and reports that fall due meanwhile
    don't hurry the visit's end. Where the machine was too busy for that, it is tried again."""
    tv, told, tries = Set(port), [], 0
    child = companion(program, port, "--seconds", "600", "--ask-every", "10000000", "--report-every", "10000000",
                      command="watch")
    lines = Lines(child)
    wait_for_ticks(lines, 0, time.monotonic())
    while len(told) < wanted and tries < 100 and child.poll() is None:
        tries, ends, before = tries + 1, lines.ends, len(lines.kept)
        took = tv.leave_ts(PAUSE / SECOND / 2)
        wait_for_ticks(lines, ends + 1, time.monotonic())
        if took < PAUSE:
            said = [json.loads(line) for _, line in lines.kept[before:]]
            told.append([line["why"] for line in said if line["event"] == "end"])
    stop(child)
    tv.end()
    check("a set that closes CSS-TS and then moves tsUrl costs one visit, which the move ends",
          len(told) >= wanted / 2 and all(why == ["moved tsUrl"] for why in told), (told, f"{tries} times"))


def statuses(program):
    Beside([(usages, program), (nobody, program), (patiently, no_interval, program, PORT + 20),
            (shut_output, program, PORT + 30), (patiently, descriptors, program, PORT + 70),
            (leaves, program, PORT + 80)]).tell(check)


# ---- what it costs

def cost(program):
    """A minute beside a quiet television, and the same for `companion`."""
    used = {}
    for at, (command, more) in enumerate((("companion", ("--reports", "1000000")), ("watch", ()))):
        tv = Set(PORT + 40 + 10 * at)
        child = companion(program, tv.port, "--seconds", "90", *more, command=command)
        lines = Lines(child)
        used[command] = tv, child, lines
    time.sleep(2)
    before = {command: processor_times(child.pid)[0] for command, (_, child, _) in used.items()}
    time.sleep(60)
    took = {command: processor_times(child.pid)[0] - before[command] for command, (_, child, _) in used.items()}
    for tv, child, lines in used.values():
        child.kill()
        child.wait()
        tv.end()
    told = f"{took['watch']:.2f} s against {took['companion']:.2f} s"
    check("both made a report each second", all(sum(b"ticks" in line for _, line in lines.kept) > 55
                                                for _, _, lines in used.values()))
    check("a minute of watch takes at most 1.3 times that of companion", took["watch"] <= 1.3 * took["companion"], told)


def resident(process):
    """The memory of a process that is in use, in kilobytes."""
    with open(f"/proc/{process}/status", encoding="ascii") as file:
        return next(int(line.split()[1]) for line in file if line.startswith("VmRSS:"))


def long_run(program, visits=1000):
    """A television that closes its sessions soon after there are ticks, a thousand times. A program that is only tried
    keeps what it freed for a while, unless it is told not to."""
    os.environ.setdefault("ASAN_OPTIONS", "quarantine_size_mb=0:thread_local_quarantine_size_kb=0")
    tv, seen = Set(PORT + 60), []
    child = companion(program, tv.port, "--seconds", "3000", "--ask-every", "50000000", "--report-every", "50000000",
                      command="watch")
    lines = Lines(child)
    while len(seen) < visits and child.poll() is None:
        ends, since = lines.ends, time.monotonic()
        while lines.ticks is None and time.monotonic() < since + 10:
            time.sleep(0.005)
        tv.programme()
        tv.hang_up("CII" if len(seen) % 2 else "TS", ("closed", "cut", "reset")[len(seen) % 3])
        while lines.ends == ends and time.monotonic() < since + 20:
            time.sleep(0.005)
        lines.kept.clear()
        seen.append(resident(child.pid))
    check(f"{visits} visits end, and the watch goes on", lines.ends >= visits and child.poll() is None, lines.ends)
    grown = seen[-1] - seen[len(seen) // 5]
    check("they leave nothing in memory", grown < 400, f"{seen[-1]} KB, {grown} KB more than after {len(seen) // 5}")
    stop(child)
    tv.end()


def main(words):
    part = words.pop(0) if words[:1] and words[0] in ("--cost", "--long") else ""
    css = program(words)
    if part == "--cost":
        cost(css)
    elif part == "--long":
        long_run(css)
    else:
        statuses(css)
        evening(css)
    return check.end()


if __name__ == "__main__":
    sys.exit(main(sys.argv[1:]))
