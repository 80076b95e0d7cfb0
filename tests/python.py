#!/usr/bin/env python3
"""Tries python/css_companion over the shared object of the library.

    tests/python.py [--over-gate] [--library DIR] [CSS ..]

The library is built first, by tools/library.py, unless DIR has it; with --over-gate over the libraries that `rt ci`
left. What is tried: the exchange of `css replay`'s first example, wrong types, closed companions, two threads, sleeps,
and loops that end while `follow` waits. Then `follow` goes beside `css tv`, of the program that these words or $CSS
name, and beside a television with loss and a delay of 60 ms: 60 reports each, and none is false.

`follow` needs the package websockets. Where this Python has none and the system's has, that one runs all of this. The
status is 0 where all is well.
"""
import asyncio
import importlib.util
import json
import os
import shutil
import subprocess
import sys
import tempfile
import textwrap
import threading
from pathlib import Path

sys.dont_write_bytecode = True
from checks import TOP, Checks, ports

DEBIANS = "/usr/bin/python3"
PACKAGE = TOP / "python"
REPORTS = 60
check = Checks()

STATE = {"protocolVersion": "1.1", "contentId": "dvb://233a.1004.1044", "contentIdStatus": "final",
         "presentationStatus": "okay", "mrsUrl": None, "teUrl": None, "wcUrl": "udp://192.168.1.5:5800",
         "tsUrl": "ws://192.168.1.8:5815", "timelines": [{
             "timelineSelector": "urn:dvb:css:timeline:pts",
             "timelineProperties": {"unitsPerTick": 1, "unitsPerSecond": 90000}}]}
CONTROL = {"contentTime": "900000", "timelineSpeedMultiplier": 1, "wallClockTime": "0"}
ANSWER = bytes.fromhex("0001e200 00000000 00000000000003e8 0000000000001388 0000000000001450")


class Still:
    """A clock that shows what it is told."""

    def __init__(self, now=0):
        self.now, self.slept = now, False

    def reading(self):
        return self.now

    def has_slept(self):
        slept, self.slept = self.slept, False
        return slept


def companion(**more):
    """One that has an answer, a state and a control timestamp: at 1600 its wall clock is from 5197 to 5603."""
    it = css.Companion(error=0, precision=0, clock=Still(1000), **more)
    it.ask()
    it._clock.now = 1600
    it.land(ANSWER)
    it.cii(json.dumps(STATE))
    it.setup()
    it.control(json.dumps(CONTROL))
    return it


def raises(kind, call, *words):
    """Whether a call raises this."""
    try:
        call(*words)
    except kind:
        return True
    except Exception as other:
        print(f"{call} {words}: {type(other).__name__} {other}")
    return False


# ---- the calls

def exchange():
    with companion(stem="dvb://") as it:
        wall, position = it.wall(), it.position()
        check("the exchange of the first example", wall == (5197, 5603), wall)
        check("the position", position[:5] == (1600, 900000, 900000, 900000, 0) and position.rate == 90000, position)
        check("its properties", (it.field(css.Property.WC_URL), it.field(css.Property.TE_URL))
              == ("udp://192.168.1.5:5800", None) and it.state()["contentId"] == STATE["contentId"])
        check("its timelines", it.timelines() == [("urn:dvb:css:timeline:pts", 1, 90000)], it.timelines())
        later = it.when(900009)
        check("when a tick is shown", later.first <= 100_000 - 4000 <= later.last and it.when(1) is None, later)
        check("who is ahead of it", it.lead(900090).lo <= 1_000_000 - 5400 <= it.lead(900090).hi, it.lead(900090))
        check("until when it is narrow", it.until(407) >= 1600 and it.until(5) is None, it.until(407))
        check("its report", it.report(7) == "7 ticks 900000 900000\n")
        check("a setup", json.loads(it.setup())["contentIdStem"] == "dvb://")
        check("and after it no timestamp", raises(css.Cause, it.position))
        it.control("x")
        check("an unreadable text is a cause", raises(css.Cause, it.position))
        refused = it.land(ANSWER[:31]), it.land(it.ask())
        check("what is refused is told", [why.code for why in refused] == [16, 17], [str(why) for why in refused])
        check("a text that is refused", raises(css.TextRefused, it.cii, "[]"))
        moved = json.dumps({"wcUrl": "udp://192.168.1.5:5801"})
        check("and one that moves the television", raises(css.TextRefused, it.cii, moved))
        check("a reading that falls", raises(css.Early, it.ask, 5))
        at = it.snapshot if it.age else None
        check("no snapshot without a timestamp", raises(css.Cause, at))
    told = json.loads(css.presentation(css.Bound(5, 7), css.Bound(9)))
    check("a presentation", told["earliest"]["contentTime"] == "5" and
          told["latest"]["wallClockTime"] == "plusinfinity", told)


def wrong_types():
    """None changes anything, or ends the process."""
    with companion() as it:
        before, wrong = (it.age, it.wall(), it.position()), []
        types = {
            it.ask: ["5", 1.5, [], -1, 2**64, 2**62], it.wall: [-1, 2**64, "x", 5.0], it.position: [b"", -(2**70)],
            it.land: [None, 5, "text", ["a"], object()], it.cii: [None, 5, ["a"]], it.control: [5, {}, None],
            it.field: [8, -1, "WC_URL", None], it.when: ["1", 2**63, -(2**63) - 1, None], it.until: [-1, 2**64, "5"],
            it.lead: ["x", 2**63, None], css.Companion: [5, None, "\udc00", "x" * 300_000],
            css.presentation: [5, None],
        }
        for call, arguments in types.items():
            for argument in arguments:
                words = (argument, argument) if call is css.presentation else (argument,)
                if not raises((TypeError, ValueError, AttributeError), call, *words):
                    wrong.append((call, argument))
        for words in ({"error": -1}, {"error": 2**32}, {"error": "5"}, {"precision": 10**9 + 1}, {"precision": None},
                      {"selector": "a", "stem": 5}):
            if not raises((TypeError, ValueError), lambda words=words: css.Companion(**words)):
                wrong.append(words)
        check("wrong types and numbers are refused", not wrong, wrong)
        check("and nothing has changed", (it.age, it.wall(), it.position()) == before)
        for kind in (bytearray, memoryview):
            check(f"bytes may be a {kind.__name__}", it.land(kind(ANSWER)) is None)
        check("a text may be bytes", it.control(json.dumps(CONTROL).encode()) is None)


def closed():
    it = companion()
    snapshot = it.snapshot()
    it.close()
    it.close()
    calls = [it.ask, it.wall, it.position, it.slept, it.state, it.timelines, it.setup, it.ts_closed, it.snapshot,
             lambda: it.land(ANSWER), lambda: it.cii("{}"), lambda: it.control("{}"), lambda: it.when(5),
             lambda: it.until(5), lambda: it.lead(5), lambda: it.report(1), lambda: it.field(css.Property.WC_URL)]
    check("each call of a closed companion says so", all([raises(css.Closed, call) for call in calls]))
    check("a snapshot outlives its companion", snapshot.position(1600)[1:3] == (900000, 900000))
    with companion() as other:
        pass
    check("so does one that its block left", raises(css.Closed, other.wall))
    raises(Exception, css.Companion, 5)
    del other


def threads():
    """Eight of them make calls on one companion, and then one closes it."""
    it, faults, done, begun = css.Companion(), [], [], threading.Barrier(9)
    it.cii(json.dumps(STATE))
    it.setup()
    it.control(json.dumps(CONTROL))

    def work():
        begun.wait()
        try:
            while True:
                it.land(bytes(32))
                request = it.ask()
                answer = b"\0\1\xec\0" + (128_000).to_bytes(4, "big") + request[8:16] + request[8:16] + request[8:16]
                it.land(answer)
                try:
                    position = it.position()
                    wall = position.reading
                    if not position.lo <= 900_000 + wall * 90_000 // 10**9 <= position.hi:
                        faults.append(position)
                    it.snapshot().position(it._clock.reading())
                except css.Cause:
                    pass
                it.control(json.dumps(CONTROL))
                done.append(1)
        except css.Closed:
            pass
        except Exception as fault:
            faults.append(fault)

    workers = [threading.Thread(target=work) for _ in range(8)]
    for worker in workers:
        worker.start()
    begun.wait()
    while len(done) < 4000 and not faults:
        threading.Event().wait(0.01)
    it.close()
    for worker in workers:
        worker.join()
    check("eight threads on one companion, and then it is closed", not faults and len(done) >= 4000,
          faults[:1] or f"{len(done)} rounds")


def sleeps():
    with companion() as it:
        it._clock.slept = True
        check("after a sleep there is no answer", raises(css.Cause, it.position))
        it._clock.now = 5000
        check("nor one to a request from before", it.land(ANSWER).code == 18)
        it.ask()
        it._clock.now = 5600
        it.land(ANSWER[:8] + (5000).to_bytes(8, "big") + ANSWER[16:])
        check("the next one counts", it.position().lo == 900000)
        it._clock.slept = True
        check("each call looks for a sleep", raises(css.Cause, it.when, 900009))
    clock = css.MachineClock()
    check("the machine's clock notices no sleep that wasn't", not any(clock.has_slept() for _ in range(20_000)))
    clock._most -= 1_000_000
    check("and one of a millisecond", clock.has_slept() and not clock.has_slept())


def later_calls():
    """Those of a newer library."""
    names = ("css_companion_agreed", "css_companion_fault", "css_companion_next")
    if not all(hasattr(css.companion.LIBRARY, name) for name in names):
        check.skip("agreed, fault and next", "this library has none of them")
        return
    with companion() as it:
        check("what all answers say", it.agreed() == (5197, 5603), it.agreed())
        due = it.next(10**9, 900009)
        check("what is due next", due.ask > 1600 and due.look == it.when(900009).first, due)
        check("a tick that is past is never shown", it.next(10**9, 1).look is None)
        raises(css.TextRefused, it.cii, '{"wcUrl": 5}')
        check("the fault of a text", it.fault() == "wcUrl", it.fault())


# ---- programs of their own

def run(words, code=None, **env):
    """What a Python writes on both streams, and its status."""
    command = [sys.executable, *words] + (["-c", textwrap.dedent(code)] if code else [])
    done = subprocess.run(command, capture_output=True, text=True, timeout=300, check=False,
                          env={**os.environ, "PYTHONPATH": str(PACKAGE), **env})
    return done.stdout, done.stderr, done.returncode


def imports(room):
    said = run([], "import css_companion", CSS_COMPANION_SO=str(room / "nowhere.so"))
    check("where there is no library that is said", said[2] == 1 and "OSError" in said[1] and "nowhere.so" in said[1])
    said = run([], """
        import asyncio, sys
        sys.modules["websockets"] = None
        import css_companion
        css_companion.Companion().close()
        async def first():
            async for place in css_companion.follow("ws://127.0.0.1:1/cii"):
                return place
        asyncio.run(first())""")
    check("without websockets the calls are there", said[2] == 1 and "needs the package websockets" in said[1])


def types():
    if not shutil.which("mypy"):
        check.skip("the package's types", "there is no mypy")
        return
    words = ["mypy", "--strict", "--cache-dir", os.devnull, PACKAGE / "css_companion"]
    done = subprocess.run(words, capture_output=True, text=True, timeout=300, check=False)
    check("mypy takes the package's types", done.returncode == 0, done.stdout.strip()[-500:])


# How a program leaves `follow` while that waits.
LEAVES = {
    "breaks": "async for place in follow(URL, every=0.01):\n    break",
    "is cancelled": """
        task = asyncio.ensure_future(read())
        await started.wait()
        task.cancel()
        await asyncio.gather(task, return_exceptions=True)""",
    "ends with the loop": """
        task = asyncio.ensure_future(read())
        await started.wait()""",
    "raises": """
        try:
            async for place in follow(URL, every=0.01):
                raise KeyError
        except KeyError:
            pass""",
    "closes it": """
        places = follow(URL, every=60)
        await anext(places)
        await places.aclose()""",
    "gives up in time": """
        try:
            await asyncio.wait_for(read(), 0.2)
        except asyncio.TimeoutError:
            pass""",
}


def leaves(cii, name):
    """Nothing is left behind: no task, no socket, and no word on standard error."""
    for how, code in LEAVES.items():
        program = textwrap.dedent(f"""
            import asyncio, gc, os, sys
            from css_companion import follow
            URL = {cii!r}
            async def read():
                places = 0
                async for place in follow(URL, every=0.01):
                    places += 1
                    if places == 3: started.set()
            async def main():
                global started
                started = asyncio.Event()
            """) + textwrap.indent(textwrap.dedent(code).strip(), "    ") + textwrap.dedent("""
            before = len(os.listdir("/proc/self/fd"))
            asyncio.run(main())
            gc.collect()
            print(len(os.listdir("/proc/self/fd")) - before)""")
        said = run(["-W", "always"], program)
        check(f"a loop that {how}, {name}", said == ("0\n", "", 0), said if said != ("0\n", "", 0) else "")


def shown(cii):
    """The command prints intervals. On a busy machine it may need more time for the first one."""
    for every in ("0.05", "0.2", "1"):
        out, errors, status = run(["-m", "css_companion", "--every", every, "--count", "30", cii])
        lines = [line.split(" ", 2) for line in out.splitlines()]
        kinds = {words[1] for words in lines}
        if "ticks" in kinds:
            break
    check("python3 -m css_companion prints intervals", (len(lines), status, errors) == (30, 0, "") and "ticks" in kinds
          and kinds <= {"ticks", "none"}, out.splitlines()[-1:] or errors)


# ---- live

async def followed(tv, name):
    known, wrong, causes = 0, [], set()
    async for place in css.follow(tv.cii, every=0.05, width=1_000_000):
        causes.add(place.cause)
        if place.position is None:
            continue
        known, now = known + 1, place.position
        control = {"contentTime": str(now.content), "timelineSpeedMultiplier": now.speed,
                   "wallClockTime": str(now.wall)}
        rate = {"unitsPerSecond": now.units_per_second, "unitsPerTick": now.units_per_tick}
        if not is_true(tv, (now.lo, now.hi), control, rate, now.reading, now.reading):
            wrong.append(now)
        tv.go(known)
        if known == REPORTS:
            break
    tv.end()
    check(f"{REPORTS} positions beside {name}, and none is false", not wrong, wrong[:2] or causes)


async def dials_again(tv):
    """The television closes CII, goes off, comes back; and sets its clock, where the library notices that."""
    places, ends = css.follow(tv.cii, every=0.02), []
    acts = [lambda: tv.hang_up("CII"), lambda: (tv.switch_off(), tv.switch_on())]
    if hasattr(css.companion.LIBRARY, "css_companion_agreed"):
        acts.append(lambda: tv.jump(5))
    else:
        check.skip("a clock that is set", "this library doesn't notice it")
    visit, wrong = 0, []
    async for place in places:
        if place.position is None or place.visit <= visit:
            ends += [place.cause] if place.cause and place.cause.startswith("CII") else []
            continue
        now, visit = place.position, place.visit
        true = tv.tick(now.reading)
        wrong += [] if now.lo <= true <= now.hi else [now]
        if not acts:
            break
        acts.pop(0)()
    await places.aclose()
    tv.end()
    check("it dials again, and is right again", not wrong and visit >= 3 and "CII closed" in ends, wrong or ends[:4])


async def bad_addresses(tv):
    """One that the caller gives is the caller's mistake; one of the television ends a visit."""
    try:
        async for place in css.follow("http://127.0.0.1/cii", every=0.01):
            told = place.visit
            if told > 1:
                break
    except Exception as fault:
        told = type(fault).__name__
    check("a wrong address is the caller's mistake", told == "InvalidURI", told)
    tv.instead, causes = {"tsUrl": "http://127.0.0.1/"}, []
    places = css.follow(tv.cii, every=0.02)
    async for place in places:
        causes.append(place.cause or "")
        if causes[-1].startswith("tsUrl"):
            break
    await places.aclose()
    tv.end()
    check("a wrong one of the television ends a visit", causes[-1] == "tsUrl is no address: http://127.0.0.1/")


def live(words):
    port = ports()
    television = Set(port + 8)
    cii = f"ws://127.0.0.1:{port + 8}/cii"
    shown(cii)
    leaves(cii, "beside a television")
    television.end()
    leaves(f"ws://127.0.0.1:{port + 12}/cii", "beside none")
    asyncio.run(followed(Late(port), "a television with loss and delay"))
    late = Late(port + 4)
    late.loss = 0
    asyncio.run(dials_again(late))
    asyncio.run(bad_addresses(Late(port + 20)))
    if words:
        asyncio.run(followed(OfCss(words, port + 16), "css tv"))
    else:
        check.skip("css tv", "neither CSS nor words name a program")


def python_for_follow():
    """The system's Python where this one has no websockets and that one has."""
    if importlib.util.find_spec("websockets") or sys.executable == DEBIANS or not os.path.exists(DEBIANS):
        return
    if not subprocess.run([DEBIANS, "-c", "import websockets"], stderr=subprocess.DEVNULL, check=False).returncode:
        os.execv(DEBIANS, [DEBIANS, *sys.argv])


def library(words, room):
    """The folder of the library, and the words that are left."""
    over = words[:1] if words[:1] == ["--over-gate"] else []
    words = words[len(over):]
    if words[:1] == ["--library"]:
        return Path(words[1]).resolve(), words[2:]
    subprocess.run([sys.executable, TOP / "tools" / "library.py", *over, room / "library"], check=True)
    return room / "library", words


def main(words):
    python_for_follow()
    with tempfile.TemporaryDirectory() as room:
        folder, words = library(words, Path(room))
        os.environ["CSS_COMPANION_SO"] = str(folder / "lib" / "libcss_companion.so.1")
        sys.path.insert(0, str(PACKAGE))
        global css, Late, OfCss, Set, is_true
        import css_companion as css
        from late_tv import Late, OfCss, Set, is_true
        for each in (exchange, wrong_types, closed, threads, sleeps, later_calls):
            each()
        imports(Path(room))
        types()
        if importlib.util.find_spec("websockets"):
            live(words or ([os.environ["CSS"]] if os.environ.get("CSS") else []))
        else:
            check.skip("follow", "no Python here has websockets")
        return check.end()


if __name__ == "__main__":
    sys.exit(main(sys.argv[1:]))
