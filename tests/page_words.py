"""The words of tools/page.html: what it says of each thing that may be missing, since when, and that it speaks of the
past once the lines have ended."""
import json
import re

from page_looks import fed
from page_source import Simulated
from page_tv import BEGIN, SECOND, Evening

WHYS = {"refused": "connection refused", "no such host": "no such host", "no answer": "no answer",
        "HTTP status 404": "HTTP status 404", "no WebSocket": "no WebSocket",
        "no permission": "no permission on this computer",
        "no room": "no room for another connection on this computer", "other": None, None: None}
CLOCK, TIMELINE = "udp://192.168.1.20:6677", "ws://192.168.1.20:6678/ts"
# The cause and the detail of a report, and what the page says: while it lasts, and when it is over.
MISSING = [
    ("NoAnswer", "no wcUrl", "The television tells no address of its wall clock",
     "The television told no address of its wall clock"),
    ("NoAnswer", "nothing was asked", "The television's wall clock hasn't been asked yet",
     "The television's wall clock wasn't asked yet"),
    ("NoAnswer", "no response to 1 requests", "The television's wall clock doesn't answer: no response to 1 request",
     "The television's wall clock didn't answer: no response to 1 request"),
    ("NoAnswer", "the last datagram was refused: Unasked",
     "The television's wall clock answers wrongly: Unasked: it answered none of the last 64 requests",
     "The television's wall clock answered wrongly: Unasked: it answered none of the last 64 requests"),
    ("NoTimestamp", "no tsUrl", "The television tells no address of its timeline",
     "The television told no address of its timeline"),
    ("NoTimestamp", "no text came", "The television hasn't told a control timestamp yet",
     "The television didn't tell a control timestamp yet"),
    ("Unavailable", "", "The television doesn't present the wanted timeline",
     "The television didn't present the wanted timeline"),
    ("Unavailable", "the set lists urn:a, urn:b", "The television doesn't present the wanted timeline: it lists urn:a, "
     "urn:b", "The television didn't present the wanted timeline: it listed urn:a, urn:b"),
    ("NoRate", "the set lists no timeline", "The television lists no timeline with the wanted selector: it lists no "
     "timeline", "The television listed no timeline with the wanted selector: it listed no timeline"),
    ("Unreadable Field wallClockTime", "", "The control timestamp can't be read: Field wallClockTime: wallClockTime "
     "hadn't its form, or was out of range", "The control timestamp couldn't be read: Field wallClockTime: "
     "wallClockTime hadn't its form, or was out of range"),
    ("SessionClosed", "", "The television closed CSS-TS", "The television closed CSS-TS"),
    ("A later cause", "a later detail", "A later cause: a later detail", "A later cause: a later detail"),
]
ENDS = {
    "closed CII": "The television closed CSS-CII, or went off", "closed TS": "The television closed CSS-TS",
    "moved tsUrl": "The television told another tsUrl", "bad wcUrl": "The television's wcUrl was no udp: address",
    "bad tsUrl": "The television's tsUrl was no ws: address",
    "disagree": "Two answers contradicted each other: the television was started anew, or its clock was set",
    "CII text 7: not object": "CSS-CII text 7 couldn't be read: not object: it was no JSON object",
    "a later why": "A later why",
}
# What speaks of now. The lines' own words aren't meant, such as a selector.
PRESENT = (r"\b(?:is|isn't|are|aren't|has|hasn't|have|haven't|does|doesn't|do|can't|comes?|goes|grows|tells|lists"
           r"|answers wrongly|presents|now|ago|yet|live|Playing|Paused)\b")


def report(number, cause, detail, seconds):
    return {"event": "report", "cause": cause, "detail": detail, "number": number,
            "reading": str(BEGIN + seconds * SECOND)}


def shown(browser, page, state, *lines):
    """The first line and what stands beside it, after a watch of these lines."""
    begin = [{"event": "visit", "number": 1, "reading": str(BEGIN)}, {"event": "state", "state": state}]
    count = browser.tell("kept.lines") + len(lines) + 2
    page.feed(*map(json.dumps, [*begin, *lines]))
    browser.until(f"kept.lines === {count}")
    browser.settled()
    return headline(browser)


def headline(browser):
    return browser.text("words"), browser.text("rest")


def unreached(check, browser, port, state):
    """Each service that can't be reached, with why, where its line tells it, and its address, where it is known."""
    cii, nowhere = Simulated.cii, {**state, "wcUrl": None, "tsUrl": None}
    for words in (["--cii", cii], []):
        page = fed(browser, port, [], words)
        own = [("CII", "NoAnswer", cii, state)] if words else [
            ("CII", "NoAnswer", "the television's CSS-CII", nowhere), ("WC", "NoAnswer", CLOCK, state),
            ("TS", "NoTimestamp", TIMELINE, state)]
        for service, cause, place, told in own:
            for why, meant in WHYS.items():
                dial = {"event": "dial", "outcome": "failed", "service": service, **({"why": why} if why else {})}
                reports = [report(at, cause, f"{service} isn't open", at) for at in (1, 3)]
                wanted = f"Can't reach {place}{f': {meant}' if meant else ''}"
                seen = shown(browser, page, told, dial, *reports)
                check(f"{service} that failed with {why or 'no why'} is said", seen[0] == wanted and
                      re.fullmatch("for ([2-9]|[1-9][0-9]+) s", seen[1]), seen)
        page.close()
        check("at the end it couldn't be reached", browser.word(f"Couldn't reach {place}") and
              headline(browser)[1] == "for the last 2 s", headline(browser))
        page.end()


def missing(check, browser, port, state):
    """Each cause and each detail, while it lasts, and when it is over."""
    page = fed(browser, port, [])
    for cause, detail, now, past in MISSING:
        seen = shown(browser, page, state, report(1, cause, detail, 1), report(2, cause, detail, 4))
        over = browser.tell("watch.matter.words(then)")
        rest = r"\d+ s ago" if cause == "SessionClosed" else r"for \d+ s"
        check(f"{cause} {detail}".strip() + " is said", (seen[0], over) == (now, past) and re.fullmatch(rest, seen[1]),
              [*seen, over])
    page.end()


def ends(check, browser, port, state):
    """Why the last visit ended."""
    page = fed(browser, port, [])
    for why, now in ENDS.items():
        end = {"event": "end", "number": 1, "why": why}
        seen = shown(browser, page, state, report(1, "NoAnswer", "nothing was asked", 2), end)
        check(f"an end by {why} is said", seen[0] == now and re.fullmatch(r"\d+ s ago", seen[1]), seen)
    page.end()


def in_the_past(check, browser, port, state):
    """Once the lines have ended, nothing on the page speaks of now."""
    lines = [json.loads(line) for _, line in Evening().lines()]
    paused = next(at for at, line in enumerate(lines) if line.get("speed") == 0) + 1
    quiet = lines[:[line["event"] for line in lines].index("report")]
    asleep = lines[:[line["event"] for line in lines].index("slept") + 1]
    grown = [{**lines[-1], "reading": str(int(lines[-1]["reading"]) + 20 * SECOND)}]
    told = {"an evening": lines, "a pause": lines[:paused], "nothing": [], "no report": quiet, "a sleep": asleep,
            "answers that stayed away": [*lines, *grown], "a state alone": [{"event": "state", "state": state}]}
    firsts = {"an evening": "At the end it was playing", "a pause": "At the end it was paused",
              "nothing": "There was no line", "no report": "No report came", "a state alone": "No report came",
              "a sleep": "This computer slept, and no answer came since",
              "answers that stayed away": "The television's wall clock didn't answer, so the interval grew"}
    for name, each in told.items():
        page = fed(browser, port, each)
        page.close()
        browser.until("link.ended")
        browser.settled()
        whole = browser.tell("document.body.innerText").replace("The lines have ended", "").replace(
            "the lines have ended", "") + browser.tell("document.title")
        found = re.findall(PRESENT, whole)
        check(f"after {name} the page speaks in the past", not found and headline(browser)[0] == firsts[name],
              found or headline(browser))
        page.end()


def worded(check, browser, port):
    """All of these checks."""
    (state,) = [json.loads(line)["state"] for _, line in Evening([], 2).lines() if '"state"' in line]
    for at, each in enumerate((unreached, missing, ends, in_the_past)):
        each(check, browser, port + at, state)
