"""Streams of lines that tools/page.py has to bear: many, long ago, cut and begun again, and odd ones."""
import json
import re
import time

from page_browser import DESK
from page_due import position, right_position
from page_server import Page
from page_tv import BEGIN, SECOND, SLOW_RATE, Evening


def many(check, browser, port):
    made = [line for _, line in Evening([], 5300, seed=3).lines()]
    lines = [json.loads(line) for line in made]
    page = Page(port)
    browser.look(*DESK)
    browser.open(page.url)
    begun = time.monotonic()
    page.feed(*made)
    page.close()
    shown = browser.until(f"kept.lines === {len(lines)} && link.ended")
    check(f"{len(lines):,} lines are shown", shown and len(lines) > 10000, f"{time.monotonic() - begun:.1f} s")
    browser.settled()
    check("with the position of the last one", right_position(browser.seen(), lines))
    size = browser.tell("document.querySelectorAll('*').length")
    check("and the page stays small", size < 2500, f"{size} elements")
    page.end()


def long_ago(check, browser, port):
    """A page that is opened when the control timestamp and the state are long gone from what is kept."""
    made = [line for _, line in Evening([], 6).lines()]
    report = [line for line in made if '"ticks"' in line][-1]
    page = Page(port)
    page.feed(*made, *[report] * 21000)
    browser.open(page.url)
    browser.until("television.report")
    browser.settled()
    seen, lines = browser.seen(), [json.loads(line) for line in made]
    check("a page that is opened later has a position", right_position({**seen, "lines": len(lines)}, lines)
          and bool(seen["now"]), f"{seen['lines']} lines")
    check("and the state", lines[2]["state"]["contentId"] in browser.text("state"), browser.text("services"))
    page.end()


def cut(check, browser, port):
    """A stream that is cut and begun again: by the program that serves it, and by the watch."""
    made = [line for _, line in Evening([], 6).lines()]
    page = Page(port)
    browser.open(page.url)
    page.feed(*made)
    check("the lines are shown", browser.until(f"kept.lines === {len(made)}"))
    page.end()
    check("it says that the program is gone", browser.word("No connection to the program of this page"),
          browser.text("matter"))
    page = Page(port)
    page.feed(*made[:9])
    check("the page connects again, and begins anew", browser.until(f"link.open && kept.lines === {len(made[:9])}"))
    page.feed(made[9][:40], *made)
    browser.until(f"kept.lines === {len(made) + 10}")
    browser.settled()
    lines = [json.loads(line) for line in made]
    seen = browser.seen()
    check("a watch that begins anew has a position", right_position({**seen, "lines": len(lines)}, lines)
          and bool(seen["now"]), seen["now"])
    rows = browser.rows("refused")
    check("half a line is told", len(rows) == 1 and rows[0][1] == "line of the watch", rows)
    check("and that the watch began anew", any(row[3] == "the watch began anew" for row in browser.rows("visits")))
    check("a watch that says nothing is told", browser.word("No line comes from the watch"), browser.text("matter"))
    page.end()


def odd(check, browser, port):
    """What a television may say that keeps no word: markup, texts that are refused, another direction."""
    made = [line for _, line in Evening([], 4).lines()]
    lines = [json.loads(line) for line in made]
    markup = "<img src=x onerror=alert(1)>"
    for line in lines:
        if line["event"] == "state":
            line["state"].update(contentId=markup, presentationStatus="</script>")
        if line["event"] == "control":
            line["control"].update(contentTime="-9007199254740993", timelineSpeedMultiplier=-2)
    page = Page(port)
    browser.open(page.url)
    page.feed("no JSON", *map(json.dumps, lines))
    browser.until(f"kept.lines === {len(lines) + 1}")
    browser.settled()
    seen = browser.seen()
    right = right_position({**seen, "lines": len(lines)}, lines)
    check("a position below zero runs backwards", right and "−" in browser.text("position"),
          browser.text("position"))
    check("markup is a text", markup in browser.text("state") and not browser.tell("document.images.length"))
    page.feed('{"event":"end","number":1,"why":"closed TS"}')
    ended = browser.word("The television closed CSS-TS")
    check("the end of a visit ends its position", ended and browser.text("position") == "position not known")
    after = [{"event": "control", "fault": "Unreadable Fractional"}, {"event": "later", "reading": "1"}, 5, None,
             {"event": "constructor"}, {"event": "answer", "landed": "x"},
             {"event": "state", "state": {"timelines": [5]}},
             {"event": "report", "reading": "1", "ticks": ["1", "2"], "wall": ["1", "2"], "error": 0, "speed": 1,
              "rate": {"unitsPerSecond": 1, "unitsPerTick": 0}},
             {"event": "end", "number": 1, "why": "CII text 2: field timelines"},
             {"event": "visit", "number": 2, "reading": str(BEGIN + 5 * SECOND)},
             {"event": "end", "number": 2, "why": "bad tsUrl"}]
    page.feed(*map(json.dumps, after))
    browser.until(f"kept.lines === {len(lines) + 2 + len(after)}")
    browser.settled()
    told = [row[1:] for row in browser.rows("refused")]
    wanted = ["tsUrl", "CII text 2", *["line of the watch"] * 4, "CSS-TS text", "line of the watch"]
    check("all that is odd is told", [row[0] for row in told] == wanted, told)
    check("and why each visit ended", [row[3][:21] for row in browser.rows("visits")] ==
          ["bad tsUrl: it was no ", "CII text 2: field tim"], browser.text("matter"))
    page.end()


def selected(check, browser, port):
    """A watch with another selector: its position goes by the rate of this timeline, while the state lists it."""
    lines = [json.loads(line) for _, line in Evening([], 4).lines()]
    (state,) = [line for line in lines if line["event"] == "state"]
    (control,) = [line["control"] for line in lines if line["event"] == "control"]
    timeline = state["state"]["timelines"][0]
    timeline["timelineSelector"] = "urn:x:1"
    page = Page(port, ["--selector", "urn:x:1"])
    browser.open(page.url)
    page.feed(*map(json.dumps, lines), json.dumps({**state, "state": {**state["state"], "timelines": None}}))
    lost = browser.word("The television lists no timeline with the wanted selector")
    check("a state without the timeline ends the position", lost and browser.text("position") == "position not known")
    timeline["timelineProperties"] = SLOW_RATE
    page.feed(json.dumps(state))
    browser.until("position(readingNow()) !== null")
    time.sleep(1)
    reading, *shown = map(int, browser.seen()["now"].split() or [0])
    report = [line for line in lines if "ticks" in line][-1]
    check("and another rate goes on with it", reading and shown == position(report, control, SLOW_RATE, reading), shown)
    way = re.search(r"way of the lines\s+up to (\d+\.\d+|\d+) ms, not counted", browser.text("facts"))
    check("it says how much later it may be by now", way and float(way[1]) >= 20, way and way[1])
    page.end()


def by_token(check, browser, port):
    """A page that is served to a network by its token, also where the last slash isn't typed."""
    made = [line for _, line in Evening([], 4).lines()]
    page = Page(port, ["--host", "127.0.0.2"])
    page.feed(*made)
    for url in (page.url, page.url.rstrip("/")):
        browser.open(url)
        shown = browser.until(f"kept.lines === {len(made)} && television.report")
        check("by its token the page shows the lines", shown, url.partition(str(port))[2])
    page.end()
    check("and says that the program is gone", browser.word("No connection to the program of this page"))


def streams(check, browser, port):
    """All of these checks."""
    for at, each in enumerate((many, long_ago, cut, odd, selected, by_token)):
        each(check, browser, port + at)
