#!/usr/bin/env python3
"""Tries tools/page.py in a real browser: what the page shows, against the lines that it was fed.

    tests/page.py [--picture FILE] [PROGRAM ..]

The lines are those of a simulation. Where the words of a program are given, or $CSS is set, they are those of its
commands `tv` and `watch`, and of `watch` beside tools/wrong_tv.py. Each check prints a line, and the last line is how
many failed. The status is 1 where one failed. It needs Chromium, as the system's package. The picture is a PNG of the
first part of the page, with the saved evening.
"""
import argparse
import json
import os
import pathlib
import re
import sys
import threading
import time

from checks import Checks, ports, program
from page_browser import CONTRAST, DESK, PHONE, Browser
from page_due import due, matter, refused, right_position, sentence_of, times
from page_looks import looked_at
from page_server import Page, end_all, serving
from page_source import Program, Simulated, Wrong
from page_streams import streams
from page_tv import SECOND
from page_words import worded

PORT = ports()
SAVED = pathlib.Path(__file__).resolve().parent.parent / "examples" / "evening.lines"
check = Checks()


# ---- what is shown, against the lines

def right_rows(browser, lines):
    """The tables, against the lines."""
    ends = {line["number"]: line["why"] for line in lines if line["event"] == "end"}
    visits = {int(row[0]): row[3] for row in browser.rows("visits")}
    told = all(visits.get(number, "").startswith(why) for number, why in ends.items())
    check("each visit that ended says why", told and ends, ends)
    rows = browser.rows("refused")
    wanted = refused(lines)
    told = len(rows) == len(wanted) and all(row[1] == what and row[2].startswith(fault)
                                            for row, (what, fault) in zip(rows, wanted))
    check("what was refused is there, with its reason", told, rows if not told else len(rows))
    if rows:
        colour = browser.tell("getComputedStyle(document.querySelector('#refused td')).color")
        red, green, blue = map(int, re.findall(r"\d+", colour)[:3])
        check("in red", red > green + 40 and red > blue + 40, colour)
    answers = [line for line in lines if line["event"] == "answer"][-1:]
    for line in answers:
        trip = int(line["landed"]) - int(line["originate"]) - int(line["transmit"]) + int(line["receive"])
        wanted = f"{trip / 1e6:.3f}"
        check("the last answer has its round trip", browser.rows("answers")[0][1] == wanted, wanted)
    wanted = "nothing was told in this visit"
    for line in lines:
        if line["event"] in ("visit", "state"):
            wanted = line["state"]["contentId"] if line["event"] == "state" else "nothing was told in this visit"
    told = " ".join(browser.text("state").split())
    check("the state is the last one of its visit", wanted in told, wanted)


# ---- a television, live

class Feeder(threading.Thread):
    """Feeds the lines of a source to a page, and keeps them."""

    def __init__(self, source, page):
        super().__init__(daemon=True)
        self.source, self.page, self.lines = source, page, []
        self.start()

    def run(self):
        for line in self.source.lines():
            self.lines.append(json.loads(line))
            self.page.feed(line)


def live(browser, source, port):
    page = Page(port, ["--cii", source.cii])
    browser.look(*DESK)
    check("the page opens", browser.open(page.url))
    feeder, seen = Feeder(source, page), []
    inside = []
    while feeder.is_alive():
        moment = browser.seen()
        seen.append(moment)
        _, control, rate = due(feeder.lines[:moment["lines"]])
        if moment["now"] and control:
            reading, _, _, low, high = map(int, moment["now"].split())
            truth = source.truth(reading, control, rate)
            inside.append(truth is None or low <= truth <= high)
        time.sleep(0.1)
    moments(seen, feeder.lines)
    headlines(seen, feeder.lines, source.cii)
    check("the true position is in each interval", all(inside) and inside, f"{len(inside)} moments")
    browser.until(f"kept.lines === {len(feeder.lines)}")
    browser.settled()
    right_rows(browser, feeder.lines)
    bands = browser.tell("document.querySelectorAll('#widths .band').length")
    check("the plot has where there was no position", bands > 0, bands)
    page.end()


def moments(seen, lines):
    """Each moment that was seen, against the lines up to it."""
    wrong = [moment for moment in seen if not right_position(moment, lines)]
    check("each position is that of the formula", not wrong, wrong[:2] or f"{len(seen)} moments")
    ran = set()
    for moment in seen:
        report, _, _ = due(lines[:moment["lines"]])
        if report and moment["now"]:
            ran.add(moment["now"].split()[0] != report["reading"])
    check("it runs on after a report", True in ran)
    paused = [moment for moment in seen if "0, paused" in moment["facts"]]
    ticks = {tuple(moment["now"].split()[3:]) for moment in paused}
    check("a pause is told, and its position stands still", paused and len(ticks) == 1, f"{len(paused)} moments")
    shown = []
    for moment in seen:
        rate = due(lines[:moment["lines"]])[2]
        if moment["now"] and rate:
            shown.append((times([int(tick) for tick in moment["now"].split()[3:]], rate), moment["position"]))
    wrong = [pair for pair in shown if pair[0] != pair[1]]
    check("it is shown as times, one where both ends are alike", shown and not wrong, wrong[:2] or shown[-1:])


def headlines(seen, lines, cii):
    """The first line of each moment that was seen, by what the last report says is missing."""
    words = []
    for moment in seen:
        wanted = matter(lines[:moment["lines"]])
        if wanted:
            begins = sentence(lines[:moment["lines"]], wanted[0], cii)
            lasts = (int(moment["reading"]) - wanted[1]) // SECOND
            right = moment["words"].startswith(begins) and moment["rest"] == f"for {lasts} s"
            words.append((right and moment["level"] == "bad", f"{moment['words']} {moment['rest']}"))
    told = sorted({told for _, told in words})
    check("the line says what is the matter, and since when", len(told) > 2 and all(right for right, _ in words), told)
    well = {moment["words"] for moment in seen if moment["level"] == "well"}
    check("it says whether it plays where all is well", well == {"Playing", "Paused"}, well)


def sentence(lines, detail, cii):
    """How the page says a detail, by the addresses and the dials of this visit."""
    told, dials = {}, {}
    for line in lines:
        if line["event"] in ("visit", "state"):
            told = line.get("state") or {}
        if line["event"] == "visit":
            dials = {}
        if line["event"] == "dial":
            dials[line["service"]] = line["outcome"]
    service = detail.split()[0]
    place = {"CII": cii, "WC": told.get("wcUrl"), "TS": told.get("tsUrl")}.get(service)
    begins = {"open": "Connected to", None: "There is no connection to"}.get(dials.get(service), "Can't reach")
    return f"{begins} {place}" if place else sentence_of(detail)


# What `watch` says of each way in which the television is wrong.
TOLD = ['"why":"CII text 2: not object"', '"fault":"Field contentTime"', '"fault":"Impossible"', '"why":"disagree"',
        '"why":"bad tsUrl"', '"why":"closed CII"']


def wrong(browser, source, port):
    """What the page shows of a television that is wrong."""
    page = Page(port)
    browser.look(*DESK)
    browser.open(page.url)
    feeder = Feeder(source, page)
    feeder.join()
    browser.until(f"kept.lines === {len(feeder.lines)}")
    browser.settled()
    check("the television was wrong in each way", len(source.said) == len(source.WAYS), source.said)
    lines = [json.dumps(line, separators=(",", ":")) for line in feeder.lines]
    lacks = [told for told in TOLD if not any(told in line for line in lines)]
    check("each of them is told", not lacks, lacks)
    right_rows(browser, feeder.lines)
    page.end()


# ---- saved lines, and how they look

def saved(browser, port):
    page = Page(port, ["--replay", str(SAVED), "--fast"])
    lines = [json.loads(line) for line in SAVED.read_text(encoding="ascii").splitlines()]
    browser.look(*DESK)
    browser.open(page.url)
    check("all saved lines are shown", browser.until(f"kept.lines === {len(lines)} && link.ended"))
    browser.settled()
    seen = browser.seen()
    check("the position is that of the last line", right_position(seen, lines) and bool(seen["now"]), seen["now"])
    check("and it stands still", browser.seen()["now"] == seen["now"])
    right_rows(browser, lines)
    for size in (DESK, PHONE):
        for dark in (False, True):
            looks(browser, size, dark)
    keys(browser)
    page.end()


def take_picture(browser, port, path):
    """The saved evening at its end, while the page still waits for more."""
    page = Page(port)
    browser.look(1000, 880)
    browser.open(page.url)
    page.feed(*SAVED.read_text(encoding="ascii").splitlines())
    browser.until("television.report")
    time.sleep(0.6)
    browser.picture(path)
    page.end()


def looks(browser, size, dark):
    browser.look(*size, dark)
    browser.settled()
    where = f"at {size[0]} pixels, {'dark' if dark else 'light'}"
    told = browser.tell(CONTRAST)
    check(f"each text can be read {where}", told["contrast"] >= 4.5 and told["count"] > 150,
          f"{told['count']} texts, at least {told['contrast']:.2f} ({told['words'][:30]})")
    wide = browser.tell("Math.max(...[...document.querySelectorAll('body, body *')].map((one) => "
                        "one.getBoundingClientRect().right))")
    check(f"nothing is wider than the window {where}", wide <= size[0], wide)
    light = browser.tell("getComputedStyle(document.body).backgroundColor")
    check(f"the page is so {where}", (int(re.findall(r"\d+", light)[0]) < 100) == dark, light)


def keys(browser):
    """All that scrolls is reached by the keys, and moves by them."""
    browser.look(*PHONE)
    browser.tell("document.activeElement.blur()")
    reached = []
    for _ in range(6):
        browser.key("Tab")
        reached.append(browser.tell("document.activeElement.id"))
    check("the keys reach each list", {"answers", "visits", "refused"} <= set(reached), reached)
    browser.tell("document.getElementById('answers').focus()")
    browser.key("End")
    check("and move it", browser.until("document.getElementById('answers').scrollTop > 0"))


def main(words):
    parser = argparse.ArgumentParser(description=__doc__, formatter_class=argparse.RawDescriptionHelpFormatter)
    parser.add_argument("--picture", metavar="FILE", help="takes a picture of the page")
    parser.add_argument("program", nargs="*", help="the words of the program before its commands")
    options = parser.parse_args(words)
    css = program(options.program) if options.program or os.environ.get("CSS") else None
    source = Program(css, PORT + 10) if css else Simulated()
    browser = None
    try:
        serving(check, PORT)
        try:
            browser = Browser()
        except FileNotFoundError as error:
            check.skip("the page in a browser", error)
            return check.end()
        live(browser, source, PORT + 1)
        if css:
            wrong(browser, Wrong(css, PORT + 20), PORT + 8)
        saved(browser, PORT + 2)
        streams(check, browser, PORT + 3)
        looked_at(check, browser, PORT + 30)
        worded(check, browser, PORT + 40)
        if options.picture:
            take_picture(browser, PORT + 9, options.picture)
        elsewhere = [url for url in browser.asked if not re.match(rf"http://127\.0\.0\.[12]:{PORT // 100}\d\d/", url)]
        check("nothing is asked for elsewhere", not elsewhere, elsewhere or f"{len(browser.asked)} requests")
        check("no script failed", not browser.faults, browser.faults or "")
    finally:
        if browser:
            browser.end()
        end_all()
    return check.end()


if __name__ == "__main__":
    sys.exit(main(sys.argv[1:]))
