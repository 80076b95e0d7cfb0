"""How tools/page.html is laid out: what comes first, what is shown once, and that nothing is cut, at a desk and on a
telephone."""
import json
import re

from page_browser import DESK, PHONE
from page_due import times
from page_server import Page
from page_source import Simulated
from page_tv import RATE, Evening

# Each text of the plots that leaves its plot, or lies over another one, and each element whose content is cut.
CUT = r"""
(() => {
  const found = [], texts = [...document.querySelectorAll("svg text")];
  const box = (element) => element.getBoundingClientRect();
  for (const text of texts) {
    const a = box(text), plot = box(text.ownerSVGElement);
    if (a.left < plot.left || a.right > plot.right || a.top < plot.top - 1 || a.bottom > plot.bottom + 1) {
      found.push(`cut: ${text.textContent}`);
    }
    for (const other of texts) {
      const b = box(other), wide = Math.min(a.right, b.right) - Math.max(a.left, b.left);
      const high = Math.min(a.bottom, b.bottom) - Math.max(a.top, b.top);
      if (other === text || wide <= 1 || high <= 4) continue;
      found.push(`over each other: ${text.textContent}, ${other.textContent}`);
    }
  }
  for (const one of document.querySelectorAll("body *:not(script)")) {
    if (one.scrollWidth > one.clientWidth + 1 && getComputedStyle(one).display !== "inline" && !one.closest("svg")) {
      found.push(`cut: ${one.tagName} ${one.id} ${one.textContent.slice(0, 40)}`);
    }
  }
  return { found, texts: texts.length };
})()
"""
LABELS = "[...document.querySelectorAll('#%s text')].map((text) => text.textContent)"


def answers_of(lines, **members):
    """The lines, with other members of each answer."""
    return [{**line, **members} if line["event"] == "answer" else line for line in lines]


def fed(browser, port, lines, words=()):
    """A page that shows these lines, drawn."""
    page = Page(port, words)
    browser.open(page.url)
    page.feed(*map(json.dumps, lines))
    browser.until(f"kept.lines === {len(lines)}")
    browser.settled()
    return page


def comes_first(check, browser, port, lines):
    """What is on, the position, where the television is, and then how wide; each in the first part of the page."""
    content = [line["state"]["contentId"] for line in lines if line["event"] == "state"][-1]
    names = ["--name", "dvb://233a=Some", "--name", "dvb://233a.1004.1046=News & <Weather>", "--name", "dvb:=Any"]
    for size in (DESK, PHONE):
        browser.look(*size)
        page = fed(browser, port, lines, [*names, "--cii", Simulated.cii])
        parts = ["programme", "position", "address", "wide", "facts"]
        tops = browser.tell(f"{parts}.map((id) => document.getElementById(id).getBoundingClientRect().top)")
        check(f"programme, position, address and width come in this order at {size[0]} pixels",
              tops == sorted(set(tops)) and tops[3] < size[1], tops)
        sizes = browser.tell("[...document.querySelectorAll('body *:not(#position, #position *)')].map((one) => "
                             "parseFloat(getComputedStyle(one).fontSize))")
        large = browser.tell("parseFloat(getComputedStyle(document.getElementById('position')).fontSize)")
        check(f"the position is the largest at {size[0]} pixels", large > 1.3 * max(sizes), [large, max(sizes)])
        head = browser.text("matter") + browser.text("programme")
        check(f"no width stands before it at {size[0]} pixels", " ms" not in head and "known" not in head, head)
        check(f"and all of it is seen at once at {size[0]} pixels",
              browser.tell("document.getElementById('said').getBoundingClientRect().bottom") < size[1])
        page.end()
    words = f"PlayingNews & <Weather> {content}"
    check("the programme has its name, by the longest stem, and its content id", head.strip() == words, head)


def where(check, browser, port, lines):
    """The set's address: that of the watch, or its states', or none."""
    for told, words, address in ((lines, ["--cii", Simulated.cii], f"Television at {Simulated.cii}"),
                                 (lines, [], "Television at 192.168.1.20"), (lines[:2], [], "")):
        page = fed(browser, port, told, words)
        shown = browser.text("address")
        check(f"the address is {address or 'none where it is unknown'}", shown == address, shown)
        page.end()
    page = fed(browser, port, lines, ["--name", "dvb://other=Other"])
    content = [line["state"]["contentId"] for line in lines if line["event"] == "state"][-1]
    check("without a name the programme is its content id", browser.text("programme").strip() == content)
    page.end()


def one_time(check, browser, port):
    """An interval below a millisecond is one time, one above it two, and one of no width is that of its tick."""
    page = Page(port)
    browser.open(page.url)
    for ticks, count in (((180_000, 180_000), 1), ((180_001, 180_001), 1), ((180_010, 180_099), 1),
                         ((180_010, 180_100), 2), ((-45, 30), 1), ((-90, 90), 2)):
        rate = "{ unitsPerSecond: 90000n, unitsPerTick: 1n }"
        shown = browser.tell(f"timesOf({ticks[0]}n, {ticks[1]}n, {rate}).join(' to ')")
        check(f"ticks {ticks[0]} to {ticks[1]} are {shown}",
              shown == times(ticks, RATE) and len(shown.split(" to ")) == count, times(ticks, RATE))
    page.end()


def axes(check, browser, port, lines):
    """An axis has numbers where something was measured, and else none."""
    reports = [line for line in lines if line["event"] != "answer" and "ticks" not in line]
    still = [line for line in lines if line["event"] not in ("answer", "report")]
    paused = [{**[line for line in lines if "ticks" in line][0], "ticks": ["900000", "900000"], "speed": 0}]
    for name, told, numbers in (("no line", [], []), ("no report", lines[:2], []), ("no position", reports, []),
                                ("a pause", [*still, *paused], ["0", "0.5", "1"])):
        page = fed(browser, port, told)
        labels = [label for label in browser.tell(LABELS % "widths") if re.fullmatch(r"[0-9.e+]+( s)?", label)]
        check(f"with {name} the axis of widths has {numbers or 'no number'}", labels == numbers, labels)
        labels = browser.tell(LABELS % "trips")
        numbers = [label for label in labels if re.fullmatch(r"[0-9.]+", label)]
        check(f"with {name} that of answers says that nothing was measured",
              "nothing was measured" in labels and not numbers, labels)
        page.end()
    page = fed(browser, port, lines)
    for name in ("widths", "trips"):
        labels = browser.tell(LABELS % name)
        check(f"with answers the axis of {name} has numbers", sum(bool(re.fullmatch(r"[0-9.]+", label)) for label in
              labels) == 3 and "nothing was measured" not in labels, labels)
    page.end()


def once(check, browser, port, lines):
    """Round trip and width are one where they are alike. Precision and error are on a telephone too."""
    answers = [line for line in lines if line["event"] == "answer"]
    wide = answers_of(lines, width="7000000", precision="1953125", error=25_600_000)
    for name, told, count in (("alike", lines, 0), ("others", wide, len(answers))):
        page = fed(browser, port, told)
        heads = browser.tell("[...document.querySelectorAll('#answers th')].map((head) => head.textContent)")
        squares = browser.tell("document.querySelector('#trips .width').getAttribute('d').split('M').length - 1")
        key = "width at landing" in browser.text("also")
        check(f"widths that are {name} have {'a column' if count else 'no column'} and {count} marks",
              ("width, ms" in heads, squares, key) == (bool(count), count, bool(count)), [heads, squares, key])
        for size in (DESK, PHONE):
            browser.look(*size)
            browser.settled()
            cells = browser.rows("answers")[0]
            wanted = [["0.954", "500"], ["1953", "100000"]][bool(count)]
            seen = browser.tell("[...document.querySelectorAll('#answers tr:first-child th, #answers tr:nth-child(2) "
                                "td')].map((cell) => cell.getBoundingClientRect()).every(({ left, right, width }) => "
                                f"width > 5 && left >= 0 && right <= {size[0]})")
            check(f"precision and error of answers that are {name} are seen at {size[0]} pixels",
                  seen and heads[-2:] == ["preci\u00adsion, µs", "error, ppm"] and cells[-2:] == wanted, cells)
        browser.look(*DESK)
        page.end()


def nothing_cut(check, browser, port, lines):
    """No label of any of these is cut, or lies over another one, before and after the lines have ended."""
    off = lines[:[line.get("outcome") for line in lines].index("failed") + 5]
    marks = [{"event": "end", "number": at, "why": "CII text 12: field presentationStatus"} for at in range(3)]
    told = {"an evening": lines, "a television that is off": off, "two lines": lines[:2],
            "wide answers": answers_of(lines, width="7000000", precision="1953125", type=2),
            "hostile answers": answers_of(lines, width=str(2**31 * 10**9), precision=str(2**30 * 10**9)),
            "ends in a row": [*lines, *marks]}
    for name, each in told.items():
        page = fed(browser, port, each, ["--cii", "ws://a-television-with-a-long-name.living-room.example:66/cii"])
        for end in (False, True):
            if end:
                page.close()
                browser.until("link.ended")
            for size in (DESK, PHONE):
                browser.look(*size)
                browser.settled()
                cut = browser.tell(CUT)
                check(f"no label of {name} is cut at {size[0]} pixels{', at the end' if end else ''}",
                      not cut["found"] and cut["texts"] > 9, cut["found"][:3] or f"{cut['texts']} labels")
        page.end()
    browser.look(*DESK)


def looked_at(check, browser, port):
    """All of these checks."""
    lines = [json.loads(line) for _, line in Evening().lines()]
    browser.look(*DESK)
    for at, each in enumerate((comes_first, where, axes, once, nothing_cut)):
        each(check, browser, port + at, lines)
    one_time(check, browser, port + 5)
