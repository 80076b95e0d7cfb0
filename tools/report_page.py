"""A report as one page, with its plots as SVG: round trips, widths, and the answers around each contradiction."""
import collections
import html

from report_pairs import AROUND

WIDE, HIGH, LEFT, TOP, BOTTOM = 1000, 220, 70, 24, 24
COLUMNS = 400  # A plot has at most so many columns: each shows the least, the middle and the greatest of its values.
MOST = 5  # So many contradictions have a plot.

STYLE = """
:root { color-scheme: light dark; --page: #f3f5f8; --card: #fff; --rule: #d5dce4; --ink: #16202c; --pale: #4a5766;
  --band: #e3e7ec; --well: #14643a; --bad: #b3201a; --line: #1a7f4b; --trip: #1f5fd1; --width: #a2480b; }
@media (prefers-color-scheme: dark) { :root { --page: #0e1318; --card: #171e26; --rule: #33404d; --ink: #e8edf2;
  --pale: #a8b5c2; --band: #28323d; --well: #7fe0ae; --bad: #ffa198; --line: #5fd39a; --trip: #8ab8ff;
  --width: #ffab70; } }
* { box-sizing: border-box; }
body { margin: 0 auto; max-width: 1100px; padding: 12px 16px; background: var(--page); color: var(--ink);
  font: 16px/1.45 system-ui, "Segoe UI", sans-serif; }
h1 { font-size: 1.2rem; } h2 { font-size: 1rem; margin: 0 0 8px; }
section { margin: 14px 0; padding: 1rem; border: 1px solid var(--rule); border-radius: 10px; background: var(--card); }
p { margin: 4px 0; overflow-wrap: anywhere; }
p b { display: inline-block; min-width: 5rem; font-size: .8rem; color: var(--pale); }
p b.proved { color: var(--well); }
pre { margin: 0 0 6px 5.3rem; overflow-x: auto; font-size: .8rem; }
svg { display: block; width: 100%; font-size: 12px; }
svg text { fill: var(--pale); } svg .rule { stroke: var(--rule); } svg .band { fill: var(--band); }
svg .trip { stroke: var(--trip); } svg .width { stroke: var(--line); } svg .agreed { stroke: var(--width); }
svg .end, svg .bad { stroke: var(--bad); } svg .end { stroke-dasharray: 4 3; } svg path { fill: none; }
svg .thick { stroke-width: 3; } svg .dots { stroke-width: 4; stroke-linecap: round; }
.key { color: var(--pale); font-size: .875rem; }
"""

# Where things stand in a plot.
Scale = collections.namedtuple("Scale", "begin end low high")


def x_of(scale, reading):
    return LEFT + (WIDE - LEFT - 10) * (reading - scale.begin) / max(1, scale.end - scale.begin)


def y_of(scale, value):
    return HIGH - BOTTOM - (HIGH - TOP - BOTTOM) * (value - scale.low) / ((scale.high - scale.low) or 1)


def nice(value):
    """The least of 1, 2 and 5 times a power of ten that isn't below a value."""
    power = 10.0 ** (len(str(int(value))) - 1) if value >= 1 else 1.0
    return next(round_ for round_ in (power, 2 * power, 5 * power, 10 * power) if round_ >= value)


def axes(scale, unit):
    marks = []
    for part in (0, 0.5, 1):
        value = scale.low + part * (scale.high - scale.low)
        y = y_of(scale, value)
        marks.append(f'<path class="rule" d="M{LEFT} {y:.1f}H{WIDE - 10}"/><text x="{LEFT - 6}" y="{y + 4:.1f}" '
                     f'text-anchor="end">{value / unit[0]:.3g} {unit[1]}</text>')
    for part in (0, 0.25, 0.5, 0.75, 1):
        at = scale.begin + part * (scale.end - scale.begin)
        marks.append(f'<text x="{x_of(scale, at):.1f}" y="{HIGH - 6}" text-anchor="{"end" if part == 1 else "middle"}">'
                     f'{part * (scale.end - scale.begin) / 1e9:.1f} s</text>')
    return "".join(marks)


def drawn(title, parts):
    return (f'<svg viewBox="0 0 {WIDE} {HIGH}" role="img" aria-label="{html.escape(title)}">{"".join(parts)}</svg>')


def unit_of(value):
    return next(unit for unit in ((1e9, "s"), (1e6, "ms"), (1e3, "µs"), (1, "ns")) if value >= unit[0] or unit[0] == 1)


def columns(samples, scale):
    """Of the values in each column of a plot the least, the middle and the greatest, and where it stands."""
    kept = collections.defaultdict(list)
    for reading, value in samples:
        kept[round(COLUMNS * (x_of(scale, reading) - LEFT) / (WIDE - LEFT - 10))].append(value)
    for column, values in sorted(kept.items()):
        values.sort()
        yield LEFT + (WIDE - LEFT - 10) * column / COLUMNS, values[0], values[len(values) // 2], values[-1]


def marks(run, scale):
    """Where visits ended, and where the machine slept."""
    return [f'<path class="end" d="M{x_of(scale, each.reading):.1f} {TOP}V{HIGH - BOTTOM}"/>'
            for each in [*run.ends, *run.slept][:COLUMNS] if each.reading is not None]


def plain(run, samples):
    high = nice(max((value for _, value in samples), default=1))
    return Scale(run.first or 0, run.greatest or 1, 0, high)


def bars(name, samples, scale):
    """A bar in each column from the least to the greatest value, and a dot at the middle."""
    found = list(columns(samples, scale))
    path = "".join(f"M{x:.1f} {y_of(scale, low):.1f}V{y_of(scale, high):.1f}" for x, low, _, high in found)
    dots = "".join(f"M{x:.1f} {y_of(scale, middle):.1f}h0" for x, _, middle, _ in found)
    return f'<path class="{name}" d="{path}"/><path class="{name} dots" d="{dots}"/>'


def round_trips(run):
    samples = [(each.t4, each.t4 - each.t1) for stretch in run.stretches for each in stretch.kept()]
    scale = plain(run, samples)
    return drawn(f"the round trips of {len(samples)} answers",
                 [axes(scale, unit_of(scale.high)), bars("trip", samples, scale), *marks(run, scale)])


def widths(run):
    """The width of the wall clock at each report, that of all answers together, and grey where there was none."""
    known = [(each.reading, each.width) for each in run.widths if each.width is not None]
    agreed = [(each.reading, each.agreed) for each in run.widths if each.agreed is not None]
    scale, step = plain(run, known), (WIDE - LEFT) / COLUMNS
    grey = {round(x_of(scale, each.reading) / step) for each in run.widths if each.width is None}
    bands = [f'<path class="band" style="fill:var(--band)" d="M{column * step:.1f} {TOP}h{step:.1f}V{HIGH - BOTTOM}'
             f'h-{step:.1f}z"/>' for column in sorted(grey)]
    return drawn(f"the widths of {len(known)} reports", [*bands, axes(scale, unit_of(scale.high)),
                 bars("width", known, scale), bars("agreed", agreed, scale), *marks(run, scale)])


def around(run, found):
    """What each answer around a contradiction says of the set's clock less this machine's, the two in red."""
    kept = found.stretch.kept()
    at = max(place for place, each in enumerate(kept) if each in (found.first, found.second))
    shown = kept[max(0, at - AROUND):at + AROUND]
    if run.stretches[found.stretch.index + 1:]:
        shown = (shown + run.stretches[found.stretch.index + 1].kept())[:2 * AROUND]
    pair = [found.first, found.second]
    shown += [each for each in pair if each not in shown]
    base = shown[0].t2 - shown[0].t1
    spans = [(each.t4, each.t3 - each.precision - each.t4 - base, each.t2 + each.precision - each.t1 - base,
              "bad thick" if each in pair else "trip") for each in shown]
    low, high = min(span[1] for span in spans), max(span[2] for span in spans)
    scale = Scale(min(span[0] for span in spans), max(span[0] for span in spans), low, high)
    lines = [f'<path class="{kind}" d="M{x_of(scale, reading):.1f} {y_of(scale, least):.1f}V'
             f'{y_of(scale, most):.1f}"/>' for reading, least, most, kind in spans]
    return drawn("the answers around a contradiction", [axes(scale, unit_of(high - low)), *lines])


def sentence(told):
    below = "\n".join(told.below)
    return (f'<p><b class="{told.sure}">{told.sure}</b> {html.escape(told.words)}</p>'
            + (f"<pre>{html.escape(below)}</pre>" if below else ""))


def card(title, inner):
    return f"<section><h2>{html.escape(title)}</h2>\n{inner}\n</section>"


def page(head, sections, run, found):
    """The whole page."""
    key = "<p class=key>{}</p>"
    plots = [card("Round trips", round_trips(run) + key.format(
                 "each column from the least to the greatest, with a dot at the middle; a dashed line is the end of a "
                 "visit, or a sleep")),
             card("Width of the wall clock at the reports", widths(run) + key.format(
                 "by the narrowest answer, and where the lines have it by all answers together; grey where there was "
                 "no position"))]
    plots += [card(f"Around the contradiction in visit {each.stretch.visit}", around(run, each) + key.format(
        "from where to where each answer says that the set's clock less this machine's was; the two that can't both be "
        "true are red")) for each in found[:MOST]]
    cards = [card(part.title, "\n".join(map(sentence, part.sentences))) for part in sections]
    return (f'<!DOCTYPE html>\n<html lang="en">\n<meta charset="utf-8">\n<meta name="viewport" '
            f'content="width=device-width, initial-scale=1">\n<title>{html.escape(head[0])}</title>\n'
            f"<style>{STYLE}</style>\n<h1>{html.escape(head[0])}</h1>\n"
            + "".join(f'<p class="key">{html.escape(line)}</p>\n' for line in head[1:])
            + "\n".join([*cards[:2], *plots, *cards[2:]])
            + "\n</html>\n")
