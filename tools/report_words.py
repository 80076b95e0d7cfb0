"""The sentences of a report, each of which is proved or only counted, and the report as text."""
import collections
import statistics

from report_lines import SECOND
from report_pairs import answer_of, bound, drifts, has_width, jump, request_of

PROVED, COUNTED = "proved", "counted"
MOST = 10  # So many faults of a kind are told, and so many moments of what happened often.
SHORT = {"few": "too few answers came to say what", "oscillator": "a worse oscillator",
         "set": "a clock that was set", "one": "one wrong answer",
         "set or one": "a clock that was set, or one wrong answer", "none": "nothing of these"}
KINDS = {1: "responses", 2: "responses before a follow-up", 3: "follow-ups"}

# A sentence, whether it is proved, and the lines that stand below it.
Sentence = collections.namedtuple("Sentence", "sure words below")
Section = collections.namedtuple("Section", "title sentences")


def counted(words, *below):
    return Sentence(COUNTED, clean(words), [*map(clean, below)])


def proved(words, *below):
    return Sentence(PROVED, clean(words), [*map(clean, below)])


def clean(words):
    """Words of letters alone that a terminal can show: some of them are the set's."""
    return "".join(letter if letter.isprintable() else f"\\u{ord(letter):04x}" for letter in words)


# ---- numbers

def ppm(error):
    """An error in 1/256 ppm as a number of ppm."""
    return f"{error / 256:.4f}".rstrip("0").rstrip(".")


def ms(nanos):
    return f"{nanos / 1e6:.3f} ms"


def clock(nanos):
    """How long after the first reading something was."""
    seconds = abs(nanos) // 10**6 / 1000
    return f"{'-' if nanos < 0 else ''}{int(seconds // 3600)}:{int(seconds // 60 % 60):02}:{seconds % 60:06.3f}"


def times(count):
    return "once" if count == 1 else f"{count} times"


def many(count, one, more=None):
    return f"{count} {one if count == 1 else more or one + 's'}"


def at(run, event):
    when = clock(event.reading - run.first) if event.reading is not None else "before the first reading"
    return f"{when}, visit {event.visit}"


# ---- the parts of a report

def the_set(run):
    addresses = [f"{name} {', '.join(values)}" for name, values in run.addresses.items()
                 if name in ("wcUrl", "tsUrl") and values]
    yield counted(f"Its addresses: {'; '.join(addresses) or 'it told none'}.")
    declared = collections.Counter((each.error, each.precision) for each in answers(run))
    for (error, precision), count in declared.most_common(MOST):
        which = f"in {many(count, 'answer')} " if len(declared) > 1 else ""
        yield counted(f"Of its wall clock it declares {which}an error of {ppm(error)} ppm, "
                      f"and a precision of {precision} ns.")
    if not declared:
        yield counted("It declared nothing of its wall clock, as no answer was accepted.")
    for timelines in run.addresses["timelines"]:
        yield counted(f"It lists {timelines or 'no timeline'}.")


def answers(run):
    return [exchange for stretch in run.stretches for exchange in stretch.kept()]


def asked(run, every):
    """About how many requests there were, how many of them were answered, and how far they are apart."""
    stretches = [sorted({answer[1][0] for answer in stretch.found}) for stretch in run.stretches]
    gaps = [later - sooner for kept in stretches for sooner, later in zip(kept, kept[1:])]
    every = every or (sorted(gaps)[len(gaps) // 4] if gaps else SECOND)
    answered = sum(map(len, stretches))
    between = sum(max(1, round(gap / every)) for gap in gaps)
    alone = sum(stretch.unanswered for stretch in run.stretches if not stretch.found)
    return between + sum(1 for kept in stretches if kept) + alone, answered, every


def the_run(run, options, local):
    lasted = run.greatest - run.first if run.first is not None else 0
    if run.watches > 1:
        yield counted(f"The lines are those of {run.watches} watches. Moments count from the first reading of all.")
    yield counted(f"It lasted {clock(lasted)}, and had {many(run.visits, 'visit')}.")
    yield counted(f"Of {many(run.reports, 'report')} {run.known} had ticks.",
                  *(f"{count} had {cause}" for cause, count in run.causes.most_common()))
    requests, answered, every = asked(run, options.ask_every)
    loss = 100 * (requests - answered) / requests if requests else 0
    yield counted(f"About {many(requests, 'request')} were sent, one each {ms(every)}, and {answered} were answered: "
                  f"the loss is about {loss:.1f} %.")
    kinds = [f"{run.kinds[kind]} {name}" for kind, name in KINDS.items() if run.kinds[kind]]
    yield counted(f"Answers that were accepted: {', '.join(kinds) or 'none'}.")
    yield from trips(run)
    yield from the_drift(run, local)


def trips(run):
    found = sorted(each.t4 - each.t1 for each in answers(run))
    if found:
        yield counted(f"Round trips: least {ms(found[0])}, median {ms(statistics.median(found))}, "
                      f"99th percentile {ms(found[(len(found) * 99 - 1) // 100])}, greatest {ms(found[-1])}.")


def the_widths(run):
    """How wide the wall clock was at the reports, and how wide by all answers together, where the lines have that."""
    found = [each.width for each in run.widths if each.width is not None]
    if found:
        yield counted(f"At the reports with ticks the wall clock was known to {ms(statistics.median(found))} in the "
                      f"median, and to {ms(max(found))} at the most.")
    else:
        yield counted("No report had ticks.")
    agreed = [each.agreed for each in run.widths if each.agreed is not None]
    if agreed:
        yield counted(f"By all answers together it was known to {ms(statistics.median(agreed))} in the median.")


def the_drift(run, local):
    found = drifts(run, local)
    if not found:
        yield counted("No drift was measured: too few answers came.")
        return
    told, visits, exchange = found
    where = f"visit {visits[0]}" if len(visits) == 1 else f"the visits {visits[0]} to {visits[-1]}"
    if told.least <= told.greatest:
        yield counted(f"The set's clock drifted by {told.least:+.1f} to {told.greatest:+.1f} ppm against this "
                      f"machine's, over {told.lasts / SECOND:.1f} s of {where}.")
    else:
        yield counted(f"The drift changed within {where}: once it was {told.greatest:+.1f} ppm or less, "
                      f"and once {told.least:+.1f} ppm or more.")
    outside = min(abs(told.least), abs(told.greatest)) if told.least * told.greatest > 0 else 0
    sets = 256 * outside > exchange.error
    yield counted(f"Declared are {ppm(exchange.error)} ppm of the set and {ppm(local.error)} ppm of this machine"
                  + (", and the drift is more than both." if outside > bound([exchange], local) else
                     ": the drift is more than the set's, and this machine's may explain it." if sets else "."))


def the_texts(run):
    texts = run.texts
    yield counted(f"CSS-CII: {many(texts['first'], 'first text')}, {texts['changes']} that changed properties, "
                  f"and {texts['same']} that changed nothing.",
                  *(f"{name} changed {times(count)}" for name, count in run.changed.most_common()),
                  *(f"{name} was null {times(count)}" for name, count in run.nulls.most_common()))
    yield counted(f"CSS-TS: {many(texts['control'], 'control timestamp')}, {texts['unavailable']} texts without a "
                  f"timeline, and {texts['unread']} that can't be read.",
                  *(f"the speed {speed} came {times(count)}" for speed, count in sorted(run.speeds.items())))


def the_faults(run, tells_all):
    if run.garbled:
        yield counted(f"{many(run.garbled, 'line')} of {run.lines} can't be read: they count for nothing.")
    if not run.faults:
        yield counted("No datagram and no text was refused.")
    kinds = collections.defaultdict(list)
    for fault in run.faults:
        kinds[fault.what].append(fault)
    for what, faults in kinds.items():
        told = faults if tells_all else faults[:MOST]
        yield counted(f"{what}, {times(len(faults))}:",
                      *(f"{at(run, fault)}: {fault.shown or 'no bytes'}" for fault in told),
                      *[f"and {len(faults) - len(told)} more, which --all tells"][:len(faults) - len(told)])


def the_contradictions(run, found, left, options, local):
    judged = sum(len(stretch.found) for stretch in run.stretches) - left
    others = sum(not has_width(exchange, local) for exchange in answers(run))
    sure = counted if others else proved
    if not found:
        yield sure(f"No two of the {many(judged, 'answer')} contradict each other, of those that a visit had since "
                   "its last sleep.")
    if len(found) > 1:
        yield sure(f"{len(found)} visits have answers that contradict each other.")
        kinds = collections.Counter(SHORT[each.verdict] for each in found)
        yield counted("What explains them:", *(f"{times(count)} {kind}" for kind, count in kinds.most_common()))
    yield from doubts(run, found, left, others, local)
    told = found if options.all else found[:MOST]
    for each in told:
        yield from one_contradiction(run, each, sure, local)
    if len(told) < len(found):
        yield counted(f"--all tells the {len(found) - len(told)} others as well.")


def doubts(run, found, left, others, local):
    """What keeps the contradictions from being all, or from being proved."""
    if left:
        yield counted(f"{many(left, 'answer')} weren't looked at: they are the oldest of visits with too many for "
                      "`css agree`.")
    if others:
        yield counted(f"{many(others, 'answer')} have another width than by --local-error {local.error} and "
                      f"--local-precision {local.precision}: give those of the watch, or nothing here is proved.")
    known = {each.stretch.index for each in found}
    for stretch in run.stretches:
        if stretch.why == "disagree" and stretch.index not in known:
            yield counted(f"The watch says of visit {stretch.visit} that its answers contradict each other, and `css "
                          "agree` finds none that do.")


def one_contradiction(run, found, sure, local):
    when = clock(found.reading - run.first)
    yield sure(f"{when}, visit {found.stretch.visit}: two answers can't both be true, by {found.excess} ns.",
               f"by the first the wall clock is at {found.low} or later at the reading {found.reading}",
               *exchange_lines(found.first),
               f"by the second it is at {found.high} or earlier",
               *exchange_lines(found.second))
    if found.named is False:
        yield counted("The watch named two others.")
    yield counted(explanation(found, local))
    if found.reconciles is None:
        yield counted("No error that a set can declare, up to 100,000 ppm, makes both true.")
    else:
        least = -(-found.reconciles * 10 // 256) / 10
        yield counted(f"Both can be true where the set declares {least:.1f} ppm or more.")


def exchange_lines(exchange):
    name = {1: "response", 2: "response", 3: "follow-up"}[exchange.kind]
    yield f"  originate {exchange.t1}, receive {exchange.t2}, transmit {exchange.t3}"
    landed = f", its response at {exchange.t4}" if exchange.t4 != exchange.landed else ""
    yield f"  landed at {exchange.landed}{landed}"
    yield f"  request   {request_of(exchange).hex()}"
    yield f"  {name:9} {answer_of(exchange).hex()}"


def explanation(found, local):
    if found.verdict == "few":
        return "What explains it can't be told: too few answers came before it, or after it."
    if found.verdict == "oscillator":
        return (f"A worse oscillator explains it: one even drift, of {found.drift.least:+.1f} to "
                f"{found.drift.greatest:+.1f} ppm, goes through all answers around it.")
    if found.verdict == "set":
        low, high = jump(found, local)
        way, low, high = ("forward", low, high) if low + high > 0 else ("back", -high, -low)
        return f"A clock that was set explains it, {way} by {ms(low)} to {ms(high)}; no worse oscillator does."
    if found.verdict == "one":
        return "One wrong answer explains it: without it those before and those after fit an even clock."
    if found.verdict == "set or one":
        return "A clock that was set explains it, and so does one wrong answer; no worse oscillator does."
    return "Neither a worse oscillator, nor a clock that was set once, nor one wrong answer explains it."


def the_ends(run):
    whys = collections.defaultdict(list)
    for end in run.ends:
        whys[end.what].append(end)
    if not whys:
        yield counted("Nothing ended a visit, and no session closed.")
    for why, ends in whys.items():
        moments = [at(run, end) for end in ends[:MOST]] + ["and so on"][:len(ends) - MOST]
        yield counted(f"{why}, {times(len(ends))}:", *moments)
    for (service, why), count in run.dials.most_common():
        yield counted(f"Dials of {service} failed: {why}, told {times(count)}.")
    for slept in run.slept:
        yield counted(f"{at(run, slept)}: {slept.what}.")


def sections(run, found, left, options, local):
    """The parts of a report, in their order."""
    return [Section("The set", [*the_set(run)]), Section("The run", [*the_run(run, options, local)]),
            Section("Its texts", [*the_texts(run)]), Section("Faults", [*the_faults(run, options.all)]),
            Section("Contradictions", [*the_contradictions(run, found, left, options, local)]),
            Section("Ends of visits", [*the_ends(run)]), Section("The position", [*the_widths(run)])]


def head_of(version, local):
    """What stands above a report."""
    return [f"Report on a television, by {version}",
            "proved: it follows from the lines, by css agree --pairs, while this machine's clock keeps "
            f"{ppm(local.error)} ppm and {local.precision} ns.",
            "counted: it was read off the lines, or worked out from them."]


def text(head, parts):
    """A report as lines."""
    lines = list(head)
    for part in parts:
        lines += ["", part.title]
        for sentence in part.sentences:
            lines.append(f"{sentence.sure:7}  {sentence.words}")
            lines += [f"           {line}" for line in sentence.below]
    return "\n".join(lines) + "\n"
