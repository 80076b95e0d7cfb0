#!/usr/bin/env python3
"""A television that is wrong in ten ways, one after another. It is for trying a companion, tools/page.py or
tools/report.py.

    tools/wrong_tv.py [--port 6680] [--every 4] [WAY ..]    in all ways, or in these
    tools/wrong_tv.py --list                                the ways

It has CSS-CII and its wall clock at this port of 127.0.0.1, and CSS-TS at the next one. For so many seconds it does
well. Then it does a thing that a television must not do, and after half of that time it does well again. It says each
thing on standard output, and ends after the last.
"""
import argparse
import sys
import time

from television import ERROR, PLAIN, Set


def no_object(tv):
    tv.say("CII", [])


def unreadable(tv):
    tv.tell({**tv.control, "contentTime": "soon"})


def strange(tv):
    if tv.request:
        tv.strange()


def clock_set(tv):
    tv.jump(5)


def no_address(tv):
    tv.instead = {"tsUrl": "http://127.0.0.1/"}
    tv.update()


def hangs_up(tv):
    tv.greets = "closed"
    tv.hang_up("CII")


def oscillator(tv):
    tv.run_fast(3 * ERROR // 256)


def set_by_2_ms(tv):
    tv.jump(0.002)


def late_follow_up(tv):
    """A request takes 2 ms, so that an answer may be half of that too late without being impossible."""
    tv.begin_anew(follows=True, slow=2_000_000, late=1_000_000)


def correlation(tv):
    """The tick that is shown is right, and the time of the wall clock that is told with it isn't."""
    tv.tell({**tv.control, "wallClockTime": str(int(tv.control["wallClockTime"]) + 40_000_000)})


def well(tv):
    tv.instead, tv.greets = {}, "well"
    if tv.late:
        tv.begin_anew(follows=False, slow=0, late=0)
    tv.run_fast(PLAIN)
    tv.update()
    tv.go_on()


# The word for each way, what the television does then, and how.
WAYS = {"text": ("says a CSS-CII text that is no JSON object", no_object),
        "control": ("tells a time of its content that is no number", unreadable),
        "strange": ("sends datagrams that are no answers, and an impossible one", strange),
        "clock": ("sets its wall clock forward by 5 s, and hangs up no session", clock_set),
        "address": ("tells a tsUrl that is no address of a WebSocket", no_address),
        "closed": ("hangs up each session of CSS-CII at once", hangs_up),
        "oscillator": ("has an oscillator that is 3 times worse than it declares", oscillator),
        "2ms": ("sets its wall clock forward by 2 ms, and hangs up no session", set_by_2_ms),
        "follow-up": ("sends follow-ups that tell a time after their sending", late_follow_up),
        "correlation": ("tells a wallClockTime that is 40 ms off", correlation)}


def way(word):
    if word not in WAYS:
        raise argparse.ArgumentTypeError(f"there is no way {word}: --list has them")
    return word


def main(words):
    parser = argparse.ArgumentParser(description=__doc__, formatter_class=argparse.RawDescriptionHelpFormatter)
    parser.add_argument("--port", type=int, default=6680)
    parser.add_argument("--every", type=float, default=4, metavar="SECONDS")
    parser.add_argument("--list", action="store_true")
    parser.add_argument("ways", metavar="WAY", nargs="*", type=way)
    options = parser.parse_args(words)
    if options.list:
        for name, (told, _) in WAYS.items():
            print(f"{name:12} it {told}")
        return
    tv = Set(options.port)
    for told, act in (WAYS[name] for name in options.ways or WAYS):
        time.sleep(options.every)
        print(f"the television {told}", flush=True)
        act(tv)
        time.sleep(options.every / 2)
        well(tv)
    time.sleep(options.every)
    tv.end()


if __name__ == "__main__":
    main(sys.argv[1:])
