"""Prints where a television is: `READING ticks LO HI`, or `READING none CAUSE`.

    python3 -m css_companion [--every SECONDS] [--count N] [--selector SELECTOR] [--stem STEM] URL

URL is that of its CII service, as ws://192.168.1.20:6677/cii. READING is of this machine's monotone clock, in
nanoseconds. It ends after N lines; without --count it goes on.
"""
import argparse
import asyncio
import contextlib
import sys

from .companion import PTS
from .follow import Place, follow


def line(place: Place) -> str:
    if place.position is None:
        return f"{place.reading} none {place.cause}"
    return f"{place.reading} ticks {place.position.lo} {place.position.hi}"


async def show(options: argparse.Namespace) -> None:
    words = {"every": options.every, "selector": options.selector, "stem": options.stem}
    async with contextlib.aclosing(follow(options.url, **words)) as places:
        left = options.count
        async for place in places:
            print(line(place), flush=True)
            left = left and left - 1
            if left == 0:
                return


def main() -> None:
    parser = argparse.ArgumentParser("css_companion", description=__doc__,
                                     formatter_class=argparse.RawDescriptionHelpFormatter)
    parser.add_argument("url", metavar="URL")
    parser.add_argument("--every", type=float, default=1.0, metavar="SECONDS", help="default 1")
    parser.add_argument("--count", type=int, metavar="N", help="how many lines")
    parser.add_argument("--selector", default=PTS, help=f"the timeline, default {PTS}")
    parser.add_argument("--stem", default="", help="how the content id has to begin")
    try:
        asyncio.run(show(parser.parse_args()))
    except (KeyboardInterrupt, BrokenPipeError):
        sys.exit(130)


if __name__ == "__main__":
    main()
