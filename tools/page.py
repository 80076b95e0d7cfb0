#!/usr/bin/env python3
"""Shows a television live, out of the lines of `watch`: a page, and the lines themselves, on 127.0.0.1 alone.

    css watch --cii URL | css-page              the page is http://127.0.0.1:8070/
    css-page --replay FILE                      saved lines, each when its reading is due; with --fast all at once
    css watch .. | css-page --host 192.168.1.7  also for other machines of the network, such as a telephone

In a checkout these are ./css and tools/page.py, and examples/evening.lines has the lines of an evening. With --host the
URL that is printed has a token, which is another one each time; who doesn't know it is served nothing.

At lines, beside the page, the lines come as server-sent events, each as it was read, with an id to go on from. An event
of the name `page` comes between them: how old the last line is, in ms, and whether there will be more. Reading never
waits for a page: the last lines are kept for all pages together, and a page that falls behind them is dropped, and
connects again.
"""
import argparse
import base64
import collections
import hashlib
import hmac
import html
import http.server
import ipaddress
import json
import os
import pathlib
import re
import secrets
import signal
import socket
import socketserver
import sys
import threading
import time

KEPT_LINES, KEPT_BYTES, LONGEST = 20_000, 1 << 25, 1 << 20
CONNECTIONS, PATIENCE, BATCH = 64, 5, 500
SECOND = 10**9
GREATEST = 2**32 * SECOND
LASTING = (("visit", None), ("state", None), ("control", None), ("dial", "CII"), ("dial", "WC"), ("dial", "TS"))
RUN = os.urandom(6).hex()  # Parts the ids of this run from those of the one before.
LETTERS = "abcdefghijkmnpqrstuvwxyz23456789"  # Those that nobody mistakes who types a token at a telephone.
NAME = pathlib.Path(sys.argv[0]).name


class Log:
    """The last lines that were read, counted from 1, and of older ones what still holds. Whoever adds a line never
    waits for a page."""

    def __init__(self):
        self.changed = threading.Condition()
        self.kept, self.size, self.count, self.older = collections.deque(), 0, 0, {}
        self.long, self.ended, self.last = 0, False, time.monotonic()

    def add(self, line):
        kind = kind_of(line)
        with self.changed:
            self.kept.append((line, kind))
            self.size += len(line)
            self.count += 1
            self.last = time.monotonic()
            while len(self.kept) > KEPT_LINES or self.size > KEPT_BYTES:
                line, kind = self.kept.popleft()
                self.size -= len(line)
                hold(self.older, kind, self.first(), line)
            self.changed.notify_all()

    def first(self):
        """How many lines aren't kept any more."""
        return self.count - len(self.kept)

    def end(self):
        with self.changed:
            self.ended = True
            self.changed.notify_all()

    def begin(self, number):
        """The number that a page goes on from that has all lines up to this one, and what it needs of those between.
        Where lines are missing it leaves out some more, so that it isn't behind again at once."""
        with self.changed:
            first, older = self.first(), dict(self.older)
            if number >= first:
                return min(number, self.count), []
            begin = first + len(self.kept) // 4
            for at in range(first, begin):
                line, kind = self.kept[at - first]
                hold(older, kind, at + 1, line)
            return begin, sorted(one for one in older.values() if one[0] > number)

    def after(self, number, ended, seconds):
        """Some of the lines after this number, once there is something new; None where they aren't kept any more."""
        with self.changed:
            self.changed.wait_for(lambda: self.count > number or self.ended != ended, seconds)
            at, batch, size = number - self.first(), [], 0
            while 0 <= at < len(self.kept) and len(batch) < BATCH and size < LONGEST:
                batch.append(self.kept[at][0])
                size += len(batch[-1])
                at += 1
            return None if at < 0 else batch

    def state(self, number):
        """What an event `page` says, to a page that has all lines up to this number; None where there are more."""
        with self.changed:
            age = round(1000 * (time.monotonic() - self.last))
            return {"age": age, "ended": self.ended, "long": self.long} if self.count == number else None


def read(line):
    """What a line says; nothing where it is no object."""
    try:
        said = json.loads(line)
    except (ValueError, RecursionError):
        return {}
    return said if isinstance(said, dict) else {}


def kind_of(line):
    """The event of a line that holds until there is another one of its kind; None of any other line."""
    said = read(line)
    kind = said.get("event"), said.get("service")
    return kind if kind in LASTING else None


def hold(older, kind, number, line):
    """Puts a line to what holds. With a visit all begins anew."""
    if kind == ("visit", None):
        older.clear()
    if kind:
        older[kind] = number, line


def file_of(name):
    """A file of the page: beside this program or in its own folder of a checkout, else in ../share/css."""
    folder = pathlib.Path(__file__).resolve().parent
    places = [folder, folder.parent / "javascript" / "css-lines", folder.parent / "share" / "css"]
    return next((place / name for place in places if (place / name).is_file()), places[-1] / name)


def page_text():
    """The page, with the module that tells where the television is, as a part of its script."""
    page, module = (file_of(name).read_text(encoding="utf-8") for name in ("page.html", "css-lines.js"))
    place = "// tools/page.py puts the module css-lines here.\n"
    return page.replace(place, re.sub("^export ", "", module, flags=re.M), 1)


def document(options):
    """The page, with what the lines don't tell, and the policy that it has no other script and asks nobody else."""
    told = {"local-error": options.local_error, "local-precision": options.local_precision,
            "selector": options.selector, "cii": options.cii, "names": json.dumps(dict(options.name))}
    data = " ".join(f'data-{name}="{html.escape(str(value))}"' for name, value in told.items())
    page = page_text().replace("<body>", f"<body {data}>", 1)
    policy = "default-src 'none'; connect-src 'self'; img-src data:; base-uri 'none'; frame-ancestors 'none'"
    for name in ("script", "style"):
        inner = re.search(f"<{name}>(.*?)</{name}>", page, re.S)[1]
        policy += f"; {name}-src 'sha256-{base64.b64encode(hashlib.sha256(inner.encode()).digest()).decode()}'"
    return page.encode(), policy


def event(number, line):
    return b"id: %s-%d\ndata: %s\n\n" % (RUN.encode(), number, line)


class Handler(http.server.BaseHTTPRequestHandler):
    timeout = PATIENCE  # For each read and for each write.
    server_version, sys_version = "css-page", ""

    def log_message(self, *_):
        pass

    def handle(self):
        """The whole head of a request has its time, also where it comes byte by byte."""
        self.late = threading.Timer(PATIENCE, self.shut)
        self.late.daemon = True
        self.late.start()
        try:
            super().handle()
        finally:
            self.late.cancel()

    def shut(self):
        try:
            self.connection.shutdown(socket.SHUT_RDWR)
        except OSError:
            pass  # It is gone already.

    def parse_request(self):
        """A request that isn't GET, or that names another host, or that another site's page makes, isn't heard
        further. Browsers say whose page asks, in one or the other of two fields; a link to the page may be anywhere."""
        parsed = super().parse_request()
        self.late.cancel()
        if not parsed:
            return False
        if self.command != "GET":
            return self.refuse(405, "GET alone", Allow="GET")
        hosts = self.headers.get_all("Host", [])
        if hosts not in [[host] for host in self.server.hosts]:
            return self.refuse(403, "this name isn't served")
        site, kind = (self.headers.get(f"Sec-Fetch-{name}", "none") for name in ("Site", "Dest"))
        is_link = kind == "document" and not self.is_at("lines")
        if self.headers.get_all("Origin", []) not in ([], [f"http://{hosts[0]}"]) or (
                site not in ("none", "same-origin") and not is_link):
            return self.refuse(403, "other sites aren't served")
        return True

    def is_at(self, name):
        """Whether the path has the token, and this name behind it. How long it takes tells nothing of the token. The
        page's own path may lack its last slash."""
        path = self.path if name else f"{self.path.rstrip('/')}/"
        return hmac.compare_digest(path.encode("latin-1"), f"{self.server.root}{name}".encode())

    def refuse(self, status, words, **headers):
        self.begin(status, "text/plain; charset=utf-8", **headers)
        if self.command != "HEAD":
            self.wfile.write(f"{words}\n".encode())
        return False

    def begin(self, status, kind, **headers):
        self.close_connection = True
        self.send_response(status)
        always = {"Content-Type": kind, "Cache-Control": "no-store", "X-Content-Type-Options": "nosniff",
                  "Referrer-Policy": "no-referrer", "Cross-Origin-Resource-Policy": "same-origin"}
        for name, value in {**always, **headers}.items():
            self.send_header(name, value)
        self.end_headers()

    def do_GET(self):
        if self.is_at(""):
            page, policy = self.server.document
            self.begin(200, "text/html; charset=utf-8", **{"Content-Security-Policy": policy})
            self.wfile.write(page)
        elif self.is_at("lines"):
            self.begin(200, "text/event-stream; charset=utf-8")
            self.lines(self.server.log)
        else:
            self.refuse(404, "nothing is here")

    def lines(self, log):
        """Hands the lines on, until the page is gone or too slow."""
        run, _, number = self.headers.get("Last-Event-ID", "").partition("-")
        number, older = log.begin(int(number) if run == RUN and re.fullmatch(r"[0-9]{1,18}", number) else 0)
        ended, told = False, -1.0
        self.wfile.write(b"retry: 500\n\n" + b"".join(event(*one) for one in older))
        while (batch := log.after(number, ended, 1)) is not None:
            events = [event(at, line) for at, line in enumerate(batch, number + 1)]
            number += len(batch)
            state = log.state(number)
            if state and (state["ended"] != ended or time.monotonic() - told >= 1):
                ended, told = state["ended"], time.monotonic()
                events.append(b"event: page\ndata: %s\n\n" % json.dumps(state).encode())
            self.wfile.write(b"".join(events))


class Server(socketserver.ThreadingTCPServer):
    """Not the HTTPServer of the library: that one looks up the name of its address, which may ask the network."""
    daemon_threads = allow_reuse_address = True

    def __init__(self, host, port, log, page):
        """With a host all stands below a token of 80 bits; without one there is 127.0.0.1, which needs none."""
        self.log, self.document = log, page
        self.root = "/" if host is None else f"/{''.join(secrets.choice(LETTERS) for _ in range(16))}/"
        if host and host.version == 6:
            self.address_family, self.hosts = socket.AF_INET6, [f"[{host}]:{port}"]
        else:
            self.hosts = [f"{host}:{port}"] if host else [f"127.0.0.1:{port}", f"localhost:{port}"]
        self.url = f"http://{self.hosts[0]}{self.root}"
        self.rooms = threading.BoundedSemaphore(CONNECTIONS)
        super().__init__((str(host or "127.0.0.1"), port), Handler)

    def process_request(self, request, client_address):
        if self.rooms.acquire(blocking=False):
            super().process_request(request, client_address)
        else:
            self.shutdown_request(request)

    def process_request_thread(self, request, client_address):
        try:
            super().process_request_thread(request, client_address)
        finally:
            self.rooms.release()

    def handle_error(self, *_):
        """A page that goes, or doesn't read, is no fault of this program."""
        if not isinstance(sys.exc_info()[1], OSError):
            super().handle_error(*_)


def whole_lines(file, log):
    """The lines of a file that aren't empty. What is too long for a line is counted alone."""
    while line := file.readline(LONGEST):
        if len(line) == LONGEST and not line.endswith(b"\n"):
            log.long += 1
            while (more := file.readline(LONGEST)) and not more.endswith(b"\n"):
                pass
        elif line := line.rstrip(b"\r\n").replace(b"\r", b" "):  # In JSON it is a space; in an event it is an end.
            yield line


def reading_of(line):
    """The reading that a line tells, and whether the line begins a watch."""
    said = read(line)
    begins = (said.get("event"), said.get("number")) == ("visit", 1)
    try:
        reading = int(said.get("reading", said.get("landed")))
    except (ValueError, TypeError):
        return None, begins
    return (reading, begins) if 0 <= reading < GREATEST else (None, begins)


def paced(lines):
    """Each line when its reading is due, counted from the first one of its watch."""
    first = last = begun = None
    for line in lines:
        reading, begins = reading_of(line)
        if reading is not None:
            if first is None or begins or reading < last:
                first, begun = reading, time.monotonic()
            last = reading
            time.sleep(max(0, begun + (reading - first) / SECOND - time.monotonic()))
        yield line


def ranged(low, high):
    def number(word):
        value = int(word)
        if not low <= value <= high:
            raise argparse.ArgumentTypeError(f"{word} isn't from {low} to {high}")
        return value
    return number


def address(word):
    """An address at which others reach this machine."""
    try:
        found = ipaddress.ip_address(word)
    except ValueError:
        raise argparse.ArgumentTypeError(f"{word} is no address, such as 192.168.1.7") from None
    if found.is_unspecified or found.is_multicast or "%" in word:
        raise argparse.ArgumentTypeError(f"{word} isn't the one address by which others reach this machine")
    return found


def named(word):
    stem, is_there, name = word.partition("=")
    if not is_there or not stem or not name:
        raise argparse.ArgumentTypeError(f"{word} isn't STEM=NAME, such as dvb://233a.1004.1044=News")
    return stem, name


def options_of(words):
    parser = argparse.ArgumentParser(prog=NAME, description=__doc__,
                                     formatter_class=argparse.RawDescriptionHelpFormatter)
    parser.add_argument("--host", type=address, metavar="ADDRESS", help="this address of this machine, with a token, "
                        "in the place of 127.0.0.1; the network may read along, since it is http")
    parser.add_argument("--port", type=ranged(1024, 65535), default=8070, help="default 8070")
    parser.add_argument("--cii", metavar="URL", default="", help="as that of the watch, so that the page can name it")
    parser.add_argument("--name", type=named, metavar="STEM=NAME", action="append", default=[],
                        help="the name of the programmes whose content id begins so; the longest STEM counts")
    parser.add_argument("--local-error", type=ranged(0, 2_560_000), default=128_000, help="as that of the watch")
    parser.add_argument("--local-precision", type=ranged(0, SECOND), default=1000, help="as that of the watch")
    parser.add_argument("--selector", default="urn:dvb:css:timeline:pts", help="as that of the watch")
    parser.add_argument("--replay", metavar="FILE", help="saved lines, in the place of standard input")
    parser.add_argument("--fast", action="store_true", help="the saved lines all at once")
    options = parser.parse_args(words)
    if options.fast and options.replay is None:
        parser.error("--fast is for --replay")
    return options


def main(words):
    options = options_of(words)
    log = Log()
    try:
        file = sys.stdin.buffer if options.replay is None else open(options.replay, "rb")
        server = Server(options.host, options.port, log, document(options))
    except OSError as fault:
        print(f"{NAME}: {fault}", file=sys.stderr)
        return 1
    serving = threading.Thread(target=server.serve_forever, daemon=True)
    serving.start()
    print(f"{NAME}: {server.url}", file=sys.stderr, flush=True)
    lines = whole_lines(file, log)
    for line in lines if options.replay is None or options.fast else paced(lines):
        log.add(line)
    log.end()
    serving.join()  # The page stays until somebody ends the program.
    return 0


if __name__ == "__main__":
    signal.signal(signal.SIGINT, signal.SIG_DFL)
    sys.exit(main(sys.argv[1:]))
