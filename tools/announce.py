#!/usr/bin/env python3
"""Announces a television of this machine, so that companion applications find it.

    css tv --host 192.168.1.5 ..          the television, whose CSS-CII is at port 6677
    %(prog)s --interface 192.168.1.5

It does what a set of HbbTV does for DIAL. It answers each search in its network with the URL of its description. That
says where its application HbbTV is, which tells the URL of CSS-CII. It goes on until it is ended.
"""
import argparse
import html
import http.server
import os
import re
import signal
import socket
import sys
import threading
import time
import uuid

GROUP, SERVICE = ("239.255.255.250", 1900), "urn:dial-multiscreen-org:service:dial:1"
CONNECTIONS, PATIENCE = 16, 5
APART = 0.05  # Seconds between two answers, so that nobody is flooded in the name of another.
PROGRAM = sys.argv[0] if sys.argv[0][:1] != "/" else os.path.basename(sys.argv[0])
DESCRIPTION = """\
<?xml version="1.0" encoding="UTF-8"?>
<root xmlns="urn:schemas-upnp-org:device-1-0">
  <specVersion><major>1</major><minor>0</minor></specVersion>
  <device>
    <deviceType>urn:schemas-upnp-org:device:tvdevice:1</deviceType>
    <friendlyName>{name}</friendlyName>
    <manufacturer>css</manufacturer>
    <modelName>css tv</modelName>
    <UDN>uuid:{uuid}</UDN>
  </device>
</root>
"""
APPLICATION = """\
<?xml version="1.0" encoding="UTF-8"?>
<service xmlns="urn:dial-multiscreen-org:schemas:dial" dialVer="1.7">
  <name>HbbTV</name>
  <options allowStop="false"/>
  <state>running</state>
  <additionalData>
    <X_HbbTV_InterDevSyncURL xmlns="urn:hbbtv:HbbTVCompanionScreen:2014">{cii}</X_HbbTV_InterDevSyncURL>
  </additionalData>
</service>
"""
ANSWER = """\
HTTP/1.1 200 OK\r
CACHE-CONTROL: max-age=1800\r
EXT:\r
LOCATION: {location}\r
SERVER: css UPnP/1.1 css/1.0\r
ST: {service}\r
USN: uuid:{uuid}::{service}\r
\r
"""


class Handler(http.server.BaseHTTPRequestHandler):
    timeout = PATIENCE

    def log_message(self, *_):
        pass

    def do_GET(self):
        said = self.server.pages.get(self.path)
        self.send_response(200 if said else 404)
        self.send_header("Content-Type", 'text/xml; charset="utf-8"' if said else "text/plain")
        self.send_header("Content-Length", str(len(said or b"")))
        self.send_header("Application-URL", f"{self.server.url}/apps")
        self.end_headers()
        self.wfile.write(said or b"")


def hang_up(conn):
    try:
        conn.shutdown(socket.SHUT_RDWR)
    except OSError:
        pass  # It is over.


class Server(http.server.ThreadingHTTPServer):
    """Serves the description of a set, and that of its application."""

    daemon_threads = True

    def __init__(self, host, **said):
        self.rooms = threading.BoundedSemaphore(CONNECTIONS)
        super().__init__((host, 0), Handler)
        self.url = f"http://{host}:{self.server_port}"
        shown = {key: html.escape(value) for key, value in said.items()}
        self.pages = {"/description.xml": DESCRIPTION.format(**shown).encode(),
                      "/apps/HbbTV": APPLICATION.format(**shown).encode()}

    def server_bind(self):
        """Binds alone: its own asks for the name of this machine, which may take long."""
        self.socket.bind(self.server_address)
        self.server_port = self.socket.getsockname()[1]

    def process_request(self, request, client_address):
        if self.rooms.acquire(blocking=False):
            super().process_request(request, client_address)
        else:
            self.shutdown_request(request)

    def process_request_thread(self, request, client_address):
        late = threading.Timer(PATIENCE, hang_up, [request])
        late.start()
        try:
            super().process_request_thread(request, client_address)
        finally:
            late.cancel()
            self.rooms.release()

    def handle_error(self, *_):
        """A peer that goes, or doesn't read, is no fault of this program."""
        if not isinstance(sys.exc_info()[1], OSError):
            super().handle_error(*_)


def asks(datagram):
    """Whether a datagram is a search that a set answers."""
    head, *lines = datagram.decode("latin-1").split("\r\n")
    fields = {name.strip().lower(): value.strip() for name, _, value in (line.partition(":") for line in lines)}
    return head == "M-SEARCH * HTTP/1.1" and fields.get("st") in (SERVICE, "ssdp:all")


def sockets(host, to):
    """One that hears the searches, and one that answers from the address that is announced."""
    hears = socket.socket(socket.AF_INET, socket.SOCK_DGRAM)
    if to:
        hears.bind(to)
        return hears, hears
    hears.setsockopt(socket.SOL_SOCKET, socket.SO_REUSEADDR, 1)  # Each program for UPnP has this port.
    hears.bind(GROUP)
    hears.setsockopt(socket.IPPROTO_IP, socket.IP_ADD_MEMBERSHIP,
                     socket.inet_aton(GROUP[0]) + socket.inet_aton(host))
    speaks = socket.socket(socket.AF_INET, socket.SOCK_DGRAM)
    speaks.bind((host, 0))
    return hears, speaks


def answer(hears, speaks, said, seconds):
    """Answers each search, for so many seconds."""
    end = time.monotonic() + seconds
    while (left := end - time.monotonic()) > 0:
        hears.settimeout(min(left, 1))
        try:
            datagram, sender = hears.recvfrom(4096)
            if asks(datagram):
                speaks.sendto(said, sender)
                time.sleep(APART)
        except OSError:
            pass  # Nothing came, or who asked can't be reached.


def whole(low, high):
    def number(word):
        if not re.fullmatch("[0-9]{1,9}", word) or not low <= int(word) <= high:
            raise argparse.ArgumentTypeError(f"{word} isn't a whole number from {low} to {high}")
        return int(word)
    return number


def address(word):
    try:
        return socket.gethostbyname(word)
    except (OSError, ValueError):
        raise argparse.ArgumentTypeError(f"{word} is no address such as 192.168.1.5") from None


def place_of(word):
    host, _, port = word.rpartition(":")
    return address(host), whole(1, 65535)(port)


def cii_of(word):
    if not re.fullmatch(r"ws://[0-9.]+(:[0-9]{1,5})?/[!-~]*", word):
        raise argparse.ArgumentTypeError(f"{word} is no URL such as ws://192.168.1.5:6677/cii, with an address in it")
    return word


def name_of(word):
    if not word.strip() or not word.isprintable():
        raise argparse.ArgumentTypeError("a name has letters that can be printed, and no others")
    return word


def options_of(words):
    parser = argparse.ArgumentParser(prog=PROGRAM, description=__doc__,
                                     formatter_class=argparse.RawDescriptionHelpFormatter)
    parser.add_argument("--cii", type=cii_of, metavar="URL",
                        help="the television's CSS-CII: port 6677 of --interface by default")
    parser.add_argument("--name", type=name_of, default="css tv", help="by which people know it: css tv by default")
    parser.add_argument("--interface", type=address, metavar="ADDRESS",
                        help="the address of this machine in the network that may find it: 127.0.0.1 by default")
    parser.add_argument("--to", type=place_of, metavar="HOST:PORT", help="answers at this place alone")
    parser.add_argument("--seconds", type=whole(1, 31_536_000), default=31_536_000, help="how long: a year by default")
    options = parser.parse_args(words)
    told = [options.interface, options.to and options.to[0], options.cii and re.split("[:/]+", options.cii)[1]]
    hosts = list(dict.fromkeys(host for host in told if host)) or ["127.0.0.1"]
    if len(hosts) > 1:
        parser.error(f"companions skip a set that tells of another host, so these have to be one: {', '.join(hosts)}")
    options.host, options.cii = hosts[0], options.cii or f"ws://{hosts[0]}:6677/cii"
    return options


def main(words):
    options = options_of(words)
    own = str(uuid.uuid5(uuid.NAMESPACE_URL, options.cii))
    try:
        hears, speaks = sockets(options.host, options.to)
        server = Server(options.host, name=options.name, cii=options.cii, uuid=own)
    except OSError as fault:
        print(f"{PROGRAM}: {options.host}: {fault}", file=sys.stderr)
        return 1
    threading.Thread(target=server.serve_forever, daemon=True).start()
    location = f"{server.url}/description.xml"
    print(f"{PROGRAM}: {options.cii} is announced by {location}", file=sys.stderr, flush=True)
    answer(hears, speaks, ANSWER.format(location=location, service=SERVICE, uuid=own).encode(), options.seconds)
    return 0


if __name__ == "__main__":
    signal.signal(signal.SIGINT, signal.SIG_DFL)
    sys.exit(main(sys.argv[1:]))
