#!/usr/bin/env python3
"""Finds the televisions of this network that speak DVB-CSS: the name of each, and the URL of its CSS-CII.

    %(prog)s          all of them, one a line
    %(prog)s --one    the URL of one, alone:  css watch --cii "$(%(prog)s --one)"

It asks as companions of HbbTV do, by DIAL. Each set that answers has a description, which says where its application
HbbTV is. That one tells the URL, as X_HbbTV_InterDevSyncURL. What isn't in order is skipped, with a word on standard
error. The status is 1 where none was found.
"""
import argparse
import concurrent.futures
import http.client
import io
import os
import re
import signal
import socket
import sys
import time
from xml.parsers import expat

GROUP, SERVICE = ("239.255.255.250", 1900), "urn:dial-multiscreen-org:service:dial:1"
SEARCHES, APART = 3, 0.5  # A datagram may be lost, so each search is sent so often, so many seconds apart.
ANSWERS, OF_ONE = 64, 4  # So many answers are looked at, and so many of one sender.
LONGEST, PATIENCE = 1 << 16, 5  # The bytes of one HTTP answer, and the seconds for all that is asked of one set.
URL = re.compile(r"([a-z]+)://([^/:?#@]+)(?::([0-9]{1,5}))?(/[!-~]*)?", re.I)
PROGRAM = sys.argv[0] if sys.argv[0][:1] != "/" else os.path.basename(sys.argv[0])
NONE = """\
{}: no television with DVB-CSS was found in {} seconds. What to look at:
  - The set is on, and in the same network as this machine. A guests' network often keeps its machines apart.
  - HbbTV is switched on in its settings, where it may be called interactive or data services.
  - It shows a broadcast whose service has companion screens. Other programmes have no CSS-CII.
  - This machine may have several networks: --interface ADDRESS says by which of its addresses to ask.
  - A firewall here may drop the answers, which come by UDP from port 1900 or another one.\
"""


class Skipped(Exception):
    """Why an answer counts for nothing."""


def shown(text, most=100):
    """A peer's words, as a terminal may have them: what can't be printed is a question mark."""
    return "".join(letter if letter.isprintable() else "?" for letter in text[:most])


class Reader(io.RawIOBase):
    """What a connection says, until its time is over or it has said too much."""

    def __init__(self, conn, end):
        super().__init__()
        self.conn, self.end, self.left = conn, end, LONGEST

    def makefile(self, _mode):
        return io.BufferedReader(self)

    def readable(self):
        return True

    def readinto(self, room):
        count = limited(self.conn, self.end).recv_into(room)
        self.left -= count
        if self.left < 0:
            raise Skipped(f"it says more than {LONGEST} bytes")
        return count


def limited(conn, end):
    """The socket, whose next call ends in time."""
    left = end - time.monotonic()
    if left <= 0:
        raise TimeoutError
    conn.settimeout(left)
    return conn


def got(host, port, path, end):
    """What a set says to a GET: the head, and the text of its XML. No redirect is followed."""
    with socket.socket() as conn:
        limited(conn, end).connect((host, port))
        conn.sendall(f"GET {path} HTTP/1.1\r\nHost: {host}:{port}\r\nConnection: close\r\n\r\n".encode())
        answer = http.client.HTTPResponse(Reader(conn, end), method="GET")
        answer.begin()
        if answer.status != 200:
            raise Skipped(f"{shown(path)} has HTTP status {answer.status}")
        return answer.headers, answer.read(LONGEST).decode("utf-8-sig", "replace")


def element(text, name):
    """The text of the first element with this name, whatever stands before its colon; an empty one where there is
    none."""
    if re.search(r"<!(?!--|\[CDATA\[)", text):
        raise Skipped("its XML declares a document type or entities")
    parser, names, over, parts = expat.ParserCreate(), [], set(), []
    parser.StartElementHandler = lambda tag, _: names.append(tag.rpartition(":")[2])
    parser.EndElementHandler = lambda _: over.add(names.pop())
    parser.CharacterDataHandler = lambda part: parts.append(part) if names[-1] == name and name not in over else None
    try:
        parser.Parse(text, True)
    except expat.ExpatError as fault:
        raise Skipped(f"what it says is no XML: {fault}") from fault
    return "".join(parts).strip()


def place(url, scheme, sender, what):
    """The port and the path of a URL, which has to be one of the sender's own: a set tells of no other host."""
    found = URL.fullmatch(url)
    if not found or not 0 < int(found[3] or 80) < 1 << 16:
        raise Skipped(f"its {what} is no URL: {shown(url)}")
    if found[1].lower() != scheme:
        raise Skipped(f"its {what} isn't {scheme}: {shown(url)}")
    if found[2] != sender:
        raise Skipped(f"its {what} is of another host: {shown(url)}")
    return int(found[3] or 80), found[4] or "/"


def fields(datagram):
    """The header fields of an answer to a search; none of any other datagram."""
    head, *lines = datagram.decode("latin-1").split("\r\n")
    if not re.fullmatch(r"HTTP/1\.[01] 200\b.*", head):
        return {}
    return {name.strip().lower(): value.strip() for name, _, value in (line.partition(":") for line in lines)}


def look(sender, said, end):
    """The name and the URL of the set that sent an answer with these fields."""
    if said.get("st") != SERVICE:
        raise Skipped("it answers another question")
    if not said.get("location"):
        raise Skipped("its answer has no LOCATION")
    head, text = got(sender, *place(said["location"], "http", sender, "LOCATION"), end)
    name = shown(element(text, "friendlyName")) or sender
    applications = head.get_all("Application-URL", [""])[0].strip()
    if not applications:
        raise Skipped(f"{name} tells no Application-URL, so it has no DIAL")
    port, path = place(applications, "http", sender, "Application-URL")
    try:
        _, text = got(sender, port, path.rstrip("/") + "/HbbTV", end)
    except Skipped as why:
        raise Skipped(f"{name}: {why}") from why
    url = element(text, "X_HbbTV_InterDevSyncURL")
    if not url:
        raise Skipped(f"{name} has HbbTV, but tells no X_HbbTV_InterDevSyncURL: is a broadcast on that has CSS?")
    place(url, "ws", sender, "X_HbbTV_InterDevSyncURL")
    return name, url


def answers(to, interface, seconds):
    """Each answer that comes within these seconds: its sender and its bytes."""
    search = (f"M-SEARCH * HTTP/1.1\r\nHOST: {to[0]}:{to[1]}\r\nMAN: \"ssdp:discover\"\r\n"
              f"MX: {min(max(seconds - 2, 1), 5)}\r\nST: {SERVICE}\r\n\r\n").encode()
    with socket.socket(socket.AF_INET, socket.SOCK_DGRAM) as conn:
        conn.setsockopt(socket.IPPROTO_IP, socket.IP_MULTICAST_TTL, 2)
        if interface:
            conn.bind((interface, 0))
            conn.setsockopt(socket.IPPROTO_IP, socket.IP_MULTICAST_IF, socket.inet_aton(interface))
        begun, sent = time.monotonic(), 0
        while (past := time.monotonic() - begun) < seconds:
            if sent < SEARCHES and past >= sent * APART:
                conn.sendto(search, to)
                sent += 1
            conn.settimeout(min(APART, seconds - past))
            try:
                datagram, (sender, _) = conn.recvfrom(4096)
            except (TimeoutError, ConnectionError):
                continue
            yield sender, datagram


def sets(found):
    """The sets among the answers, in the order of their names, and why others are skipped."""
    pool, looked, skipped = concurrent.futures.ThreadPoolExecutor(ANSWERS), {}, {}
    for sender, datagram in found:
        said = fields(datagram)
        key = sender, said.get("location")
        if key in looked:
            continue
        if len(looked) == ANSWERS:
            skipped[f"what came after {ANSWERS} answers"] = None
        elif [of for of, _ in looked].count(sender) == OF_ONE:
            skipped[f"{sender}: it answers more than {OF_ONE} times"] = None
        else:
            looked[key] = pool.submit(look, sender, said, time.monotonic() + PATIENCE)
    names = {}
    for (sender, _), end in looked.items():
        try:
            name, url = end.result()
            names[url] = name
        except Skipped as why:
            skipped[f"{sender}: {why}"] = None
        except TimeoutError:
            skipped[f"{sender}: it takes too long"] = None
        except Exception as fault:  # Whatever a set says, the others are told.
            skipped[f"{sender}: {shown(str(fault) or type(fault).__name__)}"] = None
    return sorted((name, url) for url, name in names.items()), skipped


def whole(low, high):
    def number(word):
        if not re.fullmatch("[0-9]{1,9}", word) or not low <= int(word) <= high:
            raise argparse.ArgumentTypeError(f"{word} isn't a whole number from {low} to {high}")
        return int(word)
    return number


def address(word):
    try:
        return socket.gethostbyname(word)
    except (OSError, ValueError):
        raise argparse.ArgumentTypeError(f"{word} is no address such as 192.168.1.5") from None


def place_of(word):
    host, _, port = word.rpartition(":")
    return address(host), whole(1, 65535)(port)


def options_of(words):
    parser = argparse.ArgumentParser(prog=PROGRAM, description=__doc__,
                                     formatter_class=argparse.RawDescriptionHelpFormatter)
    parser.add_argument("--one", action="store_true", help="the URL of the first by name, and nothing else")
    parser.add_argument("--name", default="", metavar="WORDS", help="only those whose name has these words in it")
    parser.add_argument("--seconds", type=whole(1, 60), default=4, help="how long it waits for answers, 4 by default")
    parser.add_argument("--interface", type=address, metavar="ADDRESS",
                        help="the address of this machine in the network that is asked")
    parser.add_argument("--to", type=place_of, metavar="HOST:PORT", default=GROUP,
                        help="asks this place alone, and not the network")
    return parser.parse_args(words)


def tell(words):
    print(f"{PROGRAM}: {words}", file=sys.stderr)


def main(words):
    options = options_of(words)
    for stream in (sys.stdout, sys.stderr):
        stream.reconfigure(errors="replace")
    try:
        found, skipped = sets(answers(options.to, options.interface, options.seconds))
    except OSError as fault:
        tell(f"the search can't be sent: {fault}")
        return 1
    for why in skipped:
        tell(f"skipped {why}")
    chosen = [(name, url) for name, url in found if options.name.lower() in name.lower()]
    if found and not chosen:
        tell(f"none of them has {shown(options.name)} in its name: {', '.join(name for name, _ in found)}")
    elif not chosen:
        print(NONE.format(PROGRAM, options.seconds), file=sys.stderr)
    elif options.one:
        if chosen[1:]:
            tell(f"{len(chosen)} were found, and this is {chosen[0][0]}; --name WORDS chooses another one")
        print(chosen[0][1])
    else:
        print("\n".join(f"{name}: {url}" for name, url in chosen))
    return 0 if chosen else 1


if __name__ == "__main__":
    signal.signal(signal.SIGINT, signal.SIG_DFL)
    sys.exit(main(sys.argv[1:]))
