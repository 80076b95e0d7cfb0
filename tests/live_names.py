"""Names of hosts: one with two addresses, and one that nobody knows. They need a file of hosts and a server of names of
their own, which only root can put in the place of the machine's, for the program alone. The server is at an address of
this machine that no other run has taken."""
import errno, json, os, select, socket, struct, subprocess, tempfile, threading, time

from live_edge import PATIENCE, Beside, Listener, patiently, slower, state, stop, teller, wait_for
from live_peer import TEXT, nanos, stamp, start
from live_server import Server, state_of, wall

NAME, RESOLVERS = "two-homes", [f"127.0.77.{last}" for last in range(1, 255)]
UNKNOWN, SHARED, SILENT = "nobody.example", "neither.example", "silent.example"
LONG = ("--seconds", "3600", "--reports", "1000000")
LOOKS_UP = 6  # How long a look-up waits for an answer, in seconds.
MOUNT = 'mount --bind "$0/hosts" /etc/hosts && mount --bind "$0/resolv.conf" /etc/resolv.conf && exec "$@"'


class Names:
    """A server of names that knows none, and notes when each was asked for its IPv4 addresses. One isn't answered."""

    def __init__(self):
        self.socket = socket.socket(socket.AF_INET, socket.SOCK_DGRAM)
        self.address, self.asked = self.take(), []
        threading.Thread(target=self.answer, daemon=True).start()

    def take(self):
        """The first address whose port of names is free."""
        for address in RESOLVERS:
            try:
                self.socket.bind((address, 53))
                return address
            except OSError as error:
                if error.errno != errno.EADDRINUSE or address == RESOLVERS[-1]:
                    raise

    def answer(self):
        while True:
            try:
                query, sender = self.socket.recvfrom(512)
            except OSError:
                return
            at, labels = 12, []
            while query[at]:
                labels.append(query[at + 1:at + 1 + query[at]].decode())
                at += 1 + query[at]
            name = ".".join(labels)
            if struct.unpack(">H", query[at + 1:at + 3])[0] == 1:
                self.asked.append((time.monotonic(), name))
            if name == SILENT:
                continue
            # The query with the marks of an answer, and of a name that isn't there.
            self.socket.sendto(query[:2] + b"\x81\x83" + query[4:at + 5], sender)

    def times(self, name):
        """When a name was asked for."""
        return [at for at, asked in self.asked if asked == name]


def words_with(folder, names):
    """The words that run a program with a name of two addresses, and with this server of names."""
    with open(os.path.join(folder, "hosts"), "w", encoding="ascii") as file:
        file.write(f"127.0.0.1 localhost\n::1 {NAME}\n127.0.0.1 {NAME}\n")
    with open(os.path.join(folder, "resolv.conf"), "w", encoding="ascii") as file:
        file.write(f"nameserver {names.address}\noptions attempts:1 timeout:{LOOKS_UP}\n")
    return ["unshare", "-m", "sh", "-c", MOUNT, folder]


def addresses(words):
    """The addresses of the name, in the order of the resolver; none where that can't be tried."""
    ask = f"import socket; print(*[one[4][0] for one in socket.getaddrinfo('{NAME}', 1, type=socket.SOCK_STREAM)])"
    try:
        return subprocess.run([*words, "python3", "-c", ask], capture_output=True, timeout=60).stdout.decode().split()
    except (OSError, subprocess.SubprocessError):
        return []


class Named(Server):
    """A television at the name's last address."""

    def cii(self, peer):
        told = {"wcUrl": f"udp://{NAME}:{self.port}", "tsUrl": f"ws://{NAME}:{self.port + 1}/ts"}
        peer.say(json.dumps({**state_of(self.port), **told}).encode(), TEXT)


def two_homes(check, times, program, port, words):
    """A television is at the second of two addresses of a name."""
    server = Named(port)
    lasting = slower(["--report-every", "500000000", "--turns", "3000"], times)
    child = start([*words, *program], ["companion", "--cii", f"ws://{NAME}:{port}/cii", "--reports", "5", *lasting])
    lines = child.stdout.read().decode().splitlines()
    last = lines[-1] if lines else child.stderr.read().decode()
    check("a wall clock at the second address of its name is asked", child.wait(PATIENCE) == 0
          and last.startswith("5 ticks "), last)
    server.end()


def lookups(names, name, begun, count):
    """When a name was looked up, in seconds from the begin of a run: once it was so often, or too late."""
    wait_for(lambda: len(names.times(name)) >= count, 2 * PATIENCE)
    return [at - begun for at in names.times(name)]


def are_apart(times, seconds):
    """Whether a name was looked up again, and no look-up came sooner than so many seconds after the one before: the run
    began before the first of them."""
    return len(times) > 1 and all(at >= seconds * number for number, at in enumerate(times))


class Clocks:
    """A wall clock at one of the two addresses of the name. It answers where the second address is asked: the last
    request that came to its own."""

    def __init__(self, home):
        self.home, self.asked, self.last, self.ends = home, [], {}, False
        self.sockets = [socket.socket(family, socket.SOCK_DGRAM) for family in (socket.AF_INET6, socket.AF_INET)]
        self.sockets[0].bind(("::1", 0))
        self.port = self.sockets[0].getsockname()[1]
        self.sockets[1].bind(("127.0.0.1", self.port))
        threading.Thread(target=self.take, daemon=True).start()

    def take(self):
        while not self.ends:
            for one in select.select(self.sockets, [], [], 0.1)[0]:
                at, (data, sender) = self.sockets.index(one), one.recvfrom(64)
                self.last[at] = data[8:16], sender
                self.asked.append((nanos(data[8:16]), at))
                if at == 1:
                    self.answer(*self.last[self.home])
        for one in self.sockets:
            one.close()

    def answer(self, originate, sender):
        received = stamp(wall())
        answer = bytes([0, 1, 0xec, 0]) + struct.pack(">I", 128000) + originate + received + stamp(wall())
        self.sockets[self.home].sendto(answer, sender)

    def places(self):
        """The addresses that were asked, in the order of the requests."""
        return [at for _, at in sorted(self.asked)]

    def end(self):
        self.ends = True


def asked_in_turn(check, program, words, home, name):
    """The sessions are at another address than the wall clock, so nothing tells at which of its two the clock is."""
    clocks = Clocks(home)
    server = Listener(teller({**state(), "wcUrl": f"udp://{NAME}:{clocks.port}"}), host="127.0.0.5")
    child = start([*words, *program], ["watch", "--cii", f"ws://127.0.0.5:{server.port}/cii", "--seconds", "40",
                                       "--ask-every", "50000000"])
    answer = next((line for line in child.stdout if b'"event":"answer"' in line), b"")
    places = clocks.places()
    stop(child)
    check(f"{name} is accepted", answer != b"", places[:20])
    check(f"{name}: the fifth request goes to the second address", places[:5] == [0, 0, 0, 0, 1], places[:20])
    for one in (server, clocks):
        one.end()


def unknown(check, program, names, words):
    """A name that nobody knows is looked up once in five seconds."""
    begun = time.monotonic()
    child = start([*words, *program], ["companion", "--cii", f"ws://{UNKNOWN}:6677/cii", *LONG])
    times = lookups(names, UNKNOWN, begun, 3)
    stop(child)
    check("a name that isn't found is looked up at most once in 5 seconds", are_apart(times, 5), times)


def shared(check, program, names, words):
    """A television's wall clock and timestamps are at a name that nobody knows."""
    homeless = {**state(), "wcUrl": f"udp://{SHARED}:6677", "tsUrl": f"ws://{SHARED}:6678/ts"}
    server = Listener(teller(homeless))
    begun = time.monotonic()
    child = start([*words, *program], ["companion", "--cii", f"ws://127.0.0.1:{server.port}/cii", *LONG])
    times = lookups(names, SHARED, begun, 3)
    stop(child)
    check("so is one of two sessions", are_apart(times, 5), times)
    server.end()


def unanswered(check, program, names, words):
    """A look-up that nobody answers holds everything else up, so there is time between two of them."""
    begun = time.monotonic()
    child = start([*words, *program], ["companion", "--cii", f"ws://{SILENT}:6677/cii", *LONG])
    times = lookups(names, SILENT, begun, 2)
    stop(child)
    check("a name is looked up again 5 s after the end of a look-up that nobody answered",
          are_apart(times, LOOKS_UP + 5), times)


def named_hosts(port, program, check):
    with tempfile.TemporaryDirectory() as folder:
        try:
            names = Names()
        except OSError as error:
            check.skip("names of hosts", error)
            return
        words = words_with(folder, names)
        if addresses(words) != ["::1", "127.0.0.1"]:
            check.skip("names of hosts", "no file can be put in the place of the machine's")
            return
        Beside([(patiently, two_homes, program, port, words),
                (asked_in_turn, program, words, 1, "an answer of the second address"),
                (asked_in_turn, program, words, 0, "a late answer of the first address"),
                *[(call, program, names, words) for call in (unknown, shared, unanswered)]]).tell(check)
