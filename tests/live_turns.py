"""No turn of a run is used up by nothing: a run against a silent television pauses in each turn, and takes next to
nothing of a processor."""
import socket, struct, time

from live_edge import (PATIENCE, UPGRADED, Beside, Clock, Listener, closed_port, companion, dial_soon, flood, greet,
                       has_ended, hold, patiently, processor_times, reset, state, stop, teller, upgraded, wait_for)
from live_peer import CLOSE, nanos, request, start

TURNS, LONG, HOUR = ("--turns", "500"), ("--turns", "1000000"), ("--seconds", "3600")
LEAST, MOST = 1.9, 260  # With a pause of 4 ms, 500 turns last 2 seconds, and there are 250 in one.


def silent_clock(check, program, command, long, *words):
    """A wall clock that never answers, asked in each turn, in a run that is long enough."""
    clock = Clock()
    server = Listener(teller(state(clock.port)))
    child = companion(program, server.port, *long, "--ask-every", "1", *words, command=command)
    name = f"a {command} {long[0]} beside a silent wall clock"
    try:
        if not wait_for(lambda: clock.asked):
            check(f"a {command} asks a silent wall clock", False)
            return
        begun, before = time.monotonic(), processor_times(child.pid)[0]
        time.sleep(2)
        took, used = time.monotonic() - begun, processor_times(child.pid)[0] - before
        check(f"{name} takes under 10 % of a processor", used < 0.1 * took,
              f"{100 * used / took:.1f} %")
        # By the time that each request has in it: they may be read late.
        asked = sum(begun <= at / 1e9 <= begun + took for at in list(clock.asked))
        check(f"{name} makes at most {MOST} turns a second", asked <= MOST * took,
              f"{asked / took:.0f} a second")
    finally:
        stop(child)
        clock.end()
        server.end()


def turns_last(check, program, name, serve):
    """A companion makes 500 turns against a server, and none is shorter than a pause. A busy machine makes them longer,
    and never shorter."""
    server, begun = Listener(serve), time.monotonic()
    child = companion(program, server.port, *TURNS, "--ask-every", "1")
    ended = wait_for(lambda: has_ended(child), 2 * PATIENCE)
    took = time.monotonic() - begun
    stop(child)
    check(name, ended and took >= LEAST, f"500 turns in {took:.2f} s")
    server.end()


def pinged(peer):
    greet(peer)
    flood(peer, 2000, 10)


def closing(peer):
    greet(peer)
    peer.say(b"\x03\xe8", CLOSE)
    hold(peer)


def cut(peer):
    greet(peer)
    peer.conn.close()


def told_and_cut(peer):
    greet(peer)
    peer.say(state())
    time.sleep(0.1)
    reset(peer.conn)


def dripping(peer):
    head = peer.head()
    for byte in upgraded(head, (*UPGRADED, "X-Long: " + "a" * 8000)):
        peer.conn.sendall(bytes([byte]))
        time.sleep(0.0003)
    hold(peer)


def refusing(peer):
    peer.head()
    peer.conn.sendall(b"HTTP/1.1 503 Service Unavailable\r\nConnection: close\r\n\r\n")
    peer.conn.close()


def answers(check, _, program, port):
    """A television has requests waiting all the time: each uses one turn. If an answer used another one, 600 turns
    would answer 300. While this program waits for a processor a turn may find none, so a third is let pass, and it is
    tried again."""
    child = start(program, ["tv", "--port", str(port), "--turns", "600"])
    udp = socket.socket(socket.AF_INET, socket.SOCK_DGRAM)
    udp.connect(("127.0.0.1", port))
    udp.setblocking(False)
    asked, answered, end = 0, 0, time.monotonic() + PATIENCE
    while not has_ended(child) and time.monotonic() < end:
        try:
            while asked < answered + 200:
                udp.send(request(time.monotonic_ns()))
                asked += 1
        except OSError:
            asked = answered  # Nobody listens yet, or any longer.
        time.sleep(0.0005)
        answered += taken(udp)
    time.sleep(0.1)
    answered += taken(udp)
    check("an answer to a request uses no further turn of a television", answered > 400,
          f"{answered} answers in 600 turns")
    stop(child)


def taken(udp):
    """How many datagrams have come; they are taken."""
    count = 0
    try:
        while udp.recv(64):
            count += 1
    except OSError:
        pass
    return count


def port_zero(check, program, port):
    """A datagram from port 0 can't be answered. Twenty that come before a request don't hold that up by their pauses.
    Only root can send one."""
    try:
        raw = socket.socket(socket.AF_INET, socket.SOCK_RAW, socket.IPPROTO_UDP)
    except PermissionError as error:
        check.skip("a datagram from port 0", error)
        return
    child = start(program, ["tv", "--port", str(port), *HOUR])
    dial_soon(port, "/cii").conn.close()
    udp, delays = socket.socket(socket.AF_INET, socket.SOCK_DGRAM), []
    udp.settimeout(PATIENCE)
    udp.connect(("127.0.0.1", port))
    for _ in range(15):
        for _ in range(20):
            raw.sendto(struct.pack(">HHHH", 0, port, 40, 0) + request(1), ("127.0.0.1", 0))
        before, sent = processor_times(child.pid)[1], time.monotonic_ns()
        udp.send(request(sent))
        try:
            took = (nanos(udp.recv(64)[16:24]) - sent) / 1e9
            delays.append(took - processor_times(child.pid)[1] + before)  # It could do nothing while it waited.
        except TimeoutError:
            pass
        time.sleep(0.01)
    middle = 1000 * sorted(delays)[len(delays) // 2] if delays else 1000.0
    check("datagrams from port 0 don't hold up a request by pauses", middle < 20, f"{middle:.2f} ms in the middle")
    stop(child)


def turns(port, program, check):
    nobody = f"udp://127.0.0.1:{closed_port()}"
    Beside([
        (silent_clock, program, "companion", LONG, "--reports", "1000000"),
        (silent_clock, program, "companion", HOUR, "--reports", "1000000"),
        (silent_clock, program, "relay", HOUR, "--port", str(port)),
        (turns_last, program, "a wall clock where nobody listens uses up no turns",
         teller({**state(), "wcUrl": nobody})),
        (turns_last, program, "2,000 pings a second use up no turns", pinged),
        (turns_last, program, "a session that was closed uses up no turns", closing),
        (turns_last, program, "a session that was cut uses up no turns", cut),
        (turns_last, program, "a session that ended without a wall clock uses up no turns", told_and_cut),
        (turns_last, program, "a handshake that comes byte by byte uses up no turns", dripping),
        (turns_last, program, "a server that refuses uses up no turns", refusing),
        (turns_last, program, "a server that hangs up uses up no turns", lambda peer: peer.conn.close()),
        (patiently, answers, program, port + 2),
        (port_zero, program, port + 4),
    ]).tell(check)
