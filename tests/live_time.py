"""Runs that last as long as they are asked to: under a flood of datagrams too, and with script times from the start."""
import socket, time

from live_edge import (PATIENCE, Beside, Listener, closed_port, companion, dial_soon, has_ended, patiently,
                       processor_times, slower, stop, wait_for)
from live_peer import start, television

SCRIPT = "0 programme dvb://1\n0 programme dvb://2\n0 timeline 1 urn:dvb:css:timeline:pts 1 90000 0\n0 change 1\n"
LATER = 1_000_000_000
LATE = 4  # Seconds in which a run has ended that was on a processor when it wanted to.


def lasted(check, name, child, seconds, status, begun):
    """Whether a run that was begun then ended after so many seconds, and with this status. The time in which it waited
    for a processor isn't its own."""
    wait_for(lambda: has_ended(child), 60)
    took = time.monotonic() - begun
    late = took - processor_times(child.pid)[1] - seconds
    ended = child.wait(PATIENCE)
    told = child.stderr.read().decode().splitlines()
    check(f"{name} ends when its time is over", took >= seconds and late < LATE and ended == status,
          f"{took:.2f} s, status {ended}, {told[:1]}")
    stop(child)
    return told


def flooded(check, _, program, port):
    """25,000 datagrams a second, most of them no requests, use up none of a television's time."""
    begun = time.monotonic()
    child = start(program, ["tv", "--port", str(port), "--seconds", "5"], SCRIPT)
    with socket.socket(socket.AF_INET, socket.SOCK_DGRAM) as udp:
        udp.connect(("127.0.0.1", port))
        sent = 0
        while time.monotonic() < begun + 6 and not has_ended(child):
            for _ in range(45):
                try:
                    udp.send(b"x" * 32)
                    sent += 1
                except OSError:
                    pass  # Nobody listens yet, or any longer.
            time.sleep(0.001)
    lasted(check, f"a television under a flood of {sent // 5} datagrams a second", child, 5, 0, begun)


def alone(check, times, program):
    """A companion that reaches nobody."""
    begun, every = time.monotonic(), str(times * LATER // 2)
    child = companion(program, closed_port(), "--seconds", str(2 * times), "--reports", "9", "--report-every", every)
    lines = child.stdout.read().decode().splitlines()
    told = lasted(check, "a companion of nobody", child, 2 * times, 10, begun)
    numbers = [line.split()[0] for line in lines]
    check("and made the reports of its time", numbers and numbers == ["1", "2", "3", "4"][:len(numbers)], lines)
    check("and says that it reached nobody", told and told[0].startswith("css: unreachable after "), told)


def hung_up(check, times, program):
    """A television that hangs up at once uses up none of a companion's time."""
    server = Listener(lambda peer: peer.conn.close())
    begun = time.monotonic()
    child = companion(program, server.port, "--seconds", str(3 * times), "--reports", "1000")
    lasted(check, "a companion of a television that hangs up", child, 3 * times, 10, begun)
    server.end()


def relayed(check, times, program, port):
    """A relay of a television, and a companion of the relay: each ends when its time is over."""
    set_on = television(program, port, SCRIPT)
    begun = time.monotonic()
    relay = companion(program, port, "--port", str(port + 2), "--seconds", str(3 * times), command="relay")
    second = companion(program, port + 2, "--seconds", str(2 * times), "--reports", "1000")
    lasted(check, "a companion of a relay", second, 2 * times, 9, begun)
    lasted(check, "a relay", relay, 3 * times, 0, begun)
    stop(set_on)


def paired(check, times, program, port):
    """A pair hands its time and its script's to its child."""
    begun = time.monotonic()
    words = ["pair", "--port", str(port), "--seconds", "3", "--relative", "--reports", "2", "--report-every",
             "1200000000", "--ask-every", "100000000"]
    child = start(program, slower(words, times), SCRIPT + f"{2 * times * LATER} speed 0\n")
    lines = child.stdout.read().decode().splitlines()
    status = child.wait(60)
    told = child.stderr.read().decode().strip()
    check("a pair with seconds makes its reports", status == 0 and [line.split()[1] for line in lines] == ["ticks"] * 2,
          (status, lines, told))
    took = time.monotonic() - begun
    check("and its child ends with its time", 2.4 * times <= took < PATIENCE + 3 * times, f"{took:.2f} s")
    stop(child)


def scripted(check, times, program, port):
    """A script says after how long something happens: after the run's first turn, and that began after the run."""
    begun, after = time.monotonic(), 4 * times
    child = start(program, ["tv", "--port", str(port), "--seconds", "600", "--relative"],
                  SCRIPT + f"{after * LATER} change 2\n")
    peer = dial_soon(port, "/cii")
    told = [peer.told(PATIENCE + after).get("contentId") for _ in range(2)]
    took = time.monotonic() - begun
    check("a relative script's line happens after its time", told == ["dvb://1", "dvb://2"] and took >= after,
          (told, f"{took:.2f} s"))
    stop(child)


def lasting(port, program, check):
    Beside([(patiently, *call) for call in [
        (flooded, program, port),
        (alone, program),
        (hung_up, program),
        (relayed, program, port + 2),
        (paired, program, port + 6),
        (scripted, program, port + 8),
    ]]).tell(check)
