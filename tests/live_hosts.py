"""Hosts of a television: what is published is what a peer can dial, from wherever it comes."""
import socket, time

from live_edge import PATIENCE, Beside, stop
from live_peer import dial, request, start

SCRIPT = "0 programme dvb://1.2.3\n0 change 1\n"


def own_address():
    """An address of this machine that others reach, where it has one. Nothing is sent."""
    with socket.socket(socket.AF_INET, socket.SOCK_DGRAM) as udp:
        try:
            udp.connect(("192.0.2.1", 9))
            return udp.getsockname()[0]
        except OSError:
            return "127.0.0.2"


def parts_of(url):
    """The host and the port of an address, the host without brackets."""
    authority = url.split("://", 1)[1].split("/", 1)[0]
    host, port = authority.rsplit(":", 1)
    return host.strip("[]"), int(port)


def answers(host, port):
    """Whether a wall clock answers at a host."""
    with socket.socket(socket.AF_INET6 if ":" in host else socket.AF_INET, socket.SOCK_DGRAM) as udp:
        udp.settimeout(PATIENCE)
        try:
            udp.connect((host, port))
            udp.send(request(1_000_000_000))
            return len(udp.recv(64)) == 32
        except OSError:
            return False


def same(host, other):
    """Whether two hosts are one address; one of IPv4 may be written as one of IPv6."""
    return host.removeprefix("::ffff:") == other.removeprefix("::ffff:")


def is_refused(child, host):
    """Whether a run refuses its words or its host, with a sentence on that."""
    lines = child.stderr.read().decode().splitlines()
    return child.returncode in (1, 6) and any(host in line or "--host" in line for line in lines)


def told_at(child, port, address):
    """A session with a run at this address; None where the run ended in its place."""
    while child.poll() is None:
        try:
            return dial(port, "/cii", host=address)
        except (OSError, EOFError):
            time.sleep(0.02)
    return None


def published(check, program, port, host, reached, command=("tv",)):
    """A television of this host is dialled at these addresses, and what it tells there can be dialled."""
    child = start(program, [*command, "--port", str(port), "--host", host, "--seconds", "3600"], SCRIPT)
    for address in reached:
        name = f"a {command[0]} at {host} tells a peer at {address}"
        peer = told_at(child, port, address)
        if peer is None:
            check(f"{name} what it can dial, or is refused with a sentence", is_refused(child, host), child.returncode)
            break
        state = peer.told()
        clock = parts_of(state.get("wcUrl") or "udp://none:0")
        check(f"{name} a wcUrl that it can dial", same(clock[0], address) and answers(*clock), state.get("wcUrl"))
        if command[0] == "tv":
            told, peer = parts_of(state.get("tsUrl") or "ws://none:0"), None
            if same(told[0], address):
                peer = dial(told[1], "/ts", host=told[0])
            check(f"{name} a tsUrl that it can dial", peer is not None, state.get("tsUrl"))
    stop(child)


def relayed(check, program, port, reached):
    """The same of a relay, whose state is told once it has one."""
    television = start(program, ["tv", "--port", str(port), "--seconds", "3600"], SCRIPT)
    child = start(program, ["relay", "--cii", f"ws://127.0.0.1:{port}/cii", "--port", str(port + 2), "--host",
                            "0.0.0.0", "--seconds", "3600"])
    for address in reached:
        name = f"a relay at 0.0.0.0 tells a peer at {address}"
        peer, state = told_at(child, port + 2, address), {}
        if peer is None:
            check(f"{name} what it can dial, or is refused with a sentence", is_refused(child, "0.0.0.0"))
            break
        while not state.get("wcUrl") and (more := peer.told()):
            state |= more
        clock = parts_of(state.get("wcUrl") or "udp://none:0")
        check(f"{name} its own wcUrl, at that address", same(clock[0], address) and clock[1] == port + 2,
              state.get("wcUrl"))
    stop(child)
    stop(television)


def published_hosts(port, program, check):
    four, six = ["127.0.0.1", own_address()], ["::1", "127.0.0.1"]
    Beside([
        (published, program, port, "0.0.0.0", four),
        (published, program, port + 2, "[::]", six),
        (published, program, port + 4, "::1", ["::1"]),
        (published, program, port + 6, "[::1]", ["::1"]),
        (relayed, program, port + 8, four),
    ]).tell(check)
