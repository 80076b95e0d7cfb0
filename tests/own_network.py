"""Runs a program in a network of its own, where nobody else dials:  tests/own_network.py PROGRAM .."""
import fcntl
import os
import socket
import struct
import subprocess
import sys

SET_FLAGS, UP_AND_RUNNING = 0x8914, 0x41


def alone(words):
    """The words that run these in a network of their own, as the same process."""
    return ["unshare", "-r", "-n", sys.executable, os.path.abspath(__file__), *words]


def why_not():
    """Why no network of its own can be made here; nothing where it can."""
    try:
        done = subprocess.run(alone(["true"]), capture_output=True, check=False, timeout=60)
    except OSError as error:
        return str(error)
    return done.stderr.decode().strip().rpartition("\n")[2] if done.returncode else ""


def refused_dials(process):
    """How many dials were refused so far in the network that a process made itself."""
    if os.path.samefile(f"/proc/{process}/ns/net", "/proc/self/ns/net"):
        return 0  # It has just begun.
    with open(f"/proc/{process}/net/snmp", encoding="ascii") as file:
        names, counts = [line.split() for line in file if line.startswith("Tcp:")]
    return int(counts[names.index("AttemptFails")])


def bring_up():
    """Makes the loopback of this network usable."""
    with socket.socket(socket.AF_INET, socket.SOCK_DGRAM) as one:
        fcntl.ioctl(one, SET_FLAGS, struct.pack("16sh14x", b"lo", UP_AND_RUNNING))


if __name__ == "__main__":
    bring_up()
    os.execvp(sys.argv[1], sys.argv[1:])
