"""What the system may do to a run: streams that don't block, are closed or that nobody reads, a first word that is
another path, few descriptors."""
import os, subprocess, threading, time

from live_edge import Beside, dial_soon, patiently, processor_times, slower, stop
from live_peer import start
from live_server import Server
from live_standard import standard

SCHEDULE = os.path.join(os.path.dirname(os.path.abspath(__file__)), "..", "examples", "evening.schedule")
SCRIPT = "0 programme dvb://1.2.3\n0 timeline 1 urn:dvb:css:timeline:pts 1 90000 900000\n0 change 1\n"


def run(program, words, given=b""):
    """A plain run: its status and what it writes."""
    done = subprocess.run(program + words, input=given, stdout=subprocess.PIPE, stderr=subprocess.PIPE, timeout=60)
    return done.returncode, done.stdout, done.stderr.decode().strip()


def finished(child, given=None, seconds=60):
    """What a run writes to both streams; it is ended where it takes too long."""
    timer = threading.Timer(seconds, child.kill)
    timer.start()
    told = child.communicate(given)
    timer.cancel()
    return told


def unblocking(descriptor):
    os.set_blocking(descriptor, False)
    return descriptor


def quiet_input(check, _, program):
    """Standard input doesn't block, and comes late and in pieces."""
    with open(SCHEDULE, "rb") as file:
        schedule = file.read()
    wanted = run(program, ["replay"], schedule)
    source, sink = os.pipe()
    child = subprocess.Popen(program + ["replay"], stdin=unblocking(source), stdout=subprocess.PIPE,
                             stderr=subprocess.PIPE)
    os.close(source)
    time.sleep(0.3)
    waits, share = child.poll() is None, 1.0
    if waits:
        before, begun = processor_times(child.pid)[0], time.monotonic()
        time.sleep(0.5)
        share = (processor_times(child.pid)[0] - before) / (time.monotonic() - begun)
    try:
        for at in range(0, len(schedule), 400):
            os.write(sink, schedule[at:at + 400])
            time.sleep(0.02)
    except BrokenPipeError:
        pass
    os.close(sink)
    written, errors = finished(child)
    told = child.returncode, written, errors.decode().strip()
    check("an input that doesn't block is waited for", told == wanted, (told[0], told[2]))
    check("and that costs next to nothing of a processor", waits and share < 0.2, f"{100 * share:.0f} %")


def slow_output(check, program):
    """Standard output doesn't block, and is read late."""
    words = ["generate", "--seed", "1", "--lines", "5000"]
    wanted = run(program, words)
    source, sink = os.pipe()
    child = subprocess.Popen(program + words, stdin=subprocess.DEVNULL, stdout=unblocking(sink),
                             stderr=subprocess.PIPE)
    os.close(sink)
    timer, written = threading.Timer(60, child.kill), b""
    timer.start()
    time.sleep(0.5)
    while more := os.read(source, 4096):
        written += more
        time.sleep(0.001)
    os.close(source)
    told = child.wait(), written, child.stderr.read().decode().strip()
    timer.cancel()
    check("an output that doesn't block is waited for", told == wanted, (told[0], len(told[1]), told[2]))
    child.stderr.close()


def running(program, port):
    """The file that the system runs for these words, and the words before the command, once a script has ended."""
    child = start(program, ["tv", "--port", str(port), "--seconds", "3600"], SCRIPT)
    try:
        dial_soon(port, "/cii").conn.close()
        with open(f"/proc/{child.pid}/cmdline", encoding="utf-8") as file:
            words = file.read().split("\0")
        return os.readlink(f"/proc/{child.pid}/exe"), words[:words.index("tv")]
    finally:
        stop(child)


def first_word(check, times, program, port, word):
    """A pair whose first word is no path of its own file."""
    words = slower(["pair", "--port", str(port), "--reports", "3", "--report-every", "700000000", "--ask-every",
                    "50000000", "--turns", "3000"], times)
    child = subprocess.Popen([word, *words], executable=program, stdin=subprocess.PIPE, stdout=subprocess.PIPE,
                             stderr=subprocess.PIPE)
    lines, errors = finished(child, SCRIPT.encode(), 60 * times)
    last = (lines.decode().splitlines() or [""])[-1]
    check(f"a pair with the first word {word} makes its reports",
          child.returncode == 0 and last.startswith("3 ticks "), (child.returncode, last, errors.decode().strip()))


def descriptors(check, times, program, port, most):
    """A companion may have so many descriptors: it makes its reports, or tells that it can't."""
    server = Server(port)
    limited = ["sh", "-c", f'ulimit -n {most}; exec "$@"', "sh", *program]
    words = ["--reports", "2", "--report-every", "900000000", "--ask-every", "50000000", "--turns", "2000"]
    child = start(limited, ["companion", "--cii", f"ws://127.0.0.1:{port}/cii", *slower(words, times)])
    lines, errors = child.stdout.read().decode().splitlines(), child.stderr.read().decode().strip()
    status, last = child.wait(60), lines[-1:] or [""]
    made = status == 0 and " ticks " in last[0]
    check(f"a companion with {most} descriptors makes its reports, or tells that it can't",
          made or (status != 0 and errors.startswith("css: ")), (status, last[0], errors))
    server.end()


def system(port, program, check):
    # First, since the servers below keep their ports.
    standard(port, program, check)
    file, words = running(program, port)
    first = ("/no/such/css", "/bin/true", "css")
    if len(words) > 1:
        check.skip("first words that are no path of the program", "a loader runs the program")
        first = ()
    Beside([
        (patiently, quiet_input, program),
        (slow_output, program),
        *[(patiently, first_word, file, port + 2 * at, word) for at, word in enumerate(first)],
        *[(patiently, descriptors, words, port + 6 + 2 * at, most) for at, most in enumerate((4, 5, 6, 7, 8))],
    ]).tell(check)
