"""Standard streams that a run is started without, and a standard error that nobody reads."""
import fcntl, os, signal, subprocess, time

from live_edge import Beside, dial_soon, patiently, slower, stop, wait_for
from live_peer import STARTED, connection, serves, start, television

HERE = os.path.dirname(os.path.abspath(__file__))
CRATES = os.path.join(HERE, "..", "crates")
SCRIPT = "0 programme dvb://1.2.3\n0 timeline 1 urn:dvb:css:timeline:pts 1 90000 900000\n0 change 1\n"
STREAMS = {"input": "<&-", "output": ">&-", "error": "2>&-"}
TIMED = ("watch", "relay")  # They have to reach their television before their time is over.
REPORTS = ["--report-every", "500000000", "--ask-every", "50000000"]
PIPE_SIZE, REQUESTS = 16384, 400  # A line has some 70 bytes.
HANGS = 60  # Only what hangs takes so many seconds.


def example(name):
    with open(os.path.join(HERE, "..", "examples", name), encoding="utf-8") as file:
        return file.read()


def without(program, streams, log=False):
    """The words that start a program without these streams, and with the log of its sockets where that is wanted."""
    closed = " ".join(STREAMS[stream] for stream in streams)
    return ["sh", "-c", f'{"CSS_LOG=1 " if log else ""}exec "$@" {closed}', "sh", *program]


def told(child):
    """A run's status, its output and the first line of its errors."""
    output, errors = child.stdout.read().decode(), child.stderr.read().decode()
    status = child.wait(HANGS)
    return status, output, (errors.splitlines() or [""])[0]


# ---- streams that a run is started without

def closed(check, times, program, name, words, given, wanted):
    """Each of the three streams is closed in turn: what the status is then. What the run prints without a standard
    error is what it prints anyhow, as far as that is known before."""
    for stream, status in zip(STREAMS, wanted):
        ended, output, errors = told(start(without(program, [stream], log=True), slower(words, times), given))
        check(f"{name} without a standard {stream} ends with {status}", ended == status, (ended, output[-200:], errors))
        if stream == "error" and status == 0 and words[:1] == ["watch"]:
            check("and nothing of its log comes into a session", '"event":"end"' not in output, output[-400:])


def descriptors(process):
    """What the three numbers of the standard streams are open on."""
    folder = f"/proc/{process}/fd"
    return [os.readlink(f"{folder}/{number}") if str(number) in os.listdir(folder) else "closed" for number in range(3)]


def children(process):
    with open(f"/proc/{process}/task/{process}/children", encoding="ascii") as file:
        return [int(word) for word in file.read().split()]


def end_pair(child):
    """Ends a pair, whose child would go on."""
    for one in children(child.pid):
        os.kill(one, signal.SIGKILL)
    stop(child)


def numbers(check, program, name, streams, words, port):
    """No socket has the number of a stream that a run is started without."""
    child = start(without(program, streams), words, SCRIPT)
    try:
        dial_soon(port, "/cii").conn.close()
        for process in [child.pid, *children(child.pid)]:
            opened = descriptors(process)
            check(f"{name} gives no socket the number of a standard stream",
                  not any(kind in link for link in opened for kind in ("socket", "event", "closed")), opened)
    finally:
        end_pair(child)


def first_program():
    """The program that replays and does nothing else, where it was built."""
    built = [os.path.join(CRATES, "css_first", "out", *place) for place in (["css_first"], ["proved", "css_first"])]
    return os.environ.get("CSS_FIRST") or next(filter(os.path.exists, built), None)


# ---- a standard error that nobody reads

def small_pipe():
    source, sink = os.pipe()
    fcntl.fcntl(sink, fcntl.F_SETPIPE_SZ, PIPE_SIZE)
    return source, sink


def full_pipe():
    source, sink = small_pipe()
    os.write(sink, b"." * PIPE_SIZE)
    return source, sink


def refused(port):
    """Whether a request that is no upgrade is answered."""
    try:
        conn = connection(port)
        conn.sendall(b"GET /nothing HTTP/1.1\r\nHost: 127.0.0.1\r\n\r\n")
        answer = b""
        while more := conn.recv(4096):
            answer += more
        return answer.startswith(b"HTTP/1.1 404 ")
    except OSError:
        return False


def unread_log(check, program, port):
    """A television's log goes to a pipe that nobody reads."""
    source, sink = small_pipe()
    child = subprocess.Popen(["env", "CSS_LOG=1", *program, "tv", "--port", str(port), "--seconds", "3600"],
                             stdin=subprocess.PIPE, stdout=subprocess.PIPE, stderr=sink)
    STARTED.append(child)
    os.close(sink)
    child.stdin.write(SCRIPT.encode())
    child.stdin.close()
    dial_soon(port, "/cii").conn.close()
    answered = 0
    while answered < REQUESTS and refused(port):
        answered += 1
    check("a television whose log nobody reads answers each request", answered == REQUESTS, answered)
    check("and still serves", serves(port))
    os.set_blocking(source, False)
    kept = os.read(source, 65536).decode().splitlines()
    check("the log has whole lines up to there", all(line.startswith("css: log: ") for line in kept), kept[-1:])
    check("and no word of dropped ones", not any("dropped" in line for line in kept))
    after = []

    def next_line():
        refused(port)
        try:
            after.extend(os.read(source, 65536).decode().splitlines())
        except BlockingIOError:
            pass
        return after

    wait_for(next_line)
    words = after[0].split() if after else []
    dropped = int(words[2]) if words[3:6] == ["lines", "were", "dropped;"] else 0
    check("the next line says how many were dropped", REQUESTS <= len(kept) + dropped < REQUESTS + 20,
          (len(kept), after[:1]))
    check("and the one after it doesn't", not any("dropped" in line for line in after[1:]))
    child.kill()
    child.wait()
    os.close(source)


def unread_status(check, program):
    """A run that ends can't tell its status."""
    source, sink = full_pipe()
    child = subprocess.Popen([*program, "no-command"], stdin=subprocess.DEVNULL, stderr=sink)
    STARTED.append(child)
    os.close(sink)
    check("a run whose status nobody reads ends all the same", wait_for(lambda: child.poll() is not None, HANGS)
          and child.wait() == 1, child.poll())
    os.close(source)


def slow_status(check, program):
    """A run's status is read slowly: at first the pipe is full."""
    source, sink = full_pipe()
    child = subprocess.Popen([*program, "no-command"], stdin=subprocess.DEVNULL, stderr=sink)
    STARTED.append(child)
    os.close(sink)
    read = b""
    while more := os.read(source, 512):
        read += more
        time.sleep(0.01)
    lines = read.decode().lstrip(".").splitlines()
    check("a status that is read slowly comes through, and its hint too",
          lines[:1] == ["css: usage"] and lines[1:2] != [] and lines[1].startswith("css: hint: "), lines)
    check("and the run has its status", child.wait(HANGS) == 1)
    os.close(source)


# ---- the end of a pair

def open_states(process):
    """The states of a process's connections on which it may still send: established, or closed by the peer alone."""
    held = set()
    for number in os.listdir(f"/proc/{process}/fd"):
        try:
            held.add(os.readlink(f"/proc/{process}/fd/{number}"))
        except OSError:
            pass
    with open("/proc/net/tcp", encoding="ascii") as file:
        rows = [row.split() for row in file.read().splitlines()[1:]]
    return [row[3] for row in rows if f"socket:[{row[9]}]" in held and row[3] in ("01", "08")]


def pair_ends(check, times, program, port):
    """A pair's companion has made its reports, and waits for its television. That one can't end before it knows that
    nothing more comes from the companion, or a second is over."""
    words = ["pair", "--port", str(port), "--seconds", str(HANGS), "--reports", "6", *REPORTS]
    child = start(program, slower(words, times), SCRIPT)
    last = [child.stdout.readline() for _ in range(6)][-1]
    check("a pair's companion makes its reports", last.startswith(b"6 ticks "), last.decode().strip())
    check("a pair's companion ends its sessions before it waits for its television",
          wait_for(lambda: not open_states(child.pid), 10) and child.poll() is None, open_states(child.pid))
    end_pair(child)


def standard(port, program, check):
    """Sixteen ports."""
    server = television(program, port, SCRIPT)
    cii = ["--cii", f"ws://127.0.0.1:{port}/cii"]
    evening, at = example("evening.schedule"), "--port"
    runs = [
        ("replay", ["replay"], evening, (4, 5, 0)),
        ("migrate", ["migrate"], evening, (4, 5, 0)),
        ("agree", ["agree"], example("two.answers"), (4, 5, 0)),
        ("audit", ["audit"], example("first.record"), (4, 5, 0)),
        ("generate", ["generate", "--seed", "1", "--lines", "20"], "", (0, 5, 0)),
        ("survey", ["survey", "--seed", "1", "--lines", "20"], "", (0, 5, 0)),
        ("companion", ["companion", *cii, "--reports", "1", *REPORTS], "", (4, 5, 0)),
        ("companion --record", ["companion", "--record", *cii, "--reports", "1", *REPORTS], "", (0, 5, 0)),
        ("watch", ["watch", *cii, "--seconds", "3", *REPORTS], "", (0, 5, 0)),
        ("relay", ["relay", *cii, at, str(port + 2), "--turns", "300"], "", (0, 0, 0)),
        ("tv", ["tv", at, str(port + 4), "--turns", "20"], SCRIPT, (4, 0, 0)),
        ("pair", ["pair", at, str(port + 6), "--turns", "1000", "--reports", "1", *REPORTS], SCRIPT, (4, 5, 0)),
    ]
    calls = [(patiently, closed, program, *run) if run[0] in TIMED else (closed, 1, program, *run) for run in runs]
    if first := first_program():
        calls.append((closed, 1, [first], "css_first", [], evening, (4, 5, 0)))
    else:
        check.skip("css_first", "it wasn't built")
    many = ["--seconds", "3600"]
    calls += [
        (numbers, program, "tv", ["output", "error"], ["tv", at, str(port + 8), *many], port + 8),
        (numbers, program, "relay", list(STREAMS), ["relay", *cii, at, str(port + 10), *many], port + 10),
        (numbers, program, "pair", ["output", "error"],
         ["pair", at, str(port + 12), *many, "--reports", "1000", *REPORTS], port + 12),
        (unread_log, program, port + 14),
        (unread_status, program),
        (slow_status, program),
    ]
    Beside(calls).tell(check)
    patiently(check, pair_ends, program, port + 12)
    stop(server)
