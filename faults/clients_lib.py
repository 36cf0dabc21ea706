"""A built `press` and its clients, for faults/clients: connections, rows of pages, servers, and what their memory and their lines say."""

import calendar
import collections
import contextlib
import os
import random
import re
import resource
import signal
import socket
import statistics
import struct
import subprocess
import tempfile
import time
import urllib.parse

MOST_MS = 50
PAGES = 20
GET = b"GET /?p=1 HTTP/1.1\r\nHost: a\r\n\r\n"
FRONT = b"GET / HTTP/1.1\r\nHost: a\r\n\r\n"
IDLE = 1_000
MOST_OPEN = 1_024
QUARTER = 256
# So many files a server keeps for itself, and the sixteenth part of its places for members alone (docs/OPERATING.md).
OWN_FILES = 226
FOR_MEMBERS = 16
SECONDS = 10
# What one that doesn't read receives at once.
LITTLE = 4_096
HERE = "127.0.0.1"
# The addresses from which clients of the last server came.
USED = set()

WHYS = ("the input ended within a request", "a read failed", "a write failed", "its time is over", "given up for another", "nothing more can be opened")
KIT = b"press: it plays the demonstration kit (no --kit)\n"
LINE = re.compile(r"(\d{4}-\d\d-\d\dT\d\d:\d\d:\d\dZ) (?:(\d+) lines lost|(127\.\d{1,3}\.\d{1,3}\.\d{1,3}) (closed: (?:%s)|[!-~]+ [!-~]+ [1-5]\d\d \d+)|press: POST /command 400: ([a-z]+ (?:is missing|does not fit|is more than \d+ seconds ahead)))\n" % "|".join(WHYS))


def form(**fields):
    body = urllib.parse.urlencode(fields).encode()
    return f"POST /command HTTP/1.1\r\nHost: a\r\nContent-Length: {len(body)}\r\n\r\n".encode() + body


def insert(seq, title="a&b", content="Hi there", at=None):
    return form(editor="ann", seq=seq, at=99 + seq if at is None else at, kind="insert", title=title, content=content, status="publish")


def connected(port, receives=None, address=HERE, host=HERE):
    """A connection. Of one that receives so few bytes at once the kernel keeps some 50,000 that aren't read; of others 3,000,000 and more, so that a page never waits in the server."""
    USED.add(address)
    it = socket.socket()
    it.bind((address, 0))
    if receives:
        it.setsockopt(socket.SOL_SOCKET, socket.SO_RCVBUF, receives)
        it.setsockopt(socket.IPPROTO_TCP, socket.TCP_MAXSEG, 536)
    it.settimeout(20)
    it.connect((host, port))
    return it


def read_all(it):
    parts = []
    while part := it.recv(65_536):
        parts.append(part)
    return b"".join(parts)


def told_by(reply):
    """Its status, 0 where there is none, and its body."""
    head, _, body = reply.partition(b"\r\n\r\n")
    return int(head.split(b" ")[1]) if head else 0, body


def answer(it, read=read_all):
    """The status and the body of what comes, until it ends, or as far as it is read."""
    try:
        return told_by(read(it))
    except OSError:
        return 0, b""


def asked(port, request, address=HERE, host=HERE, read=read_all):
    """The reply's status and body."""
    with connected(port, address=address, host=host) as it:
        it.sendall(request)
        return told_by(read(it))


def reset(it):
    """Closes it by a reset, and not by an end."""
    it.setsockopt(socket.SOL_SOCKET, socket.SO_LINGER, struct.pack("ii", 1, 0))
    it.close()


class Row:
    """The times of some pages, or of other requests, and whether each got its reply."""

    # A page ends with its connection.
    read = staticmethod(read_all)

    def __init__(self, port, page, request=GET, address=HERE, host=HERE):
        self.port, self.page, self.request, self.address, self.host = port, page, request, address, host
        self.times, self.wrong = [], 0

    def connected(self):
        return connected(self.port, address=self.address, host=self.host)

    def is_right(self, got):
        return got == (200, self.page)

    def ask(self, count=PAGES):
        for _ in range(count):
            begun = time.perf_counter()
            try:
                got = asked(self.port, self.request, self.address, self.host, self.read)
            except OSError:
                got = None
            self.times.append((time.perf_counter() - begun) * 1e3)
            self.wrong += not self.is_right(got)
        return self

    def hear(self, it, begun):
        """The reply to a request whose last byte went out then. Returns whether it is the page."""
        got = answer(it, self.read)
        it.close()
        self.times.append((time.perf_counter() - begun) * 1e3)
        is_right = self.is_right(got)
        self.wrong += not is_right
        return is_right

    def ask_at_once(self, count):
        """Connects and asks so many times before the first reply is read. Returns how many got their page."""
        them = []
        for _ in range(count):
            begun = time.perf_counter()
            it = self.connected()
            it.sendall(self.request)
            them.append((it, begun))
        return sum(self.hear(it, begun) for it, begun in them)

    def end(self, them, rest):
        """Sends the rest of the request to each of them at once. Returns how many got their page."""
        begun = time.perf_counter()
        for it in them:
            with contextlib.suppress(OSError):
                it.sendall(rest)
        return sum(self.hear(it, begun) for it in them)

    def told(self, what, note="", most=MOST_MS):
        worst = max(self.times)
        is_good = worst <= most and not self.wrong
        print(f"| {what} | {statistics.median(self.times):.2f} | {worst:.2f} | {note}{'' if is_good else ' **bad**'}{f' {self.wrong} wrong' if self.wrong else ''} |", flush=True)
        return is_good


def said(what, note, is_good):
    """A row without times."""
    print(f"| {what} | | | {note}{'' if is_good else ' **bad**'} |", flush=True)
    return is_good


@contextlib.contextmanager
def many(port, count, addresses=(HERE,), host=HERE):
    """So many connections, begun at once from these addresses by turns, that say nothing."""
    USED.update(addresses)
    them = []
    for number in range(count):
        it = socket.socket()
        it.setblocking(False)
        it.bind((addresses[number % len(addresses)], 0))
        it.connect_ex((host, port))
        them.append(it)
    try:
        yield them
    finally:
        for it in them:
            it.close()


@contextlib.contextmanager
def served(port, count):
    """So many connections, each with its reply, that their clients don't close."""
    them = []
    for _ in range(count):
        it = connected(port)
        it.sendall(GET)
        assert answer(it)[0] == 200
        them.append(it)
    try:
        yield them
    finally:
        for it in them:
            it.close()


def first_page(port):
    """The page of a first post."""
    assert asked(port, insert(1))[0] == 202
    status, page = asked(port, GET)
    assert status == 200 and b"a&b" in page and b"Hi there" in page, page
    return page


def fill_front(port):
    """Makes the front page a large one, and returns it."""
    for seq in range(2, 12):
        assert asked(port, insert(seq, str(seq), "x" * 15_000))[0] == 202
    return asked(port, FRONT)[1]


# ---- servers


class Seen:
    """What all servers together showed: their memory at its most, and their lines."""

    def __init__(self):
        self.peaks, self.firsts, self.whys, self.lines, self.bad = {}, {}, collections.Counter(), 0, []

    def peak(self, name, server):
        """The most memory that a server had, in KB; 0 where it has ended."""
        told = [line.split()[1] for line in open(f"/proc/{server.pid}/status") if line.startswith("VmHWM")]
        self.peaks[name] = int(told[0]) if told else 0
        return self.peaks[name]

    def read(self, name, lines, first=None, last=None):
        """Counts a server's lines, each of which has to begin with a time between these two, in order, and with the address of a client, or why a form of one was refused."""
        for line in lines:
            if line == KIT:
                continue
            self.lines += 1
            form = LINE.fullmatch(line.decode("latin-1"))
            at = form and calendar.timegm(time.strptime(form[1], "%Y-%m-%dT%H:%M:%SZ"))
            if not form or (first is not None and not first <= at <= last) or form[3] not in (None, *USED):
                self.bad.append(line)
                continue
            first = first and at
            self.firsts.setdefault(name, form[1])
            if form[4]:
                self.whys[form[4] if form[4].startswith("closed: ") else "served"] += 1
            elif form[5]:
                self.whys["reasons"] += 1
            else:
                self.whys["lost"] += int(form[2])


SEEN = Seen()


def limited(most):
    """What a process does before it starts, so that it may open so many files."""
    return most and (lambda: resource.setrlimit(resource.RLIMIT_NOFILE, (most, most)))


def free_port(host=HERE):
    """A port below those that the kernel gives to clients."""
    while True:
        with contextlib.suppress(OSError), socket.socket() as it:
            it.bind((host, random.randrange(10_000, 32_000)))
            return it.getsockname()[1]


@contextlib.contextmanager
def started(program, words, line, name, most=None, env=None, is_timely=True):
    """A server, once it has told that it listens. Its memory and its lines are kept at its end."""
    USED.clear()
    with tempfile.TemporaryFile() as log:
        begun = int(time.time())
        server = subprocess.Popen([program, "serve", *words], stdout=subprocess.PIPE, stderr=log, preexec_fn=limited(most), env=env)
        try:
            told = server.stdout.readline()
            assert told == line.encode(), told
            yield server
        finally:
            SEEN.peak(name, server)
            server.kill()
            server.wait()
            log.seek(0)
            SEEN.read(name, log, *((begun, int(time.time()) + 1) if is_timely else ()))


@contextlib.contextmanager
def serving(program, name, *words, **further):
    """A node by itself, and its port."""
    port = free_port()
    with started(program, ["--port", str(port), "--turns", "1000000", *words], f"listening on {HERE}:{port}\n", name, **further) as server:
        yield server, port


def open_files(server):
    return [int(it) for it in os.listdir(f"/proc/{server.pid}/fd")]


def places(files):
    """How many connections a server may hold that may open so many files."""
    return min(files - OWN_FILES, MOST_OPEN)


def for_strangers(count):
    """How many of so many places those have who are no members."""
    return count - count // FOR_MEMBERS


def tcp_table():
    """Of each socket of this machine, by its inode: the port here, and the address and the port there. One reading may lack some, where others come and go meanwhile."""
    with open("/proc/net/tcp", encoding="ascii") as table:
        for line in list(table)[1:]:
            _, here, there, _, _, _, _, _, _, inode, *_ = line.split()
            yield f"socket:[{inode}]", (int(here[9:], 16), socket.inet_ntoa(bytes.fromhex(there[:8])[::-1]), int(there[9:], 16))


def own_sockets(server):
    for it in open_files(server):
        with contextlib.suppress(OSError):
            name = os.readlink(f"/proc/{server.pid}/fd/{it}")
            if name.startswith("socket:"):
                yield name


def accepted(server, port):
    """The addresses of the connections by that port that a server has accepted and not closed. What waits in the kernel is none of its files, nor is what was closed."""
    seen = {}
    for _ in range(10):
        seen.update(tcp_table())
        own = set(own_sockets(server))
        if own <= seen.keys():
            break
    them = [seen[it] for it in own if it in seen]
    return collections.Counter(address for here, address, there in them if here == port and there)


def comes(is_so, seconds=5):
    """Whether something comes to be so in that time."""
    end = time.perf_counter() + seconds
    while time.perf_counter() < end:
        if is_so():
            return True
        time.sleep(0.02)
    return False


@contextlib.contextmanager
def held_up(server):
    """The server stands still meanwhile, so that all that comes is there at once when it goes on."""
    os.kill(server.pid, signal.SIGSTOP)
    try:
        yield
    finally:
        os.kill(server.pid, signal.SIGCONT)


def shimmed(room, name, text):
    """A library of that text in a folder, to stand in front of the C library."""
    it = f"{room}/{name}.so"
    subprocess.run(["cc", "-shared", "-fPIC", "-O2", "-x", "c", "-o", it, "-", "-ldl"], input=text.encode(), check=True)
    return it


def may_open(server, most):
    resource.prlimit(server.pid, resource.RLIMIT_NOFILE, (most, resource.getrlimit(resource.RLIMIT_NOFILE)[1]))
