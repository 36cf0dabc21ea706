"""What clients of a server of its own wait for, a function for each situation, for faults/clients. Each yields whether its rows are good."""

import collections
import contextlib
import json
import pathlib
import subprocess
import tempfile
import threading
import time

from cluster_lib import batch_of, make_store, read_whole, recall_of
from clients_lib import (
    FRONT, GET, HERE, IDLE, LITTLE, MOST_OPEN, QUARTER, SECONDS, SEEN, Row, accepted, answer, asked, comes, connected, fill_front, first_page, for_strangers, form, free_port,
    held_up, insert, limited, many, may_open, open_files, places, said, served, serving, shimmed, started,
)

FEW = 20
SERVED = 1_100
UNREAD = 8_000
OTHER = "127.0.0.2"

# ---- descriptors


def without_descriptors(program):
    """A server that may open no more files."""
    with serving(program, "no descriptor left") as (server, port):
        page = first_page(port)
        time.sleep(0.2)
        least = max(open_files(server)) + 1
        may_open(server, least + FEW)
        with served(port, FEW):
            row = Row(port, page)
            row.wrong += len(open_files(server)) < FEW
            yield row.ask().told(f"{FEW} that were served, and whose clients don't close, with no descriptor left", "they give way")
        time.sleep(0.5)
        may_open(server, least)
        with connected(port) as it:
            it.sendall(GET)
            it.settimeout(0.5)
            row = Row(port, page)
            try:
                row.wrong += it.recv(1) != b"never"
            except TimeoutError:
                pass
            row.wrong += server.poll() is not None
            may_open(server, least + FEW)
            begun = time.perf_counter()
            it.settimeout(20)
            row.wrong += answer(it) != (200, page)
            took = (time.perf_counter() - begun) * 1e3
        yield row.ask().told("one for which there was no descriptor, and nobody to give way", f"answered {took:.0f} ms after there was one")


def refused_at_start(program, most):
    """Whether a server that may open so few files says so, and ends."""
    run = subprocess.run([program, "serve", "--port", str(free_port())], stdin=subprocess.DEVNULL, capture_output=True, timeout=3, preexec_fn=limited(most))
    lines = run.stderr.decode("latin-1").splitlines()
    named = [line for line in lines if "open files" in line]
    is_good = (run.returncode, run.stdout) == (2, b"") and any(line.startswith("press: fault 40") for line in lines) and bool(named)
    return said(f"a start with at most {most} open files", f"status {run.returncode}, `{named[0] if named else run.stderr.decode('latin-1').strip()}`", is_good)


def held_by(server, port, count):
    """The addresses of those that a server holds, where more than so many come, once it has had time to take too many."""
    comes(lambda: accepted(server, port).total() >= count)
    time.sleep(1)
    return accepted(server, port)


def few_descriptors(program):
    """Starts with too few open files, with few, and with as many as are wanted: strangers have the places that are left to them, no more and no fewer."""
    try:
        yield refused_at_start(program, 40)
    except subprocess.TimeoutExpired:
        yield said("a start with at most 40 open files", "it serves", False)
    for most in (512, 1_250):
        with serving(program, f"{most} open files", most=most) as (server, port):
            row = Row(port, first_page(port))
            room = for_strangers(places(most))
            with many(port, most + 200):
                held = held_by(server, port, room)
                row.wrong += held.total() != room
                yield row.ask().told(f"{most + 200:,} that say nothing, at most {most:,} open files", f"{held.total():,} of them are held, of {room:,} places for strangers")


# ---- who gives way


def crowded(program):
    """Those of an address that has fewer than a quarter of the places keep theirs while another address fills the table twice."""
    with serving(program, "crowded") as (server, port):
        row = Row(port, first_page(port))
        others = Row(port, row.page)
        with many(port, MOST_OPEN):
            time.sleep(0.5)
            them = [connected(port, address=OTHER) for _ in range(QUARTER - 1)]
            for it in them:
                it.sendall(GET[:9])
            time.sleep(0.5)
            with many(port, MOST_OPEN):
                time.sleep(0.5)
                row.ask()
                count = others.end(them, GET[9:])
    row.wrong += others.wrong
    yield row.told(f"{2 * MOST_OPEN:,} of one address that say nothing, {QUARTER - 1} of another between them", f"{count} of {QUARTER - 1} of the other were answered, {max(others.times):.2f} ms at most")


def unread(program, is_quick):
    """Those that don't read their large pages give way to those that read, and are closed after ten seconds."""
    with serving(program, "unread") as (server, port):
        row = Row(port, first_page(port))
        whole = fill_front(port)
        least = len(open_files(server))
        them = []
        for _ in range(SERVED):
            it = connected(port, LITTLE)
            it.sendall(FRONT)
            them.append(it)
        time.sleep(2)
        row.ask()
        note = f"{len(row.times) - row.wrong} of {len(row.times)} answered"
        held = len(open_files(server)) - least
        if not is_quick:
            time.sleep(SECONDS)
            left = len(open_files(server)) - least
            row.wrong += left > 0
            note += f"; {held:,} were open, {max(left, 0)} of them after {SECONDS} s"
        for it in them:
            it.close()
    yield row.told(f"{SERVED:,} that don't read a page of {len(whole):,} bytes", note)


# A sixteenth of the places is for members alone.
MOST_STRANGERS = for_strangers(MOST_OPEN)
READERS = 64
NEWCOMERS = 200
# A page that is read slowly: each reader takes so much of it at once, and waits so many seconds then. What one receives at once has to be little, or the kernel takes the whole page.
LONG_PAGE = 900_000
SIP, PAUSE = 4_096, 0.01
BIG = {"callbacks": [{"name": "big", "script": [{"op": "return", "text": ["x" * LONG_PAGE]}]}], "plugins": [{"name": "big", "load": [{"tag": "big", "callback": "big"}]}]}
LONG_GET = b"GET /?p=12 HTTP/1.1\r\nHost: a\r\n\r\n"


class Sipping(threading.Thread):
    """Reads a little from each of some connections, again and again, and all that is left once it is told to."""

    def __init__(self, them):
        super().__init__()
        self.them, self.came, self.is_quick = them, {it: [] for it in them}, threading.Event()

    def run(self):
        open_ones = set(self.them)
        while open_ones:
            for it in list(open_ones):
                try:
                    piece = it.recv(65_536 if self.is_quick.is_set() else SIP)
                except OSError:
                    piece = b""
                self.came[it].append(piece)
                if not piece:
                    open_ones.discard(it)
            if not self.is_quick.is_set():
                time.sleep(PAUSE)


def slow_readers(program):
    """Those that have taken nothing of their pages for over a second give way before those that take some, though these came before them."""
    with tempfile.TemporaryDirectory() as room:
        kit = pathlib.Path(room) / "kit.json"
        kit.write_text(json.dumps(BIG))
        with serving(program, "slow readers", "--kit", str(kit)) as (server, port):
            row = Row(port, first_page(port))
            whole = fill_front(port)
            # The twelfth post is the oldest, so that the front page doesn't show it.
            for it in (insert(12, content="[big]", at=1), form(editor="ann", seq=13, at=200, kind="activate", plugin="big")):
                assert asked(port, it)[0] == 202
            long = asked(port, LONG_GET)[1]
            addresses = [f"127.0.2.{number}" for number in range(1, 5)]
            readers = [connected(port, LITTLE, addresses[number % 4]) for number in range(READERS)]
            others = [connected(port, LITTLE, addresses[number % 4]) for number in range(MOST_STRANGERS - READERS)]
            for them, request in ((readers, LONG_GET), (others, FRONT)):
                for it in them:
                    it.sendall(request)
            time.sleep(1)
            sipping = Sipping(readers)
            sipping.start()
            time.sleep(1.5)
            row.ask()
            # All of them are accepted in one round, so that none of them gives way to another.
            with held_up(server):
                newcomers = [connected(port) for _ in range(NEWCOMERS)]
                for it in newcomers:
                    it.sendall(GET)
            count = row.end(newcomers, b"")
            sipping.is_quick.set()
            sipping.join()
            good = sum(b"".join(pieces).partition(b"\r\n\r\n")[2] == long for pieces in sipping.came.values())
            for it in (*readers, *others):
                it.close()
    row.wrong += READERS - good
    yield row.told(
        f"{len(others)} that don't read a page of {len(whole):,} bytes, behind {READERS} that read one of {len(long):,} slowly, {NEWCOMERS} that come at once",
        f"{count} of {NEWCOMERS} answered; {good} of the {READERS} got their whole page",
    )


# ---- members

MEMBERS = ("127.0.0.4", "127.0.0.2", "127.0.0.3")
PEER = MEMBERS[1]
KEPT = 64
NINE = (HERE, "127.0.0.9")
EIGHT = tuple(f"127.0.1.{number}" for number in range(1, 9))
# Where strangers come from, and how many files the member may open.
STRANGERS = (("two addresses", NINE, None), ("eight, none of them beyond its quarter", EIGHT, None), ("eight, at most 512 open files", EIGHT, 512))


class MemberRow(Row):
    """Times of batches, and whether each was answered with one of the member, behind which the connection stays."""

    read = staticmethod(read_whole)

    def is_right(self, got):
        return got is not None and got[0] == 200 and got[1].startswith(bytes([2, 1]))


def batch(port):
    """A member asks another for a promise for the first block in round 1."""
    peers = ",".join(f"{host}:{port}" for host in MEMBERS)
    message = bytes([1, 2, 1]) + (1).to_bytes(4, "big") + (1).to_bytes(8, "big")
    return batch_of(2, peers, [message], recall_of(7, 1))


@contextlib.contextmanager
def member_of_three(program, name, *words, **further):
    """A member whose others are away, and its port."""
    port = free_port(MEMBERS[0])
    peers = ",".join(f"{host}:{port}" for host in MEMBERS)
    with tempfile.TemporaryDirectory() as room:
        words = ["--id", "1", "--peers", peers, "--store", f"{room}/node.db", *words]
        make_store(program, words)
        with started(program, words, f"listening as 1 of {peers}\n", name, **further) as server:
            yield server, port


def members(program):
    """Members are heard behind a table full of strangers, and their connections stand in it."""
    for what, addresses, most in STRANGERS:
        room = for_strangers(places(most) if most else MOST_OPEN)
        with member_of_three(program, f"members behind {what}", most=most) as (server, port):
            told = batch(port)
            with many(port, 2 * IDLE, addresses, MEMBERS[0]):
                held = held_by(server, port, room).total()
                row = MemberRow(port, b"", told, PEER, MEMBERS[0])
                row.wrong += held != room
                yield row.ask().told(f"a member's message behind {2 * IDLE:,} strangers of {what}, who say nothing", f"{held:,} are held, of {room:,} places for strangers")
                row = MemberRow(port, b"", told, PEER, MEMBERS[0])
                them = [row.connected() for _ in range(KEPT)]
                for it in them:
                    it.sendall(told[:-1])
                time.sleep(0.3)
                with many(port, 2 * IDLE, addresses, MEMBERS[0]):
                    time.sleep(0.5)
                    count = row.end(them, told[-1:])
            yield row.told(f"{KEPT} of a member that have begun, before {2 * IDLE:,} more such strangers", f"{count} of {KEPT} kept their place, and were answered")


# ---- long rounds, and what is held

LARGE = 300
# More than two looks at the poll bring, 256 each.
MANY_LARGE = 700
# A page behind these may take longer, for they are one round.
MOST_LONG = 1_000


def answered_whole(them, whole):
    """How many got the whole page."""
    count = 0
    for it in them:
        count += answer(it) == (200, whole)
        it.close()
    return count


def long_round(program, is_quick):
    """A small request behind hundreds of large pages that are asked at once."""
    with serving(program, "a long round") as (server, port):
        row = Row(port, first_page(port))
        whole = fill_front(port)
        came = turns = 0
        for _ in range(5):
            them = [connected(port) for _ in range(LARGE)]
            last = connected(port)
            time.sleep(0.1)
            with held_up(server):
                for it in them:
                    it.sendall(FRONT)
                last.sendall(GET)
            row.hear(last, time.perf_counter())
            came, turns = came + answered_whole(them, whole), turns + LARGE
        row.wrong += turns - came
        yield row.told(f"{LARGE} pages of {len(whole):,} bytes that are asked at once, one of 5 times", f"{came:,} of {turns:,} came whole", MOST_LONG)
    if not is_quick:
        yield near_its_end(program, LARGE)
        yield near_its_end(program, MANY_LARGE)


def near_its_end(program, count):
    """Whether a request whose last byte comes in time is answered, though its ten seconds are over before its turn comes behind so many large pages."""
    told_late = SEEN.whys["closed: its time is over"]
    with serving(program, f"a long round of {count}") as (server, port):
        row = Row(port, first_page(port))
        whole = fill_front(port)
        last = connected(port)
        begun = time.perf_counter()
        last.sendall(GET[:-1])
        time.sleep(SECONDS - 1)
        them = [connected(port) for _ in range(count)]
        time.sleep(SECONDS - 0.4 - (time.perf_counter() - begun))
        with held_up(server):
            for it in them:
                it.sendall(FRONT)
            last.sendall(GET[-1:])
            time.sleep(max(0.0, SECONDS - 0.02 - (time.perf_counter() - begun)))
        sent = time.perf_counter()
        is_answered = row.hear(last, sent)
        came = answered_whole(them, whole)
    told_late = SEEN.whys["closed: its time is over"] - told_late
    row.wrong += count - came + told_late
    assert sent - begun < SECONDS, "this machine is too busy for it"
    return row.told(
        f"{count} of them, its last byte a fiftieth of a second before its ten seconds are over",
        f"{'answered' if is_answered else 'closed'} {row.times[0]:.0f} ms after {sent - begun:.2f} s, {'and told late' if told_late else 'not told late'}; {came} of {count} came whole",
        MOST_LONG,
    )


SENDERS = 900
LONGEST_BODY = 65_536
# A request, of which so many bytes are read at most, is in memory of up to twice that (docs/OPERATING.md).
MOST_READ = 155_647


def held_bodies(program):
    """The memory of a server of which 900 clients have sent the longest body but for its last byte, and who answers them all then."""
    name = "bodies that lack a byte"
    with serving(program, name) as (server, port):
        row = Row(port, first_page(port))
        least = SEEN.peak(name, server)
        head = b"POST /command HTTP/1.1\r\nHost: a\r\nContent-Length: %d\r\n\r\n" % LONGEST_BODY
        them = []
        for _ in range(SENDERS):
            it = connected(port)
            it.sendall(head + b"x" * (LONGEST_BODY - 1))
            them.append(it)
        row.ask(1)
        first = row.times.pop()
        time.sleep(1)
        row.ask()
        peak = SEEN.peak(name, server)
        for it in them:
            it.sendall(b"x")
        statuses = collections.Counter(answer(it)[0] for it in them)
        for it in them:
            it.close()
    most = least + SENDERS * 2 * MOST_READ // 1_024
    row.wrong += (peak > most) + SENDERS - statuses[400]
    yield row.told(
        f"{SENDERS:,} that have sent {LONGEST_BODY - 1:,} bytes of a body of {LONGEST_BODY:,}",
        f"{peak:,} KB of memory at most, of {most:,} that they may take; {statuses[400]:,} got 400 behind the last byte; one that is asked right behind them waits {first:.0f} ms",
    )


# ---- the clock, and lines

# Stands in front of the clock that shows the time of day, and puts it back by so many seconds. The other clocks go on.
BACK = """
#define _GNU_SOURCE
#include <dlfcn.h>
#include <stdlib.h>
#include <time.h>
int clock_gettime(clockid_t id, struct timespec *at) {
    static int (*real)(clockid_t, struct timespec *);
    if (!real)
        real = (int (*)(clockid_t, struct timespec *))dlsym(RTLD_NEXT, "clock_gettime");
    int told = real(id, at);
    if (!told && id == CLOCK_REALTIME)
        at->tv_sec -= atol(getenv("SECONDS_BACK"));
    return told;
}
"""
# Behind 1970 by some ten years.
BEFORE_1970 = 10 * 365 * 86_400


def before_1970(program):
    """A clock before 1970 counts as 1970, for --ahead and for lines."""
    with tempfile.TemporaryDirectory() as room:
        env = {"LD_PRELOAD": shimmed(room, "back", BACK), "SECONDS_BACK": str(int(time.time()) + BEFORE_1970)}
        lines = SEEN.lines
        with serving(program, "a clock before 1970", "--ahead", "60", env=env, is_timely=False) as (server, port):
            statuses = [asked(port, insert(seq, at=at))[0] for seq, at in ((1, 60), (2, 61), (3, 0))]
            status, page = asked(port, GET)
            row = Row(port, page)
            row.wrong += (statuses != [202, 400, 202]) + (status != 200)
            row.ask()
            row.wrong += server.poll() is not None
    first = SEEN.firsts["a clock before 1970"]
    row.wrong += first != "1970-01-01T00:00:00Z"
    yield row.told("a server whose clock is ten years before 1970, with `--ahead 60`", f"times 60, 61 and 0 got {', '.join(map(str, statuses))}; its {SEEN.lines - lines} lines begin with {first}")


def stalled(program):
    """A server whose lines nobody reads answers all the same, and tells afterwards how many lines it lost."""
    port = free_port()
    begun = int(time.time())
    server = subprocess.Popen([program, "serve", "--port", str(port), "--turns", "1000000"], stdout=subprocess.PIPE, stderr=subprocess.PIPE)
    try:
        server.stdout.readline()
        page = first_page(port)
        row = Row(port, page).ask(UNREAD)
        lines = []
        thread = threading.Thread(target=lambda: lines.extend(server.stderr))
        thread.start()
        time.sleep(0.5)
        row.ask(1)
        time.sleep(0.5)
        SEEN.peak("lines that nobody reads", server)
    finally:
        server.kill()
        server.wait()
    thread.join()
    before = collections.Counter(SEEN.whys)
    SEEN.read("lines that nobody reads", lines, begun, int(time.time()) + 1)
    came, lost = SEEN.whys["served"] - before["served"], SEEN.whys["lost"] - before["lost"]
    row.wrong += came + lost != 1 + UNREAD + 1 + 1 or not lost
    yield row.told(f"lines that nobody reads, {UNREAD:,} pages", f"{came:,} lines came, and {lost:,} were told to be lost")
