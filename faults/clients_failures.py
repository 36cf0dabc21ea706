"""What clients get of a server that the system fails: an accept, its descriptors, the reader of its lines. A function for each situation, for faults/clients. Each yields whether its rows are good."""

import collections
import contextlib
import errno
import os
import subprocess
import tempfile
import time

from clients_lib import (
    GET, HERE, PAGES, SEEN, USED, Row, accepted, answer, asked, comes, connected, first_page, for_strangers, free_port, held_up, insert, many, may_open, open_files, places, said, serving,
    shimmed, started,
)
from cluster_lib import make_store
from counters import Counters, shim_in
from clients_scenes import EIGHT, FEW, MEMBERS, NINE, PEER, MemberRow, batch, member_of_three

# ---- accepts that fail

# Stands in front of the call that takes a connection, and has each MISS_NTH of those for whom somebody waits fail with the error MISS_ERRNO. Where MISS_LOSES, who waits first is gone then, as with the errors
# that are of that connection; else who waits first waits on.
MISS = """
#define _GNU_SOURCE
#include <dlfcn.h>
#include <errno.h>
#include <poll.h>
#include <stdlib.h>
#include <sys/socket.h>
#include <unistd.h>
static long word(const char *name) {
    const char *it = getenv(name);
    return it ? atol(it) : 0;
}
int accept4(int fd, struct sockaddr *from, socklen_t *size, int flags) {
    static int (*real)(int, struct sockaddr *, socklen_t *, int);
    static long waited;
    struct pollfd it = {fd, POLLIN, 0};
    if (!real)
        real = (int (*)(int, struct sockaddr *, socklen_t *, int))dlsym(RTLD_NEXT, "accept4");
    if (poll(&it, 1, 0) != 1 || ++waited % word("MISS_NTH"))
        return real(fd, from, size, flags);
    if (word("MISS_LOSES")) {
        int lost = real(fd, from, size, flags);
        if (lost >= 0)
            close(lost);
    }
    errno = word("MISS_ERRNO");
    return -1;
}
"""
NTH = 3
# Of one connection alone; the last stand for the errors of the network that accept(2) names, and for one that it doesn't.
OF_ONE = (errno.ECONNABORTED, errno.EPERM, errno.EPROTO, errno.ENETDOWN, errno.EHOSTUNREACH, errno.EIO)
# Of the server: nothing more can be opened.
OF_ALL = (errno.ENFILE, errno.EMFILE, errno.ENOBUFS, errno.ENOMEM)
BEGUN, AT_ONCE = 30, 90
STAYING = 40
# Who has got nothing in so many seconds gets nothing.
PATIENCE = 2
# A server that can't open anything tries again so often.
AGAIN_MS = 100


def begun_by(port, count, address=HERE, host=HERE, request=GET):
    """So many connections that have sent all of a request but its last byte."""
    them = [connected(port, address=address, host=host) for _ in range(count)]
    for it in them:
        it.settimeout(PATIENCE)
        with contextlib.suppress(OSError):
            it.sendall(request[:-1])
    return them


def asked_while_held(server, row, count, request=GET):
    """So many that come and ask while the server stands still."""
    with held_up(server):
        them = [row.connected() for _ in range(count)]
        for it in them:
            it.settimeout(PATIENCE)
            it.sendall(request)
    return them


@contextlib.contextmanager
def missing(program, code, loses, nth=NTH):
    """A server of which each third accept fails so."""
    with tempfile.TemporaryDirectory() as room:
        env = {"LD_PRELOAD": shimmed(room, "miss", MISS), "MISS_NTH": str(nth), "MISS_ERRNO": str(code), "MISS_LOSES": str(int(loses))}
        with serving(program, f"accepts that fail by {errno.errorcode[code]}", env=env) as (server, port):
            yield server, port


def failed_accepts(program):
    """Every third accept fails: it costs the connection that it is of, and where it is of none, one that was served gives way, or the next waits until the server tries again."""
    for code in OF_ONE:
        with missing(program, code, True) as (server, port):
            row = Row(port, first_page(port))
            others = Row(port, row.page)
            left = BEGUN - BEGUN // NTH
            them = begun_by(port, BEGUN)
            are_there = comes(lambda: accepted(server, port).total() == left)
            count = row.end(asked_while_held(server, row, AT_ONCE), b"")
            kept = others.end(them, GET[-1:])
            # The failed ones alone got no page.
            row.wrong = abs(row.wrong - AT_ONCE // NTH) + abs(kept - left) + (not are_there) + (server.poll() is not None)
        yield row.told(f"each third accept fails by {errno.errorcode[code]}, {AT_ONCE} that come at once", f"{count} of {AT_ONCE} answered, and {kept} of {BEGUN} that were begun before")
    for code in OF_ALL:
        name = errno.errorcode[code]
        with missing(program, code, False) as (server, port):
            row = Row(port, first_page(port))
            yield row.ask(BEGUN).told(f"each third accept fails by {name}, and who waits waits on", "tried again", 2 * AGAIN_MS)
            row, others = Row(port, row.page), Row(port, row.page)
            staying = []
            for _ in range(STAYING):
                it = connected(port)
                it.sendall(GET)
                row.wrong += answer(it) != (200, row.page)
                staying.append(it)
            them = begun_by(port, 10)
            time.sleep(0.3)
            before = accepted(server, port).total()
            count = row.end(asked_while_held(server, row, FEW), b"")
            time.sleep(0.3)
            gone = before - accepted(server, port).total()
            kept = others.end(them, GET[-1:])
            # Between two that are taken one accept fails.
            row.wrong += (gone != FEW // 2) + (server.poll() is not None) + 10 - kept
            for it in staying:
                it.close()
        yield row.told(f"the same behind some that were served, and whose clients don't close, {FEW} that come at once", f"{count} of {FEW} answered, and {kept} of 10 that were begun before; {gone} gave way")


# ---- no descriptor left

LATE = 5
STRANGER = NINE[1]


def none_left(server):
    """Has the server open nothing more than it has open. Returns whether it had no gap, in which one more would find room."""
    them = open_files(server)
    may_open(server, max(them) + 1)
    return len(them) == max(them) + 1


def without_any(program):
    """A server with no descriptor left goes on with the connections that it has."""
    with serving(program, "no descriptor left, requests begun") as (server, port):
        page = first_page(port)
        for count in (0, LATE):
            row, others = Row(port, page), Row(port, page)
            them = begun_by(port, FEW)
            are_there = comes(lambda: accepted(server, port).total() == FEW) and none_left(server)
            came = others.end(asked_while_held(server, others, count), b"")
            begun = time.perf_counter()
            for it in them:
                with contextlib.suppress(OSError):
                    it.sendall(GET[-1:])
            heard = [row.hear(it, begun) for it in them]
            kept = sum(heard)
            # Each that comes is for one that gives way, the oldest first, and one more may: where no descriptor is left, an accept says so though nobody waits.
            row.wrong = others.wrong + (not are_there) + (server.poll() is not None) + (heard[-kept:] != [True] * kept) + (not count <= FEW - kept <= count + (count > 0))
            row.times += others.times
            note = f", and {came} of {count}; the {FEW - kept} oldest gave way" if count else ""
            yield row.told(f"no descriptor left, {FEW} that were begun before{f', and {count} that come at once' if count else ''}", f"{kept} of {FEW} answered{note}")
            may_open(server, 1_024)
    yield members_alone(program)


def members_alone(program):
    """Where those that are open are members', none gives way: they are heard, while a stranger waits."""
    with member_of_three(program, "no descriptor left, a member's begun") as (server, port):
        told = batch(port)
        row = MemberRow(port, b"", told, PEER, MEMBERS[0])
        may_open(server, max(open_files(server)) + 1 + FEW)
        # More than there is room for, so that some wait, and nothing is left.
        them = begun_by(port, 2 * FEW, PEER, MEMBERS[0], told)
        time.sleep(1)
        open_ones = accepted(server, port).total()
        with connected(port, address=STRANGER, host=MEMBERS[0]) as it:
            it.sendall(GET)
            time.sleep(0.5)
            row.wrong += not 0 < open_ones < 2 * FEW or accepted(server, port) != {PEER: open_ones}
            count = row.end(them[:open_ones], told[-1:])
            late = MemberRow(port, b"", told, PEER, MEMBERS[0])
            count_late = late.end(them[open_ones:], told[-1:])
            # It has no post, and behind a report of another it is ready.
            is_answered = answer(it)[0] == 404
        row.wrong += late.wrong + (not is_answered) + (server.poll() is not None)
    return row.told(
        f"no descriptor left, {open_ones} of a member that were begun before, {2 * FEW - open_ones} more and a stranger that wait",
        f"{count} of {open_ones} answered, then {count_late} of {2 * FEW - open_ones}{', then the stranger' if is_answered else ''}",
    )


# ---- what a member asks of the others

FILES = 512
COMMANDS = 5
# From a command to its outcome at both members.
MOST_CHOSEN = 3_000


@contextlib.contextmanager
def two_of_three(program, name, most):
    """Two members of three, the first of which may open so few files: each server and its port."""
    ports = [free_port() for _ in range(3)]
    peers = ",".join(f"{HERE}:{port}" for port in ports)
    with tempfile.TemporaryDirectory() as room, contextlib.ExitStack() as them:
        both = []
        for number in (1, 2):
            words = ["--id", str(number), "--peers", peers, "--store", f"{room}/{number}.db"]
            make_store(program, words)
            server = them.enter_context(started(program, words, f"listening as {number} of {peers}\n", f"{name}, member {number}", most=most if number == 1 else None))
            both.append((server, ports[number - 1]))
        USED.add(HERE)
        yield both


def got(port, path):
    """The reply to a stranger."""
    try:
        return asked(port, b"GET %s HTTP/1.1\r\nHost: a\r\n\r\n" % path, STRANGER)
    except OSError:
        return 0, b""


def own_requests(program):
    """A member whose places strangers hold reaches the other, so that what it is told is chosen."""
    with two_of_three(program, "a full table", FILES) as ((server, port), (_, other)):
        assert comes(lambda: got(port, b"/ready")[0] == got(other, b"/ready")[0] == 200, 10), "they are not ready"
        room = for_strangers(places(FILES))
        row = Row(port, b"")
        least = room
        for seq in range(1, COMMANDS + 1):
            with many(port, 2 * FILES, EIGHT):
                row.wrong += not comes(lambda: strangers(server, port) >= room)
                begun = time.perf_counter()
                row.wrong += asked(port, insert(seq), STRANGER)[0] != 202
                path = b"/result/ann/%d" % seq
                row.wrong += not comes(lambda: got(port, path)[0] == got(other, path)[0] == 200)
                row.times.append((time.perf_counter() - begun) * 1e3)
                least = min(least, strangers(server, port))
        # Those that ask for the outcome are among them, and gone before they are counted.
        row.wrong += least < room - 2
        for it in (port, other):
            row.wrong += got(it, b"/?p=%d" % COMMANDS)[0] != 200
    yield row.told(
        f"a command to one of two members (the third is away) with at most {FILES} open files, behind {2 * FILES:,} silent strangers, until both show its outcome",
        f"{least} strangers are held at least, of {room}",
        MOST_CHOSEN,
    )


def strangers(server, port):
    """How many are held that aren't members."""
    return sum(count for address, count in accepted(server, port).items() if address != HERE)


# ---- nobody reads the lines any more


def ended_reader(program):
    """A server whose lines go into a pipe that has no reader any more answers all the same; for the next reader, it tells how many lines were lost."""
    name = "lines whose reader has ended"
    with tempfile.TemporaryDirectory() as room:
        pipe = f"{room}/lines"
        os.mkfifo(pipe)
        reader = os.open(pipe, os.O_RDONLY | os.O_NONBLOCK)
        writer = os.open(pipe, os.O_WRONLY)
        port = free_port()
        begun = int(time.time())
        server = subprocess.Popen([program, "serve", "--port", str(port), "--turns", "1000000"], stdout=subprocess.PIPE, stderr=writer)
        os.close(writer)
        try:
            server.stdout.readline()
            page = first_page(port)
            time.sleep(0.2)
            lines = os.read(reader, 65_536)
            os.close(reader)
            row = Row(port, page).ask(2 * PAGES)
            # The line of a page may come behind it.
            time.sleep(0.2)
            reader = os.open(pipe, os.O_RDONLY | os.O_NONBLOCK)
            row.ask(1)
            time.sleep(0.2)
            with contextlib.suppress(BlockingIOError):
                lines += os.read(reader, 65_536)
            SEEN.peak(name, server)
            status = server.poll()
        finally:
            os.close(reader)
            server.kill()
            server.wait()
    before = collections.Counter(SEEN.whys)
    SEEN.read(name, lines.splitlines(keepends=True), begun, int(time.time()) + 1)
    came, lost = SEEN.whys["served"] - before["served"], SEEN.whys["lost"] - before["lost"]
    row.wrong += (came, lost) != (3, 2 * PAGES) or status is not None
    yield row.told(
        f"lines whose reader has ended, {2 * PAGES} pages, and one more behind a new reader",
        f"{'the server goes on' if status is None else f'the server ended by {-status}'}; {came} lines came, and {lost} were told to be lost",
    )


# ---- no memory

# More growths than a server has by itself while it is asked once.
MARGIN = 20
IN_TIME, AHEAD = 60, 1_000_000


def refused_each(server, shim, row, what, status):
    """Refuses each growth that a request of the row takes, which gets that status with ample memory. Each gets this, 503, or nothing; the time of each is the row's."""
    counters = Counters(shim, server.pid)
    ample = asked(row.port, row.request, row.address, row.host)
    growths = max(counters.taken(lambda: asked(row.port, row.request, row.address, row.host)) for _ in range(5)) + MARGIN
    got = collections.Counter()
    for nth in range(1, growths + 1):
        counters.refuse(nth)
        begun = time.perf_counter()
        with row.connected() as it, contextlib.suppress(OSError):
            it.sendall(row.request)
            reply = answer(it)
        row.times.append((time.perf_counter() - begun) * 1e3)
        counters.refuse(0)
        got[reply[0]] += 1
        row.wrong += reply != ample and reply[0] not in (0, 503)
    row.wrong += (ample[0] != status) + (got[503] == 0) + (server.poll() is not None)
    return row.told(what, f"{growths} growths refused: {got[503]} times 503, {got[0]} times nothing, else {status}")


# A message of a node by itself, which no member that keeps starts hears.
SINGLE = b"POST /peer HTTP/1.1\r\nContent-Length: 15\r\n\r\n" + bytes([1, 2, 1]) + (1).to_bytes(4, "big") + (1).to_bytes(8, "big")


def without_memory(program):
    """A request for which memory runs out while it is sorted doesn't get past what an operator's words refuse: a time too far ahead, a single message, and anything at a member that isn't ready."""
    now = int(time.time())
    late, timely = insert(7, at=now + AHEAD), insert(8, at=now)
    ahead = ("--ahead", str(IN_TIME))
    with tempfile.TemporaryDirectory() as room:
        shim = shim_in(room)
        env = {**os.environ, "LD_PRELOAD": str(shim)}
        with serving(program, "out of memory, a node by itself", *ahead, env=env) as (server, port):
            good = refused_each(server, shim, Row(port, b"", late), "out of memory while a form of a time too far ahead is sorted", 400)
            yield good and asked(port, b"GET /result/ann/7 HTTP/1.1\r\nHost: a\r\n\r\n")[0] == 404
        with member_of_three(program, "out of memory, a member that isn't ready", *ahead, "--stay", env=env) as (server, port):
            for what, request, status in (("a page", GET, 503), ("a form", timely, 503), ("a form of a time too far ahead", late, 503), ("a single message", SINGLE, 404)):
                yield refused_each(server, shim, Row(port, b"", request, host=MEMBERS[0]), f"out of memory while {what} is sorted, at a member that isn't ready", status)
