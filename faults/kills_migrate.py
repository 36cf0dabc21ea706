"""Databases of version 1, for faults/kills --migrate and bench/store --migrate: they are made, taken over by a member that is killed, and read."""
import functools, pathlib, random, shutil, socket, sqlite3, subprocess, tempfile, time

ROWS, BLOCK = 10_000, 16
VERSION_1 = (
    "CREATE TABLE promise (slot INTEGER PRIMARY KEY, round INTEGER, node INTEGER, vround INTEGER, vnode INTEGER, value BLOB) STRICT",
    "CREATE TABLE meta (name TEXT PRIMARY KEY, n INTEGER NOT NULL) STRICT",
)


def write_old(file, chance, rows=ROWS):
    """A database of version 1, with a row for each of the first slots: each has a promise, a vote, or a vote below its promise."""
    with sqlite3.connect(file) as conn:
        conn.execute("PRAGMA journal_mode=WAL")
        for text in VERSION_1:
            conn.execute(text)
        for slot in range(1, rows + 1):
            vote = (chance.randint(1, 50), chance.randint(1, 3))
            promise = max(vote, (chance.randint(1, 60), chance.randint(1, 3)))
            row = chance.choice([(*promise, None, None, None), (*vote, *vote, bytes(9)), (*promise, *vote, bytes(9))])
            conn.execute("INSERT INTO promise VALUES (?, ?, ?, ?, ?, ?)", (slot, *row))
        conn.executemany("INSERT INTO meta VALUES (?, ?)", [("version", 1), ("last_round", 60)])
    conn.close()


def names(conn):
    return {name for name, in conn.execute("SELECT name FROM sqlite_master WHERE type = 'table'")}


def read_maps(file):
    """The version, promises by block, votes by slot, and the last round that the tables of a copy stand for."""
    with tempfile.TemporaryDirectory() as folder:
        for end in ("", "-wal"):
            if pathlib.Path(f"{file}{end}").exists():
                shutil.copy(f"{file}{end}", f"{folder}/copy.db{end}")
        conn = sqlite3.connect(f"{folder}/copy.db")
        found, promises, votes = names(conn), {}, {}
        if "promise" in found:
            for slot, round, node, vround, vnode, value in conn.execute("SELECT * FROM promise"):
                first = slot - (slot - 1) % BLOCK
                ballots = [it for it in ((round, node), (vround, vnode)) if None not in it]
                if ballots:
                    promises[first] = max([promises.get(first, (0, 0)), *ballots])
                if vround is not None:
                    votes[slot] = (vround, vnode, value)
        if "block" in found:
            for first, round, node in conn.execute("SELECT * FROM block"):
                promises[first] = max(promises.get(first, (0, 0)), (round, node))
            votes |= {slot: (round, node, value) for slot, round, node, value in conn.execute("SELECT * FROM vote")}
        meta = dict(conn.execute("SELECT name, n FROM meta"))
        conn.close()
    return meta["version"], (promises, votes, meta["last_round"])


def free_port():
    with socket.socket() as it:
        it.bind(("127.0.0.1", 0))
        return it.getsockname()[1]


@functools.cache
def peers():
    """The members of a run, to which its files are tied."""
    return ",".join(f"127.0.0.1:{free_port()}" for _ in range(3))


def start(program, file):
    """The first of three members, whose others are away, so that nothing is chosen."""
    words = ["serve", "--id", "1", "--peers", peers(), "--store", str(file)]
    return subprocess.Popen([program, *words], stdout=subprocess.PIPE, stderr=subprocess.PIPE)


def stand_for(maps, want, has_listened):
    """Whether the maps are these; once it listens it may have begun a round, and promised it for the first block."""
    if not has_listened:
        return maps == want
    (promises, votes, last_round), (old_promises, old_votes, old_round) = maps, want
    if votes != old_votes or last_round < old_round or promises.get(1, (0, 0)) < old_promises.get(1, (0, 0)):
        return False
    return {it: promises[it] for it in promises if it != 1} == {it: old_promises[it] for it in old_promises if it != 1}


def time_start(program, file):
    """Seconds until a member over the file listens, and the most memory that it takes until then, in bytes; what it says where it doesn't start."""
    begun = time.perf_counter()
    member = start(program, file)
    if not member.stdout.readline():
        return None, member.stderr.read()
    took = time.perf_counter() - begun
    lines = pathlib.Path(f"/proc/{member.pid}/status").read_text().splitlines()
    member.kill()
    member.wait()
    return took, 1024 * int(next(line for line in lines if line.startswith("VmHWM:")).split()[1])


def run(program, seed, count):
    """What went wrong, or None: whatever the moment of the kill, the file stands for the same promises, votes and last round."""
    chance, seen = random.Random(seed), {1: 0, 2: 0}
    with tempfile.TemporaryDirectory(dir=".") as folder:
        old = pathlib.Path(folder) / "old.db"
        write_old(old, chance)
        _, want = read_maps(old)
        shutil.copy(old, f"{folder}/timed.db")
        took, said = time_start(program, f"{folder}/timed.db")
        if took is None:
            return f"it doesn't start: {said!r}"
        print(f"{ROWS} rows: it listens after {took:.2f} s")
        for turn in range(count):
            file = pathlib.Path(folder) / f"kill{turn}.db"
            shutil.copy(old, file)
            member = start(program, file)
            time.sleep(chance.uniform(0, 1.5 * took))
            member.kill()
            has_listened = bool(member.stdout.read())
            member.wait()
            version, maps = read_maps(file)
            seen[version] += 1
            if not stand_for(maps, want, has_listened):
                return f"kill {turn}: the tables of version {version} stand for other maps"
            again = start(program, file)
            if not again.stdout.readline():
                return f"kill {turn}: it doesn't start again: {again.stderr.read()!r}"
            again.kill()
            again.wait()
            version, maps = read_maps(file)
            if version != 2 or not stand_for(maps, want, True):
                return f"kill {turn}: started again, the tables of version {version} stand for other maps"
            for end in ("", "-wal"):
                pathlib.Path(f"{file}{end}").unlink(missing_ok=True)
    print(f"{count} kills: {seen[1]} left version 1, {seen[2]} version 2; the maps were the same each time, and after another start")
    return None
