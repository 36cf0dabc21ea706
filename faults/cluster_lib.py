"""Three nodes of `press serve` over files on the loopback, for faults/cluster: processes, relays between them, and what is asked of them."""
import collections, json, pathlib, random, socket, subprocess, threading, time, urllib.parse


class Gone(Exception):
    """A node doesn't answer."""


def free_port():
    with socket.socket() as it:
        it.bind(("127.0.0.1", 0))
        return it.getsockname()[1]


def ask(port, text, seconds=5, source=None):
    """The status and the body of the reply; `source` is the address that asks."""
    try:
        with socket.create_connection(("127.0.0.1", port), timeout=seconds, source_address=source and (source, 0)) as conn:
            conn.settimeout(seconds)
            conn.sendall(text)
            reply = read_whole(conn)
    except OSError:
        raise Gone from None
    head, _, body = reply.partition(b"\r\n\r\n")
    return int(head.split(b" ")[1]), body


def get(port, path, seconds=5):
    return ask(port, f"GET {path} HTTP/1.1\r\nHost: press\r\n\r\n".encode(), seconds)


def insert(port, editor, seq):
    fields = dict(editor=editor, seq=seq, at=seq, kind="insert", title=f"{editor}-{seq}", content="some content", status="publish")
    body = urllib.parse.urlencode(fields).encode()
    return ask(port, b"POST /command HTTP/1.1\r\nContent-Type: application/x-www-form-urlencoded\r\nContent-Length: %d\r\n\r\n%s" % (len(body), body))


def recall_of(start, number):
    """What the sender of a batch tells of its start, which has saved nothing and heard of nobody."""
    return bytes([1]) + start.to_bytes(8, "big") + bytes(8) + number.to_bytes(8, "big") + bytes(2)


def batch_of(sender, peers, messages, recall=bytes(1)):
    """The request with a batch of a member with that list of peers and the demonstration kit."""
    body = bytes([2, sender]) + digest_of(peers) + bytes(88) + recall
    for message in messages:
        body += len(message).to_bytes(4, "big") + message
    return b"POST /members HTTP/1.1\r\nContent-Length: %d\r\n\r\n%s" % (len(body), body)


def send_batch(port, sender, peers, messages, source=None):
    """A batch that recalls no start, from that address."""
    return ask(port, batch_of(sender, peers, messages), source=source)


def send_message(port, message, source=None):
    """A message of a node, from that address."""
    return ask(port, b"POST /peer HTTP/1.1\r\nContent-Length: %d\r\n\r\n%s" % (len(message), message), source=source)


def make_store(program, words):
    """Makes the store of a new member, which is started by these words."""
    made = subprocess.run([program, "serve", *words, "--new"], capture_output=True, text=True, timeout=60)
    if made.returncode or not made.stdout.startswith("made the store of member "):
        raise SystemExit(f"no store is made: status {made.returncode}, {made.stdout!r}, {made.stderr!r}")


REPORT = 98
MARKS = 123
PREPARE = 1


def digest_of(text):
    """The digest of a list of peers, as 8 bytes: FNV-1a."""
    digest = 14695981039346656037
    for byte in text.encode():
        digest = (digest ^ byte) * 1099511628211 % 2**64
    return digest.to_bytes(8, "big")


def read_whole(conn):
    """A request or a reply, by its length."""
    asked, count = b"", None
    while count is None or len(asked) < count:
        piece = conn.recv(65536)
        if not piece:
            raise OSError
        asked += piece
        head, split, _ = asked.partition(b"\r\n\r\n")
        if split and count is None:
            lengths = [int(it.split(b":")[1]) for it in head.split(b"\r\n") if it.lower().startswith(b"content-length:")]
            count = len(head) + 4 + sum(lengths)
    return asked


def head_length(body):
    """How many bytes of a batch stand before its messages: the report, and what its sender recalls of starts."""
    if body[REPORT : REPORT + 1] != bytes([1]):
        return REPORT + 1
    at = MARKS
    for _ in range(2):
        at += 17 if body[at : at + 1] == bytes([1]) else 1
    return at


def prepares_in(asked):
    """How many of the messages of a batch, or of the reply to one, are prepares."""
    body, count = asked.partition(b"\r\n\r\n")[2], 0
    rest = body[head_length(body) :] if body[:1] == bytes([2]) else b""
    while rest:
        count += rest[4] == PREPARE
        rest = rest[4 + int.from_bytes(rest[:4], "big") :]
    return count


def with_digest(text, digest):
    """A batch, or the reply to one, with the digest of the peers of whoever hears it: behind relays each member has a list of its own."""
    head, split, body = text.partition(b"\r\n\r\n")
    if len(body) >= REPORT and body[0] == 2:
        body = body[:2] + digest + body[10:]
    return head + split + body


class Relay:
    """Carries connections from one node to another, or cuts them, or holds them back; counts the prepares that it carries."""

    def __init__(self, target, chance):
        self.target, self.chance = target, chance
        self.cut = self.hold = 0.0
        self.prepares = 0
        # The digests of the lists of peers of who asks, and of who answers.
        self.digests = (bytes(8), bytes(8))
        self.listener = socket.create_server(("127.0.0.1", 0), backlog=256)
        self.port = self.listener.getsockname()[1]
        threading.Thread(target=self.run, daemon=True).start()

    def run(self):
        while True:
            try:
                conn, _ = self.listener.accept()
            except OSError:
                return
            threading.Thread(target=self.carry, args=(conn,), daemon=True).start()

    def carry(self, conn):
        with conn:
            conn.settimeout(15)
            try:
                with socket.create_connection(("127.0.0.1", self.target), timeout=3) as other:
                    while self.carry_one(conn, other):
                        pass
            except OSError:
                return

    def carry_one(self, conn, other):
        """Carries a request and its reply; whether another may follow."""
        asked = read_whole(conn)
        if self.chance.random() < self.cut:
            return False
        if self.chance.random() < self.hold:
            time.sleep(self.chance.uniform(0, 0.3))
        # A reply that is cut leaves messages that came, and of which their sender knows nothing.
        mute = self.chance.random() < self.cut
        other.sendall(with_digest(asked, self.digests[1]))
        reply = read_whole(other)
        self.prepares += prepares_in(asked) + prepares_in(reply)
        if not mute:
            conn.sendall(with_digest(reply, self.digests[0]))
        return not mute and reply.startswith(b"HTTP/1.1 200 ")


class Cluster:
    """Nodes over files in a folder; where `relays`, each message goes through a relay of its own pair."""

    def __init__(self, program, folder, count=3, chance=None, relays=False, tick=300):
        self.program, self.folder, self.count, self.tick = program, pathlib.Path(folder), count, tick
        self.chance = chance or random.Random(0)
        self.ports = [free_port() for _ in range(count)]
        self.relays = {(a, b): Relay(self.ports[b], random.Random(self.chance.random())) for a in range(count) for b in range(count) if a != b} if relays else {}
        for (a, b), relay in self.relays.items():
            relay.digests = (digest_of(self.peers(a)), digest_of(self.peers(b)))
        self.nodes, self.made = [None] * count, set()

    def peers(self, place):
        ports = [self.relays[place, other].port if (place, other) in self.relays else port for other, port in enumerate(self.ports)]
        return ",".join(f"127.0.0.1:{port}" for port in ports)

    def file(self, place):
        return self.folder / f"node{place + 1}.db"

    def start(self, place, further=()):
        """Starts a node, with these words behind its own. Its store is made before its first start, where there is none."""
        words = ["--id", str(place + 1), "--peers", self.peers(place), "--store", str(self.file(place)), "--tick", str(self.tick), *further]
        if place not in self.made and not self.file(place).exists():
            make_store(self.program, words)
        self.made.add(place)
        log = open(self.folder / f"node{place + 1}.log", "ab")
        node = subprocess.Popen([self.program, "serve", *words], stdout=subprocess.PIPE, stderr=log)
        line = node.stdout.readline()
        if line != f"listening as {place + 1} of {self.peers(place)}\n".encode():
            raise SystemExit(f"node {place + 1} doesn't start: {line!r}, status {node.wait()}")
        self.nodes[place] = node

    def start_all(self, further=()):
        for place in range(self.count):
            self.start(place, further)

    def kill(self, place):
        if self.nodes[place] is not None:
            self.nodes[place].kill()
            self.nodes[place].wait()
            self.nodes[place] = None

    def end(self):
        for place in range(self.count):
            self.kill(place)
        for relay in self.relays.values():
            relay.listener.close()

    def ready(self, place):
        """What /ready says: whether it is ready, and how many slots are applied."""
        try:
            status, body = get(self.ports[place], "/ready", 2)
        except Gone:
            return False, 0
        told = json.loads(body)
        return status == 200, told["applied"]

    def wait_ready(self, places, seconds):
        """Seconds until all of these are ready; None where they aren't in time."""
        begun = time.perf_counter()
        while time.perf_counter() - begun < seconds:
            if all(self.ready(place)[0] for place in places):
                return time.perf_counter() - begun
            time.sleep(0.01)
        return None

    def seconds(self, place):
        """Processor seconds of a node since its start."""
        fields = pathlib.Path(f"/proc/{self.nodes[place].pid}/stat").read_text().rsplit(") ", 1)[1].split()
        return (int(fields[11]) + int(fields[12])) / 100

    def statuses(self, place):
        """How many replies to forms a node has logged, by status."""
        counts = collections.Counter()
        # The last line may be cut.
        for line in (self.folder / f"node{place + 1}.log").read_text().split("\n")[:-1]:
            words = line.split(" ")
            if words[2:4] == ["POST", "/command"]:
                counts[words[4]] += 1
        return counts

    def outcome(self, place, editor, seq):
        status, body = get(self.ports[place], f"/result/{editor}/{seq}")
        return body if status == 200 else None
