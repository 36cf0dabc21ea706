"""A model of one node's acceptor and of the tables of its store, by which faults/store_map judges: messages as bytes, what each does and brings, and what a file's tables are read to."""
import collections, contextlib, copy, re, sqlite3

PREPARE, PROMISE, NACK, ACCEPT, ACCEPTED, QUERY = range(1, 7)
MEMBERS, NODES, SLOTS, BLOCK, ROUNDS, MOMENTS, VALUE, WINDOW = 3, 7, 1_000_000, 16, 2**40, 2**40, 16_384, 64
# The fields of each kind of command: name, number, moment, text, status.
FIELDS = ["m"] + ["n#m" + own for own in ("ttsm", "#ttsm", "#", "#", "#", "nt", "n", "n", "")]
NOOP = bytes(9)


def first_of(slot):
    """The first slot of its block."""
    return slot - (slot - 1) % BLOCK


# ---- bytes


class Bad(Exception):
    """Bytes, or columns, that are no value of theirs."""


class Reader:
    def __init__(self, data):
        self.data, self.at = data, 0

    def take(self, size):
        self.at += size
        if self.at > len(self.data):
            raise Bad
        return self.data[self.at - size:self.at]

    def number(self, size, least=0, greatest=2**64):
        it = int.from_bytes(self.take(size), "big")
        if not least <= it <= greatest:
            raise Bad
        return it

    def field(self, kind):
        if kind == "t":
            self.take(self.number(4, 0, 65_536)).decode()
        elif kind == "n" and not re.fullmatch(rb"[A-Za-z0-9_-]+", self.take(self.number(1, 1, 32))):
            raise Bad
        elif kind in "#ms":
            self.number(*{"#": (8,), "m": (8, 0, MOMENTS), "s": (1, 0, 5)}[kind])

    def ballot(self):
        return self.number(8, 1, ROUNDS), self.number(1, 1, NODES)

    def value(self):
        return value_of(self.take(self.number(4, 0, VALUE)))

    def vote(self):
        return self.ballot(), self.value()

    def votes(self, first):
        """Those of the block with this first slot, slots rising."""
        found, least = (), first
        for _ in range(self.number(1, 0, BLOCK)):
            slot = self.number(4, least, first + BLOCK - 1)
            found, least = found + ((slot, self.vote()),), slot + 1
        return found

    def end(self):
        if self.at != len(self.data):
            raise Bad


def value_of(data):
    """These bytes, where they spell one command."""
    read = Reader(data)
    try:
        for field in FIELDS[read.number(1, 0, len(FIELDS) - 1)]:
            read.field(field)
    except UnicodeDecodeError:
        raise Bad from None
    read.end()
    if len(data) > VALUE:
        raise Bad
    return data


def read_message(data):
    """Kind, sender, receiver, slot, and the kind's own fields; a ballot is (round, node), a vote (ballot, value), and a promise has its votes behind their slots."""
    read = Reader(data)
    kind, sender, to, slot = read.number(1, 1, 6), read.number(1, 1, NODES), read.number(1, 1, NODES), read.number(4, 1, SLOTS)
    rest = ()
    if kind in (PREPARE, PROMISE) and slot != first_of(slot):
        raise Bad
    if kind in (PREPARE, ACCEPT):
        rest = ((read.number(8, 1, ROUNDS), sender), *([read.value()] if kind == ACCEPT else []))
    elif kind == PROMISE:
        rest = read.ballot(), read.votes(slot)
    elif kind == NACK:
        rest = read.ballot(), read.ballot()
    elif kind == ACCEPTED:
        rest = (read.vote(),)
    read.end()
    return (kind, sender, to, slot, *rest)


def understood(data):
    """The message, or none, in a list."""
    try:
        return [read_message(data)]
    except Bad:
        return []


def number(it, size=8):
    return it.to_bytes(size, "big")


def spell(message):
    kind, sender, to, slot, *rest = message
    ballot = lambda it: number(it[0]) + number(it[1], 1)
    value = lambda it: number(len(it), 4) + it
    vote = lambda it: ballot(it[0]) + value(it[1])
    own = {PREPARE: lambda it: number(it[0]),
           PROMISE: lambda it, votes: ballot(it) + number(len(votes), 1) + b"".join(number(at, 4) + vote(last) for at, last in votes),
           NACK: lambda it, other: ballot(it) + ballot(other),
           ACCEPT: lambda it, what: number(it[0]) + value(what),
           ACCEPTED: vote,
           QUERY: lambda: b""}
    return bytes([kind, sender, to]) + number(slot, 4) + own[kind](*rest)


# ---- the model


class Model:
    """What a member holds and answers by the rules; here no slot is ever applied. A promise is one for each block, a vote one for each slot."""

    def __init__(self, me):
        self.me, self.promised, self.votes, self.last_round, self.begun = me, {}, {}, 0, frozenset()
        self.forget()

    def forget(self):
        """What a stop takes: the greatest round in nacks, a prepare under way to itself, the ballot that it prepares and its promises, the queue."""
        self.nacked, self.owed, self.ballot, self.promises, self.queued = 0, None, None, None, None

    def copy(self):
        it = copy.copy(self)
        it.promised, it.votes = dict(self.promised), dict(self.votes)
        return it

    def stored(self):
        """As `store_map` tells it, but for the round."""
        return self.promised, self.votes

    def settle(self):
        owed, self.owed = self.owed, None
        if owed:
            self.take(owed)

    def may_wake(self):
        """Something is queued or there may be a gap, and a round is left."""
        gap = any(1 < slot <= WINDOW for slot in self.votes)
        return (self.queued or gap) and max(self.last_round, self.nacked) < ROUNDS

    def wake(self):
        self.settle()
        self.last_round = 1 + max(self.last_round, self.nacked)
        self.begun |= {self.last_round}
        self.ballot, self.promises = (self.last_round, self.me), ()
        self.owed = (PREPARE, self.me, self.me, 1, self.ballot)

    def take(self, message):
        """The messages to others; those to itself are taken at once."""
        self.settle()
        waiting, sent = collections.deque([message]), []
        while waiting:
            for it in self.answer(*waiting.popleft()):
                (waiting if it[2] == self.me else sent).append(it)
        return sent

    def answer(self, kind, sender, to, slot, ballot=None, more=None):
        first = first_of(slot)
        promised, vote = self.promised.get(first), self.votes.get(slot)
        if to != self.me or sender > MEMBERS or kind == ACCEPTED:
            return []
        if kind == NACK:
            self.nacked = max(self.nacked, more[0])
            self.promises = None if (first, ballot) == (1, self.ballot) else self.promises
            return []
        if kind == PROMISE:
            return self.propose(sender, dict(more)) if (slot, ballot) == (1, self.ballot) else []
        if kind == QUERY:
            return [(ACCEPTED, to, sender, slot, vote)] if vote else []
        if kind == PREPARE and (promised is None or ballot > promised):
            self.promised[first] = ballot
            return [(PROMISE, to, sender, slot, ballot, tuple((it, self.votes[it]) for it in range(first, first + BLOCK) if it in self.votes))]
        if kind == ACCEPT and not (vote and vote[0] == ballot) and (promised is None or ballot >= promised):
            vote = ballot, more
            self.promised[first], self.votes[slot] = ballot, vote
        if kind == ACCEPT and vote and vote[0] == ballot:
            return [(ACCEPTED, to, it, slot, vote) for it in range(1, MEMBERS + 1)]
        return [(NACK, to, sender, slot, ballot, promised)]

    def propose(self, sender, votes):
        """One more promise for the ballot that it prepares; with a majority it leads the block, and the accepts for its next slot, the first one, go to all. Since that isn't
        applied, a wake behind it begins another round."""
        if self.promises is None or sender in [it for it, _ in self.promises]:
            return []
        self.promises += ((sender, votes.get(1)),)
        if 2 * len(self.promises) <= MEMBERS:
            return []
        votes, self.promises = [it for _, it in self.promises if it], None
        value = max(votes, key=lambda it: it[0])[1] if votes else self.queued or NOOP
        return [(ACCEPT, self.me, it, 1, self.ballot, value) for it in range(1, MEMBERS + 1)]


def futures(model, messages, last_round, wakes=40):
    """The models with this last round after these messages, each with the answers: so many wakes may come in between."""
    if not messages and model.last_round == last_round:
        yield model, []
        if model.owed:
            settled = model.copy()
            settled.settle()
            yield settled, []
    if wakes and model.last_round < last_round and model.may_wake():
        woken = model.copy()
        woken.wake()
        yield from futures(woken, messages, last_round, wakes - 1)
    if messages:
        after = model.copy()
        answers = after.take(messages[0])
        for it, more in futures(after, messages[1:], last_round, wakes):
            yield it, answers + more


# ---- the tables


def ballot_of(round_, node):
    if not (1 <= round_ <= ROUNDS and 1 <= node <= NODES):
        raise Bad
    return round_, node


def promise_of(first, *columns):
    """A promise; None where its row is damaged."""
    try:
        if not 1 <= first <= SLOTS or first != first_of(first):
            raise Bad
        return ballot_of(*columns)
    except Bad:
        return None


def vote_of(slot, round_, node, value):
    """A vote; None where its row is damaged."""
    try:
        if not 1 <= slot <= SLOTS:
            raise Bad
        return ballot_of(round_, node), value_of(value)
    except Bad:
        return None


def store_map(file):
    """The promises of blocks by their first slots, the votes by their slots, and the last round; None for a row or a round that is damaged, and in the place of all where the
    tables are no store's."""
    try:
        with contextlib.closing(sqlite3.connect(file)) as conn:
            if not {"block", "vote", "promise", "meta"} & {name for name, in conn.execute("SELECT name FROM sqlite_schema WHERE type = 'table'")}:
                return {}, {}, 0
            meta = dict(conn.execute("SELECT name, n FROM meta"))
            if meta.get("version") != 2 or "last_round" not in meta:
                return None
            promised = {row[0]: promise_of(*row) for row in conn.execute("SELECT first, round, node FROM block")}
            votes = {row[0]: vote_of(*row) for row in conn.execute("SELECT slot, round, node, value FROM vote")}
    except sqlite3.DatabaseError:
        return None
    # (a vote without a promise of its block is no store's)
    votes = {slot: vote if first_of(slot) in promised else None for slot, vote in votes.items()}
    return promised, votes, meta["last_round"] if 0 <= meta["last_round"] <= ROUNDS else None
