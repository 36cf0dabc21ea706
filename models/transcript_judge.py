"""A second reading of transcripts: from a schedule and what was printed for it, apart from the program and from cluster_model.

What a message says isn't printed, but it follows from who sent it and when. The judge keeps the facts: which ballots were prepared for which block of 16 slots, who
promised and who voted in which, and what each node has heard since its start. Where a line shows what was done (a vote is told to all, a refusal to one) the judge goes
by the line, and asks whether it was allowed. The first thing that isn't is a breach.
"""

import collections
import json
import re
from typing import Any, NamedTuple, Optional

EMPTY_FRONT = b"<!DOCTYPE html>\n<html>\n<head>\n<title>Press</title>\n</head>\n<body>\n<h1>Press</h1>\n</body>\n</html>\n"
NO_PAGE = b"<!DOCTYPE html>\n<html>\n<body>\n<h1>404 Not Found</h1>\n</body>\n</html>\n"
NO_DATA = b'{"code":404}'
NOTHING = ("noop", 0)
NONE_YET = (0, 0)  # below every ballot


def block_of(slot):
    """Which block the slot is in, from 0 on."""
    return (slot - 1) >> 4


def opening(block):
    """Its first slot, by which messages name it."""
    return 16 * block + 1


class Breach(Exception):
    pass


class Told(NamedTuple):
    """What a message says. A ballot is (round, node); a vote is (ballot, value)."""

    kind: str
    sender: int
    to: int
    slot: int
    ballot: tuple = NONE_YET
    vote: Optional[tuple] = None
    votes: tuple = ()  # those of a promise, each behind its slot
    promised: tuple = NONE_YET


class Line(NamedTuple):
    """What stands behind the words of a step."""

    fault: Optional[int] = None
    first: int = 0
    count: int = 0
    status: int = 0
    length: int = 0
    k: Optional[int] = None  # none where the node stopped


class Life:
    """What a node has heard and done since its start."""

    def __init__(self):
        self.k = 0
        self.waiting = []
        self.heard = {}  # by slot, by member: the vote of the greatest ballot
        self.attempt = None  # the block and the ballot that it prepares, until it leads or gives up
        self.lead = None  # those that it leads, until it gives up
        self.promises = {}  # by member, in the order in which they came: the votes that were reported, by slot
        self.refused_by = 0  # the greatest round of a promise for which it was refused

    def has_gap(self):
        return any(slot > self.k + 1 for slot in self.heard)

    def give_up(self):
        self.attempt = self.lead = None


def command_of(step):
    """What a submitted command is, for comparing: two are the same where they are spelled alike."""
    told = {key: step.get(key) for key in ("editor", "seq", "at", "kind")}
    keys = {"insert": ("title", "content"), "update": ("id", "title", "content"), "option": ("name", "value"), "tick": (), "profile": ("profile",)}
    keys |= dict.fromkeys(("trash", "untrash", "delete"), ("id",)) | dict.fromkeys(("activate", "deactivate"), ("plugin",))
    told |= {key: step[key] for key in keys[step["kind"]]}
    if step["kind"] in ("insert", "update"):
        told |= {"status": step.get("status", "draft"), "date": step.get("date", step["at"])}
    return tuple(sorted(told.items()))


def spelled(command):
    """How many bytes the command takes on the wire."""
    sizes = {"seq": 8, "at": 8, "kind": 1, "id": 8, "status": 1, "date": 8, "profile": 1}
    names = ("editor", "plugin", "name")
    return sum(sizes.get(key) or len(value.encode()) + (1 if key in names else 4) for key, value in command)


def target_of(text):
    """The target as it is printed, with numbers in their shortest form."""
    return re.sub(r"[0-9]+$", lambda number: str(int(number[0])), text)


class Reading:
    def __init__(self, schedule):
        self.members = schedule["nodes"]
        self.steps = schedule["steps"]
        self.lives = {node: Life() for node in range(1, self.members + 1)}  # None where it is down
        self.sent = []
        # facts
        self.last_round = collections.Counter()
        self.prepared = {}  # by ballot: the block
        self.bounds = collections.defaultdict(set)  # by (member, block): the ballots in which it promised the block or voted for a slot of it
        self.votes = {}  # by (member, slot): the last vote
        self.voters = collections.defaultdict(set)  # by (slot, ballot, value)
        self.proposed = {}  # by (ballot, slot): the value
        self.chosen = {}  # by slot
        # pages
        self.pages = {}  # by (k, target)
        self.counts = collections.Counter()

    def is_majority(self, members):
        return 2 * len(members) > self.members

    # ---- lines

    def read(self, transcript):
        for number, step in enumerate(self.steps, 1):
            transcript = self._step(number, step, transcript)
        ks = "".join(f" {life.k if life else '-'}" for life in self.lives.values())
        self._need(transcript == f"end{ks}\n".encode(), f"the end isn't that of nodes with{ks} slots")

    def _need(self, holds, breach):
        if not holds:
            raise Breach(breach)

    def _step(self, number, step, transcript):
        raw, newline, rest = transcript.partition(b"\n")
        try:
            self._need(newline, "the line isn't there")
            text = raw.decode(errors="replace")
            if step["do"] == "get":
                return self._get(number, step, text, rest)
            self._play(number, step, text)
            return rest
        except Breach as breach:
            raise Breach(f"step {number}, {raw.decode(errors='replace')!r}: {breach}") from None

    def _line(self, words, text, get=False):
        self._need(text.startswith(words + " "), f"the line should begin with {words!r}")
        told = text[len(words) + 1 :]
        if match := re.fullmatch(r"fault (\d+)", told):
            return Line(fault=int(match[1]))
        if get and (match := re.fullmatch(r"(\d+) (\d+) k=(\d+)", told)):
            status, length, k = map(int, match.groups())
            return Line(status=status, length=length, k=k)
        if not get and (match := re.fullmatch(r"sent (?:0|(\d+)-(\d+)) (?:stop|k=(\d+))", told)):
            first, last, k = (None if part is None else int(part) for part in match.groups())
            if first is None:
                return Line(k=k)
            self._need(first == len(self.sent) + 1 and first <= last, f"the next message is {len(self.sent) + 1}")
            return Line(first=first, count=last - first + 1, k=k)
        raise Breach("the line has no such form")

    def _fault(self, line, fault):
        self._need(line.fault == fault, f"the fault should be {fault}")

    # ---- steps

    def _play(self, number, step, text):
        do, node, cut = step["do"], step.get("node"), step.get("cut")
        words = f"{number} {do} {node}"
        message = None
        if do == "deliver":
            words = f"{number} deliver {step['message']}"
            if not 1 <= step["message"] <= len(self.sent):
                return self._fault(self._line(words, text), 70)
            message = self.sent[step["message"] - 1]
            node = message.to
            words += f" node {node}"
        line = self._line(words, text)
        if node not in self.lives:
            return self._fault(line, 71)
        if do == "restart":
            self.counts["restarts"] += 1
            self.lives[node] = Life()
            self._need(line.fault is None and line.count == 0, "a restart sends nothing")
            return self._need(line.k == 0, "a restart begins at k=0")
        life = self.lives[node]
        if life is None:
            return self._fault(line, 63)
        if cut == "before":
            return self._stop(node, line, [], 0)
        if do == "submit":
            command = command_of(step)
            if fault := 2 if spelled(command) > 16_384 else 60 if len(life.waiting) == 256 else None:
                return self._fault(line, fault)
            life.waiting.append(command)
        self._need(line.fault is None, "nothing here is a fault")
        seen = None if cut is not None else line.count
        before = life.k
        out = [] if do == "submit" else self._wake(node, life) if do == "wake" else self._hear(node, life, message, seen)
        if cut is not None:
            return self._stop(node, line, out, 0 if cut == "save" else cut)
        self._need(line.count == len(out), f"it should send {len(out)}")
        self.sent += out
        self._need(line.k is not None, "the node wasn't cut")
        self._need(line.k >= before, "k falls without a restart")
        self._need(line.k <= life.k, f"k rises to {line.k}, but of slot {life.k + 1} no majority told a vote of one ballot")
        self._need(line.k == life.k, f"k should be {life.k}: a majority told its votes")

    def _stop(self, node, line, out, most):
        self.counts["cuts"] += 1
        out = out[:most]
        self._need(line.fault is None and line.k is None, "the node was cut and should stop")
        self._need(line.count == len(out), f"it should send {len(out)} before it stops")
        self.sent += out
        self.lives[node] = None

    def _to_all(self, kind, sender, slot, **more):
        return [Told(kind, sender, to, slot, **more) for to in range(1, self.members + 1)]

    def _wake(self, node, life):
        slot = life.k + 1
        if not life.waiting and not life.has_gap():
            return self._to_all("query", node, slot)
        if life.lead and life.lead[0] == block_of(slot) and (life.lead[1], slot) not in self.proposed:
            return self._propose(node, life, slot)
        round = 1 + max(self.last_round[node], life.refused_by)
        self.last_round[node] = round
        ballot = (round, node)
        self._need(ballot not in self.prepared, f"ballot {ballot} was prepared before")
        self.prepared[ballot] = block_of(slot)
        life.give_up()
        life.attempt, life.promises = (block_of(slot), ballot), {}
        return self._to_all("prepare", node, opening(block_of(slot)), ballot=ballot)

    def _propose(self, node, life, slot):
        """As the leader of its block it asks for votes for the value of the greatest vote that was reported for this very slot, else for what it likes."""
        block, ballot = life.lead
        self._need(self.prepared.get(ballot) == block == block_of(slot), f"ballot {ballot} wasn't prepared for the block of slot {slot}")
        self._need((ballot, slot) not in self.proposed, f"a ballot asks for votes twice for slot {slot}")
        reported = [votes[slot] for votes in life.promises.values() if slot in votes]
        value = life.waiting[0] if life.waiting else NOTHING
        if reported:
            value = max(reported, key=lambda vote: vote[0])[1]
            self.counts["reported values proposed"] += 1
        self.counts["proposals without a prepare"] += any((ballot, other) in self.proposed for other in range(opening(block), slot))
        self.counts["nothings proposed"] += value == NOTHING
        self.proposed[ballot, slot] = value
        return self._to_all("accept", node, slot, ballot=ballot, vote=(ballot, value))

    def _bound(self, member, slot):
        """The greatest ballot in which the member promised the slot's block, or voted for a slot of it."""
        return max(self.bounds[member, block_of(slot)], default=NONE_YET)

    # ---- messages; `seen` is how many messages the line shows, or none where a cut hides it

    def _hear(self, node, life, message, seen):
        return getattr(self, "_hear_" + message.kind)(node, life, message, seen)

    def _hear_query(self, node, life, message, seen):
        vote = self.votes.get((node, message.slot))
        return [] if vote is None else [Told("accepted", node, message.sender, message.slot, vote=vote)]

    def _hear_prepare(self, node, life, message, seen):
        block, bound = block_of(message.slot), self._bound(node, message.slot)
        self._need(message.slot == opening(block), "a prepare names a block by its first slot")
        if message.ballot <= bound:
            return [Told("nack", node, message.sender, message.slot, message.ballot, promised=bound)]
        self.bounds[node, block].add(message.ballot)
        slots = range(opening(block), opening(block + 1))
        votes = tuple((slot, self.votes[node, slot]) for slot in slots if (node, slot) in self.votes)
        self.counts["promises with several votes"] += len(votes) > 1
        return [Told("promise", node, message.sender, message.slot, message.ballot, votes=votes)]

    def _hear_promise(self, node, life, message, seen):
        place = (block_of(message.slot), message.ballot)
        if life.attempt == place:
            life.promises.setdefault(message.sender, dict(message.votes))
        is_time = life.attempt == place and self.is_majority(life.promises)
        if seen:
            self._need(life.attempt == place, "it asks for votes in a ballot that it doesn't prepare")
            self._need(is_time, "it asks for votes without a majority of promises")
        if not is_time:
            return []
        life.attempt, life.lead = None, place
        return self._propose(node, life, life.k + 1)

    def _hear_accept(self, node, life, message, seen):
        ballot, bound, told = message.ballot, self._bound(node, message.slot), self.votes.get((node, message.slot))
        votes = ballot >= bound or (told is not None and told[0] == ballot)
        if seen is not None and self.members > 1:
            self._need(seen in (1, self.members), "a vote goes to all, a refusal to one")
            self._need(seen == 1 or votes, f"it votes in {ballot}, below its promise of {bound}")
            self._need(seen > 1 or not votes, f"it refuses {ballot}, though it promised nothing greater")
        if not votes:
            return [Told("nack", node, message.sender, message.slot, ballot, promised=bound)]
        if told is None or told[0] != ballot:
            self._vote(node, message.slot, message.vote)
        return self._to_all("accepted", node, message.slot, vote=self.votes[node, message.slot])

    def _vote(self, member, slot, vote):
        ballot, value = vote
        self._need(self.proposed.get((ballot, slot)) == value, f"it votes in {ballot} for what wasn't proposed for slot {slot}")
        self.bounds[member, block_of(slot)].add(ballot)
        self.votes[member, slot] = vote
        voters = self.voters[slot, ballot, value]
        voters.add(member)
        if self.is_majority(voters):
            before = self.chosen.setdefault(slot, value)
            self._need(before == value, f"slot {slot} is chosen two ways")

    def _hear_nack(self, node, life, message, seen):
        life.refused_by = max(life.refused_by, message.promised[0])
        if (block_of(message.slot), message.ballot) in (life.attempt, life.lead):
            life.give_up()
        return []

    def _hear_accepted(self, node, life, message, seen):
        if life.k < message.slot <= life.k + 64:
            heard = life.heard.setdefault(message.slot, {})
            if message.sender not in heard or message.vote[0] > heard[message.sender][0]:
                heard[message.sender] = message.vote
        while self._rises(life):
            pass
        return []

    def _rises(self, life):
        ballots = collections.defaultdict(list)
        for ballot, value in life.heard.get(life.k + 1, {}).values():
            ballots[ballot].append(value)
        for values in ballots.values():
            if self.is_majority(values):
                life.k += 1
                self._need(self.chosen.get(life.k) == values[0], f"what it applies in slot {life.k} isn't chosen")
                del life.heard[life.k]
                if values[0] in life.waiting:
                    life.waiting.remove(values[0])
                if block_of(life.k + 1) != block_of(life.k):
                    life.give_up()
                return True
        return False

    # ---- pages

    def _get(self, number, step, text, rest):
        node, target = step["node"], target_of(step["target"])
        line = self._line(f"{number} get {node} {target}", text, get=True)
        if node not in self.lives or self.lives[node] is None:
            self._fault(line, 63 if node in self.lives else 71)
            return rest
        self._need(line.fault is None, "nothing here is a fault")
        self._need(line.k == self.lives[node].k, f"k should be {self.lives[node].k}")
        self._need(rest[line.length : line.length + 1] == b"\n", "the body is shorter or longer")
        self.counts["gets"] += 1
        self._page(line.k, target, line.status, rest[: line.length])
        return rest[line.length + 1 :]

    def _page(self, k, target, status, body):
        kind = target.partition(":")[0]
        self._need(status in (200, 404), "no page has such a status")
        if status == 404:
            self._need(kind != "front" and body == (NO_PAGE if kind == "post" else NO_DATA), "the body isn't that of a 404")
        if k == 0:
            empty = (200, EMPTY_FRONT) if kind == "front" else (404, body)
            self._need((status, body) == empty, "there is something at k=0")
        before = self.pages.setdefault((k, target), (status, body))
        self._need(before == (status, body), f"{target} at k={k} was another page before")
        if kind == "result":
            self._outcome(k, target, status, body)

    def _outcome(self, k, target, status, body):
        editor, _, seq = target.partition(":")[2].partition("/")
        token = {("editor", editor), ("seq", int(seq))}
        stands = any(token <= set(self.chosen[slot]) for slot in range(1, k + 1) if self.chosen[slot] != NOTHING)
        self._need((status == 200) == stands, "an outcome stands where its command is among the values, and only there")
        self._need(status == 404 or re.fullmatch(rb'\{"(done|refused)":[0-9]+\}', body), "the outcome has no such form")
        if status == 200:
            kept = self.pages.setdefault(("kept", target), body)
            self._need(kept == body, "the outcome was another one before")


def judge(schedule: Any, transcript: bytes):
    """The reading of the whole transcript, or a Breach. The schedule is the JSON value of the file."""
    reading = Reading(schedule)
    reading.read(transcript)
    return reading


def judge_files(schedule, transcript):
    return judge(json.loads(schedule), transcript)
