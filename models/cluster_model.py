#!/usr/bin/env python3
"""A model of a cluster of 1 to 7 nodes that agree on a list of values, written apart from the program: it plays a schedule and tells the same transcript.

    python3 models/cluster_model.py FILE     prints the transcript of a schedule; - is standard input

A bad file is `press: fault 72` on the errors and status 2, one that can't be opened `press: fault 40`, and nothing is printed. Plugins aren't modelled: where one is
activated the model says so and ends with status 3.
"""

import pathlib
import sys
from typing import NamedTuple, Union

from schedule_files import BEFORE, SAVE, BadSchedule, Command, read_schedule
from site_model import Noop, Site, Unsupported, size_of

TOO_LONG, FULL, ROUNDS_USED_UP, SLOTS_USED_UP, DOWN = 2, 60, 61, 62, 63
NO_SUCH_MESSAGE, NO_SUCH_NODE = 70, 71

COMMAND_LIMIT = 16_384
QUEUE, WINDOW = 256, 64
BLOCK, LAST_SLOT, LAST_ROUND = 16, 1_000_000, 2**40

Value = Union[Noop, Command]


class Ballot(NamedTuple):
    """Ordered by round, then by node."""

    round: int
    node: int


class Vote(NamedTuple):
    ballot: Ballot
    value: Value


def block_of(slot):
    """The slots that are promised together with this one."""
    first = (slot - 1) // BLOCK * BLOCK + 1
    return range(first, first + BLOCK)


# ---- messages: what they say; one that names a block has its first slot


class Prepare(NamedTuple):
    ballot: Ballot


class Promise(NamedTuple):
    ballot: Ballot
    votes: tuple  # (slot, vote) for each slot of the block that has one, slots rising


class Nack(NamedTuple):
    refused: Ballot
    promised: Ballot


class Accept(NamedTuple):
    vote: Vote


class Accepted(NamedTuple):
    vote: Vote


class Query(NamedTuple):
    pass


class Message(NamedTuple):
    sender: int
    to: int
    slot: int
    body: Union[Prepare, Promise, Nack, Accept, Accepted, Query]


class Fault(Exception):
    def __init__(self, number):
        self.number = number


# ---- what a node stores


class Store:
    """What a stop leaves: the last round that the node used, the promise of each block by its first slot, and the vote of each slot."""

    def __init__(self):
        self.last_round = 0
        self.promises = {}
        self.votes = {}

    def promised(self, slot):
        return self.promises.get(block_of(slot)[0])

    def save_promise(self, slot, ballot):
        self.promises[block_of(slot)[0]] = ballot

    def save_vote(self, slot, vote):
        """The vote, and its ballot as the promise of the slot's block."""
        self.save_promise(slot, vote.ballot)
        self.votes[slot] = vote

    def votes_in(self, slots):
        return tuple((slot, self.votes[slot]) for slot in slots if slot in self.votes)


# ---- the parts of a node


class Acceptor:
    def __init__(self, store):
        self.store = store

    def on_prepare(self, slot, ballot):
        """Promises a ballot greater than the block's promise, and tells all votes in the block so far."""
        promised = self.store.promised(slot)
        if promised is not None and ballot <= promised:
            return Nack(ballot, promised)
        self.store.save_promise(slot, ballot)
        return Promise(ballot, self.store.votes_in(block_of(slot)))

    def on_accept(self, slot, vote):
        """Votes in a ballot that is at least the block's promise, which it raises. A vote of this ballot for the slot is told again."""
        told, promised = self.store.votes.get(slot), self.store.promised(slot)
        if told is not None and told.ballot == vote.ballot:
            return Accepted(told)
        if promised is not None and vote.ballot < promised:
            return Nack(vote.ballot, promised)
        self.store.save_vote(slot, vote)
        return Accepted(vote)

    def on_query(self, slot):
        vote = self.store.votes.get(slot)
        return None if vote is None else Accepted(vote)


IDLE, PREPARING, LEADING = "idle", "preparing", "leading"


class Proposer:
    def __init__(self, id, members, store):
        self.id, self.members, self.store = id, members, store
        self.queue = []
        self.phase, self.block, self.ballot = IDLE, None, None
        self.promises = []  # (member, the votes that it reported by slot), in the order in which they came
        self.asked = set()  # the slots for which accept went out in this ballot
        self.greatest_nack = 0

    def wake(self, slot, gap):
        """The next slot, and what to ask of all members about it: with nothing to propose what they voted for; as the leader of its block their votes, once;
        else, about the block, their promise in a new round."""
        if not self.queue and not gap:
            return slot, Query()
        if self.phase == LEADING and slot in self.block and slot not in self.asked:
            return slot, self._ask(slot)
        round = 1 + max(self.store.last_round, self.greatest_nack)
        if round > LAST_ROUND:
            raise Fault(ROUNDS_USED_UP)
        self.store.last_round = round
        self.phase, self.block, self.ballot, self.promises, self.asked = PREPARING, block_of(slot), Ballot(round, self.id), [], set()
        return self.block[0], Prepare(self.ballot)

    def on_promise(self, sender, slot, promise, next_slot):
        """With the promises of more than half of the members it leads the block, and asks for votes for the next slot. The first promise of each member counts."""
        if self.phase != PREPARING or slot not in self.block or promise.ballot != self.ballot:
            return None
        if any(member == sender for member, _ in self.promises):
            return None
        self.promises.append((sender, dict(promise.votes)))
        if 2 * len(self.promises) <= self.members:
            return None
        self.phase = LEADING
        return self._ask(next_slot)

    def _ask(self, slot):
        self.asked.add(slot)
        return Accept(Vote(self.ballot, self._value(slot)))

    def _value(self, slot):
        best = None
        for _, votes in self.promises:
            vote = votes.get(slot)
            if vote is not None and (best is None or vote.ballot > best.ballot):
                best = vote
        if best is not None:
            return best.value
        return self.queue[0] if self.queue else Noop(0)

    def on_nack(self, slot, nack):
        self.greatest_nack = max(self.greatest_nack, nack.promised.round)
        if self.phase != IDLE and slot in self.block and nack.refused == self.ballot:
            self.phase = IDLE

    def on_applied(self, slot, value):
        if slot == block_of(slot)[-1]:
            self.phase = IDLE
        if value in self.queue:
            self.queue.remove(value)


class Learner:
    def __init__(self, members):
        self.members = members
        self.applied = 0
        self.votes = {}  # by (slot, member)

    def on_vote(self, sender, slot, vote):
        """Keeps for each of the next slots and each member the vote of the greatest ballot, of equal ones the first."""
        if not self.applied < slot <= self.applied + WINDOW:
            return
        kept = self.votes.get((slot, sender))
        if kept is None or vote.ballot > kept.ballot:
            self.votes[slot, sender] = vote

    def next_chosen(self):
        """The value for which more than half of the members voted in one ballot."""
        votes = [self.votes.get((self.applied + 1, member)) for member in range(1, self.members + 1)]
        for vote in votes:
            if vote is not None and 2 * sum(other is not None and other.ballot == vote.ballot for other in votes) > self.members:
                return vote.value
        return None

    def has_gap(self):
        return any(slot > self.applied + 1 for slot, _ in self.votes)

    def advance(self):
        self.applied += 1
        self.votes = {place: vote for place, vote in self.votes.items() if place[0] > self.applied}


class Node:
    """One member, running. A start begins with nothing applied and an empty queue: only the store stays."""

    def __init__(self, id, members, store):
        self.id, self.members = id, members
        self.acceptor = Acceptor(store)
        self.proposer = Proposer(id, members, store)
        self.learner = Learner(members)
        self.site = Site()

    @property
    def applied(self):
        return self.learner.applied

    def on_submit(self, command):
        if size_of(command) > COMMAND_LIMIT:
            raise Fault(TOO_LONG)
        if len(self.proposer.queue) >= QUEUE:
            raise Fault(FULL)
        self.proposer.queue.append(command)
        return []

    def on_wake(self):
        if self.applied >= LAST_SLOT:
            raise Fault(SLOTS_USED_UP)
        return self._to_all(*self.proposer.wake(self.applied + 1, self.learner.has_gap()))

    def on_message(self, message):
        sender, slot, body = message.sender, message.slot, message.body
        if isinstance(body, Prepare):
            return self._to_one(sender, slot, self.acceptor.on_prepare(slot, body.ballot))
        if isinstance(body, Accept):
            said = self.acceptor.on_accept(slot, body.vote)
            return self._to_all(slot, said) if isinstance(said, Accepted) else self._to_one(sender, slot, said)
        if isinstance(body, Query):
            return self._to_one(sender, slot, self.acceptor.on_query(slot))
        if isinstance(body, Promise):
            return self._on_promise(sender, slot, body)
        if isinstance(body, Nack):
            self.proposer.on_nack(slot, body)
        if isinstance(body, Accepted):
            self.learner.on_vote(sender, slot, body.vote)
            self._apply_chosen()
        return []

    def _on_promise(self, sender, slot, promise):
        if self.applied >= LAST_SLOT:
            return []
        return self._to_all(self.applied + 1, self.proposer.on_promise(sender, slot, promise, self.applied + 1))

    def _apply_chosen(self):
        while (value := self.learner.next_chosen()) is not None:
            self.site.apply(value)
            self.learner.advance()
            self.proposer.on_applied(self.applied, value)

    def _to_one(self, member, slot, body):
        return [] if body is None else [Message(self.id, member, slot, body)]

    def _to_all(self, slot, body):
        """By number, the sender among them."""
        return [] if body is None else [Message(self.id, member, slot, body) for member in range(1, self.members + 1)]


class Cluster:
    """Nodes with their stores, and all messages that were ever sent, numbered from 1."""

    def __init__(self, nodes):
        self.members = nodes
        self.stores = {id: Store() for id in range(1, nodes + 1)}
        self.nodes = {id: Node(id, nodes, self.stores[id]) for id in self.stores}  # None where it is down
        self.sent = []
        self.steps = 0

    def play(self, step):
        """The lines of a step, as bytes: one, or those of a page behind it."""
        self.steps += 1
        told, body = self._told(step)
        line = f"{self.steps} {told}\n".encode()
        return line if body is None else line + body + b"\n"

    def end(self):
        return ("end" + "".join(f" {node.applied if node else '-'}" for node in self.nodes.values()) + "\n").encode()

    def message(self, number):
        return self.sent[number - 1] if 1 <= number <= len(self.sent) else None

    def _told(self, step):
        id, words = step.node, f"{step.do} {step.node}"
        try:
            if step.do == "deliver":
                words = f"deliver {step.message}"
                message = self.message(step.message)
                if message is None:
                    raise Fault(NO_SUCH_MESSAGE)
                id, words = message.to, f"{words} node {message.to}"
                return f"{words} {self._event(id, step.cut, lambda node: node.on_message(message))}", None
            if step.do == "get":
                words += f" {step.target}"
            if id not in self.nodes:
                raise Fault(NO_SUCH_NODE)
            if step.do == "submit":
                return f"{words} {self._event(id, step.cut, lambda node: node.on_submit(step.command))}", None
            if step.do == "wake":
                return f"{words} {self._event(id, step.cut, lambda node: node.on_wake())}", None
            if step.do == "restart":
                self.nodes[id] = Node(id, self.members, self.stores[id])
                return f"{words} sent 0 k={self.nodes[id].applied}", None
            node = self._running(id)
            status, body = node.site.page(step.target)
            return f"{words} {status} {len(body)} k={node.applied}", body
        except Fault as fault:
            return f"{words} fault {fault.number}", None

    def _running(self, id):
        if self.nodes[id] is None:
            raise Fault(DOWN)
        return self.nodes[id]

    def _event(self, id, cut, happen):
        """Plays an event of a node, or a part of it. A node that is down plays no cut, nor is one played where the event is refused; but a cut before everything
        stops a running node before anything else is looked for."""
        node = self._running(id)
        out = [] if cut == BEFORE else happen(node)
        if cut is not None:
            out = out[: 0 if cut in (BEFORE, SAVE) else cut]
            self.nodes[id] = None
        first = len(self.sent) + 1
        self.sent += out
        span = f"{first}-{len(self.sent)}" if out else "0"
        return f"sent {span} stop" if cut is not None else f"sent {span} k={node.applied}"


def transcript(nodes, steps):
    cluster = Cluster(nodes)
    lines = [cluster.play(step) for step in steps]
    return b"".join(lines) + cluster.end()


def transcript_of(data):
    """That of a schedule file's bytes."""
    return transcript(*read_schedule(data))


def main():
    name = sys.argv[1]
    try:
        data = sys.stdin.buffer.read() if name == "-" else pathlib.Path(name).read_bytes()
        told = transcript_of(data)
    except OSError:
        print("press: fault 40", file=sys.stderr)
        return 2
    except BadSchedule:
        print("press: fault 72", file=sys.stderr)
        return 2
    except Unsupported:
        print("a plugin is activated, which the model doesn't know", file=sys.stderr)
        return 3
    sys.stdout.buffer.write(told)
    return 0


if __name__ == "__main__":
    sys.exit(main())
