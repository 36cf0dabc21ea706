"""Random schedules, made beside a cluster of the model, so that each step fits what was sent: clusters that lose, repeat and delay messages, nodes that stop and
start again, proposers in each other's way, nodes that miss some slots, and now and then a number that names nothing."""

import json
import random
from typing import NamedTuple

from cluster_model import PREPARING, Accept, Accepted, Cluster, Prepare, Promise, block_of
from schedule_files import LAST_MOMENT, STATUSES, U32, U64, read_schedule
from site_model import size_of

EDITORS = ("ann", "bob", "Cy-3", "d_" + "o" * 30)
OPTIONS = ("blogname", "colour", "x")
WORDS = ("Hello", "a & b", "<b>bold</b>", '"quoted"', "it's", "Grüße", "日本語", "𝄞", "tab\there", "two\nlines", "\u0001\u001f\u007f", "[box]a[/box]", "back\\slash", "", "   ", "/")
LIMIT = 16_384


class Manner(NamedTuple):
    """How a cluster fares: chances at each step, or for each message."""

    lose: float
    late: float  # a message is taken from anywhere, and not the first that waits
    repeat: float
    restart: float
    cut: float
    duel: float  # a further node wakes before anything of the last one arrives
    hasty: float  # a node wakes while messages are on their way
    split: float  # members vote one by one, in ballot after ballot
    away: float  # a node begins to miss all messages
    astray: float  # a number that names no node or message
    get: float
    submit: float  # a further command, though others wait


CALM = Manner(lose=0, late=0, repeat=0, restart=0, cut=0, duel=0, hasty=0, split=0, away=0, astray=0.003, get=0.06, submit=0.05)


def _manner(chance, cuts):
    def some(*of):
        return chance.choice(of)

    if chance.random() < 0.1:
        return CALM
    return Manner(
        lose=some(0, 0.02, 0.1, 0.2),
        late=some(0, 0, 0.1, 0.5, 1),
        repeat=some(0, 0.02, 0.1),
        restart=some(0, 0, 0.005, 0.02),
        cut=some(0, 0.005, 0.02, 0.04) if cuts else 0,
        duel=some(0, 0.1, 0.4),
        hasty=some(0, 0, 0.02, 0.05),
        split=some(0, 0, 0.005, 0.015),
        away=some(0, 0, 0.01, 0.03),
        astray=some(0, 0.005, 0.02),
        get=some(0.03, 0.08, 0.15),
        submit=some(0.02, 0.05, 0.15),
    )


class Maker:
    def __init__(self, chance, cuts=True):
        self.chance, self.cuts = chance, cuts
        self.manner = _manner(chance, cuts)
        self.members = chance.choice((1, 2, 3, 3, 3, 4, 5, 5, 6, 7))
        self.length = chance.randint(50, 400) if self.members < 4 else chance.randint(200, 400)
        if chance.random() < 0.1:
            self.length *= 3  # (so that some go on into further blocks)
        self.cluster = Cluster(self.members)
        self.lines = []
        self.steps = []
        self.waiting = []  # numbers of messages that are still to arrive
        self.commands = []
        self.clock = chance.choice((0, 100, 100, 1_000_000))
        self.seq = 0
        self.away = None  # a node that nothing reaches, and for how many steps
        self.plans = []  # steps that are to come next

    # ---- one step after the other

    def make(self):
        if self.length > 300 and self.chance.random() < 0.05:
            self._flood()
        while len(self.steps) < self.length:
            self._step()
        self.lines.append(self.cluster.end())
        written = ",\n".join(json.dumps(step, ensure_ascii=self.chance.random() < 0.5, separators=(",", ":")) for step in self.steps)
        return f'{{"nodes":{self.members},"steps":[\n{written}\n]}}\n'.encode(), b"".join(self.lines)

    def _play(self, step):
        """Writes a step down, reads it as a file has it, and plays it, unless the schedule is long enough; the numbers of the messages that it sent."""
        if len(self.steps) == self.length:
            return []
        self.steps.append(step)
        before = len(self.cluster.sent)
        read = read_schedule(json.dumps({"nodes": self.members, "steps": [step]}).encode())[1][0]
        self.lines.append(self.cluster.play(read))
        sent = range(before + 1, len(self.cluster.sent) + 1)
        for number in sent:
            if self.chance.random() >= self.manner.lose and not self._is_away(self.cluster.message(number).to):
                self.waiting.append(number)
        return list(sent)

    def _happens(self, chance):
        return self.chance.random() < chance

    def _step(self):
        manner = self.manner
        self._come_and_go()
        down = [node for node, up in self.cluster.nodes.items() if up is None]
        if self.plans:
            self._play(self.plans.pop(0))
        elif down and self._happens(0.2):
            self._play({"do": "restart", "node": self.chance.choice(down)})
        elif self._happens(manner.astray):
            self._play(self._astray())
        elif self._happens(manner.get):
            self._play(self._get())
        elif self._happens(manner.restart):
            self._play({"do": "restart", "node": self._node()})
        elif self.cluster.sent and self._happens(manner.repeat):
            self._play(self._cut({"do": "deliver", "message": self.chance.randint(1, len(self.cluster.sent))}))
        elif self._happens(manner.submit):
            self._play(self._submit(self._present()))
        elif self.members > 2 and self._happens(manner.split):
            self._split()
        elif self._happens(manner.hasty):
            self._play(self._cut({"do": "wake", "node": self._present()}))
        elif (number := self._next_message()) is not None:
            self._play(self._cut({"do": "deliver", "message": number}))
        else:
            self._begin()

    def _node(self):
        return self.chance.randint(1, self.members)

    def _present(self):
        """A node that is up and that messages reach, where there is one."""
        nodes = [node for node, up in self.cluster.nodes.items() if up and not self._is_away(node)]
        return self.chance.choice(nodes) if nodes else self._node()

    def _begin(self):
        """Nothing is on its way: somebody who has a command wakes, or gets one; or somebody asks what was chosen."""
        having = [node for node, up in self.cluster.nodes.items() if up and up.proposer.queue and not self._is_away(node)]
        if having and self._happens(0.8):
            node = self.chance.choice(having)
        else:
            node = self._present()
            if self._happens(0.75):
                self.plans.append(self._submit(node))
        self.plans.append(self._cut({"do": "wake", "node": node}))
        while self._happens(self.manner.duel):
            node = self._present()
            if self._happens(0.6):
                self.plans.append(self._submit(node))
            self.plans.append(self._cut({"do": "wake", "node": node}))

    # ---- votes of many ballots in one block

    def _split(self):
        """One member votes in a ballot; another one in a greater ballot, whose promises don't tell of the first vote; and then a proposer hears of both."""
        members = list(self.cluster.nodes)
        most = self.members // 2 + 1
        voted = []
        for _ in range(self.chance.randint(1, 2)):
            others = [member for member in members if member not in voted]
            promisers = self.chance.sample(others, most) if len(others) >= most else others
            voter = self.chance.choice(promisers if self._happens(0.7) else others)
            self._attempt(self._present(), promisers, [voter])
            voted.append(voter)
        self.chance.shuffle(voted)
        promisers = voted + self.chance.sample([member for member in members if member not in voted], most - len(voted))
        self._attempt(self._present(), promisers, members if self._happens(0.5) else promisers[:1])

    def _attempt(self, node, promisers, voters):
        """A node prepares a ballot with these, in this order, unless it leads already, and these are asked for votes. A refusal makes it try once more. Other messages are lost, mostly."""
        waiting = list(self.waiting)
        if self.cluster.nodes[node] and not self.cluster.nodes[node].proposer.queue:
            self._play(self._submit(node))
        for _ in range(2):
            accepts = self._play({"do": "wake", "node": node})
            if not self._are_accepts(accepts):
                accepts = self._deliver_to([node], self._deliver_to(promisers, accepts))
            if accepts:
                self._deliver_to(voters, accepts)
                break
        if self._happens(0.7):
            self.waiting = waiting

    def _are_accepts(self, numbers):
        return any(isinstance(self.cluster.message(number).body, Accept) for number in numbers)

    def _deliver_to(self, members, numbers):
        """Delivers those that are for these members, in their order; what was sent in answer."""
        mine = [number for member in members for number in numbers if self.cluster.message(number).to == member]
        return [answer for number in mine for answer in self._play(self._cut({"do": "deliver", "message": number}))]

    # ---- messages

    def _is_away(self, node):
        return self.away is not None and self.away[0] == node

    def _come_and_go(self):
        if self.away is not None:
            node, left = self.away
            self.away = (node, left - 1) if left else None
            if not left and self._happens(0.5):
                self.plans.append({"do": "wake", "node": node})
        elif self.members > 2 and self._happens(self.manner.away):
            self.away = (self._node(), self.chance.randint(20, 150))

    def _is_stale(self, number):
        """Nothing comes of it any more, most likely."""
        message = self.cluster.message(number)
        node, sender = self.cluster.nodes[message.to], self.cluster.nodes[message.sender]
        if node is None:
            return True
        if isinstance(message.body, Accepted):
            return message.slot <= node.applied
        if isinstance(message.body, Promise):
            return node.proposer.phase != PREPARING or node.proposer.ballot != message.body.ballot
        if isinstance(message.body, Prepare):
            return sender is not None and block_of(message.slot)[-1] <= sender.applied
        if isinstance(message.body, Accept):
            return sender is not None and message.slot <= sender.applied
        return False

    def _next_message(self):
        while self.waiting:
            place = self.chance.randrange(len(self.waiting)) if self._happens(self.manner.late) else 0
            number = self.waiting.pop(place)
            if not self._is_stale(number) or self._happens(0.1):
                return number
        return None

    def _cut(self, step):
        if self._happens(self.manner.cut):
            step["cut"] = self.chance.choice(("before", "save", 0, 1, 1, 2, 3, self.members, U32))
        return step

    # ---- commands

    def _text(self, most=3):
        return " ".join(self.chance.choice(WORDS) for _ in range(self.chance.randint(0, most)))

    def _moment(self):
        if self._happens(0.003):
            return self.chance.choice((0, LAST_MOMENT))
        return min(LAST_MOMENT, max(0, self.clock + self.chance.choice((-30, -1, 0, 0, 1, 5, 30, 100))))

    def _id(self):
        return self.chance.choice((0, U64)) if self._happens(0.03) else self.chance.randint(1, self.chance.choice((2, 5, 9)))

    def _submit(self, node):
        step = {"do": "submit", "node": node}
        if self.commands and self._happens(0.15):
            step |= self.chance.choice(self.commands)
            if self._happens(0.25):
                step |= {"at": self.clock, "kind": "tick"}
        else:
            command = self._command()
            self.commands.append(command)
            step |= command
        if self._happens(0.01):
            step["note"] = [None, {"cut": -1}, 1.5]
        return self._cut(step)

    def _command(self):
        self.clock = min(LAST_MOMENT, self.clock + self.chance.choice((0, 0, 1, 10, 40)))
        self.seq += 1
        command = {"editor": self.chance.choice(EDITORS), "seq": U64 if self._happens(0.003) else self.seq, "at": self._moment()}
        kind = self.chance.choices(("insert", "update", "trash", "untrash", "delete", "option", "activate", "deactivate", "tick", "profile"), (50, 12, 7, 4, 4, 8, 1, 2, 12, 2))[0]
        command["kind"] = kind
        if kind in ("update", "trash", "untrash", "delete"):
            command["id"] = self._id()
        if kind in ("insert", "update"):
            self._write(command)
        elif kind == "option":
            command |= {"name": self.chance.choice(OPTIONS), "value": "v" * self.chance.choice((4_096, 4_097)) if self._happens(0.02) else self._text()}
        elif kind == "activate":
            command["plugin"] = "none"
        elif kind == "deactivate":
            command["plugin"] = self.chance.choice(("none", "letters"))
        elif kind == "profile":
            command["profile"] = self.chance.choice((0, 1, 2, 2, 2, 255))
        return command

    def _write(self, command):
        command |= {"title": "t" * self.chance.choice((1_024, 1_025)) if self._happens(0.01) else self._text(2), "content": self._text(5)}
        if self._happens(0.9):
            command["status"] = self.chance.choice(STATUSES + ("publish",) * 8)
        if self._happens(0.7):
            command["date"] = self._moment()
        if self._happens(0.005):
            self._lengthen(command)

    def _lengthen(self, command):
        """As long as a command may be, or one byte longer."""
        step = {"do": "submit", "node": 1, **command}
        read = read_schedule(json.dumps({"nodes": 1, "steps": [step]}).encode())[1][0]
        command["content"] += "x" * (LIMIT - size_of(read.command) + self.chance.randint(0, 1))

    def _flood(self):
        """More commands for one node than may wait."""
        node = self._node()
        for _ in range(self.chance.randint(256, 262)):
            self.seq += 1
            self._play({"do": "submit", "node": node, "editor": "ann", "seq": self.seq, "at": self.clock, "kind": "tick"})
        for _ in range(2):
            self._play(self._cut(self._submit(node)))

    # ---- pages and strays

    def _get(self):
        return {"do": "get", "node": self._node() if self._happens(0.2) else self._present(), "target": self._target()}

    def _target(self):
        kind = self.chance.choice(("front", "front", "post", "json", "result", "result"))
        if kind == "front":
            return kind
        if kind != "result":
            return f"{kind}:{self._id():0{20 if self._happens(0.02) else 1}}"
        if self.commands and self._happens(0.95):
            command = self.chance.choice(self.commands)
            return f"result:{command['editor']}/{command['seq']}"
        return f"result:{self.chance.choice(EDITORS)}/{self.chance.choice((0, U64))}"

    def _astray(self):
        node = self.chance.choice((0, self.members + 1, 8, U64))
        message = self.chance.choice((0, len(self.cluster.sent) + 1, len(self.cluster.sent) + 100, U64))
        step = self.chance.choice((
            {"do": "wake", "node": node},
            {"do": "restart", "node": node},
            {"do": "get", "node": node, "target": self._target()},
            self._submit(node),
            {"do": "deliver", "message": message},
            {"do": "deliver", "message": message},
        ))
        if self.cuts and step["do"] in ("wake", "submit", "deliver") and self._happens(0.3):
            step["cut"] = self.chance.choice(("before", "save", 0))
        return step


def make(seed, cuts=True):
    """A schedule file's bytes, and the model's transcript of it. One seed makes one schedule."""
    return Maker(random.Random(seed), cuts).make()


def make_all(seed, count, cuts=True):
    """So many of them, each by the seed and its number."""
    for number in range(1, count + 1):
        yield number, *make(f"{seed}/{number}", cuts)
