"""Random kits and plays, for models/compare_runs: few names, so that they meet, scripts that edit the hook that is running, runs within runs, texts full of brackets, and now and
then a limit, met or just missed."""

import json
import random
from typing import NamedTuple

from run_model import LAST_MOMENT, ROWS, TAGS, TEXT_BYTES, TURNS, play_file

LETTERS = "abcdef"
OWN_HOOKS = ("h", "g", "k", "m")
BUILT_IN = ("do_shortcode", "check_and_publish_future_post")
PRIORITIES = ((8, 9, 10, 11, 12), (9, 10, 10, 11, 12), (-1, 0, 1, 10, 11), (-(2**63), -5, 10, 2**63 - 2, 2**63 - 1), (10, 10, 10, 10, 11))
TAG_SETS = (("t", "u", "t-2"), ("t", "tt", "T"), ("a_b", "t", "-"), ("t", "u", "t" * 32))
PIECES = ("[", "]", "[[", "]]", "/", "/]", " ", " ", "\t", "\n", "\v", "=", '"', "'", "x", "X", "1", "y", "x=1", "x=", 'x="a b"', "X='q'", "x=2 y", '"q r"', "''", '""', "x = z",
          'x="1"b', "é", "\u00a0", "\u2003", ",", "-", "_", "<", "&")
STATUSES = ("publish", "publish", "publish", "future", "future", "draft", "pending", "private", "trash")
FIRED = ("init", "wp_loaded", "wp_head", "wp_footer", "the_title", "the_content", "title_save_pre", "content_save_pre", "transition_post_status", "save_post", "publish_post", "future_to_publish",
         "new_to_publish", "draft_to_publish", "publish_to_publish", "wp_trash_post", "trashed_post", "publish_to_trash", "untrash_post", "untrashed_post", "before_delete_post", "deleted_post",
         "publish_future_post", "add_option_a", "update_option_a", "update_option_log", "future_post", "draft_post")


class Manner(NamedTuple):
    """What a kit's scripts are made of: weights, and chances."""

    edits: int
    runs: int
    scans: int
    asks: int
    site: int
    wild: float  # an apply or a do of any hook, though it may never end


MANNERS = (Manner(6, 1, 1, 1, 0, 0.1), Manner(3, 3, 1, 1, 0, 0.1), Manner(1, 1, 6, 1, 0, 0.05), Manner(2, 2, 1, 3, 3, 0.05), Manner(2, 2, 2, 2, 1, 0.3))
VALUE, LAST, CONTENT, TAG = ({"from": word} for word in ("value", "last", "content", "tag"))


class Maker:
    def __init__(self, chance, escapes=False):
        self.chance = chance
        self.escapes = escapes  # whether parts may be escaped
        self.manner = chance.choice(MANNERS)
        self.priorities = chance.choice(PRIORITIES)
        self.tags = chance.choice(TAG_SETS)
        self.hooks = OWN_HOOKS if chance.random() < 0.6 else (*chance.sample(OWN_HOOKS, 2), *chance.sample(("the_title", "the_content", "update_option_a", "add_option_a", "publish_future_post", "do_shortcode_tag"), 2))
        self.scripts = {}
        self.loads = []  # of all plugins, before they are dealt out
        self.plays = []
        self.commands = None
        self.pages = []
        self.profile = 1

    def some(self, *of):
        return self.chance.choice(of)

    def happens(self, chance):
        return self.chance.random() < chance

    def make(self):
        """A play file, as JSON has it."""
        ways = {
            self._mixed: 38, self._nested: 22, self._site: 15, self._shortcodes: 12, self._deep: 5, self._long: 4, self._nested_at_many: 2, self._rows: 1, self._many_tags: 1,
        }
        way = self.chance.choices(list(ways), list(ways.values()))[0]
        way()
        if way in (self._mixed, self._nested, self._site, self._shortcodes) and self.happens(0.4):
            self._filters()
        told = self._told()
        return self._at_the_last_turn(told) if self.happens(0.02) else told

    def _told(self):
        names = self.chance.sample(("P", "p", "q-1", "_z"), self.chance.randint(1, 3))
        loads = {name: [] for name in names}
        for load in self.loads:
            loads[self.chance.choice(names)].append(load)
        kit = {
            "callbacks": [{"name": name, "script": script} for name, script in self.scripts.items()],
            "plugins": [{"name": name, "load": load} for name, load in loads.items()],
        }
        active = [name for name in names if self.happens(0.95)] + ["none"] * self.happens(0.02)
        self.chance.shuffle(active)
        told = {"kit": kit, "plays": self.plays}
        if self.profile == 2 and self.commands is None:
            self.commands = []
        if self.commands is None:
            return {**told, "active": active, **({"pages": ["front"]} if self.happens(0.03) else {})}
        ahead = [{"kind": "activate", "plugin": name} for name in active] + [{"kind": "profile", "profile": 2}] * (self.profile == 2)
        for number, command in enumerate(ahead + self.commands, 1):
            command.update(editor=self.some("ann", "bob"), seq=number if self.happens(0.97) else self.chance.randint(1, number))
            command.setdefault("at", 100)
        return {**told, "commands": ahead + self.commands, "pages": self.pages}

    # ---- texts

    def brackets(self, most=12):
        def piece():
            tag = self.chance.choice(self.tags)
            return self.some(
                f"[{tag}]", f"[{tag}]", f"[/{tag}]", f"[{tag}/]", f"[{tag} ", f"[{tag}", tag, f"[[{tag}]]", f"[[{tag}", f"[{tag}]{self.some('', 'in', '[')}[/{tag}]", f"[{tag} {self._atts()}]", f"[{tag} {self._atts()}]", f"[{tag}{self.some(' ', '')}{self._atts()}/]",
                *self.chance.sample(PIECES, 9),
            )

        return "".join(piece() for _ in range(self.chance.randint(0, most)))

    def _atts(self):
        """Attributes in their forms, and what nearly is one."""
        def one():
            value = self.some("1", "2", "a b", "", "q=r", "é", "/", "z/", "\\", "a=b c")
            quoted = self.some(f'"{value}"', f"'{value}'", f"'{value}'", value.split(" ")[0] or "w", value)
            equals = self.some("=", "=", "=", " =", "= ", "\t=\n", "==")
            return self.some(f"{self.some('x', 'x', 'X', 'y', '0', 'x-y')}{equals}{quoted}", f"{self.some('x', 'y', '0')}={quoted}", quoted, self.chance.choice(PIECES[4:]))

        return "".join(one() + self.some(" ", " ", " ", " ", "\t", "  ", "\v", "\f\r\n", "", "\u00a0") for _ in range(self.chance.randint(0, 5)))

    def part(self):
        part = self._plain_part()
        return {"escaped": part} if self.escapes and isinstance(part, dict) and self.happens(0.3) else part

    def _plain_part(self):
        return self.some("x", "y", "", VALUE, VALUE, LAST, {"arg": 0}, {"arg": self.chance.randint(0, 3)}, CONTENT, TAG, {"att": self.some("x", "x", "y", "X", "0")}, {"att": self.chance.randint(0, 2)})

    def parts(self):
        return [self.part() for _ in range(self.some(0, 1, 1, 2, 2, 3))]

    def shown(self):
        """A text that tells all that a callback of a shortcode got."""
        shown = ["(", TAG, "|", CONTENT, "|", {"att": "x"}, "|", {"att": self.some("y", "0", "x-y")}, "|", {"att": 0}, "|", {"att": 1}, "|", LAST, "|", VALUE, ")"]
        return [{"escaped": part} if self.escapes and isinstance(part, dict) and self.happens(0.3) else part for part in shown]

    # ---- ops

    def callback(self):
        if self.happens(0.04):
            return self.chance.choice(BUILT_IN)
        return self.chance.choice(list(self.scripts) or list(LETTERS))

    def accepted(self):
        return {} if self.happens(0.4) else {"accepted": self.some(0, 1, 2, 2, 3, 4, 2**32 - 1)}

    def at(self, near=None):
        """A priority, which is told or is 10."""
        priority = self.chance.choice(self.priorities)
        if near is not None and self.happens(0.6):
            priority = max(-(2**63), min(2**63 - 1, near + self.some(-1, 0, 0, 1)))
        return {} if priority == 10 and self.happens(0.5) else {"priority": priority}

    def edit(self, hook, near, own):
        """An edit, of the hook that is running mostly, near the priority that runs, now and then of the callback itself."""
        hook = hook if self.happens(0.75) else self.chance.choice(self.hooks)
        callback = own if self.happens(0.2) else self.callback()
        op = self.some("add_hook", "add_hook", "add_hook", "remove_hook", "remove_hook", "remove_all")
        place = self.at(near)
        there = [load for load in self.loads if load.get("hook") == hook]
        if there and self.happens(0.35 if op == "add_hook" else 0.6):
            load = self.chance.choice(there)
            callback, place = load["callback"], {"priority": load.get("priority", 10)}
        if op == "add_hook":
            return {"op": op, "hook": hook, "callback": callback, **place, **self.accepted()}
        if op == "remove_hook":
            return {"op": op, "hook": hook, "callback": callback, **place}
        return {"op": op, "hook": hook, **({} if self.happens(0.15) else {"priority": place.get("priority", 10)})}

    def started(self, home):
        """An apply or a do: of a later hook mostly, so that it ends."""
        later = self.hooks[self.hooks.index(home) + 1 :] if home in self.hooks else self.hooks
        hook = self.chance.choice(later) if later and not self.happens(self.manner.wild) else self.some("none", *self.hooks) if self.happens(self.manner.wild) else "none"
        if self.happens(0.6):
            return {"op": "apply", "hook": hook, "value": self.some([VALUE], self.parts()), **self.some({}, {"more": [self.parts() for _ in range(self.chance.randint(0, 2))]})}
        return {"op": "do", "hook": hook, **self.some({}, {"args": [self.parts() for _ in range(self.chance.randint(0, 3))]})}

    def scanned(self):
        tag = self.some(*self.tags, *self.tags, "no tag", "", "z")
        return self.some(
            {"op": "add_tag", "tag": tag, "callback": self.callback()},
            {"op": "remove_tag", "tag": tag},
            {"op": "has_tag", "tag": tag},
            {"op": "shortcodes", "text": self.some([CONTENT], [CONTENT], [VALUE], [self.brackets(4) if self.happens(0.3) else "[[x]]", CONTENT])},
            {"op": "set", "text": self.shown()},
        )

    def asked(self, home):
        hook = self.some(home, "none", *self.hooks)
        return self.some({"op": "did", "hook": hook}, {"op": "doing", "hook": hook}, {"op": "doing", "hook": self.hooks[0]}, {"op": "has_hook", "hook": hook, "callback": self.callback()}, {"op": "has_tag", "tag": self.some(*self.tags, "no tag")}, {"op": "option", "name": self.some("a", "log")})

    def changed(self):
        return self.some(
            {"op": "set_option", "name": self.some("a", "a", "log"), "value": self.parts()},
            {"op": "schedule", "after": self.some(0, 1, 50, 3600, LAST_MOMENT, LAST_MOMENT + 1, 2**64 - 1), "hook": self.chance.choice(self.hooks), "arg": self.parts(), **self.some({}, {"every": self.some("once", "hourly", "twicedaily", "daily")})},
            {"op": "publish", "post": self.some([self.some("1", "2", "03", "x", "")], [VALUE], [{"arg": 0}])},
        )

    def skip(self):
        return {"op": "skip_if", "left": self.some([VALUE], [LAST], self.parts()), "right": self.some([""], ["1"], [VALUE], self.parts()), "skip": self.some(0, 1, 1, 2, 3, 9, 65535)}

    def ops(self, count, home, near, own):
        """Ops, the answers of some told at once."""
        manner = self.manner
        ways = (
            [lambda: self.edit(home, near, own)] * manner.edits + [lambda: self.started(home)] * manner.runs + [self.scanned] * manner.scans + [lambda: self.asked(home)] * manner.asks + [self.changed] * manner.site
            + [self.skip, lambda: {"op": "echo", "text": [own, LAST]}, lambda: {"op": "set", "text": self.parts()}]
        )
        made = []
        for _ in range(count):
            made.append(self.chance.choice(ways)())
            if made[-1]["op"] not in ("set", "echo", "skip_if") and self.happens(0.5):
                made.append(self.some({"op": "set", "text": [VALUE, "(", LAST, ")"]}, {"op": "echo", "text": ["<", LAST, ">"]}))
        if self.happens(0.05):
            made.append({"op": "return", "text": self.parts()})
        return made

    def letter(self, name):
        """A callback that leaves its letter, so that the line tells when it ran, and mostly does nothing else."""
        return self.some({"op": "set", "text": [VALUE, name]}, {"op": "set", "text": [VALUE, name]}, {"op": "echo", "text": [name, {"arg": 0}]}, {"op": "set", "text": [VALUE, name, {"arg": 1}]})

    # ---- kits

    def _load(self, hook, callback):
        self.loads.append({"hook": hook, "callback": callback, **self.at(), **self.accepted()})

    def _play(self, hook, texts=None):
        texts = texts or (lambda: self.some("x", "", "1", "é", self.brackets(3)))
        arguments = [texts() for _ in range(self.some(0, 1, 1, 1, 1, 2, 3))]
        play = {self.some("apply", "apply", "do"): hook}
        if arguments or self.happens(0.5):
            play["args"] = arguments
        if self.happens(0.06):
            play["times"] = self.some(1, 2, 3, 7)
        self.plays.append(play)

    def _filters(self):
        """Callbacks on what shortcodes answer, mostly in the profile that has it filtered."""
        for _ in range(self.chance.randint(1, 3)):
            self._load("do_shortcode_tag", self.callback())
        self.profile = self.some(1, 2, 2, 2)

    def _callbacks(self):
        for name in LETTERS:
            self.scripts[name] = []
        for name in LETTERS:
            home, near = self.chance.choice(self.hooks), self.chance.choice(self.priorities)
            ops = self.ops(self.some(0, 0, 1, 1, 2, 3, 4, 6), home, near, name)
            ops.insert(self.chance.randint(0, len(ops)) if self.happens(0.3) else 0, self.letter(name))
            self.scripts[name] = ops
            self.loads.append({"hook": home, "callback": name, **({} if near == 10 and self.happens(0.5) else {"priority": near}), **self.accepted()})

    def _mixed(self):
        self._callbacks()
        for _ in range(self.chance.randint(0, 12)):
            self._load(self.some(self.hooks[0], *self.hooks), self.callback())
        for tag in self.tags:
            if self.happens(0.7):
                self.loads.append({"tag": tag, "callback": self.callback()})
        self.chance.shuffle(self.loads)
        for _ in range(self.chance.randint(1, 8)):
            self._play(self.some(self.hooks[0], *self.hooks, *self.hooks, "none"))

    def _nested(self, deepest=3):
        """Runs of one hook within one another, each come to a priority of its own; the innermost edits below, between and above them, and so may the others as they go on. Argument 1
        tells how deep a run is."""
        self.hooks = ("h", "g", "k", "m")
        hook, marks = "h", [""] + ["i" * depth for depth in range(1, deepest)]
        places = self.chance.sample(sorted(set(self.priorities)), 2) + [self.chance.choice(self.priorities) for _ in range(deepest)]
        for name in LETTERS:
            self.scripts[name] = [self.letter(name)]
        opens = [f"open{depth}" for depth in range(deepest)]
        for depth, (name, place) in enumerate(zip(opens, self.chance.sample(places, deepest))):
            inner = depth == deepest - 1
            edits = [self.edit(hook, place, name) for _ in range(self.chance.randint(3, 8) if inner else self.some(0, 0, 1, 2, 3))]
            after = [self.edit(hook, place, name) for _ in range(self.some(0, 0, 1, 2))]
            if self.happens(0.3):
                after += [self.some({"op": "doing", "hook": hook}, {"op": "did", "hook": hook}, {"op": "has_hook", "hook": hook, "callback": self.callback()}), {"op": "set", "text": [VALUE, "(", LAST, ")"]}]
            within = [] if inner else [
                {"op": "apply", "hook": hook, "value": [VALUE, "<"], "more": [[{"arg": 1}, "i"]]} if self.happens(0.75) else {"op": "do", "hook": hook, "args": [[VALUE], [{"arg": 1}, "i"]]},
                self.some({"op": "set", "text": [LAST, ">"]}, {"op": "echo", "text": ["<", LAST, ">"]}, {"op": "set", "text": [VALUE, str(depth)]}),
            ]
            steps = edits + within + after
            script = [{"op": "skip_if", "left": [{"arg": 1}], "right": [marks[depth]], "skip": 1}, {"op": "return", "text": [VALUE]}, *steps, {"op": "set", "text": [VALUE, str(depth)]}]
            if self.happens(0.2):
                self.chance.shuffle(steps)
            self.scripts[name] = script
            self.loads.append({"hook": hook, "callback": name, "priority": place, "accepted": self.some(2, 2, 2, 3)})
        for _ in range(self.chance.randint(3, 14)):
            self._load(hook, self.chance.choice(LETTERS))
        self.chance.shuffle(self.loads)
        for _ in range(self.chance.randint(1, 4)):
            self.plays.append({self.some("apply", "apply", "apply", "do"): hook, "args": ["x", self.some("", "", "", "i")][: self.some(1, 2, 2)]})

    def _nested_at_many(self):
        self._nested(self.chance.randint(4, 7))

    def _shortcodes(self):
        self.manner = MANNERS[2]
        for name in LETTERS:
            self.scripts[name] = []
        for name in LETTERS:
            ops = self.ops(self.some(0, 1, 1, 2), self.hooks[0], 10, name) if self.happens(0.6) else []
            self.scripts[name] = [*ops, self.some({"op": "return", "text": self.shown()}, {"op": "return", "text": self.shown()}, {"op": "set", "text": [VALUE, name, LAST]})]
        for tag in self.tags:
            if self.happens(0.85):
                self.loads.append({"tag": tag, "callback": self.some("do_shortcode", *LETTERS, *LETTERS)})
        self._load(self.hooks[0], "do_shortcode")
        if self.happens(0.5):
            self._load(self.hooks[0], self.chance.choice(LETTERS))
        for _ in range(self.chance.randint(3, 10)):
            self.plays.append({"apply": self.some(self.hooks[0], self.hooks[0], "the_content"), "args": [self.brackets(self.some(4, 8, 16, 30))]})

    def _site(self):
        """Posts, options and events by commands, with callbacks that keep what they get in an option."""
        self.manner = self.some(MANNERS[3], MANNERS[3], MANNERS[4])
        self.hooks = tuple(self.chance.sample(OWN_HOOKS, 2)) + tuple(self.chance.sample(FIRED, 6))
        self._callbacks()
        self.scripts["note"] = [{"op": "option", "name": "log"}, {"op": "set_option", "name": "log", "value": [LAST, "(", {"arg": 0}, ",", {"arg": 1}, ",", {"arg": 2}, ")"]}]
        self.scripts["told"] = [{"op": "option", "name": self.some("log", "log", "a")}, {"op": "return", "text": [LAST]}]
        self.scripts["plans"] = [{"op": "schedule", "after": self.some(0, 10, 3600), "every": self.some("once", "hourly", "daily"), "hook": self.chance.choice(self.hooks), "arg": self.some([VALUE], ["1"], [])}]
        for _ in range(self.chance.randint(2, 8)):
            self.loads.append({"hook": self.some(*self.hooks, *FIRED), "callback": "note", "accepted": 3, **self.at()})
        if self.happens(0.4):
            self.loads.append({"hook": self.some(*self.hooks, *FIRED), "callback": "plans"})
        self.loads.append({"hook": "tells", "callback": "told"})
        for tag in self.tags:
            self.loads.append({"tag": tag, "callback": self.callback()})
        self.commands, clock = [], 100
        for _ in range(self.chance.randint(2, 14)):
            clock += self.some(0, 0, 1, 50, 3600, 90_000) if self.happens(0.9) else -20
            self.commands.append({"at": max(0, clock), **self._command(clock)})
        if self.happens(0.3):
            clock = self._beats(clock)
        self.pages = [self.some("front", f"post:{self.chance.randint(0, 4)}", f"json:{self.chance.randint(1, 4)}", f"result:ann/{self.chance.randint(1, 9)}", "post:01") for _ in range(self.chance.randint(0, 4))]
        self._play("tells")
        for _ in range(self.chance.randint(0, 4)):
            self._play(self.some(*self.hooks, "publish_future_post"), lambda: self.some("1", "2", "03", "x", ""))
        self.plays.append({"apply": "tells"})

    def _beats(self, clock):
        """A recurring event that keeps its times, and ticks behind them, on them and long after them; the moment of the last."""
        self.scripts["beats"] = [{"op": "schedule", "after": self.some(0, 10, 3600), "every": self.some("hourly", "hourly", "twicedaily", "daily"), "hook": "beat", "arg": self.some([], ["b"], [VALUE])}]
        self.scripts["count"] = [{"op": "option", "name": "log"}, {"op": "set_option", "name": "log", "value": [LAST, "b"]}]
        self.loads += [{"hook": "add_option_beats", "callback": "beats"}, {"hook": "beat", "callback": self.some("count", "note")}]
        self.commands.append({"at": clock, "kind": "option", "name": "beats", "value": "1"})
        for _ in range(self.chance.randint(2, 6)):
            clock += self.some(1, 10, 1_790, 1_800, 3_590, 3_600, 3_610, 43_200, 86_400, 100_000)
            self.commands.append({"at": clock, "kind": "tick"})
        return clock

    def _command(self, clock):
        def draft():
            return {
                "title": self.some("x", "Hello", "a & <b>", self.brackets(4)), "content": self.brackets(6), **self.some({}, {"status": self.some(*STATUSES)}, {"status": self.some(*STATUSES)}),
                **self.some({}, {"date": max(0, clock + self.some(-10, 0, 1, 40, 4000))}),
            }

        id = self.chance.randint(1, 3) if self.happens(0.95) else self.some(0, 9, 2**64 - 1)
        return self.some(
            {"kind": "insert", **draft()}, {"kind": "insert", **draft()}, {"kind": "insert", **draft()}, {"kind": "update", "id": id, **draft()}, {"kind": "update", "id": id, **draft()}, {"kind": "trash", "id": id},
            {"kind": "untrash", "id": id}, {"kind": "delete", "id": id}, {"kind": "option", "name": self.some("a", "log", "blogname"), "value": self.some("", "1", "2", "<&>")}, {"kind": "tick"}, {"kind": "tick"},
            {"kind": self.some("activate", "deactivate"), "plugin": self.some("P", "p", "q-1", "none")}, {"kind": "profile", "profile": self.some(0, 1, 2, 2, 255)},
        )

    # ---- limits

    def _deep(self):
        """Callbacks within callbacks, a little fewer than 32, just as many or more, by any way that opens them."""
        way = self.some("apply", "do", "shortcodes", "set_option", "mixed")
        length = self.some(15, 16, 16, 17, 17, 18) if way == "mixed" else self.some(30, 31, 31, 32, 32, 33, 33, 34)
        for name in LETTERS:
            self.scripts[name] = [self.letter(name)]
        full = "a" * length
        inner = {
            "apply": [{"op": "apply", "hook": "h", "value": [VALUE, "a"]}, {"op": "set", "text": [LAST]}],
            "do": [{"op": "do", "hook": "h", "args": [[VALUE, "a"]]}],
            "shortcodes": [{"op": "shortcodes", "text": ["[t", VALUE, " ", {"att": 0}, "a]"]}, {"op": "set", "text": [LAST]}],
            "set_option": [{"op": "set_option", "name": "a", "value": [VALUE, "a"]}],
            "mixed": [{"op": "apply", "hook": "the_content", "value": ["[t ", VALUE, "a]"]}, {"op": "set", "text": [LAST]}],
        }[way]
        read = {"shortcodes": [{"att": 0}], "set_option": [{"arg": 1}], "mixed": [{"att": 0}]}.get(way, [VALUE])
        if way in ("shortcodes", "mixed"):
            inner = [{**op, "text": ["[t ", {"att": 0}, "a]"]} if op["op"] == "shortcodes" else {**op, "value": ["[t ", {"att": 0}, "a]"]} if op["op"] == "apply" else op for op in inner]
        if way == "set_option":
            inner = [{"op": "set_option", "name": "a", "value": [{"arg": 1}, "a"]}, {"op": "set", "text": [LAST]}]
        self.scripts["down"] = [{"op": "skip_if", "left": read, "right": [full], "skip": len(inner)}, *inner, {"op": "echo", "text": ["."]}, *([] if self.happens(0.7) else self.ops(1, "h", 10, "down"))]
        self.loads += [{"hook": "h", "callback": "down", "accepted": 2}, {"tag": "t", "callback": "down"}, {"hook": "update_option_a", "callback": "down", "accepted": 2}, {"hook": "add_option_a", "callback": "down", "accepted": 2}]
        self.hooks = ("h", "g", "k", "m")
        for _ in range(self.some(0, 0, 1, 2)):
            self._load("h", self.chance.choice(LETTERS))
        self._play("g")
        if way in ("apply", "do"):
            self.plays.append({way: "h", "args": [self.some("a", "a", "aa", "")]})
        elif way == "set_option":
            self.plays.append({"do": "add_option_a", "args": ["a", self.some("a", "")]})
        else:
            self.plays.append({"apply": "the_content", "args": [f"[t {self.some('a', 'aa')}]"]})
        self._play("g")

    def _long(self):
        """Texts of 1,048,576 bytes and a few more or less, at each place where a text may be too long."""
        letter = self.some("a", "b", "é", "]")
        base = letter * (1_024 // len(letter.encode()))
        more = self.some("", "", "x", "xx", "é")
        less = self.some(0, 0, 1, 2)
        seed = base[: len(base) - less]
        double = [{"op": "set", "text": [VALUE, VALUE]}] * 10
        extra = "x" * (1_024 * less if letter != "é" else 0) if self.happens(0.5) else ""
        text = [VALUE, extra, more]
        end = self.some(
            [{"op": "set", "text": text}], [{"op": "return", "text": text}], [{"op": "echo", "text": text}], [{"op": "echo", "text": [VALUE]}, {"op": "echo", "text": [self.some("", "y", extra + more)]}],
            [{"op": "apply", "hook": "none", "value": text}], [{"op": "apply", "hook": "none", "value": ["y"], "more": [[], text]}], [{"op": "do", "hook": "none", "args": [["y"], text]}],
            [{"op": "shortcodes", "text": text}], [{"op": "set_option", "name": "a", "value": text}], [{"op": "schedule", "after": 1, "hook": "none", "arg": text}], [{"op": "publish", "post": text}],
            [{"op": "skip_if", "left": [*text, "y"], "right": [*text, "y"], "skip": 1}, {"op": "echo", "text": ["no"]}], [{"op": "shortcodes", "text": ["[t]", self.some("", more), self.some("", "[t]")]}],
            [{"op": "apply", "hook": "scan", "value": ["[t][t]", self.some("", "x")]}],
        )
        self.scripts["long"] = [{"op": "set", "text": [seed]}, *double, *end, {"op": "return", "text": ["on"]}]
        half = self.some(9, 9, 10)
        self.scripts["half"] = [{"op": "set", "text": [seed]}, *[{"op": "set", "text": [VALUE, VALUE]}] * half, {"op": "return", "text": [VALUE, extra]}]
        self.scripts["a"] = [{"op": "set", "text": [VALUE, "a"]}]
        self.hooks = ("h", "g", "k", "m")
        self.loads += [{"hook": "h", "callback": "long", "accepted": self.some(0, 1)}, {"tag": "t", "callback": "half"}, {"hook": "scan", "callback": "do_shortcode"}, {"hook": "scan", "callback": "a", "accepted": 0, "priority": 11}]
        self.plays += [{"apply": "h", "args": ["x"]}, {"apply": "g", "args": ["still"]}]

    def _rows(self):
        """A table of nearly 1,024 rows, or of all of them, and edits there."""
        for name in LETTERS:
            self.scripts[name] = [self.letter(name)]
        self.hooks = ("h", "g", "k", "m")
        count = self.chance.randint(960, 998)
        self.loads += [{"hook": "x" if self.happens(0.9) else f"x{place % 7}", "callback": self.chance.choice(LETTERS), "priority": place} for place in range(count)]
        fill = [{"op": "add_hook", "hook": "y", "callback": "a", "priority": place} for place in range(ROWS - 4 - count - self.chance.randint(0, 4))]
        self.scripts["fill"] = fill
        edits = []
        for _ in range(self.chance.randint(4, 14)):
            op = self.edit("h", 10, "edits") if self.happens(0.7) else {"op": "remove_hook", "hook": "y", "callback": "a", "priority": self.chance.randint(0, 30)}
            edits += [{**op, "hook": "y"} if op["op"] == "remove_all" and "priority" not in op else op, {"op": "set", "text": [VALUE, "(", LAST, ")"]}]
        self.scripts["edits"] = edits
        self.loads += [{"hook": "h", "callback": "fill"}, {"hook": "h", "callback": "edits", "priority": self.some(10, 11)}]
        for _ in range(self.chance.randint(2, 4)):
            self.plays.append({"apply": "h", "args": ["x"]})

    def _many_tags(self):
        for name in LETTERS:
            self.scripts[name] = [{"op": "set", "text": [name, TAG]}]
        edits = []
        for _ in range(self.chance.randint(4, 14)):
            edits += [self.some({"op": "add_tag", "tag": self.some("n1", "n2", "n3", "g0", "no tag"), "callback": self.chance.choice(LETTERS)}, {"op": "remove_tag", "tag": self.some("g0", "g1", "n1", "n2")}, {"op": "has_tag", "tag": self.some("n1", "n2", "g0")}), {"op": "set", "text": [VALUE, "(", LAST, ")"]}]
        self.scripts["edits"] = edits
        self.loads += [{"tag": f"g{place}", "callback": self.chance.choice(LETTERS)} for place in range(self.chance.randint(TAGS - 3, TAGS))]
        self.loads.append({"hook": "h", "callback": "edits"})
        for _ in range(2):
            self.plays += [{"apply": "h", "args": ["x"]}, {"apply": "the_content", "args": ["[g0][g1][n1][n2][n3][g127]"]}]

    def _at_the_last_turn(self, told):
        """Puts a play behind the others that has just as many shortcodes as turns are left, or one more or fewer, and a play after it that needs none."""
        left = TURNS - play_file(told).turns
        names = {callback["name"] for callback in told["kit"]["callbacks"]}
        if left < 2 or "none" in names or "commands" in told or len(self.loads) > TAGS - 1:
            return told
        told["kit"]["callbacks"].append({"name": "none", "script": []})
        told["kit"]["plugins"].append({"name": "zz", "load": [{"tag": "none", "callback": "none"}, {"hook": "last", "callback": "do_shortcode"}]})
        told["active"].append("zz")
        told["plays"] += [{"apply": "last", "args": ["[none]" * (left - 1 + self.some(-1, 0, 0, 1))]}, {"apply": "nothing", "args": ["ends"]}]
        return told


def make(seed, number, escapes=False):
    """The number-th play file of a seed, as JSON has it, and how it is spelt."""
    chance = random.Random(f"{seed}/{number}")
    told = Maker(chance, escapes).make()
    return told, json.dumps(told, ensure_ascii=chance.random() < 0.5, separators=(",", ":")).encode()
