"""Schedules as files hold them: the bytes of a file in, the number of nodes and the steps out.

A file is bad (`BadSchedule`) as a whole: where it is too long, is no JSON, lacks a key, or has a value of a wrong type or out of range. Keys that nobody names are
passed over; of a key that is repeated the last one counts.
"""

import json
import re
from typing import NamedTuple, Optional, Union

FILE_LIMIT = 4_194_304
STEP_LIMIT = 100_000
DEPTH_LIMIT = 127
NODE_LIMIT = 7
U32, U64 = 2**32 - 1, 2**64 - 1
LAST_MOMENT = 2**40

STATUSES = ("publish", "future", "draft", "pending", "private", "trash")
BEFORE, SAVE = "before", "save"


class BadSchedule(Exception):
    pass


class Command(NamedTuple):
    """A command of an editor. `fields` are those of its kind, in the order in which the wire spells them."""

    editor: str
    seq: int
    at: int
    kind: str
    fields: tuple


class Target(NamedTuple):
    kind: str  # front, post, json or result
    id: int = 0
    editor: str = ""
    seq: int = 0

    def __str__(self):
        if self.kind == "front":
            return "front"
        if self.kind == "result":
            return f"result:{self.editor}/{self.seq}"
        return f"{self.kind}:{self.id}"


class Step(NamedTuple):
    do: str  # submit, wake, deliver, restart or get
    node: int = 0
    message: int = 0
    command: Optional[Command] = None
    target: Optional[Target] = None
    cut: Union[None, str, int] = None  # None, BEFORE, SAVE, or how many messages go out


# ---- JSON


def _number_of(text):
    """A whole number where it is written as one and can be held as one; any other is a float, which no field takes."""
    if text != "-0" and len(text) <= 20:
        return int(text)
    return _float_of(text)


def _float_of(text):
    number = float(text)
    if number in (float("inf"), float("-inf")):
        raise BadSchedule
    return number


def _no_constant(_):
    raise BadSchedule


def _look_through(value, depth):
    """Refuses texts that aren't Unicode and values that stand too deep."""
    if isinstance(value, str):
        value.encode()
    elif isinstance(value, (dict, list)):
        if depth == DEPTH_LIMIT:
            raise BadSchedule
        for inner in value.values() if isinstance(value, dict) else value:
            _look_through(inner, depth + 1)
        for key in value if isinstance(value, dict) else ():
            key.encode()


def _json_of(data):
    if len(data) > FILE_LIMIT:
        raise BadSchedule
    try:
        value = json.loads(data.decode(), parse_int=_number_of, parse_float=_float_of, parse_constant=_no_constant)
        _look_through(value, 0)
    except (ValueError, RecursionError):  # (what isn't UTF-8 or Unicode is a ValueError too)
        raise BadSchedule from None
    return value


# ---- fields


def _has(value, kind):
    if type(value) is not kind:
        raise BadSchedule
    return value


def _at(key, value):
    if key not in _has(value, dict):
        raise BadSchedule
    return value[key]


def _text(key, value):
    return _has(_at(key, value), str)


def _whole(number, least, most):
    if not least <= _has(number, int) <= most:
        raise BadSchedule
    return number


def _number(key, value, most=U64):
    return _whole(_at(key, value), 0, most)


def _is_name(text):
    return re.fullmatch(r"[A-Za-z0-9_-]{1,32}", text) is not None


def _name(key, value):
    text = _text(key, value)
    if not _is_name(text):
        raise BadSchedule
    return text


# ---- commands


def _written(value, at):
    """What a post has: draft and the command's own moment where nothing is told."""
    status = _text("status", value) if "status" in value else "draft"
    if status not in STATUSES:
        raise BadSchedule
    date = _number("date", value, LAST_MOMENT) if "date" in value else at
    return (_text("title", value), _text("content", value), status, date)


def _fields_of(kind, value, at):
    if kind == "insert":
        return _written(value, at)
    if kind == "update":
        return (_number("id", value), *_written(value, at))
    if kind in ("trash", "untrash", "delete"):
        return (_number("id", value),)
    if kind == "option":
        return (_name("name", value), _text("value", value))
    if kind in ("activate", "deactivate"):
        return (_name("plugin", value),)
    if kind == "tick":
        return ()
    if kind == "profile":
        return (_number("profile", value, 255),)
    raise BadSchedule


def _command(value):
    at = _number("at", value, LAST_MOMENT)
    kind = _text("kind", value)
    return Command(_name("editor", value), _number("seq", value), at, kind, _fields_of(kind, value, at))


# ---- steps


def _decimal(text):
    if not re.fullmatch(r"[0-9]{1,20}", text) or int(text) > U64:
        raise BadSchedule
    return int(text)


def _target(text):
    if text == "front":
        return Target("front")
    kind, _, rest = text.partition(":")
    if kind in ("post", "json"):
        return Target(kind, id=_decimal(rest))
    editor, _, seq = rest.partition("/")
    if kind != "result" or not _is_name(editor):
        raise BadSchedule
    return Target(kind, editor=editor, seq=_decimal(seq))


def _cut(value):
    if "cut" not in value:
        return None
    cut = value["cut"]
    return cut if cut in (BEFORE, SAVE) else _whole(cut, 0, U32)


def _step(value):
    do = _text("do", value)
    if do == "submit":
        return Step(do, node=_number("node", value), command=_command(value), cut=_cut(value))
    if do == "wake":
        return Step(do, node=_number("node", value), cut=_cut(value))
    if do == "deliver":
        return Step(do, message=_number("message", value), cut=_cut(value))
    if do == "restart":
        return Step(do, node=_number("node", value))
    if do == "get":
        return Step(do, node=_number("node", value), target=_target(_text("target", value)))
    raise BadSchedule


def read_schedule(data):
    """The number of nodes and the steps."""
    value = _json_of(data)
    nodes = _whole(_at("nodes", value), 1, NODE_LIMIT)
    steps = _has(_at("steps", value), list)
    if len(steps) > STEP_LIMIT:
        raise BadSchedule
    return nodes, [_step(step) for step in steps]
