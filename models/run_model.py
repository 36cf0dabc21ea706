"""A model of hooks, scripts and shortcodes, and of the lines that a play file gives, written from docs/PLUGINS.md.

A hook table is a list of rows for each hook, a run of a hook asks it anew at each priority, a script is played op by op as the file spells it, and whatever a run starts is a call
of its own. Files are taken to be right: what makes one bad is no matter of this model.
"""

import collections
import json
import re
from typing import NamedTuple

OPEN_CALLBACKS, TURNS, TEXT_BYTES = 32, 10_000, 1_048_576
ROWS, TAGS = 1_024, 128
POSTS, OPTIONS, EVENTS = 10_000, 1_024, 4_096
TITLE_BYTES, CONTENT_BYTES, OPTION_BYTES, ARGUMENT_BYTES = 1_024, 65_536, 4_096, 256
LAST_MOMENT, LAST_ID = 2**40, 2**64 - 1
ON_FRONT = 10

TOO_LONG, NO_SUCH_POST, NOT_TRASHED, IS_TRASHED, TOO_MANY_POSTS, TOO_MANY_EVENTS = 2, 10, 11, 12, 13, 14
NO_SUCH_PLUGIN, ALREADY_ACTIVE, NOT_ACTIVE, TOO_MANY_OPTIONS, BAD_PROFILE, LIMIT = 15, 16, 17, 18, 19, 20

DO_SHORTCODE, CHECK_AND_PUBLISH = "do_shortcode", "check_and_publish_future_post"
DO_SHORTCODE_TAG = "do_shortcode_tag"
PUBLISH_FUTURE = "publish_future_post"
SECONDS = {"hourly": 3_600, "twicedaily": 43_200, "daily": 86_400}

NAME = re.compile(r"[A-Za-z0-9_-]{1,32}")
NAME_BYTES = re.compile(r"[A-Za-z0-9_-]*")


class Limit(Exception):
    """A run met one of the three limits; the word says which."""


class Refused(Exception):
    def __init__(self, fault):
        self.fault = fault


def size_of(text):
    return len(text) if text.isascii() else len(text.encode())


def within(text):
    if size_of(text) > TEXT_BYTES:
        raise Limit("bytes")
    return text


def truth(value):
    return "1" if value else ""


# ---- hooks


class Row(NamedTuple):
    priority: int
    number: int
    callback: str
    accepted: int


class Hooks:
    def __init__(self):
        self.rows = collections.defaultdict(list)  # by hook, in no order but that of their numbers
        self.count = 0
        self.number = 0

    def add(self, hook, callback, priority, accepted):
        rows = self.rows[hook]
        for place, row in enumerate(rows):
            if (row.callback, row.priority) == (callback, priority):
                rows[place] = row._replace(accepted=accepted)
                return True
        if self.count == ROWS:
            return False
        rows.append(Row(priority, self.number, callback, accepted))
        self.number += 1
        self.count += 1
        return True

    def _keep(self, hook, kept):
        before = len(self.rows[hook])
        self.rows[hook] = [row for row in self.rows[hook] if kept(row)]
        gone = before - len(self.rows[hook])
        self.count -= gone
        return gone > 0

    def remove(self, hook, callback, priority):
        return self._keep(hook, lambda row: (row.callback, row.priority) != (callback, priority))

    def remove_all(self, hook, priority):
        self._keep(hook, lambda row: priority is not None and row.priority != priority)

    def has(self, hook, callback):
        return min((row.priority for row in self.rows[hook] if row.callback == callback), default=None)


class Run:
    """An open run of a hook: the priority that it reached last, and what is left of the rows that stood there."""

    def __init__(self, hook):
        self.hook, self.reached, self.rest = hook, None, []

    def next(self, hooks):
        if not self.rest:
            rows = [row for row in hooks.rows[self.hook] if self.reached is None or row.priority > self.reached]
            if not rows:
                return None
            self.reached = min(row.priority for row in rows)
            self.rest = sorted((row for row in rows if row.priority == self.reached), key=lambda row: row.number)
        return self.rest.pop(0)


# ---- shortcodes


class Shortcode(NamedTuple):
    start: int
    end: int
    lead: bool
    tag: str
    atts: str
    content: str
    tail: bool


def shortcode_at(text, start, tags):
    """The shortcode that begins at a bracket, where there is one."""
    lead = text.startswith("[", start + 1)
    name_at = start + 1 + lead
    name = NAME_BYTES.match(text, name_at).group()
    if name not in tags:
        return None
    atts_at = name_at + len(name)
    close = text.find("]", atts_at)
    if close < 0:
        return None
    atts, content, end = text[atts_at:close], "", close + 1
    if atts.endswith("/"):
        atts = atts[:-1]
    else:
        closing = f"[/{name}]"
        there = text.find(closing, end)
        if there >= 0:
            content, end = text[end:there], there + len(closing)
    tail = text.startswith("]", end)
    return Shortcode(start, end + tail, lead, name, atts, content, tail)


def next_shortcode(text, begin, tags):
    start = text.find("[", begin)
    while start >= 0:
        found = shortcode_at(text, start, tags)
        if found:
            return found
        start = text.find("[", start + 1)
    return None


SPACE = r"[\t\n\v\f\r ]"
NO_SPACE = r"[^\t\n\v\f\r ]"
BARE = r"[^\t\n\v\f\r \"']"
NAMED = rf"(?P<name>[A-Za-z0-9_-]+){SPACE}*={SPACE}*"
FORMS = [
    re.compile(form + rf"(?:{SPACE}|\Z)", re.ASCII)
    for form in (
        NAMED + r'"(?P<value>[^"]*)"',
        NAMED + r"'(?P<value>[^']*)'",
        NAMED + rf"(?P<value>{BARE}+)",
        r'"(?P<value>[^"]*)"',
        r"'(?P<value>[^']*)'",
        rf"(?P<value>{NO_SPACE}+)",
    )
]
SPACES = re.compile(SPACE + "*")


def attributes(text):
    """The values by their names, and those without a name by their numbers."""
    atts, nameless, at = {}, 0, SPACES.match(text).end()
    while at < len(text):
        token = next(filter(None, (form.match(text, at) for form in FORMS)))
        value, name = token["value"], token.groupdict().get("name")
        if name is not None:
            atts[name.lower()] = value
        elif value:
            atts[nameless] = value
            nameless += 1
        at = SPACES.match(text, token.end()).end()
    return atts


# ---- the site


class Post(NamedTuple):
    title: str
    content: str
    status: str
    date: int


class Event(NamedTuple):
    time: int
    hook: str
    argument: str
    every: str

    def identity(self):
        return self[:3]


class Fire(NamedTuple):
    hook: str
    arguments: tuple


def number_of(text):
    """An id is 1 to 20 digits whose value fits."""
    return int(text) if re.fullmatch(r"[0-9]{1,20}", text) and int(text) <= LAST_ID else None


class Site:
    def __init__(self):
        self.now = 0
        self.profile = 1
        self.posts = {}
        self.last_id = 0
        self.options = {}
        self.events = []  # in the order in which they were scheduled
        self.active = set()
        self.outcomes = {}

    def copy(self):
        other = Site()
        other.now, other.profile, other.last_id = self.now, self.profile, self.last_id
        other.posts, other.options, other.outcomes = dict(self.posts), dict(self.options), dict(self.outcomes)
        other.events, other.active = list(self.events), set(self.active)
        return other

    # Each change answers what it fires, and None where nothing changed; Refused leaves the site as it was.

    def set_option(self, name, value):
        if size_of(value) > OPTION_BYTES:
            raise Refused(TOO_LONG)
        old = self.options.get(name)
        if old == value:
            return None
        if old is None and len(self.options) >= OPTIONS:
            raise Refused(TOO_MANY_OPTIONS)
        self.options[name] = value
        if old is None:
            return [Fire("add_option_" + name, (name, value))]
        return [Fire("update_option_" + name, (old, value, name))]

    def schedule(self, event):
        if event.time > LAST_MOMENT or self._stands(event.identity()):
            return None
        if size_of(event.argument) > ARGUMENT_BYTES or len(self.events) >= EVENTS:
            return None
        self.events.append(event)
        return []

    def _stands(self, identity):
        return any(event.identity() == identity for event in self.events)

    def due(self):
        return sorted((event for event in self.events if event.time <= self.now), key=lambda event: event.time)

    def take(self, listed):
        for event in self.events:
            if event.identity() == listed.identity():
                break
        else:
            return False
        self.events.remove(event)
        if event.every != "once":
            interval = SECONDS[event.every]
            moved = event._replace(time=event.time + interval * max(1, (self.now - event.time) // interval + 1))
            if moved.time <= LAST_MOMENT and not self._stands(moved.identity()):
                self.events.append(moved)
        return True

    def _settled(self, status, date):
        if status in ("publish", "future"):
            return "future" if date > self.now else "publish"
        return status

    def _put(self, id, old, post):
        """Puts a post in, or takes it out, with the event of its publication; what the change from the old status fires."""
        new = post.status if post else None
        others = [event for event in self.events if (event.hook, event.argument) != (PUBLISH_FUTURE, str(id))]
        if new == "future" and len(others) >= EVENTS:
            raise Refused(TOO_MANY_EVENTS)
        self.events = others
        if post is None:
            del self.posts[id]
            return []
        self.posts[id] = post
        if new == "future":
            self.events.append(Event(post.date, PUBLISH_FUTURE, str(id), "once"))
        told = str(id)
        return [Fire("transition_post_status", (new, old, told)), Fire(f"{old}_to_{new}", (told,)), Fire(f"{new}_post", (told,))]

    def _look_at(self, title, content):
        if size_of(title) > TITLE_BYTES or size_of(content) > CONTENT_BYTES:
            raise Refused(TOO_LONG)

    def insert(self, title, content, status, date):
        self._look_at(title, content)
        if len(self.posts) >= POSTS:
            raise Refused(TOO_MANY_POSTS)
        id = self.last_id + 1
        fires = self._put(id, "new", Post(title, content, self._settled(status, date), date))
        self.last_id = id
        return id, [*fires, Fire("save_post", (str(id), ""))]

    def edit(self, id, title, content, status, date):
        self._look_at(title, content)
        old = self.posts[id].status
        return [*self._put(id, old, Post(title, content, self._settled(status, date), date)), Fire("save_post", (str(id), "1"))]

    def move(self, id, status):
        post = self.posts[id]
        return self._put(id, post.status, post._replace(status=status))

    def delete(self, id):
        return self._put(id, None, None)

    def publish_due(self, id):
        post = self.posts.get(id)
        if not post or post.status != "future" or post.date > self.now:
            return None
        return self.move(id, "publish")


class Reading:
    """A site of which a page is made: nothing changes it."""

    def __init__(self, site):
        self.options, self.now, self.profile = site.options, site.now, site.profile

    def set_option(self, name, value):
        return None

    def schedule(self, event):
        return None

    def publish_due(self, id):
        return None


# ---- runs


class Call:
    """What a callback was handed, and how far its script has come."""

    def __init__(self, arguments, atts=None, content="", tag=""):
        self.arguments, self.atts, self.content, self.tag = arguments, atts or {}, content, tag
        self.value = arguments[0] if arguments else ""
        self.last = ""

    def text(self, parts):
        return "".join(part if isinstance(part, str) else self._part(part) for part in parts)

    def _part(self, part):
        ((key, told),) = part.items()
        if key == "arg":
            return self.arguments[told] if told < len(self.arguments) else ""
        if key == "escaped":
            return escaped(self._part(told))
        if key == "att":
            return self.atts.get(told, "")
        return getattr(self, told)

    def handed(self, parts):
        """A text that a turn hands over."""
        return within(self.text(parts))


class Kit:
    def __init__(self, told):
        self.scripts = {callback["name"]: callback["script"] for callback in told["callbacks"]}
        self.plugins = {plugin["name"]: plugin["load"] for plugin in told["plugins"]}


class Machine:
    """One boot: its tables, its counts and its output."""

    def __init__(self, kit, site, active):
        self.kit, self.site = kit, site
        self.hooks, self.tags = Hooks(), {}
        self.did = collections.Counter()
        self.runs = []  # the open ones, the outermost first
        self.open = self.turns = self.written = 0
        self.output = []
        self.met = collections.Counter()  # what was met, for the counts of a comparison
        self.hooks.add("the_content", DO_SHORTCODE, 11, 1)
        self.hooks.add(PUBLISH_FUTURE, CHECK_AND_PUBLISH, 10, 1)
        for name in sorted(active):
            for load in kit.plugins.get(name, ()):
                if "tag" in load:
                    self.add_tag(load["tag"], load["callback"])
                else:
                    self.hooks.add(load["hook"], load["callback"], load.get("priority", 10), load.get("accepted", 1))

    def start(self):
        for hook in ("plugins_loaded", "init", "wp_loaded"):
            self.do(hook, ())

    def add_tag(self, tag, callback):
        if not NAME.fullmatch(tag) or (tag not in self.tags and len(self.tags) == TAGS):
            return False
        self.tags[tag] = callback
        return True

    def echo(self, text):
        self.written += size_of(text)
        if self.written > TEXT_BYTES:
            raise Limit("bytes")
        self.output.append(text)

    # hooks

    def apply(self, hook, arguments):
        arguments = tuple(arguments) or ("",)
        for row in self._entries(hook):
            arguments = (self._entry(row, arguments), *arguments[1:])
        return arguments[0]

    def do(self, hook, arguments):
        self.did[hook] += 1
        arguments = tuple(arguments) or ("",)
        for row in self._entries(hook):
            self._entry(row, arguments)

    def _entries(self, hook):
        run = Run(hook)
        self.runs.append(run)
        self.met["runs nested in one of their own hook, to depth %d" % min(4, sum(other.hook == hook for other in self.runs))] += 1
        while (row := run.next(self.hooks)) is not None:
            yield row
        self.runs.remove(run)

    def _entry(self, row, arguments):
        return self.callback(row.callback, Call(arguments[: row.accepted]))

    def fire(self, fires):
        for fire in fires:
            self.do(fire.hook, fire.arguments)

    # callbacks

    def callback(self, name, call):
        if self.open == OPEN_CALLBACKS:
            raise Limit("open callbacks")
        self.open += 1
        answer = self._built_in(name, call) if name in (DO_SHORTCODE, CHECK_AND_PUBLISH) else self._script(self.kit.scripts[name], call)
        self.open -= 1
        return answer

    def _turn(self):
        if self.turns == TURNS:
            raise Limit("turns")
        self.turns += 1

    def _built_in(self, name, call):
        self._turn()
        if name == DO_SHORTCODE:
            return self.scan(call.value)
        self.publish(call.value)
        return call.value

    def _script(self, script, call):
        place = 0
        while True:
            self._turn()
            if place >= len(script):
                return within(call.value)
            op = script[place]
            place += 1
            kind = op["op"]
            if kind == "return":
                return call.handed(op["text"])
            if kind == "set":
                call.value = call.handed(op["text"])
            elif kind == "skip_if":
                if call.text(op["left"]) == call.text(op["right"]):
                    place += op["skip"]
            elif kind == "echo":
                self.echo(call.handed(op["text"]))
            else:
                call.last = getattr(self, "_op_" + kind)(op, call)

    def scan(self, text):
        output, size, at = [], 0, 0
        within(text)
        while True:
            found = next_shortcode(text, at, self.tags)
            pieces = [text[at : found.start] if found else text[at:]]
            if found and found.lead and found.tail:
                pieces.append(text[found.start + 1 : found.end - 1])
                self.met["escapes"] += 1
            elif found:
                self.met["shortcodes"] += 1
                answer = self.callback(self.tags[found.tag], Call((), attributes(found.atts), found.content, found.tag))
                if self.site.profile == 2:
                    self.met["answers by a filter"] += any(self.hooks.rows[DO_SHORTCODE_TAG])
                    answer = self.apply(DO_SHORTCODE_TAG, (answer, found.tag))
                pieces.append("[" * found.lead + answer + "]" * found.tail)
            output += pieces
            size += sum(map(size_of, pieces))
            if size > TEXT_BYTES:
                raise Limit("bytes")
            if not found:
                return "".join(output)
            at = found.end

    def changed(self, fires):
        """Fires what a change fires; whether something changed."""
        if fires is not None:
            self.fire(fires)
        return fires is not None

    def publish(self, told):
        id = number_of(told)
        return self.changed(None if id is None else self.site.publish_due(id))

    # ops that answer

    def _edits(self, hook, priority):
        """Counts an edit of a hook that is running, by where it falls."""
        for run in self.runs:
            if run.hook == hook:
                where = "everywhere" if priority is None else "above" if priority > run.reached else "below" if priority < run.reached else "at the running priority"
                self.met["edits of a running hook, " + where] += 1

    def _op_add_hook(self, op, call):
        priority = op.get("priority", 10)
        self._edits(op["hook"], priority)
        added = self.hooks.add(op["hook"], op["callback"], priority, op.get("accepted", 1))
        self.met["adds to a full table"] += not added
        return truth(added)

    def _op_remove_hook(self, op, call):
        priority = op.get("priority", 10)
        self._edits(op["hook"], priority)
        return truth(self.hooks.remove(op["hook"], op["callback"], priority))

    def _op_remove_all(self, op, call):
        self._edits(op["hook"], op.get("priority"))
        self.hooks.remove_all(op["hook"], op.get("priority"))
        return "1"

    def _op_has_hook(self, op, call):
        priority = self.hooks.has(op["hook"], op["callback"])
        return "" if priority is None else str(priority)

    def _op_apply(self, op, call):
        return self.apply(op["hook"], [call.handed(text) for text in (op["value"], *op.get("more", ()))])

    def _op_do(self, op, call):
        self.do(op["hook"], [call.handed(text) for text in op.get("args", ())])
        return ""

    def _op_did(self, op, call):
        return str(self.did[op["hook"]])

    def _op_doing(self, op, call):
        return truth(any(run.hook == op["hook"] for run in self.runs))

    def _op_add_tag(self, op, call):
        return truth(self.add_tag(op["tag"], op["callback"]))

    def _op_remove_tag(self, op, call):
        return truth(self.tags.pop(op["tag"], None))

    def _op_has_tag(self, op, call):
        return truth(op["tag"] in self.tags)

    def _op_shortcodes(self, op, call):
        return self.scan(call.handed(op["text"]))

    def _op_option(self, op, call):
        return self.site.options.get(op["name"], "")

    def _op_set_option(self, op, call):
        value = call.handed(op["value"])
        try:
            fires = self.site.set_option(op["name"], value)
        except Refused:
            fires = None
        return truth(self.changed(fires))

    def _op_schedule(self, op, call):
        event = Event(self.site.now + op["after"], op["hook"], call.handed(op["arg"]), op.get("every", "once"))
        return truth(self.changed(self.site.schedule(event)))

    def _op_publish(self, op, call):
        return truth(self.publish(call.handed(op["post"])))


# ---- commands


class Work:
    """One command on a site, which is changed; Refused and Limit leave it in pieces."""

    def __init__(self, site, kit):
        self.site, self.kit = site, kit
        self.machine = Machine(kit, site, site.active)

    def play(self, command):
        kind = command["kind"]
        if kind in ("activate", "deactivate"):
            return getattr(self, "_" + kind)(command["plugin"])
        if kind == "profile":
            return self._profile(command["profile"])
        self.machine.start()
        return getattr(self, "_" + kind)(command)

    def _activate(self, plugin):
        if plugin not in self.kit.plugins:
            raise Refused(NO_SUCH_PLUGIN)
        if plugin in self.site.active:
            raise Refused(ALREADY_ACTIVE)
        self.site.active.add(plugin)
        return 0

    def _deactivate(self, plugin):
        if plugin not in self.site.active:
            raise Refused(NOT_ACTIVE)
        self.site.active.remove(plugin)
        return 0

    def _profile(self, to):
        if (self.site.profile, to) != (1, 2):
            raise Refused(BAD_PROFILE)
        self.site.profile = to
        return 0

    def _status(self, command):
        post = self.site.posts.get(command["id"])
        if post is None:
            raise Refused(NO_SUCH_POST)
        return post.status

    def _draft(self, command):
        title = self.machine.apply("title_save_pre", (command["title"],))
        content = self.machine.apply("content_save_pre", (command["content"],))
        return title, content, command.get("status", "draft"), command.get("date", command["at"])

    def _insert(self, command):
        if command.get("status") == "trash":
            raise Refused(IS_TRASHED)
        id, fires = self.site.insert(*self._draft(command))
        self.machine.fire(fires)
        return id

    def _update(self, command):
        if "trash" in (self._status(command), command.get("status")):
            raise Refused(IS_TRASHED)
        self.machine.fire(self.site.edit(command["id"], *self._draft(command)))
        return command["id"]

    def _round(self, id, before, change, after):
        self.machine.do(before, (str(id),))
        self.machine.fire(change(id))
        self.machine.do(after, (str(id),))
        return id

    def _trash(self, command):
        if self._status(command) == "trash":
            raise Refused(IS_TRASHED)
        return self._round(command["id"], "wp_trash_post", lambda id: self.site.move(id, "trash"), "trashed_post")

    def _of_trashed(self, command):
        if self._status(command) != "trash":
            raise Refused(NOT_TRASHED)
        return command["id"]

    def _untrash(self, command):
        return self._round(self._of_trashed(command), "untrash_post", lambda id: self.site.move(id, "draft"), "untrashed_post")

    def _delete(self, command):
        return self._round(self._of_trashed(command), "before_delete_post", self.site.delete, "deleted_post")

    def _option(self, command):
        self.machine.changed(self.site.set_option(command["name"], command["value"]))
        return 0

    def _tick(self, command):
        for event in self.site.due():
            if self.site.take(event):
                self.machine.do(event.hook, (event.argument,))
        return 0


def applied(site, kit, command, met):
    """The site after a command, and its outcome."""
    site.now = max(site.now, command["at"])
    token = (command["editor"], command["seq"])
    if token in site.outcomes:
        return site, site.outcomes[token]
    work = Work(site.copy(), kit)
    try:
        outcome, site = ("done", work.play(command)), work.site
    except Refused as refused:
        outcome = ("refused", refused.fault)
    except Limit as limit:
        outcome = ("refused", LIMIT)
        met[f"limits of a command: {limit}"] += 1
    met.update(work.machine.met)
    site.outcomes[token] = outcome
    return site, outcome


# ---- pages

PHRASES = {404: "Not Found", 500: "Internal Server Error"}


def fixed(status):
    return f"<!DOCTYPE html>\n<html>\n<body>\n<h1>{status} {PHRASES[status]}</h1>\n</body>\n</html>\n"


def escaped(text):
    for plain, told in (("&", "&amp;"), ("<", "&lt;"), (">", "&gt;"), ('"', "&quot;"), ("'", "&#039;")):
        text = text.replace(plain, told)
    return text


def compact(value):
    return json.dumps(value, ensure_ascii=False, sort_keys=True, separators=(",", ":"))


class Pages:
    def __init__(self, site, kit, met):
        self.site, self.kit, self.met = site, kit, met

    def page(self, target):
        """The status and the body of the reply to a target."""
        kind, _, told = target.partition(":")
        try:
            return getattr(self, "_" + kind)(told)
        except Limit as limit:
            self.met[f"limits of a page: {limit}"] += 1
            return 500, compact({"code": 500}) if kind == "json" else fixed(500)

    def _published(self, id):
        post = self.site.posts.get(id)
        return post if post and post.status == "publish" else None

    def _booted(self):
        machine = Machine(self.kit, Reading(self.site), self.site.active)
        machine.start()
        return machine

    def _front(self, _):
        ids = [id for id, post in self.site.posts.items() if post.status == "publish"]
        ids.sort(key=lambda id: (self.site.posts[id].date, id), reverse=True)
        return self._template(ids[:ON_FRONT])

    def _post(self, told):
        return self._template([int(told)]) if self._published(int(told)) else (404, fixed(404))

    def _template(self, ids):
        machine = self._booted()
        name = escaped(self.site.options.get("blogname", "Press"))
        machine.echo(f"<!DOCTYPE html>\n<html>\n<head>\n<title>{name}</title>\n")
        machine.do("wp_head", ())
        machine.echo(f"</head>\n<body>\n<h1>{name}</h1>\n")
        for id in ids:
            post = self.site.posts[id]
            machine.echo(f'<article id="post-{id}">\n<h2><a href="/?p={id}">')
            machine.echo(machine.apply("the_title", (post.title, str(id))))
            machine.echo("</a></h2>\n")
            machine.echo(machine.apply("the_content", (post.content,)))
            machine.echo("\n</article>\n")
        machine.do("wp_footer", ())
        machine.echo("</body>\n</html>\n")
        self.met.update(machine.met)
        return 200, "".join(machine.output)

    def _json(self, told):
        post = self._published(int(told))
        if not post:
            return 404, compact({"code": 404})
        machine = self._booted()
        title = machine.apply("the_title", (post.title, str(int(told))))
        content = machine.apply("the_content", (post.content,))
        body = {"id": int(told), "status": post.status, "date": post.date, "title": {"rendered": title}, "content": {"rendered": content}}
        self.met.update(machine.met)
        return 200, within(compact(body))

    def _result(self, told):
        editor, _, seq = told.partition("/")
        outcome = self.site.outcomes.get((editor, int(seq)))
        return (200, compact({outcome[0]: outcome[1]})) if outcome else (404, compact({"code": 404}))


# ---- play files


class Played(NamedTuple):
    lines: list  # what is printed, one line after the other
    turns: int  # of all plays
    met: collections.Counter


def play_file(told):
    """What a play file gives, as JSON has read it."""
    kit, site, met, lines = Kit(told["kit"]), Site(), collections.Counter(), []
    site.active = set(told.get("active", ()))
    for command in told.get("commands", ()):
        site, (word, number) = applied(site, kit, command, met)
        lines.append(compact({word: number}))
        met["commands"] += 1
    for target in told.get("pages", ()):
        status, body = Pages(site, kit, met).page(target)
        lines.append(compact({"status": status, "body": body}))
        met["pages"] += 1
    machine = Machine(kit, site, site.active)
    for play in told["plays"]:
        met["plays"] += 1
        try:
            lines.append(_played(machine, play))
        except Limit as limit:
            met[f"limits of a play: {limit}"] += 1
            lines.append(compact({"limit": True}))
            break
    met["turns of plays"] += machine.turns
    met.update(machine.met)
    return Played(lines, machine.turns, met)


def _played(machine, play):
    """The line of a play; one that is done many times leaves what it leaves once."""
    if "apply" in play:
        text = machine.apply(play["apply"], play.get("args", ()))
    else:
        machine.do(play["do"], play.get("args", ()))
        text = ""
    answer = {"text": text}
    if machine.written:
        answer["output"] = "".join(machine.output)
    return compact(answer)
