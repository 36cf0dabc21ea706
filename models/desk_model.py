"""A model of what editors see of a site (docs/PROTOCOL.md, *The desk*), over the commands that come as forms to a node by itself.

Written from docs/PROTOCOL.md, docs/PLUGINS.md and docs/OPERATING.md alone. Of scripts the steps are modelled that change a site, so there is no preview where an active plugin has a
shortcode or edits a hook. The numbers of posts, events and turns, and the bytes of pages and of what callbacks pass on, have no limits here.
"""

import collections
import copy
import json
import re
import urllib.parse

LAST, LAST_MOMENT, AT_ONCE, LOGGED = 2**64 - 1, 2**40, 100, 64
FORM_LIMIT, COMMAND_LIMIT, TITLE_LIMIT, CONTENT_LIMIT, OPTION_LIMIT, ARG_LIMIT, OPEN, OPTIONS = 65_536, 16_384, 1_024, 65_536, 4_096, 256, 32, 1_024
TOO_LONG, NO_POST, NOT_TRASHED, TRASHED, NO_PLUGIN, IS_ACTIVE, NOT_ACTIVE, MANY_OPTIONS, BAD_SWITCH, LIMIT = 2, 10, 11, 12, 15, 16, 17, 18, 19, 20
STATUSES = ("draft", "future", "pending", "private", "publish", "trash")
EVERY = {"once": None, "hourly": 3_600, "twicedaily": 43_200, "daily": 86_400}
DUE_HOOK, DUE_CALLBACK, SHORTCODES = "publish_future_post", "check_and_publish_future_post", "do_shortcode"
ESCAPES = str.maketrans({"&": "&amp;", "<": "&lt;", ">": "&gt;", '"': "&quot;", "'": "&#039;"})


class Refused(Exception):
    """A change that a site refuses, with the number of its fault."""


Reply = collections.namedtuple("Reply", "status body", defaults=(None,))  # a body of None is the fixed page of the status
Event = collections.namedtuple("Event", "time hook arg every")


def json_reply(value, status=200):
    return Reply(status, json.dumps(value, ensure_ascii=False, separators=(",", ":"), sort_keys=True).encode())


def fields_of(form):
    """The fields of a form, the first of each name."""
    found = {}
    for pair in filter(None, form.split(b"&")):
        key, _, value = (urllib.parse.unquote_to_bytes(part.replace(b"+", b" ")).decode("utf-8", "replace") for part in pair.partition(b"="))
        found.setdefault(key, value)
    return found


def number(text, most=LAST):
    return int(text) if re.fullmatch("[0-9]{1,20}", text) and int(text) <= most else None


READERS = dict.fromkeys(("editor", "name", "plugin"), lambda text: text if re.fullmatch("[A-Za-z0-9_-]{1,32}", text) else None) | dict.fromkeys(("title", "content", "value"), str)
READERS |= dict.fromkeys(("seq", "id"), number) | dict.fromkeys(("at", "date"), lambda text: number(text, LAST_MOMENT)) | {"profile": lambda text: number(text, 255)}
READERS |= {"status": lambda text: text if text in STATUSES else None}
SIZES = {"kind": 1, "editor": 1, "name": 1, "plugin": 1, "seq": 8, "id": 8, "at": 8, "date": 8, "title": 4, "content": 4, "value": 4, "status": 1, "profile": 1}
KINDS = {"insert": "title content status date", "update": "id title content status date", "trash": "id", "untrash": "id", "delete": "id", "option": "name value"}
KINDS |= {"activate": "plugin", "deactivate": "plugin", "tick": "", "profile": "profile"}


def command_of(form):
    """The command that a form gives, with the keys that a site file has, or None."""
    fields = fields_of(form)
    if fields.get("kind") not in KINDS:
        return None
    fields = {"status": "draft", **({"date": fields["at"]} if "at" in fields else {}), **fields}
    keys = ["editor", "seq", "at", *KINDS[fields["kind"]].split()]
    command = {key: READERS[key](fields[key]) if key in fields else None for key in keys} | {"kind": fields["kind"]}
    return None if None in command.values() else command


def spelled_bytes(command):
    """How many bytes spell the command on the wire."""
    return sum(SIZES[key] + (0 if key in ("kind", "status") or isinstance(value, int) else len(value.encode())) for key, value in command.items())


class Site:
    """What commands change. Each change of posts and options returns the actions that it fires, in their order."""

    def __init__(self):
        self.posts, self.last_id, self.options, self.active, self.profile, self.moment = {}, 0, {}, set(), 1, 0
        self.events = []  # as they were scheduled

    def transition(self, post, status):
        """A post gets a status, and with it the event at its date, or none."""
        text, old = str(post["id"]), post["status"]
        self.drop_event(text)
        if status == "future":
            self.events.append(Event(post["date"], DUE_HOOK, text, "once"))
        self.posts[post["id"]] = {**post, "status": status}
        return [("transition_post_status", [status, old, text]), (f"{old}_to_{status}", [text]), (f"{status}_post", [text])]

    def drop_event(self, text):
        self.events = [event for event in self.events if (event.hook, event.arg) != (DUE_HOOK, text)]

    def put(self, which, old, status, date, title, content):
        """An insert or an edit of a post of this old status."""
        if len(title.encode()) > TITLE_LIMIT or len(content.encode()) > CONTENT_LIMIT:
            raise Refused(TOO_LONG)
        if status in ("publish", "future"):
            status = "future" if date > self.moment else "publish"
        self.last_id = max(self.last_id, which)
        fires = self.transition({"id": which, "status": old, "date": date, "title": title, "content": content}, status)
        return [*fires, ("save_post", [str(which), "" if old == "new" else "1"])]

    def publish_due(self, text):
        post = self.posts.get(number(text))
        return self.transition(post, "publish") if post and post["status"] == "future" and post["date"] <= self.moment else []

    def set_option(self, which, value):
        old = self.options.get(which)
        if (long := len(value.encode()) > OPTION_LIMIT) or (old is None and len(self.options) >= OPTIONS):
            raise Refused(TOO_LONG if long else MANY_OPTIONS)
        self.options[which] = value
        return [] if old == value else [(f"add_option_{which}", [which, value])] if old is None else [(f"update_option_{which}", [old, value, which])]

    def schedule(self, time, hook, arg, every):
        """Whether the event was added."""
        refused = any(event[:3] == (time, hook, arg) for event in self.events) or len(arg.encode()) > ARG_LIMIT or time > LAST_MOMENT
        self.events += [] if refused else [Event(time, hook, arg, every)]
        return not refused

    def take(self, time, hook, arg):
        """Whether the event was still scheduled."""
        taken = [event for event in self.events if event[:3] == (time, hook, arg)]
        for event in taken:
            self.events.remove(event)
            if step := EVERY[event.every]:
                self.schedule(time + ((self.moment - time) // step + 1) * step, hook, arg, event.every)
        return bool(taken)


class Run:
    """Hooks from a boot on, over a site that they may change or not."""

    def __init__(self, kit, site, changes):
        self.kit, self.site, self.changes, self.output, self.open, self.tags = kit, site, changes, [], 0, set()
        self.hooks = {"the_content": {(11, SHORTCODES): 1}, DUE_HOOK: {(10, DUE_CALLBACK): 1}}
        for load in (load for plugin in sorted(site.active) for load in kit["plugins"][plugin]):
            if "tag" in load:
                self.tags.add(load["tag"])
            else:
                self.hooks.setdefault(load["hook"], {})[load.get("priority", 10), load["callback"]] = load.get("accepted", 1)
        self.fire([("plugins_loaded", []), ("init", []), ("wp_loaded", [])])

    def fire(self, fires):
        for hook, args in fires:
            self.run(hook, args or [""], False)
        return "1" if fires else ""

    def run(self, hook, args, is_filter=True):
        for (_, callback), accepted in sorted(self.hooks.get(hook, {}).items(), key=lambda entry: entry[0][0]):
            answer = self.call(callback, args[:accepted])
            args = [answer, *args[1:]] if is_filter else args
        return args[0]

    def call(self, callback, args):
        if self.open == OPEN:
            raise Refused(LIMIT)
        self.open += 1
        answer = args[0] if args else ""
        if callback == DUE_CALLBACK:
            self.fire(self.site.publish_due(answer) if self.changes else [])
        elif callback != SHORTCODES:
            answer = self.play(self.kit["callbacks"][callback], args, answer)
        self.open -= 1
        return answer

    def play(self, script, args, value):
        last, at = "", 0

        def part(told):
            if isinstance(told, str) or "escaped" in told:
                return told if isinstance(told, str) else part(told["escaped"]).translate(ESCAPES)
            return "".join(args[told["arg"] :][:1]) if "arg" in told else {"value": value, "last": last}[told["from"]]

        def text(key):
            return "".join(map(part, step[key]))

        while at < len(script):
            step, at = script[at], at + 1
            match step["op"]:
                case "set":
                    value = text("text")
                case "return":
                    return text("text")
                case "echo":
                    self.output.append(text("text"))
                case "apply":
                    last = self.run(step["hook"], [text("value")])
                case "option":
                    last = self.site.options.get(step["name"], "")
                case "set_option":
                    try:
                        fires = self.site.set_option(step["name"], text("value")) if self.changes else []
                    except Refused:
                        fires = []
                    last = self.fire(fires)
                case "schedule":
                    last = "1" if self.changes and self.site.schedule(self.site.moment + step["after"], step["hook"], text("arg"), step.get("every", "once")) else ""
                case "publish":
                    last = self.fire(self.site.publish_due(text("post"))) if self.changes else ""
                case "skip_if":
                    at += step["skip"] if text("left") == text("right") else 0
                case other:
                    raise NotImplementedError(other)
        return value


class Desk:
    """A node by itself, over the texts of kit files."""

    def __init__(self, kits, ahead):
        files = [json.loads(text) for text in kits]
        self.kit = {key: {each["name"]: each[has] for file in files for each in file[key]} for key, has in (("callbacks", "script"), ("plugins", "load"))}
        self.site, self.values, self.outcomes, self.ahead = Site(), [], {}, ahead

    def form(self, body, clock):
        """The reply to POST /command with that body; the command is applied by then."""
        command = command_of(body)
        if len(body) > FORM_LIMIT:
            return Reply(413)
        if command is None or command["at"] > clock + self.ahead:
            return Reply(400)
        if spelled_bytes(command) > COMMAND_LIMIT:
            return Reply(413)
        self.values.append(command)
        self.site.moment = max(self.site.moment, command["at"])
        token = command["editor"], command["seq"]
        if token not in self.outcomes:
            before = copy.deepcopy(self.site)
            try:
                self.outcomes[token] = {"done": self.work(**command)}
            except Refused as refused:
                self.site, self.outcomes[token] = before, {"refused": refused.args[0]}
        return json_reply({"queued": True}, 202)

    def outcome(self, editor, seq):
        found = self.outcomes.get((editor, seq))
        return json_reply(found) if found else json_reply({"code": 404}, 404)

    def work(self, kind, at, editor, seq, id=0, plugin=None, profile=None, name=None, value=None, **post):
        site, text = self.site, str(id)
        if kind in ("activate", "deactivate", "profile"):
            if kind == "activate" and plugin not in self.kit["plugins"]:
                raise Refused(NO_PLUGIN)
            if kind != "profile" and (plugin in site.active) == (kind == "activate"):
                raise Refused(IS_ACTIVE if kind == "activate" else NOT_ACTIVE)
            if kind == "profile" and (site.profile, profile) != (1, 2):
                raise Refused(BAD_SWITCH)
            site.active ^= {plugin} - {None}
            site.profile = profile or site.profile
            return 0
        run = Run(self.kit, site, True)
        if kind in ("update", "trash", "untrash", "delete"):
            if id not in site.posts:
                raise Refused(NO_POST)
            is_trashed = site.posts[id]["status"] == "trash"
            if is_trashed != (kind in ("untrash", "delete")):
                raise Refused(TRASHED if is_trashed else NOT_TRASHED)
        match kind:
            case "insert" | "update":
                if post["status"] == "trash":
                    raise Refused(TRASHED)
                for key in ("title", "content"):
                    post[key] = run.run(f"{key}_save_pre", [post[key]])
                id = id if kind == "update" else site.last_id + 1
                run.fire(site.put(id, site.posts[id]["status"] if kind == "update" else "new", **post))
            case "trash" | "untrash":
                run.fire([("wp_trash_post" if kind == "trash" else "untrash_post", [text])])
                run.fire(site.transition(site.posts[id], "trash" if kind == "trash" else "draft"))
                run.fire([(f"{kind}ed_post", [text])])
            case "delete":
                run.fire([("before_delete_post", [text])])
                del site.posts[id]
                site.drop_event(text)
                run.fire([("deleted_post", [text])])
            case "option":
                run.fire(site.set_option(name, value))
            case "tick":
                for time, hook, arg, _ in sorted((event for event in site.events if event.time <= site.moment), key=lambda event: event.time):
                    run.fire([(hook, [arg])] if site.take(time, hook, arg) else [])
        return id

    def asked(self, method, target):
        """The reply to a request for a path of the desk, or for none of a node; None where it isn't modelled. The target is bytes."""
        path, mark, query = target.decode(errors="replace").partition("?")
        if target != f"{path}{mark}{query}".encode() or not path.startswith("/"):
            return Reply(400)
        by_id = re.fullmatch("/desk/(posts|preview)/([^/]+)", path)
        if not by_id and path not in ("/desk/posts", "/desk/site", "/desk/log"):
            return Reply(404)
        if method != "GET":
            return Reply(405)
        numbers = {key: number(text) for key, text in fields_of(query.encode()).items()}
        if by_id:
            post = self.site.posts.get(which := number(by_id[2]))
            if post and by_id[1] == "preview":
                return self.preview(post)
            return json_reply(post) if post else Reply(404) if which is None or by_id[1] == "preview" else json_reply({"code": 404}, 404)
        if path == "/desk/site":
            return json_reply(self.seen())
        if None in (numbers.get(key, 0) for key in (("from",) if path == "/desk/log" else ("before", "count"))):
            return Reply(404)
        if path == "/desk/log":
            return json_reply({"applied": len(self.values), "commands": self.values[numbers.get("from", 0) :][:LOGGED]})
        ids = sorted((which for which in self.site.posts if which < numbers.get("before", LAST + 1)), reverse=True)
        return json_reply({"posts": [self.site.posts[which] for which in ids[: min(numbers.get("count", AT_ONCE), AT_ONCE)]]})

    def seen(self):
        site = self.site
        statuses = [post["status"] for post in site.posts.values()]
        return {
            **{"active": sorted(site.active), "applied": len(self.values), "moment": site.moment, "plugins": sorted(self.kit["plugins"]), "profile": site.profile},
            "counts": {status: statuses.count(status) for status in STATUSES},
            "events": [event._asdict() for event in sorted(site.events, key=lambda event: event.time)],
            "options": [{"name": which, "value": site.options[which]} for which in sorted(site.options)],
        }

    def preview(self, post):
        try:
            run = Run(self.kit, self.site, False)
            if run.tags:
                return None
            text, called = str(post["id"]), self.site.options.get("blogname", "Press").translate(ESCAPES)
            run.output.append(f"<!DOCTYPE html>\n<html>\n<head>\n<title>{called}</title>\n")
            run.fire([("wp_head", [])])
            run.output.append(f'</head>\n<body>\n<h1>{called}</h1>\n<article id="post-{text}">\n<h2><a href="/?p={text}">')
            run.output.append(run.run("the_title", [post["title"], text]) + "</a></h2>\n")
            run.output.append(run.run("the_content", [post["content"]]) + "\n</article>\n")
            run.fire([("wp_footer", [])])
            return Reply(200, ("".join(run.output) + "</body>\n</html>\n").encode())
        except NotImplementedError:
            return None
        except Refused:
            return Reply(500)
