#!/usr/bin/env python3
"""A site in memory with what the page for editors asks of it, by the rules of docs/PLUGINS.md and docs/PROTOCOL.md as far as the page needs them.

    faults/desk_mock.py [--port N] [--members N] [--page FILE]

Serves one site at as many ports in turn, from N on, until it is ended. faults/editor starts it in its own process.
"""
import argparse, html, http.server, json, pathlib, re, threading, time, urllib.parse

PAGE = pathlib.Path(__file__).resolve().parent.parent / "editor" / "editor.html"
NAME = re.compile(r"[A-Za-z0-9_-]{1,32}")
STATUSES = ("draft", "future", "pending", "private", "publish", "trash")
LAST_MOMENT = 2**40
MOST_BYTES, MOST_BODY = 16_384, 65_536
TITLE, CONTENT, OPTION = 1_024, 65_536, 4_096
# How many commands a reply of the log has at most.
LOOK = 64
POSTS, EVENTS, OPTIONS = 10_000, 4_096, 1_024
# What a plugin does to a title, or to a content, as it is shown, of which nothing is kept, or to a title as it is saved.
KIT = {
    "breaking": dict(title=lambda text: "New: " + text),
    "fullstop": dict(saved=lambda text: text + "."),
    "signature": dict(content=lambda text: text + "\n<p>The editors</p>"),
    "hourly": {},
}


class Bad(Exception):
    """A form that gives no command."""


class Refused(Exception):
    """A command that the site refuses, with the number of its fault."""


def number(fields, name, most=2**64 - 1):
    text = fields.get(name, "")
    if not re.fullmatch(r"[0-9]{1,20}", text) or int(text) > most:
        raise Bad(name)
    return int(text)


def name_of(fields, name):
    if not NAME.fullmatch(fields.get(name, "")):
        raise Bad(name)
    return fields[name]


def size_of(text):
    return len(text.encode())


class Command:
    """What a form spells."""

    def __init__(self, body):
        self.fields = {}
        for name, value in urllib.parse.parse_qsl(body.decode("utf-8", "replace"), keep_blank_values=True):
            self.fields.setdefault(name, value)
        fields = self.fields
        self.editor, self.seq, self.at = name_of(fields, "editor"), number(fields, "seq"), number(fields, "at", LAST_MOMENT)
        self.kind, self.id, self.post, self.name, self.value = fields.get("kind"), None, None, None, None
        if self.kind in ("update", "trash", "untrash", "delete"):
            self.id = number(fields, "id")
        if self.kind in ("insert", "update"):
            self.post = self.read_post()
        elif self.kind == "option":
            self.name, self.value = name_of(fields, "name"), fields.get("value")
            if self.value is None:
                raise Bad("value")
        elif self.kind in ("activate", "deactivate"):
            self.name = name_of(fields, "plugin")
        elif self.kind == "profile":
            self.value = number(fields, "profile", 255)
        elif self.kind not in ("trash", "untrash", "delete", "tick"):
            raise Bad("kind")

    def read_post(self):
        fields = self.fields
        if "title" not in fields or "content" not in fields:
            raise Bad("title")
        status = fields.get("status", "draft")
        if status not in STATUSES:
            raise Bad("status")
        date = number(fields, "date", LAST_MOMENT) if "date" in fields else self.at
        return dict(title=fields["title"], content=fields["content"], status=status, date=date)

    def logged(self):
        """As a site file has it."""
        told = dict(editor=self.editor, seq=self.seq, at=self.at, kind=self.kind)
        if self.id is not None:
            told["id"] = self.id
        if self.post:
            told.update(self.post)
        for name in {"option": ("name", "value"), "activate": ("plugin",), "deactivate": ("plugin",), "profile": ("profile",)}.get(self.kind, ()):
            told[name] = number(self.fields, name) if name == "profile" else self.fields[name]
        return told

    def size(self):
        """Bytes as the wire has them."""
        size = 1 + 1 + len(self.editor) + 8 + 8
        if self.id is not None:
            size += 8
        if self.post:
            size += 4 + size_of(self.post["title"]) + 4 + size_of(self.post["content"]) + 1 + 8
        if self.kind == "option":
            size += 1 + len(self.name) + 4 + size_of(self.value)
        return size


class Site:
    """What the commands made: posts, options, plugins, events, outcomes."""

    def __init__(self):
        self.lock = threading.RLock()
        self.posts, self.last, self.options, self.active, self.events = {}, 0, {}, [], []
        self.outcomes, self.moment, self.profile, self.applied = {}, 0, 1, 0
        self.taken, self.refuse_next = [], []
        # How many posts are shown, behind each command, as they were before it: by a member that heard of it later.
        self.behind, self.older, self.before = 0, 0, {}
        # Whether previews come as a server in front has them (docs/OPERATING.md).
        self.has_front = False
        # Without a majority what is taken waits.
        self.is_parted, self.waiting, self.log = False, [], []

    def take(self, command):
        with self.lock:
            if self.is_parted:
                self.waiting.append(command)
            else:
                self.apply(command)

    def join(self):
        """There is a majority again: what waits is done, in its order."""
        with self.lock:
            self.is_parted = False
            while self.waiting:
                self.apply(self.waiting.pop(0))

    def apply(self, command):
        with self.lock:
            self.applied += 1
            self.log.append(command.logged())
            self.older, self.before = self.behind, {id: dict(post) for id, post in self.posts.items()}
            self.moment = max(self.moment, command.at)
            token = (command.editor, command.seq)
            self.taken.append((token, command.kind, dict(command.fields)))
            if token in self.outcomes:
                return
            try:
                if self.refuse_next:
                    raise Refused(self.refuse_next.pop(0))
                self.outcomes[token] = {"done": getattr(self, "do_" + command.kind)(command)}
            except Refused as fault:
                self.outcomes[token] = {"refused": fault.args[0]}

    def found(self, command):
        if command.id not in self.posts:
            raise Refused(10)
        return self.posts[command.id]

    def check(self, post):
        if size_of(post["title"]) > TITLE or size_of(post["content"]) > CONTENT:
            raise Refused(2)

    def settled(self, post):
        """A wanted post with the status that its date allows."""
        if post["status"] in ("publish", "future"):
            post["status"] = "future" if post["date"] > self.moment else "publish"
        return post

    def plan(self, id):
        """The event of a scheduled post, in place of those that it had."""
        others = [it for it in self.events if (it["hook"], it["arg"]) != ("publish_future_post", str(id))]
        post = self.posts.get(id)
        if post and post["status"] == "future":
            if len(others) >= EVENTS:
                raise Refused(14)
            others.append(dict(arg=str(id), every="once", hook="publish_future_post", time=post["date"]))
        self.events = others

    def change(self, id, post):
        before = self.posts.get(id)
        self.posts[id] = dict(id=id, **{key: post[key] for key in ("title", "content", "status", "date")})
        try:
            self.plan(id)
        except Refused:
            if before:
                self.posts[id] = before
            else:
                del self.posts[id]
            raise
        return id

    def do_insert(self, command):
        if command.post["status"] == "trash":
            raise Refused(12)
        command.post["title"] = self.shown("saved", command.post["title"])
        self.check(command.post)
        if len(self.posts) >= POSTS:
            raise Refused(13)
        id = self.change(self.last + 1, self.settled(command.post))
        self.last = id
        return id

    def do_update(self, command):
        if self.found(command)["status"] == "trash" or command.post["status"] == "trash":
            raise Refused(12)
        command.post["title"] = self.shown("saved", command.post["title"])
        self.check(command.post)
        return self.change(command.id, self.settled(command.post))

    def do_trash(self, command):
        post = self.found(command)
        if post["status"] == "trash":
            raise Refused(12)
        return self.change(command.id, dict(post, status="trash"))

    def trashed(self, command):
        post = self.found(command)
        if post["status"] != "trash":
            raise Refused(11)
        return post

    def do_untrash(self, command):
        return self.change(command.id, dict(self.trashed(command), status="draft"))

    def do_delete(self, command):
        self.trashed(command)
        del self.posts[command.id]
        self.plan(command.id)
        return command.id

    def do_option(self, command):
        if size_of(command.value) > OPTION:
            raise Refused(2)
        if command.name not in self.options and len(self.options) >= OPTIONS:
            raise Refused(18)
        self.options[command.name] = command.value
        return 0

    def do_activate(self, command):
        if command.name not in KIT:
            raise Refused(15)
        if command.name in self.active:
            raise Refused(16)
        self.active = sorted([*self.active, command.name])
        if command.name == "hourly":
            self.events.append(dict(arg="", every="hourly", hook="hourly_event", time=self.moment + 3600))
        return 0

    def do_deactivate(self, command):
        if command.name not in self.active:
            raise Refused(17)
        self.active.remove(command.name)
        return 0

    def do_tick(self, _command):
        for event in sorted((it for it in self.events if it["time"] <= self.moment), key=lambda it: it["time"]):
            if event["every"] != "once":
                step = {"hourly": 3600, "twicedaily": 43_200, "daily": 86_400}[event["every"]]
                event["time"] += ((self.moment - event["time"]) // step + 1) * step
                continue
            self.events.remove(event)
            post = self.posts.get(int(event["arg"] or 0))
            if event["hook"] == "publish_future_post" and post and post["status"] == "future" and post["date"] <= self.moment:
                post["status"] = "publish"
        return 0

    def do_profile(self, command):
        if (self.profile, command.value) != (1, 2):
            raise Refused(19)
        self.profile = 2
        return 0

    def shown(self, part, text):
        for plugin in self.active:
            text = KIT.get(plugin, {}).get(part, str)(text)
        return text

    def article(self, post):
        id = post["id"]
        return f'<article id="post-{id}">\n<h2><a href="/?p={id}">{self.shown("title", post["title"])}</a></h2>\n{self.shown("content", post["content"])}\n</article>\n'

    def page(self, posts):
        name = html.escape(self.options.get("blogname", "Press"))
        return f"<!DOCTYPE html>\n<html>\n<head>\n<title>{name}</title>\n</head>\n<body>\n<h1>{name}</h1>\n{''.join(map(self.article, posts))}</body>\n</html>\n"

    def published(self):
        posts = [it for it in self.posts.values() if it["status"] == "publish"]
        return sorted(posts, key=lambda it: (-it["date"], -it["id"]))

    def told(self):
        """What /desk/site says."""
        counts = {status: sum(it["status"] == status for it in self.posts.values()) for status in STATUSES}
        options = [dict(name=name, value=value) for name, value in sorted(self.options.items())]
        events = sorted(self.events, key=lambda it: it["time"])
        return dict(active=self.active, applied=self.applied, counts=counts, events=events, moment=self.moment, options=options, plugins=sorted(KIT), profile=self.profile)


class Reply(Exception):
    """A status, with a body and further fields of its head."""

    def __init__(self, status, body=None, kind="application/json", **head):
        self.status, self.kind, self.head = status, kind, head
        self.body = body if body is not None else f"<!DOCTYPE html>\n<title>{status}</title>\n"
        if body is None:
            self.kind = "text/html; charset=UTF-8"


def told(value):
    return Reply(200, json.dumps(value))


class Member:
    """One node of a site, at a port of its own."""

    def __init__(self, site, port=0, page=PAGE, ahead=60):
        self.site, self.port, self.page, self.ahead, self.server = site, port, pathlib.Path(page), ahead, None
        self.asked, self.answer_next, self.swallow_next = [], [], 0

    def start(self):
        member = self

        class Handler(http.server.BaseHTTPRequestHandler):
            def do_GET(self):
                member.serve(self)

            do_POST = do_GET

            def log_message(self, *_words):
                pass

        class Server(http.server.ThreadingHTTPServer):
            daemon_threads, allow_reuse_address = True, True

        self.server = Server(("127.0.0.1", self.port), Handler)
        self.port = self.server.server_address[1]
        threading.Thread(target=self.server.serve_forever, args=(0.05,), daemon=True).start()

    def end(self):
        if self.server:
            self.server.shutdown()
            self.server.server_close()
            self.server = None

    def serve(self, asked):
        length = int(asked.headers.get("Content-Length") or 0)
        body = asked.rfile.read(length)
        self.asked.append((asked.command, asked.path))
        try:
            self.answer(asked.command, asked.path, body)
            reply = Reply(404)
        except Reply as found:
            reply = found
        except ConnectionError:
            return
        raw = reply.body.encode() if isinstance(reply.body, str) else reply.body
        try:
            asked.send_response(reply.status)
            for name, value in [("Content-Type", reply.kind), ("Content-Length", str(len(raw))), ("Connection", "close"), *reply.head.items()]:
                asked.send_header(name.replace("_", "-"), value)
            asked.end_headers()
            asked.wfile.write(raw)
        except OSError:
            pass

    def answer(self, method, target, body):
        path, _, query = target.partition("?")
        parts = path.strip("/").split("/")
        if method == "POST":
            return self.command(path, body)
        with self.site.lock:
            if path == "/editor":
                raise Reply(200, self.page.read_bytes(), "text/html; charset=UTF-8")
            if path == "/ready":
                raise told(dict(ready=True, applied=self.site.applied, chosen=self.site.applied, members=[1, 2], foreign=[]))
            if parts[0] == "desk":
                self.desk(parts[1:], dict(urllib.parse.parse_qsl(query)))
            if parts[0] == "result" and len(parts) == 3:
                self.outcome(parts)
            if path == "/":
                self.front(dict(urllib.parse.parse_qsl(query)))
            if path.startswith("/wp-json/wp/v2/posts/"):
                self.in_json(parts[-1])

    def command(self, path, body):
        if path != "/command":
            raise Reply(404)
        if self.answer_next:
            status = self.answer_next.pop(0)
            raise Reply(status, **({"Retry_After": "1"} if status == 503 else {}))
        if len(body) > MOST_BODY:
            raise Reply(413)
        try:
            command = Command(body)
        except Bad:
            raise Reply(400) from None
        if command.at > time.time() + self.ahead:
            raise Reply(400)
        if command.size() > MOST_BYTES:
            raise Reply(413)
        self.site.take(command)
        if self.swallow_next:
            # It was taken, and its answer is lost.
            self.swallow_next -= 1
            raise ConnectionError
        raise Reply(202, '{"queued":true}')

    def outcome(self, parts):
        found = self.site.outcomes.get((parts[1], int(parts[2]) if parts[2].isdigit() else None))
        raise told(found) if found else Reply(404, '{"code":404}')

    def post(self, word):
        found = self.site.posts.get(int(word)) if word.isdigit() else None
        if not found:
            raise Reply(404)
        return found

    def kept(self, word):
        if not self.site.older:
            return self.post(word)
        self.site.older -= 1
        found = self.site.before.get(int(word))
        if not found:
            raise Reply(404)
        return found

    def desk(self, parts, query):
        if parts == ["site"]:
            raise told(self.site.told())
        if parts == ["log"]:
            first = int(query.get("from", 0))
            raise told(dict(applied=self.site.applied, commands=self.site.log[first : first + LOOK]))
        if parts == ["posts"]:
            before = int(query.get("before", 2**64))
            count = min(int(query.get("count", 100)), 100)
            posts = sorted((it for it in self.site.posts.values() if it["id"] < before), key=lambda it: -it["id"])
            raise told({"posts": posts[:count]})
        if len(parts) == 2 and parts[0] == "posts":
            raise told(self.kept(parts[1]))
        if len(parts) == 2 and parts[0] == "preview":
            head = dict(Content_Security_Policy="sandbox") if self.site.has_front else {}
            raise Reply(200, self.site.page([self.post(parts[1])]), "text/html; charset=UTF-8", **head)

    def front(self, query):
        posts = self.site.published()
        if "p" in query:
            posts = [it for it in posts if str(it["id"]) == query["p"]]
            if not posts:
                raise Reply(404)
        raise Reply(200, self.site.page(posts[:10]), "text/html; charset=UTF-8")

    def in_json(self, word):
        post = self.post(word)
        if post["status"] != "publish":
            raise Reply(404, '{"code":404}')
        title, content = self.site.shown("title", post["title"]), self.site.shown("content", post["content"])
        raise told(dict(content=dict(rendered=content), date=post["date"], id=post["id"], status="publish", title=dict(rendered=title)))


def main():
    words = argparse.ArgumentParser(description="A site in memory for the page for editors.")
    words.add_argument("--port", type=int, default=8080)
    words.add_argument("--members", type=int, default=1)
    words.add_argument("--page", default=PAGE)
    given = words.parse_args()
    site = Site()
    for place in range(given.members):
        member = Member(site, given.port + place, given.page)
        member.start()
        print(f"http://127.0.0.1:{member.port}/editor", flush=True)
    threading.Event().wait()


if __name__ == "__main__":
    main()
