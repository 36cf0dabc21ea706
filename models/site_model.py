"""A model of the site that applied values make, and of its pages, without plugins.

Without plugins no hook does anything but two: a tick publishes the posts whose moment has come, and the filters of titles and contents give back what they get.
"""

import json
from typing import NamedTuple

from schedule_files import Command

NO_SUCH_POST, NOT_TRASHED, IS_TRASHED, TOO_MANY_POSTS, TOO_MANY_EVENTS = 10, 11, 12, 13, 14
NO_SUCH_PLUGIN, NOT_ACTIVE, TOO_MANY_OPTIONS, BAD_PROFILE, TOO_LONG = 15, 17, 18, 19, 2

TITLE_LIMIT, CONTENT_LIMIT, OPTION_LIMIT = 1_024, 65_536, 4_096
POSTS, OPTIONS, EVENTS = 10_000, 1_024, 4_096
ON_FRONT = 10

PLUGINS = ("grow", "letters", "loop", "marks", "notes", "tags")


class Unsupported(Exception):
    """A plugin that the kit has was activated: what it does isn't modelled."""


class Noop(NamedTuple):
    """The value that does nothing but carry a moment."""

    at: int


class Post(NamedTuple):
    title: str
    content: str
    status: str
    date: int


class Refused(Exception):
    def __init__(self, fault):
        self.fault = fault


def size_of(command: Command):
    """How many bytes spell a command."""
    def text(told):
        return 4 + len(told.encode())

    size = 1 + 1 + len(command.editor) + 8 + 8
    if command.kind in ("insert", "update"):
        *ids, title, content, _, _ = command.fields
        return size + 8 * len(ids) + text(title) + text(content) + 1 + 8
    if command.kind in ("trash", "untrash", "delete"):
        return size + 8
    if command.kind == "option":
        return size + 1 + len(command.fields[0]) + text(command.fields[1])
    if command.kind in ("activate", "deactivate"):
        return size + 1 + len(command.fields[0])
    if command.kind == "profile":
        return size + 1
    return size


class Site:
    def __init__(self):
        self.now = 0
        self.profile = 1
        self.posts = []  # by id, from 1 on; the place of a deleted post is None
        self.due = []  # (moment, id) of each post that is to be published, in the order in which they came
        self.options = {}
        self.outcomes = {}  # by (editor, seq): the word and the number

    # ---- values

    def apply(self, value):
        """Applies a value: a token that is known answers what it did, and a command that is refused changes nothing but the moment."""
        self.now = max(self.now, value.at)
        if isinstance(value, Noop):
            return
        token = (value.editor, value.seq)
        if token in self.outcomes:
            return
        try:
            self.outcomes[token] = ("done", getattr(self, "_" + value.kind)(*value.fields))
        except Refused as refused:
            self.outcomes[token] = ("refused", refused.fault)

    def _post(self, id):
        post = self.posts[id - 1] if 1 <= id <= len(self.posts) else None
        if post is None:
            raise Refused(NO_SUCH_POST)
        return post

    def _insert(self, title, content, status, date):
        if status == "trash":
            raise Refused(IS_TRASHED)
        self._look_at(title, content)
        if sum(post is not None for post in self.posts) >= POSTS:
            raise Refused(TOO_MANY_POSTS)
        id = len(self.posts) + 1
        post = self._settled(id, title, content, status, date)
        self.posts.append(None)
        return self._put(id, post)

    def _update(self, id, title, content, status, date):
        if self._post(id).status == "trash" or status == "trash":
            raise Refused(IS_TRASHED)
        self._look_at(title, content)
        return self._put(id, self._settled(id, title, content, status, date))

    def _look_at(self, title, content):
        if len(title.encode()) > TITLE_LIMIT or len(content.encode()) > CONTENT_LIMIT:
            raise Refused(TOO_LONG)

    def _settled(self, id, title, content, status, date):
        """Publish dated after now is future, and future dated not after now is publish."""
        if status in ("publish", "future"):
            status = "future" if date > self.now else "publish"
        if status == "future" and sum(other != id for _, other in self.due) >= EVENTS:
            raise Refused(TOO_MANY_EVENTS)
        return Post(title, content, status, date)

    def _put(self, id, post):
        self.posts[id - 1] = post
        self.due = [event for event in self.due if event[1] != id]
        if post is not None and post.status == "future":
            self.due.append((post.date, id))
        return id

    def _trash(self, id):
        post = self._post(id)
        if post.status == "trash":
            raise Refused(IS_TRASHED)
        return self._put(id, post._replace(status="trash"))

    def _trashed(self, id):
        post = self._post(id)
        if post.status != "trash":
            raise Refused(NOT_TRASHED)
        return post

    def _untrash(self, id):
        return self._put(id, self._trashed(id)._replace(status="draft"))

    def _delete(self, id):
        self._trashed(id)
        return self._put(id, None)

    def _option(self, name, value):
        if len(value.encode()) > OPTION_LIMIT:
            raise Refused(TOO_LONG)
        if name not in self.options and len(self.options) >= OPTIONS:
            raise Refused(TOO_MANY_OPTIONS)
        self.options[name] = value
        return 0

    def _activate(self, plugin):
        if plugin not in PLUGINS:
            raise Refused(NO_SUCH_PLUGIN)
        raise Unsupported

    def _deactivate(self, plugin):
        raise Refused(NOT_ACTIVE)

    def _profile(self, to):
        if (self.profile, to) != (1, 2):
            raise Refused(BAD_PROFILE)
        self.profile = to
        return 0

    def _tick(self):
        for moment, id in sorted(self.due, key=lambda event: event[0]):
            if moment <= self.now:
                self._put(id, self._post(id)._replace(status="publish"))
        return 0

    # ---- pages

    def page(self, target):
        """The status and the bytes of the reply to a target."""
        status, text = getattr(self, "_page_" + target.kind)(target)
        return status, text.encode()

    def _published(self, id):
        post = self.posts[id - 1] if 1 <= id <= len(self.posts) else None
        return post if post is not None and post.status == "publish" else None

    def _page_front(self, _):
        ids = [id for id in range(1, len(self.posts) + 1) if self._published(id)]
        ids.sort(key=lambda id: (self.posts[id - 1].date, id), reverse=True)
        return 200, self._template(ids[:ON_FRONT])

    def _page_post(self, target):
        if not self._published(target.id):
            return 404, NOT_FOUND
        return 200, self._template([target.id])

    def _page_json(self, target):
        post = self._published(target.id)
        if not post:
            return 404, _compact({"code": 404})
        texts = {"title": {"rendered": post.title}, "content": {"rendered": post.content}}
        return 200, _compact({"id": target.id, "status": post.status, "date": post.date, **texts})

    def _page_result(self, target):
        outcome = self.outcomes.get((target.editor, target.seq))
        if not outcome:
            return 404, _compact({"code": 404})
        return 200, _compact({outcome[0]: outcome[1]})

    def _template(self, ids):
        name = _escaped(self.options.get("blogname", "Press"))
        head = f"<!DOCTYPE html>\n<html>\n<head>\n<title>{name}</title>\n</head>\n<body>\n<h1>{name}</h1>\n"
        return head + "".join(self._article(id) for id in ids) + "</body>\n</html>\n"

    def _article(self, id):
        post = self.posts[id - 1]
        return f'<article id="post-{id}">\n<h2><a href="/?p={id}">{post.title}</a></h2>\n{post.content}\n</article>\n'


NOT_FOUND = "<!DOCTYPE html>\n<html>\n<body>\n<h1>404 Not Found</h1>\n</body>\n</html>\n"


def _escaped(text):
    for plain, told in (("&", "&amp;"), ("<", "&lt;"), (">", "&gt;"), ('"', "&quot;"), ("'", "&#039;")):
        text = text.replace(plain, told)
    return text


def _compact(value):
    return json.dumps(value, ensure_ascii=False, sort_keys=True, separators=(",", ":"))
