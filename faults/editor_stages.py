"""Where the scenes of faults/editor play: a site in memory (desk_mock), or nodes of a built program; and what is asked of them beside the page."""
import itertools, json, pathlib, random, socket, subprocess, tempfile, threading, time, urllib.parse

from cluster_lib import Cluster, ask, free_port, get, read_whole
from desk_mock import Member, Site
from devtools import Failed

# The kit of a built program: what desk_mock.KIT does.
KIT = {
    "callbacks": [
        {"name": "breaking_title", "script": [{"op": "return", "text": ["New: ", {"from": "value"}]}]},
        {"name": "fullstop_title", "script": [{"op": "return", "text": [{"from": "value"}, "."]}]},
        {"name": "signature_text", "script": [{"op": "return", "text": [{"from": "value"}, "\n<p>The editors</p>"]}]},
    ],
    "plugins": [
        {"name": "breaking", "load": [{"hook": "the_title", "callback": "breaking_title"}]},
        {"name": "fullstop", "load": [{"hook": "title_save_pre", "callback": "fullstop_title"}]},
        {"name": "hourly", "load": []},
        {"name": "signature", "load": [{"hook": "the_content", "callback": "signature_text"}]},
    ],
}


def check(is_so, what):
    if not is_so:
        raise Failed(what)


class Stage:
    """A site, and what another editor does there without the page."""

    seq, sent = 0, {}

    def url(self, place=0):
        return f"http://127.0.0.1:{self.ports[place]}"

    def front(self):
        """Where members are asked in turn."""
        return self.url()

    def text(self, path, place=0):
        status, body = get(self.ports[place], path)
        return body.decode() if status == 200 else None

    def desk(self, path, place=0):
        text = self.text("/desk/" + path, place)
        return None if text is None else json.loads(text)

    def post(self, number, place=0):
        return self.desk(f"posts/{number}", place)

    def posts(self, place=0):
        return self.desk("posts?count=100", place)["posts"]

    def send(self, kind, place=0, **fields):
        """A command of somebody else; its outcome."""
        self.seq += 1
        self.sent = dict(editor="somebody", seq=self.seq, at=int(time.time()), kind=kind, **fields)
        self.send_body(urllib.parse.urlencode(self.sent), place)
        begun = time.monotonic()
        while (found := self.text(f"/result/somebody/{self.seq}", place)) is None:
            check(time.monotonic() - begun < 20, f"{kind} of somebody else has no outcome")
            time.sleep(0.02)
        return json.loads(found)

    def send_body(self, body, place=0):
        """The bytes of a form, which are taken."""
        body = body.encode()
        status, _ = ask(self.ports[place], b"POST /command HTTP/1.1\r\nContent-Type: application/x-www-form-urlencoded\r\nContent-Length: %d\r\n\r\n%s" % (len(body), body))
        check(status == 202, f"a form of somebody else is answered {status}")

    def send_again(self):
        """The last command of somebody else once more, under its token; waits until it is applied."""
        before = self.desk("site")["applied"]
        self.send_body(urllib.parse.urlencode(self.sent))
        begun = time.monotonic()
        while self.desk("site")["applied"] == before:
            check(time.monotonic() - begun < 20, "a command that comes again isn't applied")
            time.sleep(0.02)

    def update(self, number, title, content, status="publish", **more):
        """Somebody else saves a post."""
        check(self.send("update", id=number, title=title, content=content, status=status, **more) == {"done": number}, "somebody else can't save the post")

    def insert(self, title, content="Some words.", status="draft", **more):
        return self.send("insert", title=title, content=content, status=status, **more)["done"]


class Mock(Stage):
    """Two members of one site in memory."""

    is_mock = True

    def __init__(self, page, _program):
        self.site = Site()
        self.members = [Member(self.site, page=page) for _ in range(2)]

    def begin(self):
        for place in range(2):
            self.start(place)

    @property
    def ports(self):
        return [it.port for it in self.members]

    def fall_behind(self):
        self.site.behind = 2

    def part(self):
        self.site.is_parted = True

    def join(self):
        self.site.join()

    def start(self, place):
        self.members[place].start()

    def end(self, place):
        self.members[place].end()

    def close(self):
        for it in self.members:
            it.end()


class Files(Stage):
    """Of a built program: a folder with its kit file."""

    is_mock = False

    def __init__(self, page, program):
        self.page, self.program = page, program
        self.holder = tempfile.TemporaryDirectory(ignore_cleanup_errors=True)
        self.folder = pathlib.Path(self.holder.name)
        (self.folder / "kit.json").write_text(json.dumps(KIT))
        self.words = ["--editor", str(page), "--kit", str(self.folder / "kit.json"), "--ahead", "60"]


class Alone(Files):
    """One node over a file, which can be ended and started again."""

    def __init__(self, page, program):
        super().__init__(page, program)
        self.ports, self.node = [free_port()], None

    def begin(self):
        self.start(0)

    def start(self, _place):
        words = ["serve", "--port", str(self.ports[0]), "--store", f"{self.folder}/site.db", *self.words]
        self.node = subprocess.Popen([self.program, *words], stdout=subprocess.PIPE, stderr=subprocess.DEVNULL)
        check(self.node.stdout.readline() == f"listening on 127.0.0.1:{self.ports[0]}\n".encode(), "the node doesn't start")

    def end(self, _place):
        if self.node:
            self.node.kill()
            self.node.wait()
            self.node = None

    def close(self):
        self.end(0)
        self.holder.cleanup()


class Front:
    """A server in front of members: each connection goes to the next one."""

    def __init__(self, ports):
        self.ports, self.listener = itertools.cycle(ports), socket.create_server(("127.0.0.1", 0), backlog=64)
        self.port = self.listener.getsockname()[1]
        threading.Thread(target=self.run, daemon=True).start()

    def run(self):
        while True:
            try:
                conn, _ = self.listener.accept()
            except OSError:
                return
            threading.Thread(target=self.carry, args=(conn, next(self.ports)), daemon=True).start()

    def carry(self, conn, port):
        with conn:
            try:
                asked = read_whole(conn)
                with socket.create_connection(("127.0.0.1", port), timeout=15) as member:
                    member.sendall(asked)
                    conn.sendall(read_whole(member))
            except OSError:
                return


class Members(Files):
    """Three nodes over files, of which one may be away, or hear later than the others."""

    def __init__(self, page, program):
        super().__init__(page, program)
        self.cluster = Cluster(program, self.folder, chance=random.Random(1), relays=True)
        self.ports, self.fronts = self.cluster.ports, []

    def begin(self):
        self.cluster.start_all(self.words)
        check(self.cluster.wait_ready(range(3), 30) is not None, "the cluster isn't ready")

    def front(self):
        self.fronts.append(Front(self.ports))
        return f"http://127.0.0.1:{self.fronts[-1].port}"

    def fall_behind(self):
        """What goes to the third member is often late, by 0.3 seconds at most."""
        for (_, to), relay in self.cluster.relays.items():
            if to == 2:
                relay.hold = 0.7

    def part(self):
        """No member hears another one."""
        for relay in self.cluster.relays.values():
            relay.cut = 1.0

    def join(self):
        for relay in self.cluster.relays.values():
            relay.cut = 0.0

    def start(self, place):
        self.cluster.start(place, self.words)

    def end(self, place):
        self.cluster.kill(place)

    def close(self):
        for it in self.fronts:
            it.listener.close()
        self.cluster.end()
        self.holder.cleanup()
