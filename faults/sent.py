"""What the benches of commands that are sent have in common: three members over files, and files of commands."""
import json, pathlib, subprocess, sys, time

from cluster_lib import Gone, free_port, get, make_store


class Members:
    """Three members over files in a folder, with these words more."""

    def __init__(self, program, folder, *words):
        self.program, self.folder, self.words = program, pathlib.Path(folder), words
        self.ports = [free_port() for _ in range(3)]
        self.peers = ",".join(f"127.0.0.1:{port}" for port in self.ports)
        for place in range(3):
            make_store(program, self.words_of(place))
        self.nodes = [self.started(place) for place in range(3)]
        self.wait()

    def words_of(self, place):
        store = str(self.folder / f"member-{place + 1}.db")
        return ["--id", str(place + 1), "--peers", self.peers, "--store", store, *self.words]

    def started(self, place):
        return subprocess.Popen([self.program, "serve", *self.words_of(place)], stdout=subprocess.DEVNULL, stderr=subprocess.DEVNULL)

    def kill(self, place):
        self.nodes[place].kill()
        self.nodes[place].wait()

    def is_ready(self, port):
        try:
            return get(port, "/ready")[0] == 200
        except (Gone, IndexError):
            return False

    def wait(self):
        end = time.time() + 60
        while not all(self.is_ready(port) for port in self.ports):
            if time.time() > end:
                sys.exit("the members don't get ready")
            time.sleep(0.05)

    def show(self, page):
        """Whether each shows this page, in ten seconds at most."""
        end = time.time() + 10
        while time.time() < end:
            if all(get(port, "/")[1] == page for port in self.ports):
                return True
            time.sleep(0.2)
        return False

    def stop(self):
        for place in range(3):
            self.kill(place)


def command(seq, editors, chance):
    """An insert; of several editors also updates and moves to the trash, which hang on what was inserted before."""
    made = dict(editor=f"e{chance.randrange(editors)}", seq=seq, at=1000 + seq)
    kind = chance.random() if editors > 1 and seq > 10 else 1
    if kind < 0.05:
        return made | dict(kind="trash", id=chance.randrange(1, seq))
    if kind < 0.25:
        return made | dict(kind="update", id=chance.randrange(1, seq), title=f"u{seq}", content=f"again {seq}", status="publish")
    return made | dict(kind="insert", title=f"post {seq}", content=f"The content of post {seq}, which has some words.", status="publish")


def file_of(folder, count, editors, chance):
    path = pathlib.Path(folder) / "site.json"
    path.write_text(json.dumps({"commands": [command(seq, editors, chance) for seq in range(1, count + 1)]}))
    return str(path)


def page_of(program, path):
    return subprocess.run([program, "page", path, "front"], capture_output=True).stdout


def disturb(members, sender, chance):
    """Kills and starts members until all was sent; how many."""
    kills = 0
    while sender.poll() is None:
        time.sleep(chance.uniform(0.2, 0.6))
        place = chance.randrange(3)
        members.kill(place)
        time.sleep(chance.choice([0.0, 0.3, 1.0]))
        members.nodes[place] = members.started(place)
        kills += 1
        time.sleep(chance.uniform(0.5, 1.5))
    members.wait()
    return kills
