"""Chromium without a window, driven over its DevTools protocol by a plain websocket: clicks, keys, texts and pictures, for faults/editor."""
import base64, collections, json, os, pathlib, socket, struct, subprocess, time, zlib

KEYS = {"Tab": (9, None), "Enter": (13, "\r"), "Escape": (27, None), "ArrowRight": (39, None), "ArrowDown": (40, None)}


# How many times as long as on a quiet machine everything may take.
PATIENCE = [1]


class Failed(Exception):
    """The browser doesn't do what it is asked for."""


def chunks(png):
    at = 8
    while at < len(png):
        size, kind = struct.unpack(">I4s", png[at : at + 8])
        yield kind, png[at + 8 : at + 8 + size]
        at += 12 + size


def chunk(kind, body):
    return struct.pack(">I", len(body)) + kind + body + struct.pack(">I", zlib.crc32(kind + body))


def unfiltered(kind, line, above, step):
    """A line of a PNG, by the line above it."""
    line = bytearray(line)
    for i, it in enumerate(line):
        left = line[i - step] if i >= step else 0
        up, corner = above[i], above[i - step] if i >= step else 0
        if kind == 1:
            guess = left
        elif kind == 2:
            guess = up
        elif kind == 3:
            guess = (left + up) // 2
        elif kind == 4:
            near = left + up - corner
            guess = min((abs(near - left), 0, left), (abs(near - up), 1, up), (abs(near - corner), 2, corner))[2]
        else:
            return line
        line[i] = (it + guess) & 255
    return line


def paletted(png):
    """A picture of 8 bits a colour with at most 256 colours, the most frequent ones; others become the nearest of these."""
    parts = list(chunks(png))
    width, height, depth, kind = struct.unpack(">IIBB", parts[0][1][:10])
    if depth != 8 or kind not in (2, 6):
        return png
    step = {2: 3, 6: 4}[kind]
    raw = zlib.decompress(b"".join(body for name, body in parts if name == b"IDAT"))
    lines, above = [], bytes(width * step)
    for row in range(height):
        at = row * (width * step + 1)
        above = unfiltered(raw[at], raw[at + 1 : at + 1 + width * step], above, step)
        lines.append([bytes(above[i : i + 3]) for i in range(0, width * step, step)])
    counts = collections.Counter(it for line in lines for it in line)
    colours = [it for it, _ in counts.most_common(256)]
    places = {it: min(range(len(colours)), key=lambda i: sum((a - b) ** 2 for a, b in zip(it, colours[i]))) for it in counts if it not in colours}
    places.update((it, i) for i, it in enumerate(colours))
    body = zlib.compress(b"".join(b"\0" + bytes(places[it] for it in line) for line in lines), 9)
    head = struct.pack(">IIBBBBB", width, height, 8, 3, 0, 0, 0)
    return b"\x89PNG\r\n\x1a\n" + chunk(b"IHDR", head) + chunk(b"PLTE", b"".join(colours)) + chunk(b"IDAT", body) + chunk(b"IEND", b"")


class Socket:
    """A websocket's client: texts alone."""

    def __init__(self, port, path, seconds):
        self.conn = socket.create_connection(("127.0.0.1", port), timeout=seconds)
        self.rest = b""
        key = base64.b64encode(os.urandom(16)).decode()
        lines = [f"GET {path} HTTP/1.1", f"Host: 127.0.0.1:{port}", "Upgrade: websocket", "Connection: Upgrade", f"Sec-WebSocket-Key: {key}", "Sec-WebSocket-Version: 13"]
        self.conn.sendall(("\r\n".join(lines) + "\r\n\r\n").encode())
        while b"\r\n\r\n" not in self.rest:
            self.more()
        head, _, self.rest = self.rest.partition(b"\r\n\r\n")
        if b" 101 " not in head.split(b"\r\n")[0]:
            raise Failed(f"no websocket: {head!r}")

    def more(self):
        piece = self.conn.recv(65536)
        if not piece:
            raise Failed("the browser closed its websocket")
        self.rest += piece

    def take(self, count):
        while len(self.rest) < count:
            self.more()
        taken, self.rest = self.rest[:count], self.rest[count:]
        return taken

    def send(self, text, kind=1):
        body = text.encode() if isinstance(text, str) else text
        mask = os.urandom(4)
        size = len(body)
        head = bytes([0x80 | kind])
        if size < 126:
            head += bytes([0x80 | size])
        elif size < 65536:
            head += b"\xfe" + struct.pack(">H", size)
        else:
            head += b"\xff" + struct.pack(">Q", size)
        masked = bytes(a ^ b for a, b in zip(body, mask * (size // 4 + 1)))
        self.conn.sendall(head + mask + masked)

    def text(self):
        """The next text, whole."""
        whole = b""
        while True:
            first, second = self.take(2)
            size = second & 0x7F
            if size == 126:
                (size,) = struct.unpack(">H", self.take(2))
            elif size == 127:
                (size,) = struct.unpack(">Q", self.take(8))
            body = self.take(size)
            kind = first & 0x0F
            if kind == 9:
                self.send(body, 10)
            elif kind == 8:
                raise Failed("the browser closed its websocket")
            elif kind in (0, 1):
                whole += body
                if first & 0x80:
                    return whole.decode()


class Browser:
    """A Chromium of its own with one page."""

    def __init__(self, folder, width, height, seconds=60):
        self.seconds = seconds = seconds * PATIENCE[0]
        profile = pathlib.Path(folder) / "profile"
        words = ["chromium", "--headless=new", "--no-sandbox", "--disable-gpu", "--hide-scrollbars", "--disable-lcd-text", "--no-first-run", "--lang=en-US", "--remote-debugging-port=0", f"--user-data-dir={profile}"]
        env = dict(os.environ, TZ="UTC", LANG="en_US.UTF-8", LANGUAGE="en_US")
        self.process = subprocess.Popen([*words, "about:blank"], stdout=subprocess.DEVNULL, stderr=subprocess.DEVNULL, env=env)
        self.sent, self.children, self.faults, self.session = 0, {}, [], None
        port, path = self.place(profile / "DevToolsActivePort")
        self.socket = Socket(port, path, seconds)
        target = self.call("Target.createTarget", url="about:blank")["targetId"]
        self.session = self.call("Target.attachToTarget", targetId=target, flatten=True)["sessionId"]
        self.call("Page.enable")
        self.call("Runtime.enable")
        self.call("Target.setAutoAttach", autoAttach=True, waitForDebuggerOnStart=False, flatten=True)
        self.call("Emulation.setDeviceMetricsOverride", width=width, height=height, deviceScaleFactor=1, mobile=False)

    def place(self, file):
        begun = time.monotonic()
        while time.monotonic() - begun < self.seconds:
            if self.process.poll() is not None:
                raise Failed(f"chromium ended with status {self.process.returncode}")
            if file.exists() and len(lines := file.read_text().splitlines()) >= 2:
                return int(lines[0]), lines[1]
            time.sleep(0.1)
        raise Failed("chromium doesn't start")

    def note(self, told):
        """Keeps what comes unasked: frames of a process of their own, and what scripts throw."""
        method, about = told.get("method"), told.get("params", {})
        if method == "Target.attachedToTarget":
            self.children[about["sessionId"]] = about["targetInfo"]
        elif method == "Target.detachedFromTarget":
            self.children.pop(about["sessionId"], None)
        elif method == "Runtime.exceptionThrown":
            it = about["exceptionDetails"]
            self.faults.append(it.get("exception", {}).get("description", it.get("text")))
        elif method == "Page.javascriptDialogOpening":
            # the page asks before it is left: it is left
            self.send("Page.handleJavaScriptDialog", self.session, accept=True)

    def send(self, method, session, **params):
        self.sent += 1
        asked = dict(id=self.sent, method=method, params=params)
        if session:
            asked["sessionId"] = session
        self.socket.send(json.dumps(asked))
        return self.sent

    def call(self, method, session=None, **params):
        number = self.send(method, session or self.session, **params)
        while True:
            told = json.loads(self.socket.text())
            if told.get("id") == number:
                if "error" in told:
                    raise Failed(f"{method}: {told['error'].get('message')}")
                return told["result"]
            self.note(told)

    def value(self, script):
        """What a script gives on the page."""
        result = self.call("Runtime.evaluate", expression=script, returnByValue=True, awaitPromise=True)
        if "exceptionDetails" in result:
            raise Failed(f"{script}: {result['exceptionDetails'].get('exception', {}).get('description')}")
        return result["result"].get("value")

    def until(self, script, what, seconds=30):
        """Waits until a script gives something that counts as true, and gives that."""
        begun, seconds = time.monotonic(), seconds * PATIENCE[0]
        while time.monotonic() - begun < seconds:
            try:
                if found := self.value(script):
                    return found
            except Failed:
                pass
            time.sleep(0.1)
        raise Failed(f"not within {seconds} seconds: {what}")

    def open(self, url):
        told = self.call("Page.navigate", url=url)
        if "errorText" in told:
            raise Failed(f"{url}: {told['errorText']}")
        self.until(f"document.readyState === 'complete' && location.href === {json.dumps(url)}", f"{url} is shown")

    def click(self, selector):
        """A click in the middle of what is found there, which has to be on top. Where frames of other processes are, is known two pictures later."""
        script = f"""(async () => {{
            const it = document.querySelector({json.dumps(selector)});
            if (!it) return null;
            it.scrollIntoView({{block: "nearest"}});
            await new Promise((done) => requestAnimationFrame(() => requestAnimationFrame(done)));
            const box = it.getBoundingClientRect(), x = box.x + box.width / 2, y = box.y + box.height / 2;
            const top = document.elementFromPoint(x, y);
            return it.contains(top) ? [x, y] : null;
        }})()"""
        x, y = self.until(script, f"{selector} can be clicked", 15)
        for kind in ("mousePressed", "mouseReleased"):
            self.call("Input.dispatchMouseEvent", type=kind, x=x, y=y, button="left", clickCount=1)

    def press(self, key, **more):
        code, text = KEYS[key]
        down = dict(type="keyDown" if text else "rawKeyDown", key=key, code=key, windowsVirtualKeyCode=code, **more)
        if text:
            down["text"] = text
        self.call("Input.dispatchKeyEvent", **down)
        self.call("Input.dispatchKeyEvent", type="keyUp", key=key, code=key, windowsVirtualKeyCode=code)

    def keys(self, text):
        """Types where the focus is, key by key."""
        for it in text:
            if it == "\n":
                self.press("Enter")
                continue
            code = ord(it.upper()) if it.isascii() and it.isalnum() else 0
            self.call("Input.dispatchKeyEvent", type="keyDown", key=it, text=it, windowsVirtualKeyCode=code)
            self.call("Input.dispatchKeyEvent", type="keyUp", key=it, windowsVirtualKeyCode=code)

    def fill(self, selector, text, is_pasted=False):
        """Puts a text in place of what stands in a field: typed, or pasted where it is long."""
        self.click(selector)
        self.call("Input.dispatchKeyEvent", type="rawKeyDown", key="a", code="KeyA", windowsVirtualKeyCode=65, modifiers=2, commands=["selectAll"])
        self.call("Input.dispatchKeyEvent", type="keyUp", key="a", code="KeyA", windowsVirtualKeyCode=65)
        self.call("Input.dispatchKeyEvent", type="rawKeyDown", key="Backspace", code="Backspace", windowsVirtualKeyCode=8, commands=["deleteBackward"])
        self.call("Input.dispatchKeyEvent", type="keyUp", key="Backspace", code="Backspace", windowsVirtualKeyCode=8)
        if is_pasted:
            self.call("Input.insertText", text=text)
        else:
            self.keys(text)

    def frames(self):
        """The texts of all documents that are shown, by their addresses, frames of other processes among them."""
        found = {}
        for session in [None, *self.children]:
            try:
                told = self.call("DOMSnapshot.captureSnapshot", session=session, computedStyles=[])
            except Failed:
                continue
            strings = told["strings"]
            for document in told["documents"]:
                nodes = document["nodes"]
                texts = [strings[v] for kind, v in zip(nodes["nodeType"], nodes["nodeValue"]) if kind == 3 and v >= 0]
                found[strings[document["documentURL"]]] = "".join(texts)
        return found

    def picture(self, file):
        taken = paletted(base64.b64decode(self.call("Page.captureScreenshot", format="png")["data"]))
        pathlib.Path(file).write_bytes(taken)
        return len(taken)

    def end(self):
        self.process.terminate()
        try:
            self.process.wait(10)
        except subprocess.TimeoutExpired:
            self.process.kill()
            self.process.wait()
