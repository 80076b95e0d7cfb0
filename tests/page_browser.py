"""A headless Chromium, by hand over its DevTools protocol: what a page shows, how it looks, and what it asks for."""
import base64
import http.client
import json
import pathlib
import shutil
import subprocess
import tempfile
import time

from live_peer import dial

FLAGS = ["--headless=new", "--no-sandbox", "--disable-gpu", "--disable-dev-shm-usage", "--no-first-run",
         "--disable-background-networking", "--disable-component-update", "--disable-sync", "--disable-extensions",
         "--hide-scrollbars", "--remote-debugging-port=0"]

DESK, PHONE = (1280, 900), (360, 740)

# What is shown at one moment: all of it is drawn in one step of the page.
SEEN = """(() => {
  const by = (id) => document.getElementById(id), { now } = by("position").dataset, { reading } = by("said").dataset;
  const lines = Number(/([\\d,]+) lines/.exec(by("link").textContent)[1].replaceAll(",", ""));
  return { now, reading, lines, level: by("said").className.replace("whole", "").trim(),
    words: by("words").textContent, rest: by("rest").textContent, position: by("position").textContent,
    facts: by("facts").textContent };
})()"""

# Each text that is seen, with the contrast of its colour to what is behind it; the worst one of all.
CONTRAST = r"""
(() => {
  const parts = (colour) => colour.match(/[\d.]+/g).map(Number);
  const share = (value) => value <= 0.04045 ? value / 12.92 : ((value + 0.055) / 1.055) ** 2.4;
  const light = ([r, g, b]) => 0.2126 * share(r / 255) + 0.7152 * share(g / 255) + 0.0722 * share(b / 255);
  const behind = (element) => {
    for (let at = element; at; at = at.parentElement) {
      const colour = parts(getComputedStyle(at).backgroundColor);
      if (colour.length < 4 || colour[3] > 0) return colour;
    }
    return [255, 255, 255];
  };
  const bands = getComputedStyle(document.documentElement).getPropertyValue("--band").trim();
  const band = [1, 3, 5].map((at) => parseInt(bands.slice(at, at + 2), 16));
  const contrast = (a, b) => (Math.max(light(a), light(b)) + 0.05) / (Math.min(light(a), light(b)) + 0.05);
  let worst = { contrast: 99, words: "" }, count = 0;
  const walk = document.createTreeWalker(document.body, NodeFilter.SHOW_TEXT);
  while (walk.nextNode()) {
    const words = walk.currentNode.data.trim(), element = walk.currentNode.parentElement;
    if (!words || !element.getClientRects().length || element.closest("script")) continue;
    const style = getComputedStyle(element), drawn = element.ownerSVGElement;
    const backs = drawn ? [behind(drawn), band] : [behind(element)];
    for (const back of backs) {
      const found = contrast(parts(drawn ? style.fill : style.color), back);
      if (found < worst.contrast) worst = { contrast: found, words };
    }
    count += 1;
  }
  return { ...worst, count };
})()
"""


class Browser:
    def __init__(self):
        program = shutil.which("chromium") or shutil.which("chromium-browser") or shutil.which("google-chrome")
        if program is None:
            raise FileNotFoundError("there is no Chromium: tests/needs installs it, or apt-get install chromium")
        self.folder = tempfile.mkdtemp(prefix="css-page-")
        self.child = subprocess.Popen([program, *FLAGS, f"--user-data-dir={self.folder}", "about:blank"],
                                      stdout=subprocess.DEVNULL, stderr=subprocess.DEVNULL)
        self.number, self.asked, self.faults = 0, [], []
        port = self.port()
        self.peer = dial(port, self.page(port))
        for domain in ("Page", "Network", "Runtime", "Log"):
            self.call(f"{domain}.enable")

    def port(self):
        file, end = pathlib.Path(self.folder) / "DevToolsActivePort", time.monotonic() + 120
        while not file.exists() or "\n" not in file.read_text(encoding="ascii"):
            if time.monotonic() > end or self.child.poll() is not None:
                raise SystemExit("tests/page.py: the browser doesn't start")
            time.sleep(0.1)
        return int(file.read_text(encoding="ascii").split("\n")[0])

    def page(self, port):
        """The path of the first page."""
        end = time.monotonic() + 60
        while time.monotonic() < end:
            conn = http.client.HTTPConnection("127.0.0.1", port, timeout=30)
            conn.request("GET", "/json/list")
            for target in json.loads(conn.getresponse().read()):
                if target["type"] == "page":
                    return "/devtools/page/" + target["id"]
            time.sleep(0.1)
        raise SystemExit("tests/page.py: the browser has no page")

    def call(self, method, **params):
        """A call, and what it answers. What happened meanwhile is noted."""
        self.number += 1
        self.peer.say({"id": self.number, "method": method, "params": params})
        while True:
            heard = self.peer.text(120)
            if heard.get("id") == self.number:
                if "error" in heard:
                    raise RuntimeError(f"{method}: {heard['error']['message']}")
                return heard["result"]
            self.note(heard.get("method"), heard.get("params"))

    def note(self, method, params):
        if method == "Network.requestWillBeSent":
            self.asked.append(params["request"]["url"])
        elif method == "Runtime.exceptionThrown":
            self.faults.append(params["exceptionDetails"]["exception"].get("description", "an exception"))
        elif method == "Log.entryAdded" and params["entry"]["source"] == "security":
            self.faults.append(params["entry"]["text"])

    def tell(self, script):
        """What a script in the page comes to."""
        result = self.call("Runtime.evaluate", expression=script, returnByValue=True, awaitPromise=True)
        if "exceptionDetails" in result:
            raise RuntimeError(result["exceptionDetails"]["exception"].get("description"))
        return result["result"].get("value")

    def seen(self):
        """What is shown at this moment."""
        return self.tell(SEEN)

    def text(self, name):
        """The text of the element of this id."""
        return self.tell(f"document.getElementById({json.dumps(name)}).innerText")

    def rows(self, name):
        """The cells of each row of a table, its head aside."""
        rows = f"[...document.querySelectorAll('#{name} tr')].slice(1)"
        return self.tell(rows + ".map((row) => [...row.cells].map((cell) => cell.textContent))")

    def until(self, script, seconds=60):
        """Whether a script comes to be true in time."""
        end = time.monotonic() + seconds
        while not self.tell(f"!!({script})"):
            if time.monotonic() > end:
                return False
            time.sleep(0.1)
        return True

    def settled(self):
        """Whether all of the page is drawn once more from now on."""
        return self.until(f"drawn > {self.tell('changed = true, performance.now()')}")

    def look(self, width, height, dark=False):
        """The size of the window, and the scheme of colours."""
        self.call("Emulation.setDeviceMetricsOverride", width=width, height=height, deviceScaleFactor=1,
                  mobile=width < 600)
        scheme = {"name": "prefers-color-scheme", "value": "dark" if dark else "light"}
        self.call("Emulation.setEmulatedMedia", features=[scheme])

    def open(self, url):
        """Whether a page is there, connected and drawn."""
        self.call("Page.navigate", url=url)
        return self.until(f"location.href === {json.dumps(url)}"
                          " && /, [0-9,]+ lines/.test(document.getElementById('link')?.textContent)")

    def key(self, name):
        for kind in ("rawKeyDown", "keyUp"):
            codes = {"Tab": 9, "ArrowDown": 40, "End": 35}
            self.call("Input.dispatchKeyEvent", type=kind, key=name, code=name, windowsVirtualKeyCode=codes[name])

    def word(self, words):
        """Whether the first line comes to be this one."""
        return self.until(f"document.getElementById('words').textContent === {json.dumps(words)}")

    def picture(self, path):
        data = self.call("Page.captureScreenshot", format="png")["data"]
        pathlib.Path(path).write_bytes(base64.b64decode(data))

    def end(self):
        """Ends the browser, by its own word or else by its number, and takes its folder away."""
        try:
            self.peer.say({"id": 0, "method": "Browser.close", "params": {}})
            self.child.wait(10)
        except (OSError, subprocess.TimeoutExpired):
            self.child.kill()
            self.child.wait()
        shutil.rmtree(self.folder, ignore_errors=True)
