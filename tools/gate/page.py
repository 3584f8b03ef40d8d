"""tools/run page [PROGRAM [PICTURES]]

Tries the pages of `lrshow` in a browser: the search, links, keys, names that look like HTML,
printing, and 5,000 states. PROGRAM is crates/lrshow/out/lrshow, which `rt ci` and `rt run` leave
there, unless another is given. The folder PICTURES, where one is given, gets pictures of the pages.
Chromium and `chromedriver` are needed (Debian: chromium, chromium-driver), so the gate does not run
this. A line is printed for each trial. The status is 0 where each is as it should be. The seconds
are those of a machine that does nothing else.
"""
import base64
import json
import os
import subprocess
import tempfile
import time
import urllib.request

from gate.files import ROOT, read, write

SUMS = f"{ROOT}/crates/lrshow/data/sums"
DANGLING = 'S = "if" "name" "then" S\nS = "if" "name" "then" S "else" S\nS = "name"\n'
# Literals that browsers, JSON or the script's own objects might take for something else.
HOSTILE = [
    "</script>", "<script>window.trap=1</script>", "<img/src=x/onerror=window.trap=1>", "<!--", "-->", "]]>", "&<",
    "&amp;", "'", "`${window.trap=1}`", "\\", "\\u003c", "{{}}", "__proto__", "constructor", "toString", "null", "Eof",
    "1", "שלום", "x" * 300,
]
UNSEEN = {"\u2028": "U+2028", "a\u202eb": "aU+202Eb", "\x01": "U+0001", "\ufeff": "U+FEFF"}
NAMES = ["__proto__", "constructor", "toString", "hasOwnProperty", "N" * 300]
SENTENCES = 'S = T\nS = S ";" T\nE = E "+" F\nE = F\nF = "name"\nF = "(" E ")"\nP = "name"\nP = P "." "name"'
WHOLE = 5000
ENTER, ESCAPE, TAB = "\ue007", "\ue00c", "\ue004"
WITHIN = "document.documentElement.scrollWidth <= innerWidth"
# Where the focus is, and the frame that is drawn around it.
FOCUS = "document.activeElement"
HERE_IS = f"{FOCUS}.id === 's%s' && location.hash === '#s%s' && {FOCUS}.querySelector('.columns') !== null"
LINK = "document.querySelector('#s%s a[href=\"#s%s\"]').click()"
TOKENS = "(draw(document.getElementById('s%s')), document.querySelector('#s%s .tokens').textContent)"
INSIDE = f"[{FOCUS}.closest('article, .line').id, getComputedStyle({FOCUS}).outlineStyle]"
SEARCHES = """["4321", "noun", "E", '"'].map((text) => { wanted.value = text; const begun = performance.now();
  wanted.dispatchEvent(new Event("input")); return Math.round(performance.now() - begun); })"""


class Browser:
    """A browser without a window, driven by way of chromedriver."""

    def __init__(self):
        self.driver = subprocess.Popen(["chromedriver", "--port=0"], stdout=subprocess.PIPE, text=True)
        line = next(it for it in self.driver.stdout if "on port" in it and "success" in it)
        self.at = f"http://127.0.0.1:{line.split()[-1].rstrip('.')}/session"
        options = {"args": ["--headless=new", "--no-sandbox"]}
        wanted = {"browserName": "chrome", "goog:chromeOptions": options, "goog:loggingPrefs": {"browser": "ALL"}}
        self.at += "/" + self.call("POST", "", {"capabilities": {"alwaysMatch": wanted}})["sessionId"]

    def call(self, method, path, body=None):
        data = None if body is None else json.dumps(body).encode()
        request = urllib.request.Request(self.at + path, data, {"content-type": "application/json"}, method=method)
        with urllib.request.urlopen(request, timeout=300) as answer:
            return json.load(answer)["value"]

    def look(self, width, scheme):
        screen = {"width": width, "height": 900, "deviceScaleFactor": 1, "mobile": False}
        media = {"features": [{"name": "prefers-color-scheme", "value": scheme}]}
        for name, it in (("DeviceMetricsOverride", screen), ("EmulatedMedia", media)):
            self.call("POST", "/goog/cdp/execute", {"cmd": f"Emulation.set{name}", "params": it})

    def open(self, path):
        self.call("POST", "/url", {"url": "about:blank"})
        self.call("POST", "/url", {"url": f"file://{path}"})

    def ask(self, script):
        return self.call("POST", "/execute/sync", {"script": f"return {script}", "args": []})

    def wait(self, script, seconds=20):
        """Whether something comes to hold."""
        end = time.time() + seconds
        while not self.ask(script):
            if time.time() > end:
                return False
            time.sleep(0.02)
        return True

    def press(self, *keys):
        strokes = [{"type": kind, "value": key} for key in keys for kind in ("keyDown", "keyUp")]
        if strokes:
            self.call("POST", "/actions", {"actions": [{"type": "key", "id": "keys", "actions": strokes}]})

    def complaints(self):
        return [entry["message"] for entry in self.call("POST", "/se/log", {"type": "browser"})]

    def end(self):
        try:
            self.call("DELETE", "")
        finally:
            self.driver.terminate()
            self.driver.wait()


class Trials:
    def __init__(self, program, folder, pictures, browser):
        self.program, self.folder, self.pictures, self.browser = program, folder, pictures, browser
        self.ask, self.bad = browser.ask, 0

    def check(self, what, good, seen=""):
        self.bad += not good
        print("as it should be:" if good else "NOT AS IT SHOULD BE:", what, seen, flush=True)

    def check_asked(self, what, script, expected, keys=""):
        self.browser.press(*keys)
        seen = self.ask(script)
        self.check(what, seen == expected, f"({seen})")

    def check_place(self, what, state, keys="", script="0"):
        """After keys or a script the focus is on a state."""
        self.browser.press(*keys)
        self.ask(script)
        self.check(what, self.browser.wait(HERE_IS % (state, state)), f"({self.ask('location.hash')})")

    def picture(self, name):
        if self.pictures:
            with open(f"{self.pictures}/{name}.png", "wb") as out:
                out.write(base64.b64decode(self.browser.call("GET", "/screenshot")))

    def open(self, name, grammar):
        """Opens the page of a grammar, and returns the data of its tables and the page's size."""
        path = f"{self.folder}/{name}"
        write(path, grammar)
        page = subprocess.run([self.program, path, "S", "html"], stdout=subprocess.PIPE).stdout
        write(f"{path}.html", page.decode())
        self.browser.open(f"{path}.html")
        self.browser.wait("document.querySelector('#s0') !== null")
        # (a state is drawn when it comes into view)
        self.ask("document.getElementById('s0').scrollIntoView()")
        self.browser.wait("document.querySelector('#s0 .columns') !== null")
        self.ask("scrollTo(0, 0)")
        self.browser.wait("document.querySelector('#s0 .columns, #c1 .actions') !== null")
        data = page.split(b'type="application/json">', 1)[1].split(b"</script>", 1)[0]
        return json.loads(data), len(page)

    def search(self, text, keys=""):
        """What is found of a text, which is typed after keys."""
        self.browser.press(*keys, "/", *text)
        return self.ask("document.getElementById('found').innerText.split('\\n')")

    def sums(self):
        data, _ = self.open("sums", read(SUMS))
        to, text = data["states"][0]["shifts"]["N"], self.ask("document.body.innerText")
        self.check("summary", "9 states, 5 productions, 4 terminals, no conflicts" in text)
        self.check_asked("the third stop of Tab is the field", f"{FOCUS}.id", "wanted", 3 * TAB)
        self.check_asked("the fourth is a link of a production, with a frame", INSIDE, ["p0", "solid"], TAB)
        found = self.search("N")
        self.check("search of a symbol", found[0].startswith(f'"N" leads to State {to}, and is in production '), found)
        self.check_place("Enter goes to the first state found", to, ENTER)
        self.check_asked("then what was found is hidden", "document.getElementById('found').offsetHeight", 0)
        self.check_place("j", to + 1, "j")
        self.check_place("k twice", to - 1, "kk")
        found = self.search("7", "/" + ESCAPE)
        self.check("search of a state", found[0] == "State 7", found)
        self.check_place("Enter goes to it", 7, ENTER)
        found = [*self.search("qq", "/" + ESCAPE), self.ask("count.textContent")]
        self.check("search of nothing there is", found == ["", "none found"], found)
        self.check_place("a link along an edge", to, ESCAPE, LINK % (0, to))
        self.check_place("the link back", 0, "", LINK % (to, 0))
        self.check_place("back", to, "", "history.back()")
        self.check_place("forward", 0, "", "history.forward()")
        self.check_asked("the tokens of a reduction", TOKENS % (7, 7), ' on ")" "-" Eof')
        for width, scheme in ((400, "dark"), (1280, "light")):
            self.browser.look(width, scheme)
            self.picture(f"sums-{width}-{scheme}")
            self.check_asked(f"nothing stands out at {width}", WITHIN, True)

    def conflict(self):
        data, _ = self.open("dangling", DANGLING)
        items = [item for it in data["conflicts"] for action in it["actions"] for item in action["items"]]
        trees = self.ask("[...document.querySelectorAll('#c1 .tree')].map((it) => it.innerText.split('•').length)")
        is_right = trees == [2] * sum(len(it["examples"]) for it in items) and len(items) == 2
        self.check("the trees of a conflict, with a dot each", is_right, trees)
        head = f'in State {data["conflicts"][0]["state"]}, on "else"'
        self.check_asked("the tokens of a conflict", "document.querySelector('#c1 p').textContent", head)
        self.picture("dangling")
        self.browser.call("POST", "/print", {})
        undrawn = "[...document.querySelectorAll('article')].filter((it) => it.children.length < 2).length"
        self.check_asked("all is drawn where the page is printed", undrawn, 0)

    def hostile(self):
        literals = HOSTILE + list(UNSEEN)
        lines = [f'S = "{text}" {name}' for text in literals for name in NAMES]
        data, _ = self.open("hostile", "\n".join(lines + [f'{name} = "{name}"' for name in NAMES]))
        shifts = data["states"][0]["shifts"]
        edges = {f'"{UNSEEN.get(text, text)}" to State {to}' for text, to in shifts.items()}
        texts = self.ask("[...document.querySelectorAll('#s0 .line')].map((it) => it.textContent)")
        shown = {it for it in texts if " to State " in it}
        is_same = shown == edges and len(edges) == len(literals)
        self.check("hostile literals are shown as they are", is_same, shown ^ edges or "")
        self.picture("hostile")
        state = data["states"][shifts["__proto__"]]
        self.check_place("the link by __proto__", state["number"], "", LINK % (0, state["number"]))
        text = self.ask("document.activeElement.innerText").replace("\n", " ")
        self.check("gotos by such names", all(f"{name} to State {to}" in text for name, to in state["gotos"].items()))
        found = self.search("__proto__")
        self.check("search of such a name", sum("leads to" in line for line in found) == 2, found)
        scripts = "[typeof window.trap, document.scripts.length, document.images.length]"
        self.check_asked("nothing of them runs", scripts, ["undefined", 2, 0])

    def whole(self):
        kinds = range(24)
        lines = [f'T = "verb{i}" "noun{j}" "name" "=" E "of" P "end" "with" "name"' for i in kinds for j in kinds]
        data, size = self.open("whole", "\n".join([*lines, SENTENCES]))
        count = len(data["states"])
        self.check("a large page", count >= WHOLE, f"({count} states, {size / 1e6:.1f} MB)")
        begun = time.time()
        self.browser.open(f"{self.folder}/whole.html")
        drawn = self.browser.wait("document.querySelector('#s0') !== null")
        seconds = time.time() - begun
        self.check("it opens within two seconds", drawn and seconds < 2, f"({seconds:.2f} s)")
        self.picture("whole")
        took = self.ask(SEARCHES)
        self.check("a search takes no time", max(took) < 100, f"({took} ms)")
        self.check_place("a state far down", 4000, "", "location.hash = '#s4000'")
        time.sleep(1)
        top = self.ask("document.activeElement.getBoundingClientRect().top")
        self.check("it stands at the top", 0 <= top < 200, f"({top:.0f})")

    def run(self):
        try:
            for trial in (self.sums, self.conflict, self.hostile, self.whole):
                trial()
            complaints = self.browser.complaints()
            self.check("no complaints of the browser", not complaints, complaints or "")
        finally:
            self.browser.end()


def main(words, browse=Browser):
    program = os.path.realpath(words[0] if words else f"{ROOT}/crates/lrshow/out/lrshow")
    if len(words) > 2 or not os.access(program, os.X_OK):
        print(__doc__ if len(words) > 2 else f"{program}: no such program (rt ci leaves one after all is proved)")
        return 2
    pictures = words[1] if len(words) > 1 else ""
    if pictures:
        os.makedirs(pictures, exist_ok=True)
    with tempfile.TemporaryDirectory() as folder:
        trials = Trials(program, folder, pictures, browse())
        trials.run()
    return 1 if trials.bad else 0
