#!/usr/bin/env python3
"""Makes the page and tries it in Chromium: what it answers, to which claims, and what it shows of that, against the program.

    tools/checks/check_page.py [--release] [--pictures FOLDER] [PROGRAM]

PROGRAM is the program to compare with; without it, that is the launcher. The page is made by tools/build/page.sh, compared with
that of dist/ if that was made of the same (with --release it must be), and opened by Chromium without a window, over the protocol
of its tools for developers. Each answer must be the program's own bytes, and be shown as a yes or a no as its line says. Then wrong
pages are made, each with one edit: the same checks must fail there. With --pictures, pictures of the page are put into FOLDER. A line
is written for each check that fails, and last `N passed, M failed`; the status is 0 if all passed. Where no `chromium` is installed, a
line says that the page was skipped, and it is only made.
"""

import argparse
import base64
import json
import os
import pathlib
import re
import shutil
import subprocess
import sys
import tempfile
import time
import urllib.parse

ROOT = pathlib.Path(__file__).resolve().parents[2]
WEB = ROOT / "web"
MADE = ROOT / "out/page/pdb_cli.html"
RELEASED = ROOT / "dist/pdb_cli.html"
KORF = ROOT / "docs/results/korf_1985.claims"
MOST_BYTES = 600_000
PATIENCE = 300  # seconds for an answer, on a machine at work

# Claims as they are typed, what is chosen, and what the program must get of it.
TURNED = "1 4 2 3 0 5 6 7 8 ; UL"
LARGEST = "1 6 2 3 4\n5 7 12 9 13\n10 16 11 8 14\n15 17 18 23 19\n20 21 0 22 24"
CLAIMS = [
    ("0 3 2\n4 1 8\n7 6 5", {}, "0 3 2 4 1 8 7 6 5"),
    ("0 3 2\n4 1 8\n7 6 5", {"tables": "large"}, "0 3 2 4 1 8 7 6 5"),
    ("0 3 2\n4 1 8\n7 6 5\n: 20", {}, "0 3 2 4 1 8 7 6 5 : 20"),
    ("0 3 2 4 1 8 7 6 5 : 22", {}, "0 3 2 4 1 8 7 6 5 : 22"),
    ("0 3 2 4 1 8 7 6 5 : 20 part 1/3", {}, "0 3 2 4 1 8 7 6 5 : 20 part 1/3"),
    ("3 1 2\n0 4 5\n6 7 8\n; DUU", {}, "3 1 2 0 4 5 6 7 8 ; DUU"),
    ("3 1 2\n0 4 5\n6 7 8\n; U", {}, "3 1 2 0 4 5 6 7 8 ; U"),
    ("3 1 2 0 4 5 6 7 8 ; D", {"ways": "blank"}, "3 1 2 0 4 5 6 7 8 ; D"),
    ("3 1 2 0 4 5 6 7 8 ; L", {}, "3 1 2 0 4 5 6 7 8 ; L"),
    ("0 1 2 3 4 5 6 7 8 ;", {}, "0 1 2 3 4 5 6 7 8 ;"),
    ("2 1 0 3 4 5 6 7 8", {}, "2 1 0 3 4 5 6 7 8"),
    ("3 2 1 0", {}, "3 2 1 0"),
    ("1 5 2 3\n4 9 0 7\n8 10 6 11\n12 13 14 15", {}, "1 5 2 3 4 9 0 7 8 10 6 11 12 13 14 15"),
    (LARGEST, {}, LARGEST.replace("\n", " ")),
    # The blank last, and moves as others write them.
    ("1 2 3\n4 _ 6\n7 5 8\n; ↓ →", {}, TURNED),
    ("[[1, 2, 3], [4, 0, 6], [7, 5, 8]] ; Down, Right", {}, TURNED),
    ("1 2 3 4 0 6 7 5 8 ; d1r1", {}, TURNED),
    ("1 2 3 4 0 6 7 5 8 ; U L", {}, TURNED),
    ("1 2 3 4 0 6 7 5 8 ; 5 8", {}, TURNED),
    ("1 2 3 4 0 6 7 5 8", {"home": "last"}, "1 4 2 3 0 5 6 7 8"),
    ("1 2 3 4 0 6 7 5 8", {}, "1 2 3 4 0 6 7 5 8"),
    ("3 1 2 0 4 5 6 7 8 ; D", {"ways": "tiles"}, "3 1 2 0 4 5 6 7 8 ; U"),
    ("1 2 3 4\n5 6 7 8\n9 10 11 12\n13 0 14 15", {}, "1 2 0 3 4 5 6 7 8 9 10 11 12 13 14 15"),
]
# Several claims, of which each has its answer in the list.
SEVERAL = "0 3 2 4 1 8 7 6 5\n3 1 2 0 4 5 6 7 8 ; DUU\n0 3 2 4 1 8 7 6 5 : 20\n2 1 0 3 4 5 6 7 8\n"
REFUSED = ["3 2 1 0\n0 1 2\n1 0 2 3\n", "0 1 2 3 4 5 6 7 8\n0 1 2 3\n"]
# What is no claim.
WRONG = ["", "1 2 3", "0 1 2 2 ; U", "<img src=x onerror=alert(1)>", "3 2 1 0 ; xyz", "0 1 2 3 4 ;"]
EASY = "1 5 2 3 4 9 0 7 8 10 6 11 12 13 14 15"
# Wrong pages: a name, the file, and the edit.
SPOILED = [
    ("shows a yes for a refusal", "claims.js", "[/^refused O2 by ?([UDLR]*) of /, 'no'", "[/^refused O2 by ?([UDLR]*) of /, 'yes'"),
    ("turns a board and not its moves", "claims.js", "rest.trim() : isLast ? turnWays(ways) : ways", "rest.trim() : ways"),
    ("shows an answer beside another claim", "page.js", "claims[before + place]", "claims[0]"),
    ("hands over another's file", "system.c", "file->opened++;",
     "if (flags == READS && file < &files[2]) file = &files[file == files];\n    file->opened++;"),
    ("drops the last byte that is written", "system.c", "page_wrote(descriptor, from, size);", "page_wrote(descriptor, from, size - (size > 80));"),
    ("keeps the memory of each run", "machine.c", "    freed[block->number] = block;\n", ""),
]

passed = failed = 0
seeks = False  # whether the page is a wrong one, of which the first failure is all that is looked for


class Found(Exception):
    """A wrong page has been found out."""


def check(name, holds, told=""):
    """Counts a check."""
    global passed, failed
    if seeks:
        if not holds:
            raise Found
    elif holds:
        passed += 1
    else:
        failed += 1
        print(f"FAILED: {name}{': ' if told else ''}{told}", flush=True)
    return holds


class Browser:
    """Chromium without a window, and one page in it."""

    def __init__(self):
        self.home = tempfile.TemporaryDirectory()
        ours, theirs = os.pipe(), os.pipe()
        words = ["chromium", "--headless", "--no-sandbox", "--disable-gpu", "--disable-dev-shm-usage", "--no-first-run",
                 "--remote-debugging-pipe", f"--user-data-dir={self.home.name}"]
        # Chromium reads from the descriptor 3, and writes to 4.
        shell = ["bash", "-c", f'exec 3<&{ours[0]} 4>&{theirs[1]}; exec "$@"', "", *words]
        quiet = {"stdin": subprocess.DEVNULL, "stdout": subprocess.DEVNULL, "stderr": subprocess.DEVNULL}
        self.process = subprocess.Popen(shell, pass_fds=(ours[0], theirs[1]), **quiet)
        os.close(ours[0])
        os.close(theirs[1])
        self.out, self.back = os.fdopen(ours[1], "wb", 0), os.fdopen(theirs[0], "rb", 0)
        self.rest, self.last, self.session, self.fetched = b"", 0, None, []

    def begin(self):
        """Opens a page."""
        target = self.call("Target.createTarget", url="about:blank")["targetId"]
        self.session = self.call("Target.attachToTarget", targetId=target, flatten=True)["sessionId"]
        self.call("Page.enable")
        self.call("Network.enable")

    def call(self, method, **params):
        """What Chromium answers. Which addresses a page asks for is noted on the way."""
        self.last += 1
        message = {"id": self.last, "method": method, "params": params}
        if self.session:
            message["sessionId"] = self.session
        self.out.write(json.dumps(message).encode() + b"\0")
        while True:
            while b"\0" not in self.rest:
                more = self.back.read(1 << 16)
                if not more:
                    raise OSError("Chromium has ended")
                self.rest += more
            one, self.rest = self.rest.split(b"\0", 1)
            said = json.loads(one)
            if said.get("method") == "Network.requestWillBeSent":
                self.fetched.append(said["params"]["request"]["url"])
            if said.get("id") == self.last:
                if "error" in said:
                    raise OSError(f"{method}: {said['error']}")
                return said["result"]

    def value(self, text):
        """What an expression of the page is."""
        said = self.call("Runtime.evaluate", expression=text, awaitPromise=True, returnByValue=True)
        if "exceptionDetails" in said:
            raise OSError(f"{text}: {said['exceptionDetails']}")
        return said["result"].get("value")

    def wait(self, text):
        end = time.monotonic() + PATIENCE
        while not self.value(text):
            if time.monotonic() > end:
                return False
            time.sleep(0.05)
        return True

    def open(self, page, behind="", first=""):
        """Opens a page anew, with this behind its name, and this script before its own."""
        script = self.call("Page.addScriptToEvaluateOnNewDocument", source=first)["identifier"]
        self.call("Page.navigate", url="about:blank")
        self.call("Page.navigate", url=page.as_uri() + behind)
        self.wait("document.readyState === 'complete' && typeof program === 'object'")
        self.call("Page.removeScriptToEvaluateOnNewDocument", identifier=script)

    def key(self, key, modifiers=0):
        for kind in ("keyDown", "keyUp"):
            self.call("Input.dispatchKeyEvent", type=kind, key=key, modifiers=modifiers)

    def picture(self, file, width, height, scheme="light"):
        self.call("Emulation.setEmulatedMedia", features=[{"name": "prefers-color-scheme", "value": scheme}])
        self.call("Emulation.setDeviceMetricsOverride", width=width, height=height, deviceScaleFactor=1, mobile=width < 500)
        time.sleep(0.5)
        pathlib.Path(file).write_bytes(base64.b64decode(self.call("Page.captureScreenshot", format="png")["data"]))

    def seconds(self):
        """The processor seconds of the processes that show pages."""
        used, parents = {}, {}
        for name in filter(str.isdigit, os.listdir("/proc")):
            try:
                fields = pathlib.Path(f"/proc/{name}/stat").read_text().rsplit(")", 1)[1].split()
                if b"--type=renderer" in pathlib.Path(f"/proc/{name}/cmdline").read_bytes():
                    used[name] = (int(fields[11]) + int(fields[12])) / os.sysconf("SC_CLK_TCK")
                parents[name] = fields[1]
            except OSError:
                pass

        def is_ours(name):
            return name == str(self.process.pid) or name in parents and is_ours(parents[name])

        return sum(seconds for name, seconds in used.items() if is_ours(name))

    def close(self):
        try:
            self.session = None
            self.call("Browser.close")
            self.process.wait(30)
        except (OSError, subprocess.TimeoutExpired):
            self.process.kill()
            self.process.wait()
        self.home.cleanup()


SHOWN = """({heading: $('answer').textContent, kind: $('answer').className, told: $('told').textContent,
  line: $('line').hidden ? '' : $('line').textContent, lines: $('lines').textContent, meaning: $('meaning').textContent,
  board: $('board').getAttribute('aria-label'), place: $('place').textContent,
  answers: [...document.querySelectorAll('#answers button')].map(button => [button.className, button.textContent])})"""
HAS_ENDED = "document.body.dataset.state === 'ended'"


def put(browser, text, choices=None):
    """Types a claim, and chooses."""
    fields = {"claim": text, "home": "", "ways": "", "tables": "small", **(choices or {})}
    browser.value(f"""Object.entries({json.dumps(fields)}).forEach(([id, value]) => {{
        $(id).value = value; for (const kind of ['input', 'change']) $(id).dispatchEvent(new Event(kind)) }})""")


def press(browser, button):
    """Presses a button, and waits for the answer: what is shown then."""
    browser.value(f"document.body.dataset.state = ''; $('{button}').click()")
    browser.wait(HAS_ENDED)
    return browser.value(SHOWN)


class Program:
    """The program, with tables in a folder."""

    def __init__(self, path, tables):
        self.path, self.tables, self.room, self.made = path, tables, tempfile.TemporaryDirectory(), set()

    def run(self, words, text):
        how = {"cwd": self.room.name, "stdout": subprocess.PIPE, "stderr": subprocess.DEVNULL}
        ran = subprocess.run([self.path, *words], input=text.encode(), **how)
        return ran.returncode, ran.stdout.decode()

    def prove(self, claims, size="small"):
        """Its status and lines for claims, over the tables of the page."""
        numbers = re.match(r"[0-9 ]*", claims)[0].split()
        side = {4: 2, 9: 3, 16: 4, 25: 5}[len(numbers)]
        names = [f"table_{side}_{mask}" for mask in self.tables[str(side)][size]]
        for name in names:
            if name not in self.made:
                self.run(["make-table", *name.split("_")[1:], name], "")
                self.made.add(name)
        members = [" ".join(f"{number}{mark}" for number in range(len(names))) for mark in ("", "t")]
        pathlib.Path(self.room.name, "sets").write_text("".join(f"set {it}\n" for it in members))
        return self.run(["prove", "-", "sets", *names], claims)


def is_yes(line):
    return line.startswith(("solution ", "exact ", "bound ", "optimal ", "part "))


def try_claims(browser, program):
    """What is shown of claims: the program's own lines, and a yes where its line is one."""
    for text, choices, claim in CLAIMS:
        put(browser, text, choices)
        shown = press(browser, "prove")
        status, lines = program.prove(claim + "\n", choices.get("tables", "small"))
        last = lines.rstrip("\n").rpartition("\n")[2]
        name = f"the claim {text!r}{choices or ''}"
        is_same = shown["lines"] + "\n" == lines and shown["line"] == last
        check(f"{name} has the program's lines", is_same, f"{shown}, and not {lines!r}")
        check(f"{name} is shown as its line says", (shown["kind"] == "yes") == is_yes(last) == (status == 0), str(shown))
        is_typed = claim.replace(" ", "") == re.sub(r"\s", "", text)
        is_told = "home is the" in shown["told"] and (is_typed or f"The program gets: {claim}" in shown["told"])
        check(f"of {name} it is told what the program gets", is_told, shown["told"])
        moves = re.match(r"optimal \d+ of [\d ]+ ;(?: ([UDLR]+))?|refused O2 by ?([UDLR]*)", last)
        if moves:
            count = len(moves[1] or moves[2] or "")
            check(f"{name} has its moves shown", shown["place"] == (f"0 of {count}" if count else ""), shown["place"])


def try_several(browser, program):
    """Several claims at once: each answer beside its own claim."""
    put(browser, SEVERAL)
    shown = press(browser, "prove")
    lines = program.prove(SEVERAL)[1]
    answers = [line for line in lines.splitlines() if not line.startswith("sha256 ")]
    check("several claims have the program's lines", shown["lines"] + "\n" == lines, str(shown))
    kinds = [kind == "yes" for kind, _ in shown["answers"]]
    check("several claims are shown as their lines say", kinds == [is_yes(line) for line in answers], str(shown))
    is_no = shown["kind"] != "yes" and shown["heading"].startswith("2 of 4")
    check("several claims, of which some are refused, are no yes", is_no, str(shown))
    for number, line in enumerate(answers):
        browser.value(f"document.querySelectorAll('#answers button')[{number}].click()")
        at = browser.value(SHOWN)
        board = " ".join(re.search(r"of (\d[\d ]*)", line)[1].split())
        shows = at["board"].partition(": ")[2].replace(";", "")
        is_own = at["line"] == line and shows == board
        check(f"answer {number} of several shows its own board and line", is_own, f"{at}, and not {board}")
    for text in REFUSED:
        put(browser, text)
        shown = press(browser, "prove")
        is_same = shown["line"] == program.prove(text)[1].splitlines()[-1]
        check(f"a text with a wrong line is refused: {text!r}", shown["kind"] == "no" and is_same, str(shown))


def try_memory(browser):
    """Runs one after the other take no more memory than the first of them."""
    sizes = []
    for text in [EASY, "1 0 2 3 4 5 6 7 8 9 10 11 12 13 14 15 ; RL", EASY + " : 5"] * 4:
        put(browser, text)
        press(browser, "prove")
        sizes += map(int, re.findall(r"(\d+) MB", browser.value("$('stage').textContent")))
    check("no memory stays behind a run", len(sizes) == 12 and max(sizes[3:]) == max(sizes[:3]), f"MB behind each: {sizes}")


def try_wrong(browser, program):
    """What is no claim is refused by the program, as `replay` refuses it, and shown as text."""
    for text in WRONG:
        put(browser, text)
        shown = press(browser, "prove")
        line = program.run(["replay"], text)[1].rstrip("\n")
        check(f"{text!r} is refused", shown["kind"] == "no" and shown["line"] == line, f"{shown}, and not {line}")
    check("no text becomes a part of the page", browser.value("document.images.length") == 0)
    for text, kind, line in [("3 2 1 0 ; ULDRUL", "yes", "solution 6"), ("3 2 1 0 ; UL", "no", "refused M4")]:
        put(browser, text)
        shown = press(browser, "replay")
        check(f"{text!r} is replayed", (shown["kind"], shown["line"]) == (kind, line), str(shown))


def try_hundred(browser, program):
    """Korf's hundred boards over tables of five tiles, and what they take of the processor."""
    browser.open(MADE)
    browser.value("""$('pick').selectedIndex = [...$('pick').options].findIndex(option => option.text.includes('hundred'));
        $('pick').dispatchEvent(new Event('change')); $('tables').value = 'small'""")
    before = browser.seconds()
    shown = press(browser, "prove")
    seconds = browser.seconds() - before
    program.made.clear()
    before = os.times()
    lines = program.prove(KORF.read_text())[1]
    after = os.times()
    own = after.children_user + after.children_system - before.children_user - before.children_system
    check("the tables of five tiles are taken", program.tables["4"]["small"] == [62, 1984, 63488])
    is_same = shown["lines"] + "\n" == lines and lines.count("\noptimal ") == 100
    check("Korf's hundred boards have the program's lines", is_same, shown["heading"])
    is_yes_of_all = shown["kind"] == "yes" and len(shown["answers"]) == 100
    check("Korf's hundred boards are shown as a yes", is_yes_of_all, shown["heading"])
    told = f"Korf's hundred boards take the page {seconds:.1f} processor seconds, and the program {own:.1f}"
    print(f"{told}: {seconds / own:.2f} times as many", flush=True)


def try_stop(browser):
    """A run is stopped, says nothing, and another one is answered."""
    browser.open(MADE)
    put(browser, KORF.read_text())
    browser.value("document.body.dataset.state = ''; $('prove').click()")
    has_come = browser.wait("document.querySelectorAll('#answers button').length > 0")
    check("answers come one by one", has_come and not browser.value(HAS_ENDED))
    browser.key("Escape")
    shown = browser.value(SHOWN)
    is_still = shown["heading"] == "Stopped" and shown["kind"] == "open" and browser.value("$('stop').disabled")
    check("a run that is stopped says nothing", is_still, str(shown))
    put(browser, EASY)
    shown = press(browser, "prove")
    check("after a stop the next claim is answered", shown["kind"] == "yes" and shown["line"].startswith("optimal 5 of"), str(shown))


def try_link(browser):
    """A claim behind `#` is proved; the page writes such links."""
    began = time.monotonic()
    browser.open(MADE, "#claim=" + urllib.parse.quote(EASY))
    browser.wait(HAS_ENDED)
    seconds = time.monotonic() - began
    shown = browser.value(SHOWN)
    check("a claim in the link is proved", shown["kind"] == "yes" and shown["line"].startswith("optimal 5 of"), str(shown))
    print(f"an easy board of the 15-puzzle is answered {seconds:.1f} seconds after the page is opened", flush=True)
    put(browser, "1 2 3\n4 0 6\n7 5 8\n; U", {"home": "last", "ways": "tiles"})
    browser.value("$('link').click()")
    behind = browser.value("location.hash")
    browser.open(MADE, behind)
    browser.wait(HAS_ENDED)
    shown = browser.value(SHOWN)
    is_same = shown["line"].endswith("of 1 4 2 3 0 5 6 7 8 ; U")
    check("the page writes a link to a claim, with what was chosen", is_same, f"{behind} {shown}")


def try_hands(browser):
    """Keys, names for screen readers, small screens, no network, and a browser without 64-bit memory."""
    browser.open(MADE)
    put(browser, "3 2 1 0 ; ULDRUL")
    browser.value("document.activeElement.blur()")
    places = ["1 of 6, blank up", "2 of 6, blank left", "1 of 6, blank up", "6 of 6, blank left", "0 of 6"]
    for key, place in zip(["ArrowRight", "ArrowRight", "ArrowLeft", "End", "Home"], places):
        browser.key(key)
        shown = browser.value("$('place').textContent")
        check(f"the key {key} leads to {place}", shown == place, shown)
    browser.key("Enter", 2)
    browser.wait(HAS_ENDED)
    check("Ctrl+Enter proves", browser.value("$('line').textContent").startswith("optimal 6 of"))
    browser.key(" ")
    check("space plays to the end", browser.wait("$('place').textContent === '6 of 6, blank left'"))
    nodes = browser.call("Accessibility.getFullAXTree")["nodes"]
    roles = {"button", "combobox", "textbox", "slider", "image", "progressbar"}
    used = [node for node in nodes if not node["ignored"] and node["role"]["value"] in roles]
    nameless = [node["role"]["value"] for node in used if not node.get("name", {}).get("value")]
    check("what can be used is told to a screen reader", len(used) >= 12, str(len(used)))
    check("all that can be used has a name for a screen reader", not nameless, str(nameless))
    for width in (320, 400, 1100):
        browser.call("Emulation.setDeviceMetricsOverride", width=width, height=800, deviceScaleFactor=1, mobile=False)
        wide = browser.value("document.documentElement.scrollWidth")
        check(f"the page fits a screen of {width} points", wide <= width, str(wide))
    asked = [url for url in browser.fetched if not url.startswith(("about:", "blob:", MADE.as_uri()))]
    check("the page fetches nothing", not asked, str(asked))
    for lack in ("WebAssembly.validate = () => false", "delete self.WebAssembly", "delete self.DecompressionStream"):
        browser.open(MADE, "", lack)
        browser.wait(HAS_ENDED)
        shown = browser.value(SHOWN)
        is_told = "64-bit memory" in shown["meaning"] and browser.value("$('prove').disabled")
        check(f"a browser without 64-bit memory is told: {lack}", is_told, str(shown))


def take_pictures(browser, folder):
    """Pictures of an answer, wide and narrow, light and dark."""
    os.makedirs(folder, exist_ok=True)
    browser.open(MADE)
    put(browser, "1 2 3\n4 _ 6\n7 5 8\n; ↓ →")
    press(browser, "prove")
    browser.picture(f"{folder}/narrow.png", 390, 1900)
    browser.picture(f"{folder}/narrow_dark.png", 390, 1900, "dark")
    browser.value("$('pick').selectedIndex = 20; $('pick').dispatchEvent(new Event('change'))")
    press(browser, "prove")
    browser.value("for (let i = 0; i < 9; i++) $('on').click()")
    browser.picture(f"{folder}/wide.png", 1100, 1200)
    browser.picture(f"{folder}/wide_dark.png", 1100, 1200, "dark")
    put(browser, SEVERAL)
    press(browser, "prove")
    browser.picture(f"{folder}/several.png", 1100, 1200)


def make(*words):
    return subprocess.run([ROOT / "tools/build/page.sh", *words], stdin=subprocess.DEVNULL).returncode == 0


def made_of(page):
    return re.findall(r'<meta name="made-of" content="(.*)">', page.read_text())


def compare_release(must):
    """The page of dist/, if it was made of the same, must be the same."""
    if not RELEASED.exists() or made_of(RELEASED) != made_of(MADE):
        print("dist/ has no page of these sources: tools/build/release.sh makes it", flush=True)
        if must:
            check("dist/ has the page", False)
        return
    check("the page is that of dist/, byte for byte", RELEASED.read_bytes() == MADE.read_bytes())


def try_spoiled(browser, program):
    """The checks must fail over a page that does wrong."""
    for name, file, old, new in SPOILED:
        with tempfile.TemporaryDirectory() as room:
            web, page = pathlib.Path(room, "web"), pathlib.Path(room, "page.html")
            shutil.copytree(WEB, web)
            text = (web / file).read_text()
            (web / file).write_text(text.replace(old, new))
            if check(f"the page that {name} is made", text.count(old) == 1 and make(web, page)):
                browser.open(page)
                check(f"a page that {name} is found out", is_found_out(browser, program))


def is_found_out(browser, program):
    global seeks
    seeks = True
    try:
        try_claims(browser, program)
        try_several(browser, program)
        try_memory(browser)
        return False
    except Found:
        return True
    finally:
        seeks = False


def main():
    words = argparse.ArgumentParser(description=__doc__, formatter_class=argparse.RawDescriptionHelpFormatter)
    words.add_argument("--release", action="store_true")
    words.add_argument("--pictures")
    words.add_argument("program", nargs="?", default=ROOT / "pdb_cli", type=lambda name: pathlib.Path(name).resolve())
    words = words.parse_args()
    if check("the page is made", make()):
        check(f"the page has at most {MOST_BYTES} bytes", MADE.stat().st_size <= MOST_BYTES, str(MADE.stat().st_size))
        compare_release(words.release)
        if shutil.which("chromium"):
            try_page(words)
        else:
            print("skipped: no chromium is installed, so the page is not tried in a browser", flush=True)
    print(f"{passed} passed, {failed} failed")
    sys.exit(failed != 0)


def try_page(words):
    browser = Browser()
    try:
        browser.begin()
        browser.open(MADE)
        program = Program(words.program, browser.value("TABLES"))
        for part in (try_claims, try_several, try_wrong, try_hundred):
            part(browser, program)
        for part in (try_memory, try_stop, try_link, try_hands):
            part(browser)
        if words.pictures:
            take_pictures(browser, words.pictures)
        try_spoiled(browser, program)
    except OSError as error:
        check("the page can be tried to the end", False, str(error))
    finally:
        browser.close()


main()
