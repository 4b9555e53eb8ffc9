#!/usr/bin/env python3
"""Looks at pages on a journal: .ci/pages.py [PAGE..], by default examples/endgames.html, which has to be what `journal_view` writes.

A page parses: each element that begins ends, in its order; it is ASCII, has no script and loads nothing. Where a headless Chromium is
there, a copy of the page with a script at its end is opened in it: boards are shown with their pieces, bars too, and each node opens on
a click and then shows its board. Where none is there, that is said. `--picture FILE.png PAGE` takes a picture of a page, at which a
node, its first child and the first child of that are open."""
import html.parser, os, re, shutil, subprocess, sys, tempfile

VOID = {"meta"}
TOP = os.path.abspath(os.path.join(os.path.dirname(os.path.abspath(__file__)), ".."))
EXAMPLE = os.path.join(TOP, "examples", "endgames.html")
BROWSERS = ("chromium", "chromium-headless-shell", "chromium-browser", "google-chrome")
SECONDS = 120
LOADS = {"src", "srcset", "action", "formaction", "data", "poster"}
CLICKS = """<script>
const nodes = [...document.querySelectorAll("details")];
const shut = nodes.filter(n => !n.open);
for (const node of nodes) node.querySelector("summary").click();
const opened = shut.filter(n => n.open && n.querySelector(":scope > .board").getBoundingClientRect().width > 50).length;
const seen = [...document.querySelectorAll(".board")].filter(b => b.getBoundingClientRect().width > 50);
const pieces = [...document.querySelectorAll(".board use:not([href='#squares'])")].filter(u => u.getBBox().width > 0.5);
const bars = [...document.querySelectorAll("meter")].filter(m => m.getBoundingClientRect().width > 50);
document.title = `opened ${opened} boards ${seen.length} pieces ${pieces.length} bars ${bars.length}`;
</script>"""
OPENS = """<script>
let node = document.querySelector("details");
for (let ply = 0; node && ply < 3; ply += 1) { node.open = true; node = node.querySelector("details"); }
</script>"""


class Page(html.parser.HTMLParser):
    """The elements of a page, and what is wrong with them."""

    def __init__(self):
        super().__init__(convert_charrefs=True)
        self.open, self.faults, self.count = [], [], {}

    def handle_starttag(self, tag, attrs):
        self.count[tag] = self.count.get(tag, 0) + 1
        for name, value in attrs:
            if name in LOADS or name.startswith("on") or (name == "href" and not (value or "").startswith("#")):
                self.faults.append(f"<{tag} {name}={value}> loads or runs something")
        if ("class", "board") in attrs:
            self.count["board"] = self.count.get("board", 0) + 1
        if tag == "use" and "svg" in self.open and "defs" not in self.open and ("href", "#squares") not in attrs:
            self.count["piece"] = self.count.get("piece", 0) + 1
        if tag not in VOID:
            self.open.append(tag)

    def handle_startendtag(self, tag, attrs):
        self.handle_starttag(tag, attrs)
        self.open.pop()

    def handle_endtag(self, tag):
        if not self.open or self.open.pop() != tag:
            self.faults.append(f"</{tag}> at {self.getpos()} ends another element")


def parsed(text):
    page = Page()
    page.feed(text.decode("ascii"))
    page.close()
    if page.open:
        page.faults.append(f"{page.open} do not end")
    for tag in ("script", "link", "iframe", "img", "object"):
        if tag in page.count:
            page.faults.append(f"there is a <{tag}>")
    if b"url(" in text or b"@import" in text:
        page.faults.append("a style loads something")
    return page


def chromium():
    return next((p for p in map(shutil.which, BROWSERS) if p), None)


def run(browser, *words):
    folder = tempfile.mkdtemp()
    try:
        return subprocess.run([browser, "--headless", "--no-sandbox", "--disable-gpu", "--hide-scrollbars", f"--user-data-dir={folder}", *words],
                              stdout=subprocess.PIPE, stderr=subprocess.DEVNULL, timeout=SECONDS).stdout.decode("utf-8", "replace")
    except subprocess.TimeoutExpired:
        return ""
    finally:
        shutil.rmtree(folder, ignore_errors=True)


def with_script(text, script):
    """The path of a copy of a page that runs a script when it is there."""
    with tempfile.NamedTemporaryFile(suffix=".html", delete=False) as copy:
        copy.write(text.replace(b"</body>", script.encode() + b"</body>"))
    return copy.name


def in_browser(browser, text, page):
    copy = with_script(text, CLICKS)
    try:
        dom = run(browser, "--dump-dom", "file://" + copy)
    finally:
        os.unlink(copy)
    said = re.search(r"<title>(.*?)</title>", dom)
    count = page.count
    due = f"opened {count.get('details', 0)} boards {count.get('board', 0)} pieces {count.get('piece', 0)} bars {count.get('meter', 0)}"
    if not said or said[1] != due:
        page.faults.append(f"in {browser}: {said[1] if said else 'no answer'}, and not: {due}")


def written():
    """What journal_view writes of root 4 of the endgames once they are solved as in README."""
    folder = tempfile.mkdtemp()
    try:
        journal = os.path.join(folder, "endgames.journal")
        with open(os.path.join(TOP, "examples", "endgames.pdn"), "rb") as games:
            subprocess.run([os.path.join(TOP, "bin", "opening_bench"), journal, "solve", "--budget", "2"], stdin=games, stdout=subprocess.DEVNULL, stderr=subprocess.DEVNULL)
        subprocess.run([os.path.join(TOP, "bin", "opening_bench"), journal, "solve"], stdin=subprocess.DEVNULL, stdout=subprocess.DEVNULL, stderr=subprocess.DEVNULL)
        return subprocess.run([os.path.join(TOP, "bin", "journal_view"), journal, "page", "4"], stdin=subprocess.DEVNULL, stdout=subprocess.PIPE, stderr=subprocess.DEVNULL).stdout
    finally:
        shutil.rmtree(folder, ignore_errors=True)


def picture(target, path):
    with open(path, "rb") as file:
        copy = with_script(file.read(), OPENS)
    try:
        run(chromium(), "--window-size=1260,1500", f"--screenshot={os.path.abspath(target)}", "file://" + copy)
    finally:
        os.unlink(copy)


def main(words):
    if words[:1] == ["--picture"]:
        picture(words[1], words[2])
        return 0
    browser, status = chromium(), 0
    if not browser:
        print("pages.py: no Chromium is here, so no page was opened in a browser", file=sys.stderr)
    for path in words or [EXAMPLE]:
        with open(path, "rb") as file:
            text = file.read()
        page = parsed(text)
        if not page.count.get("board") or not page.count.get("details"):
            page.faults.append("it has no board or no node")
        if browser and not page.faults:
            in_browser(browser, text, page)
        if path == EXAMPLE and text != written():
            page.faults.append("it is not what journal_view writes")
        for fault in page.faults:
            print(f"pages.py: {path}: {fault}", file=sys.stderr)
            status = 1
    return status


sys.exit(main(sys.argv[1:]))
