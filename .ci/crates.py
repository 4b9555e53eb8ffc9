#!/usr/bin/env python3
"""Holds `crates.txt` to its order, and `docs/CRATES.md` to what the heads of the crates say.

It fails where a crate stands in no section of `crates.txt`, or on a crate that does not stand above it; where a crate stands on
tests, a trial or a program that times; where the head of a crate, the lines `//!` of its root file, has fewer than three lines, or
names a file of tests that is not there; and where `docs/CRATES.md` is not what this program makes of the sections and the heads.
With `--write` it writes that page.

Of a head the page has the first paragraph (its part before a colon, if that has SAYS_ENOUGH characters), the first sentence of the
paragraph that begins with `Proved`, and the files behind `Tests:`; of tests, trials and what times one line of the first sentence.
"""
import pathlib
import re
import sys
import textwrap

TOP = pathlib.Path(__file__).resolve().parent.parent
PAGE = TOP / "docs/CRATES.md"
SECTION = re.compile(r"# ---- (.+)")
ON_TOP = ("tests", "trials", "speed")
HEAD_LINES = 3
WIDTH = 132
SAYS_ENOUGH = 32
INTRODUCTION = """# Crates

What each crate is, the first of what its contracts say, what it stands on, and where its tests are. The head of its root file,
`src/lib.rt` or `src/main.rt`, says the rest. `.ci/crates.py --write` makes this page of `crates.txt` and the heads, and the gate
fails if it is out of date: mend a head, and never this page.

A crate stands on crates above it alone; behind `on` are those that stand under no other of them. `text_tests/words` is the file
`crates/text_tests/src/words.rt`. A crate without one has its tests in its own `src/`, or is tried by the crates above it.
"""


class Crate:
    """A line of `crates.txt`: the crate's name, its section, and the crates that the line names."""

    def __init__(self, name, section, names):
        self.name, self.section, self.names = name, section, names
        sources = TOP / "crates" / name / "src"
        self.root = next((path for path in (sources / "lib.rt", sources / "main.rt") if path.exists()), None)

    def head(self):
        """The lines of the head of its root file."""
        lines = self.root.read_text(encoding="utf-8").split("\n") if self.root else []
        end = next((at for at, line in enumerate(lines) if not line.startswith("//!")), len(lines))
        return [line[3:].removeprefix(" ") for line in lines[:end]]

    def paragraphs(self):
        return [part.strip("\n") for part in "\n".join(self.head()).split("\n\n")]

    def tests(self):
        """The files behind `Tests:`, as they stand in the head."""
        named = [part for part in self.paragraphs() if part.startswith("Tests:")]
        return re.split(r",\s*", named[0].removeprefix("Tests:").strip()) if named else []

    def what(self):
        """What it is. The name of a program stands before its colon already."""
        text = plain(self.paragraphs()[0]).removeprefix(f"`{self.name}`: ")
        front, colon, _ = text.partition(": ")
        text = f"{front}." if colon and len(front) >= SAYS_ENOUGH else text
        return text[:1].upper() + text[1:]

    def proved(self):
        """The first sentence of what its contracts say; none if no paragraph begins with `Proved`."""
        parts = self.paragraphs()
        begin = next((at for at, part in enumerate(parts) if part.startswith("Proved")), len(parts))
        return first_sentence("\n".join(parts[begin:]))


def plain(part):
    """A text in one line; links to items of the code are their names alone."""
    part = re.sub(r"\[(`[^`\]]+`)\](\([^)]*\))?", r"\1", part)
    return re.sub(r"\s+", " ", part)


def first_sentence(text):
    """A sentence that begins with `Then` belongs to the one before it, and the first item of a list to what announces it."""
    text = re.sub(r":\s+- (.)", lambda match: ": " + match[1].lower(), text, count=1)
    return plain(re.split(r"(?<=\.)\s+(?!Then )", text, maxsplit=1)[0])


def one_line(text, room):
    """A sentence, up to its first comma if it does not fit whole."""
    return text if len(text) <= room else text.partition(",")[0]


def wrapped(line, indent=""):
    return textwrap.fill(line, WIDTH, subsequent_indent=indent, break_long_words=False, break_on_hyphens=False)


def read_crates(text):
    """The crates in order. A line above the first section has none."""
    crates, section = [], ""
    for line in text.splitlines():
        match = SECTION.fullmatch(line.strip())
        section = match.group(1) if match else section
        head, colon, names = line.partition("#")[0].partition(":")
        if colon:
            crates.append(Crate(head.split()[0], section, names.split()))
    return crates


def below(lows, name):
    """All crates of the repository on which the crate stands."""
    found, todo = set(), list(lows[name])
    while todo:
        low = todo.pop()
        if low not in found:
            found.add(low)
            todo += lows[low]
    return found


def faults_of(crates, lows):
    """What is wrong with the order and the heads."""
    section_of = {crate.name: crate.section for crate in crates}
    above = set()
    for crate in crates:
        if not crate.section:
            yield f"crates.txt: {crate.name} stands in no section"
        for low in lows[crate.name]:
            if low not in above:
                yield f"crates.txt: {crate.name} stands above {low}, on which it stands"
            if section_of[low] in ON_TOP:
                yield f"crates.txt: {crate.name} stands on {low}, which is of the section '{section_of[low]}'"
        above.add(crate.name)
        if len(crate.head()) < HEAD_LINES:
            yield f"crates/{crate.name} has no head of {HEAD_LINES} lines of `//!`"
        for path in crate.tests():
            if not (TOP / "crates" / path).is_file():
                yield f"crates/{crate.name}: its head names {path}, which is no file of crates/"


def names_of(words):
    return ", ".join(f"`{word}`" for word in words)


def row(crate, lows):
    """What the page says of a crate."""
    if crate.section in ON_TOP:
        what = re.split(r"[.:](?=\s|$)", plain(crate.paragraphs()[0]).removeprefix("Tests of the "), maxsplit=1)[0]
        return f"- `{crate.name}`: {one_line(what[:1].lower() + what[1:], WIDTH - len(crate.name) - len('- ``: .'))}.\n"
    named = lows[crate.name]
    nearest = [low for low in named if not any(low in below(lows, other) for other in named)]
    tests = [path.replace("/src/", "/").removesuffix(".rt") for path in crate.tests()]
    parts = [f"`{crate.name}`{f', on {names_of(nearest)}' if nearest else ''}.", crate.what(), crate.proved()]
    parts += [f"Tests: {names_of(tests)}."] if tests else []
    return wrapped("- " + " ".join(part for part in parts if part), "  ") + "\n"


def page_of(crates, lows):
    parts, section = [INTRODUCTION], None
    for crate in crates:
        is_first = crate.section != section
        section = crate.section
        parts += [f"\n## {section[:1].upper()}{section[1:]}\n\n"] if is_first else []
        parts.append(row(crate, lows))
    return "".join(parts)


def main():
    crates = read_crates((TOP / "crates.txt").read_text(encoding="utf-8"))
    names = {crate.name for crate in crates}
    lows = {crate.name: [low for low in crate.names if low in names] for crate in crates}
    faults = list(faults_of(crates, lows))
    due = page_of(crates, lows)
    if "--write" in sys.argv[1:]:
        PAGE.write_text(due, encoding="utf-8")
    elif not PAGE.exists() or PAGE.read_text(encoding="utf-8") != due:
        faults.append("docs/CRATES.md is not what crates.txt and the heads say: python3 .ci/crates.py --write")
    for fault in faults:
        print(f"look: {fault}", file=sys.stderr)
    return 1 if faults else 0


if __name__ == "__main__":
    sys.exit(main())
