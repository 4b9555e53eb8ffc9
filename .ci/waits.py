#!/usr/bin/env python3
"""Fails where the public functions that may wait are others than docs/PROVED.md lists.

A function that may wait owes no return, so its list is a part of what is promised. A public function may wait where a bound
of it names `Wait`. The list is each name in backticks, as `turn_lock::TurnLock::enter`, in the paragraph of docs/PROVED.md
that begins with "Public calls that may wait". Tests, trials and benchmark programs are left out. `--print` writes the list.
"""
import pathlib
import re
import sys

BEGINS = "Public calls that may wait"
BESIDE = re.compile(r"(_tests|_trial|_bench)$")
IMPL = re.compile(r"^impl(?:<.*?>)? (?:[\w:]+(?:<.*?>)? for )?(\w+)")
FUNCTION = re.compile(r"pub fn (\w+)\s*<([^(]*)>\s*\(")


def functions_that_wait(crate, path):
    text = path.read_text(encoding="utf-8")
    for match in FUNCTION.finditer(text):
        if not re.search(r"\bWait\b", match.group(2)):
            continue
        line = text[text.rfind("\n", 0, match.start()) + 1 : match.start()]
        heads = [IMPL.match(it) for it in text[: match.start()].splitlines()]
        heads = [it.group(1) for it in heads if it]
        owner = [heads[-1]] if line.startswith(" ") and heads else []
        yield "::".join([crate, *owner, match.group(1)])


def main():
    top = pathlib.Path(__file__).resolve().parent.parent
    found = set()
    for folder in (top / "crates").iterdir():
        if BESIDE.search(folder.name):
            continue
        for path in (folder / "src").glob("**/*.rt"):
            if not path.name.endswith("tests.rt"):
                found |= set(functions_that_wait(folder.name, path))
    if "--print" in sys.argv[1:]:
        print(", ".join(f"`{it}`" for it in sorted(found)))
        return 0
    paragraphs = (top / "docs/PROVED.md").read_text(encoding="utf-8").split("\n\n")
    said = {it for paragraph in paragraphs if paragraph.startswith(BEGINS) for it in re.findall(r"`([\w:]+::\w+)`", paragraph)}
    for name in sorted(found - said):
        print(f"look: docs/PROVED.md does not list {name}, which may wait", file=sys.stderr)
    for name in sorted(said - found):
        print(f"look: docs/PROVED.md lists {name}, which is no public function that may wait", file=sys.stderr)
    return 0 if found == said else 1


if __name__ == "__main__":
    sys.exit(main())
