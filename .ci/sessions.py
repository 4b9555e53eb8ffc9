#!/usr/bin/env python3
"""Runs the sessions that stand in documents, and fails where a command writes something else than stands there.

A session is a block between lines of three backquotes whose first line begins with `$ `. Each line that begins so is a
command of bash, which goes on in lines that begin with `> `; the lines behind it are what it writes. The sessions of one
document are run in order in one new folder, in which `examples` is that of the repository, and `bin/` has the programs themselves,
which the scripts of the same names in the repository have built.
"""
import pathlib
import subprocess
import sys
import tempfile

SECONDS = 120
PROGRAMS = ("opening_bench", "strategy_player", "journal_view", "journal_shorten")


def sessions(text):
    """The commands of the sessions, each with the number of its first line and the lines that are due behind it."""
    found, lines, at = [], text.split("\n"), 0
    while at < len(lines):
        if lines[at].startswith("```"):
            opening = at
            at += 1
            is_session = at < len(lines) and lines[at].startswith("$ ")
            while at < len(lines) and not lines[at].startswith("```"):
                line = lines[at]
                if is_session and line.startswith("$ "):
                    found.append((at + 1, [line[2:]], []))
                elif is_session and line.startswith("> ") and not found[-1][2]:
                    found[-1][1].append(line[2:])
                elif is_session:
                    found[-1][2].append(line)
                at += 1
            if at == len(lines):
                raise SystemExit(f"line {opening + 1} opens a block that is never closed")
        at += 1
    return found


def differences(top, document, errors):
    """How many commands of the document write something else, standard error going there; each is told on ours."""
    count = 0
    with tempfile.TemporaryDirectory(prefix="sessions-") as folder:
        (pathlib.Path(folder) / "examples").symlink_to(top / "examples")
        (pathlib.Path(folder) / "bin").mkdir()
        for program in PROGRAMS:
            (pathlib.Path(folder) / "bin" / program).symlink_to(top / "crates" / program / "out" / program)
        for line, command, due in sessions((top / document).read_text(encoding="utf-8")):
            words = ["bash", "-c", "\n".join(command)]
            how = {"stdin": subprocess.DEVNULL, "stdout": subprocess.PIPE, "stderr": errors}
            try:
                wrote = subprocess.run(words, cwd=folder, timeout=SECONDS, check=False, **how).stdout
                written = wrote.decode("utf-8", "replace").rstrip("\n").split("\n")
            except subprocess.TimeoutExpired:
                written = [f"nothing whole in {SECONDS} s"]
            if written != (due or [""]):
                count += 1
                print(f"look: {document}:{line}: the command writes", *written, sep="\n  ", file=sys.stderr)
    return count


def main():
    top = pathlib.Path(__file__).resolve().parent.parent
    for program in PROGRAMS:
        subprocess.run([top / "bin" / program, "--version"], stdout=subprocess.DEVNULL, check=True)
    errors, count = subprocess.STDOUT, 0
    for word in sys.argv[1:]:
        if word == "--output":
            errors = subprocess.DEVNULL
        else:
            count += differences(top, word, errors)
    sys.exit(1 if count else 0)


main()
