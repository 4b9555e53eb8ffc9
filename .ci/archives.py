#!/usr/bin/env python3
"""Runs `game_reader` over archives of every dialect and compares what it writes with what a person reads of them.

Words: the program, and a folder with files NAME.pdn (an archive) and NAME.expected, which is written by hand. A line
of NAME.expected is a game of the archive, in order: `left out`, or the game's own position in brackets, if it has one,
its moves with all squares of captures, and its result. A capture may be written with squares between left out. A line
`told 3:7` says that `write` tells something of line 3, column 7; `check` lists all that `write` tells but changes.
`no game` stands for an archive without games.

It ends with 1 where an archive is read otherwise, or fewer than nine of ten games that a person would read are written.
"""

import pathlib
import re
import subprocess
import sys


def games_of(text):
    """The games of a text in the strict profile, a line each."""
    text = re.sub(r"\{[^}]*\}", " ", text)
    lines, words = [], []
    for item in re.finditer(r'\[(\w+)\s+"((?:\\.|[^"\\])*)"\s*\]|(\S+)', text):
        name, value, word = item.groups()
        if name == "FEN":
            words.append(f"[{value}]")
        elif word and not re.fullmatch(r"\d+\.*", word):
            words.append(word)
            if word in ("*", "1-0", "0-1", "1/2-1/2"):
                lines.append(" ".join(words))
                words = []
    return lines + ([" ".join(words)] if words else [])


def is_same_move(written, wanted):
    """The move is written with the first and the last of the squares that are wanted, and no others than these."""
    ours, theirs = re.split("[-x]", written), re.split("[-x]", wanted)
    left = iter(theirs)
    return (ours[0], ours[-1]) == (theirs[0], theirs[-1]) and all(square in left for square in ours)


def is_same(written, wanted):
    """The game is written as it is wanted."""
    ours, theirs = written.split(), wanted.split()
    return len(ours) == len(theirs) and all(a == b or is_same_move(a, b) for a, b in zip(ours, theirs))


def wanted_of(path):
    """The lines of games, and the places that are told."""
    lines = [line for line in path.read_text(encoding="utf-8").splitlines() if line]
    told = [line.split()[1].split(":") for line in lines if line.startswith("told ")]
    return [line for line in lines if not line.startswith("told ") and line != "no game"], told


def run(program, command, archive):
    """What the program writes, and tells, of an archive."""
    done = subprocess.run([program, command], input=archive, capture_output=True, timeout=120)
    return done.stdout.decode("utf-8", "replace"), done.stderr.decode("utf-8", "replace")


def differences(program, path):
    """What is read otherwise, and how many games are written and wanted."""
    archive = path.read_bytes()
    wanted, told = wanted_of(path.with_suffix(".expected"))
    games, tells = run(program, "write", archive)
    written = games_of(games)
    listed = run(program, "check", archive)[0]
    readable = [line for line in wanted if line != "left out"]
    same = sum(is_same(ours, theirs) for ours, theirs in zip(written, readable))
    found = []
    if same != len(readable) or len(written) != len(readable):
        found += ["  written:", *(f"    {line}" for line in written), "  wanted:", *(f"    {line}" for line in readable)]
    for line, column in told:
        if not re.search(rf"^line {line}, column {column}\b", tells, re.MULTILINE):
            found.append(f"  not told: line {line}, column {column}")
    if listed.splitlines() != [line for line in tells.splitlines() if "): changed: " not in line]:
        found += ["  check lists:", listed, "  write tells:", tells]
    return found, same, len(readable)


def main():
    program, folder = sys.argv[1], pathlib.Path(sys.argv[2])
    status = written = wanted = 0
    paths = sorted(folder.glob("*.pdn"))
    for path in paths:
        found, more_written, more_wanted = differences(program, path)
        written += more_written
        wanted += more_wanted
        if found:
            status = 1
            print(f"archives: {path.name} is read otherwise:", *found, sep="\n", file=sys.stderr)
    if len(paths) < 60 or 10 * written < 9 * wanted:
        print(f"archives: {len(paths)} archives, {written} of {wanted} games written", file=sys.stderr)
        status = 1
    sys.exit(status)


if __name__ == "__main__":
    main()
