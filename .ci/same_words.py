#!/usr/bin/env python3
"""Fails where `--help`, the manual page and the README name other commands or exit statuses than each other; where the manual page
has other options than `--help`, or other numbers at one, and the README one that `--help` has not; where a completion has other
commands or options; and where what the program says of words that it refuses names other commands, options or limits.

What `--help` writes comes on standard input. Of the README the table of commands is looked at, and what follows it up to the next
part. The program is run with each option of `--help` and a number that is one past its greatest, with each command of `--help` that
takes numbers and a word that is none, and with words that are no command and no option. The sentence that shows the word is left out.
"""
import pathlib
import re
import subprocess
import sys

COMMAND = re.compile(r"opening_bench PATH ([a-z][a-z-]*)")
OPTION = re.compile(r"(?<![\w-])(--[a-z][a-z-]*)")
NUMBER = re.compile(r"\d[\d,]*")


def numbers(text):
    return {int(number.replace(",", "")) for number in NUMBER.findall(text)}


def items(text, begins):
    """The text behind each line that names an option, up to the next such line or an empty one."""
    found, name = {}, None
    for line in text.split("\n"):
        match = begins.match(line)
        if match:
            name = match.group(1)
            found[name] = line[match.end():]
        elif not line.strip() or line.startswith((".El", ".Sh")):
            name = None
        elif name:
            found[name] += "\n" + line
    return found


def of_help(text):
    statuses = re.findall(r"^  (\d+)  ", text[text.index("Exit status:"):], re.M)
    limits = {name: numbers(said) for name, said in items(text, re.compile(r"(--[a-z-]+) [A-Z]+")).items()}
    return set(COMMAND.findall(text)), set(OPTION.findall(text)), set(statuses), limits


def of_placeholders(text):
    """The numbers that --help says of each option, and, where it says no range, of the letter that stands for its number."""
    letters = items(text, re.compile(r"([A-Z]+)  +(?=\S)"))
    options = items(text, re.compile(r"(--[a-z-]+)(?= [A-Z])"))
    of_letters = {name: "" if " to " in said else letters.get(said.split()[0], "") for name, said in options.items()}
    return {name: numbers(said) | numbers(of_letters[name]) for name, said in options.items()}


def of_manual(text):
    options = {"-" + name for name in re.findall(r"\bFl (-[a-z][a-z-]*)", text)}
    commands = set(re.findall(r"\bCm ([a-z][a-z-]*)", text))
    statuses = re.findall(r"^\.It (\d+)$", text[text.index(".Sh EXIT STATUS"):], re.M)
    lines = items(text, re.compile(r"\.It Fl (-[a-z-]+) Ar \w+"))
    return commands, options, set(statuses), {"-" + name: numbers(said) for name, said in lines.items()}


def of_readme(text):
    part = text[text.index("## What the program does"):]
    part = part[:part.index("\n## ", 3)]
    cells = re.findall(r"^\| `opening_bench .*\| ([^|]*) \|$", part, re.M)
    spans = re.findall(r"(\d+)(?: to (\d+))?", ", ".join(cells))
    statuses = {str(number) for first, last in spans for number in range(int(first), int(last or first) + 1)}
    return set(COMMAND.findall(part)), set(OPTION.findall(text)), statuses


def of_arguments(text):
    """The numbers that --help says of the letters of each command that takes any."""
    letters = {name: numbers(said) for name, said in items(text, re.compile(r"([A-Z]+)  +(?=\S)")).items()}
    usages = re.findall(r"^  opening_bench PATH ([a-z-]+)((?: [A-Z]+)+)(?: >.*)?$", text, re.M)
    return {command: set().union(*(letters[name] for name in said.split())) for command, said in usages}


def text_told(program, *words):
    """What the program says on standard error of words that it refuses, behind the sentence that shows the last one, which is wrong."""
    told = subprocess.run([program, "-", *words], stdin=subprocess.DEVNULL, stdout=subprocess.DEVNULL, stderr=subprocess.PIPE, check=False)
    return told.stderr.decode("utf-8", "replace").removeprefix(f"`{words[-1]}` cannot stand there. ")


def names_told(text, begins):
    """The names of a sentence `The commands are a, b and c`."""
    match = re.search(begins + r" ([a-z, -]+)", text)
    return set(re.findall(r"[a-z-]+", match.group(1).replace(" and ", ", ").replace("each with a number", ""))) if match else set()


def faults_of_told(program, text, commands, options):
    """Where what the program says of words that it refuses has other names or limits than --help."""
    for what, said, due in (
        ("commands", names_told(text_told(program, "no-command"), "The commands are"), commands),
        ("options", names_told(text_told(program, "solve", "--no-option"), "The options are"), options - {"--help", "--version"}),
    ):
        if said != due:
            yield f"of {what} --help has {sorted(due)}, and the text on a word that is none {sorted(said)}"
    for name, due in sorted(of_placeholders(text).items()):
        said = numbers(text_told(program, "solve", name, str(max(due) + 1)))
        if not said or not said <= due or max(said) != max(due):
            yield f"at {name} --help has the numbers {sorted(due)}, and the text on a number that is too great {sorted(said)}"
    for command, due in sorted(of_arguments(text).items()):
        said = numbers(text_told(program, command, "none"))
        if said != due:
            yield f"at {command} --help has the numbers {sorted(due)}, and the text on a word that is none {sorted(said)}"


def main():
    top = pathlib.Path(__file__).resolve().parent.parent
    text = sys.stdin.read()
    told = of_help(text)
    manual = of_manual((top / "docs/opening_bench.1").read_text(encoding="utf-8"))
    readme = of_readme((top / "README.md").read_text(encoding="utf-8"))
    faults = [] if all(told) else ["--help names no commands, options, statuses or limits"]
    for what, here, there in zip(("commands", "options", "statuses"), told, manual):
        if here != there:
            faults.append(f"docs/opening_bench.1 has the {what} {sorted(there - here)} beside those of --help, and lacks {sorted(here - there)}")
    for what, here, there in zip(("commands", "options", "statuses"), told, readme):
        lacks = set() if what == "options" else here - there
        if there - here or lacks:
            faults.append(f"README.md has the {what} {sorted(there - here)} beside those of --help, and lacks {sorted(lacks)}")
    for path in sorted(top.glob("completions/*opening_bench*")):
        words = path.read_text(encoding="utf-8")
        lacks = (told[0] | told[1]) - set(re.findall(r"[a-z-]+", words))
        more = set(OPTION.findall(words)) - told[1]
        if lacks or more:
            faults.append(f"completions/{path.name} lacks {sorted(lacks)} of --help, and has {sorted(more)} beside")
    for name in sorted(told[3].keys() | manual[3].keys()):
        here, there = told[3].get(name, set()), manual[3].get(name, set())
        if here != there:
            faults.append(f"at {name} --help has the numbers {sorted(here)} and docs/opening_bench.1 {sorted(there)}")
    faults += faults_of_told(top / "bin/opening_bench", text, told[0], told[1])
    for fault in faults:
        print(f"look: {fault}", file=sys.stderr)
    sys.exit(1 if faults else 0)


main()
