#!/usr/bin/env python3
"""Which definitions the clauses of `bench` rest on, over the `specs/` of all crates, and which constants of the code; and those
of the traits of disks, sources, sinks and endgame tables, which say what such an object means.

Without an argument it fails where a file of the closure is not named in docs/DEFINITIONS.md, where a table there, between
its two marks, is not the one that is computed, where a definition by a command, a refusal or a status has one case for all
others, or where `WorkedLimits`, which is proved, does not say the number of a constant. With `--write` it writes the tables, with `--list` it prints the files of the closure and what of them is used.
`definitions.py --self-test` asks that the texts of SAMPLES are read as they are meant.
"""
import pathlib
import re
import sys

BENCH = pathlib.Path("crates/bench_commands/src/top_call.rt")
LIMITS = pathlib.Path("crates/bench_commands/specs/Examples.antt")
TRAITS = {"Disk": pathlib.Path("crates/bench_disk/src/disk.rt"), "Source": pathlib.Path("crates/bench_edges/src/source.rt"),
          "Sink": pathlib.Path("crates/bench_edges/src/sink.rt"), "Oracle": pathlib.Path("crates/strategy_certificate/src/oracle.rt")}
DOCUMENT = pathlib.Path("docs/DEFINITIONS.md")
CLAUSES = ("<!-- begin: clauses, written by .ci/definitions.py -->", "<!-- end: clauses -->")
CONSTANTS = ("<!-- begin: constants, written by .ci/definitions.py -->", "<!-- end: constants -->")
WORD = re.compile(r"[\w?']+(?:-[\w?']+)*")
HEAD = re.compile(r"^(?:(?:abbrev|record|data|unfoldable|pub|inductive)\s+)*([\w?'-]+)\b")
CONSTANT = re.compile(r"^(?:pub(?:\(crate\))? )?const ([A-Z]\w*): [ui](?:8|16|32|64|size) = ([^;]*);", re.M)
# A definition by one of these has a case for each variant, so that a new one has to say its own.
CASED = ("Command", "Refusal", "Status")
# What stands on the right of a constant, and the number that is due: none where it is another constant's, or no number.
SAMPLES = {"1_000_000": 1000000, "1 << 62": 4611686018427387904, "2 ^ 40": 1099511627776, "bench_core::MOST_WORK": None, "72 + 1": None}


def spec_file(module):
    """The file of a module `Rattle.CRATE.specs.A.B`; none for std's and for the types that Rust declares."""
    parts = module.split(".")
    if len(parts) < 4 or parts[0] != "Rattle" or parts[2] != "specs" or parts[3] == "declared":
        return None
    path = pathlib.Path("crates", parts[1], "specs", *parts[3:]).with_suffix(".antt")
    return path if path.exists() else None


def read_imports(text, line_head):
    """Name as it is used here, to (file, name there); and alias of a whole file, to the file."""
    names, aliases = {}, {}
    for line in re.findall(rf"^\s*{line_head}\s+(\S.*?);?\s*$", text, re.M):
        grouped = re.match(r"([\w.]+)\.\{(.*)\}$", line)
        whole = re.match(r"([\w.]+)(?:\s+as\s+(\w+))?$", line)
        if grouped and (path := spec_file(grouped.group(1))):
            for part in grouped.group(2).split(","):
                there, _, here = part.strip().partition(" as ")
                names[(here or there).strip()] = (path, there.strip())
        elif whole and (path := spec_file(whole.group(1))):
            aliases[whole.group(2) or whole.group(1).split(".")[-1]] = path
    return names, aliases


def source_file(crate, module):
    """The file of code of a module of a crate; of the crate itself without one."""
    source = pathlib.Path("crates", crate, "src")
    return source.joinpath(*module.split(".")).with_suffix(".rt") if module else source / "lib.rt"


def read_constants(text):
    """The constants that definitions import: name as it is used here, to (file, name there), and alias of a whole file, to the file."""
    names, aliases = {}, {}
    imports = r"^\s*(?:ghost |pub )?use Rattle\.(\w+)\.specs\.declared\.(?:([\w.]+)\.)?TheConstants(?:\.\{(.*)\}| as (\w+));?$"
    for crate, module, list_, alias in re.findall(imports, text, re.M):
        path = source_file(crate, module)
        for part in filter(None, list_.split(",")):
            there, _, here = part.strip().partition(" as ")
            names[here or there] = (path, there)
        if alias:
            aliases[alias] = path
    return names, aliases


def read_code_constants(text, crate):
    """The constants that code imports, by its own names: a clause may name these too."""
    names = {}
    for path, list_, one in re.findall(r"^use ([\w:]+)::(?:\{([^}]*)\}|(\w+));", text, re.M):
        first, *rest = path.split("::")
        for name in (list_ or one).split(","):
            if re.fullmatch(r"[A-Z][A-Z0-9_]*", name.strip()):
                home = crate if first == "crate" else first
                names[name.strip()] = declaration(home, name.strip()) if not rest else (source_file(home, ".".join(rest)), name.strip())
    return names


def declaration(crate, name):
    """Where a crate has a constant that another one names."""
    files = [path for path in sorted(pathlib.Path("crates", crate, "src").glob("**/*.rt"))
             if any(name == there for there, _ in CONSTANT.findall(path.read_text(encoding="utf-8")))]
    if len(files) != 1:
        raise SystemExit(f"look: {crate} has {len(files)} constants {name}")
    return files[0], name


def number_of(text):
    """The number that the right side of a constant is; none where it is another constant's."""
    words = text.replace("_", "").split()
    if len(words) == 1 and words[0].isdigit():
        return int(words[0])
    if len(words) == 3 and words[0].isdigit() and words[1] in ("<<", "^") and words[2].isdigit():
        return int(words[0]) << int(words[2]) if words[1] == "<<" else int(words[0]) ** int(words[2])
    return None


class Constant:
    """A constant of the code: the right side that it has, its number, and the constant of another crate that it stands for."""

    def __init__(self, path, name):
        self.text = dict(CONSTANT.findall(path.read_text(encoding="utf-8"))).get(name)
        if self.text is None:
            raise SystemExit(f"look: {path} has no constant {name} that is a number")
        self.number, self.other = number_of(self.text), None
        if self.number is None:
            stands_for = re.fullmatch(r"(\w+)::([A-Z]\w*)(?: as \w+)?", self.text)
            if not stands_for:
                raise SystemExit(f"look: {path}: {name} is no number that is read here: {self.text}")
            self.other = declaration(*stands_for.groups())
            self.number = Constant(*self.other).number


class Spec:
    """A file of definitions: where each begins, and what stands in it."""

    def __init__(self, path):
        text = path.read_text(encoding="utf-8")
        self.names, self.aliases = read_imports(text, r"(?:pub )?use")
        self.constants, self.files_of_constants = read_constants(text)
        self.lines, self.bodies = {}, {}
        name, depth = None, ""
        for number, line in enumerate(text.split("\n"), 1):
            code = line.split("--")[0] if not line.strip().startswith("--") else ""
            body = code[len(code) - len(code.lstrip()):]
            indent = len(code) - len(body)
            starts = re.match(r"(?:(?:abbrev|record|data|unfoldable|pub)\s+)*([\w?'-]+)\b(.*)", body)
            is_module = body.startswith(("module ", "use ", "pub use ", "pub mod ", "mod "))
            heads = body.startswith(("abbrev ", "pub ", "record ", "data ", "unfoldable "))
            plain = indent == 0 and re.match(r"[\w?'-]+ : ", body)
            if body and not is_module and starts and (indent == 0 and (heads or plain) or indent and self.is_inner(body)):
                name = starts.group(1)
                self.lines.setdefault(name, number)
                self.bodies.setdefault(name, "")
            if is_module:
                name = None
            if name:
                self.bodies[name] += code + "\n"

    @staticmethod
    def is_inner(body):
        """A definition in a module of parameters; a field of a record is none, and no value of one."""
        return not body.startswith("record {") and body.startswith(("abbrev ", "pub record ", "record ", "unfoldable ", "pub data "))

    def used(self, text, own=None):
        """The definitions that a text of this file names."""
        for match in re.finditer(r"[\w?'.-]+", text):
            for word in (match.group(), *match.group().split(".")):
                if word in self.names:
                    yield self.names[word]
                elif word in self.bodies and word != own:
                    yield None, word
            alias, _, name = match.group().partition(".")
            if name and alias in self.aliases:
                yield self.aliases[alias], name

    def constants_in(self, text):
        """The constants that a text of this file names."""
        for match in re.finditer(r"[\w.]+", text):
            alias, _, name = match.group().partition(".")
            if alias in self.constants:
                yield self.constants[alias]
            elif name and alias in self.files_of_constants:
                yield self.files_of_constants[alias], name


def clauses_of(text):
    """The clauses of `pub fn bench`, in order: name and text."""
    body = text[text.index("pub fn bench<"):]
    body = re.sub(r"//[^\n]*", "", body[: body.index("\n{\n")])
    at, clauses = 0, []
    for match in re.finditer(r"\bensures\s+(\w+)\s*\{", body):
        if match.start() < at:
            continue
        depth, at = 1, match.end()
        while depth:
            depth += {"{": 1, "}": -1}.get(body[at], 0)
            at += 1
        clauses.append((match.group(1), body[match.end(): at - 1]))
    return clauses


def trait_texts():
    """Of each trait its name, the text of its file, and the words of its clauses."""
    for name, path in TRAITS.items():
        text = path.read_text(encoding="utf-8")
        body = text[text.index(f"pub trait {name}"):]
        yield name, text, set(re.findall(r"\w+", re.sub(r"//[^\n]*", "", body[: body.index("\n}\n")])))


def named_by_traits():
    """The definitions that the clauses of the traits name."""
    for _, text, words in trait_texts():
        names, _ = read_imports(text, "ghost use")
        yield from (names[word] for word in words if word in names)


def closure(roots, specs):
    """Every definition that is reached."""
    seen, todo = set(), list(roots)
    while todo:
        path, name = todo.pop()
        if (path, name) in seen:
            continue
        spec = specs.setdefault(path, None) or specs.__setitem__(path, Spec(path)) or specs[path]
        if name not in spec.bodies:
            if name in spec.names:
                todo.append(spec.names[name])
            continue
        seen.add((path, name))
        todo += [(there or path, word) for there, word in spec.used(spec.bodies[name], name)]
    return seen


def constants_reached(text, clauses, reached, specs):
    """Each constant that a clause or a definition names, with the names of these; and those that such a constant stands for."""
    users = {}
    in_clauses = {**read_code_constants(text, BENCH.parts[1]), **read_constants(text)[0]}
    for clause, body in clauses:
        for word in set(re.findall(r"\w+", body)) & set(in_clauses):
            users.setdefault(in_clauses[word], set()).add(f"clause {clause}")
    for trait, code, words in trait_texts():
        constants, _ = read_constants(code)
        for word in words & set(constants):
            users.setdefault(constants[word], set()).add(f"trait `{trait}`")
    for path, name in reached:
        for constant in specs[path].constants_in(specs[path].bodies[name]):
            users.setdefault(constant, set()).add(f"`{name}`")
    todo = list(users)
    while todo:
        path, name = todo.pop()
        if other := Constant(path, name).other:
            if other not in users:
                todo.append(other)
            users.setdefault(other, set()).add(f"`{path.parts[1]}::{name}`")
    return users


def proved_numbers():
    """The numbers that `WorkedLimits` says, by constant."""
    text = LIMITS.read_text(encoding="utf-8")
    names, aliases = read_constants(text)
    body = text[text.index("pub record WorkedLimits"):]
    numbers = {}
    for word, number in re.findall(r"^  pub \w+ : ([\w.]+) ≡ ([\d^ ]+)$", body, re.M):
        alias, _, name = word.partition(".")
        numbers[(aliases[alias], name) if name else names[alias]] = number_of(number)
    return numbers


def split_at_top(text, mark):
    """The parts of a text between the marks that stand in no brackets."""
    parts, depth = [""], 0
    for token in re.findall(r"[(){}]|[^\s(){}]+|\s+", text):
        depth += {"(": 1, "{": 1, ")": -1, "}": -1}.get(token, 0)
        if depth == 0 and (token.isspace() if mark.isspace() else token == mark):
            parts.append("")
        else:
            parts[-1] += token
    return [part.strip() for part in parts if part.strip()]


def has_catch_all(name, body):
    """Whether a definition by a command, a refusal or a status has a case for some variants and one for all others."""
    lines = body.split("\n")
    first = next((number for number, line in enumerate(lines) if line.strip().startswith(f"{name} ")), len(lines))
    signature = " ".join(lines[:first]).partition(" : ")[2]
    cases = [split_at_top(line.strip().partition(" = ")[0], " ") for line in lines[first:] if line.strip().startswith(f"{name} ") and "=" in line]
    for place, argument in enumerate(split_at_top(signature, "→"), 1):
        if argument.strip("()").split(" : ")[-1] in CASED:
            patterns = [case[place] for case in cases if place < len(case)]
            catches = [bool(re.match(r"[a-z_]\w*$", pattern)) for pattern in patterns]
            if any(catches) and not all(catches):
                return True
    return False


def short(path):
    return f"{path.parts[1]}/{'/'.join(path.parts[3:])}"


def table(clauses, names, specs):
    rows = ["| Clause | Definitions that it names, each with its file under `crates/*/specs/` and its line |", "|---|---|"]
    for clause, text in clauses:
        used = sorted({names[word] for word in re.findall(r"\w+", text) if word in names}, key=lambda d: (short(d[0]), d[1]))
        cells = [f"`{name}` {short(path)}:{specs[path].lines[name]}" for path, name in used]
        rows.append(f"| {clause} | {', '.join(cells) or 'the numbers of the statuses alone'} |")
    return "\n".join(rows)


def constant_table(users):
    rows = ["| Constant | Number | Its file under `crates/*/src/` | Named by |", "|---|---|---|---|"]
    for path, name in sorted(users, key=lambda constant: (short(constant[0]), constant[1])):
        rows.append(f"| `{name}` | {Constant(path, name).number:,} | {short(path)} | {', '.join(sorted(users[path, name]))} |")
    return "\n".join(rows)


def renewed(document, marks, rows):
    """The document with these rows between the marks, or behind its end where it has none."""
    wanted = "\n".join((marks[0], rows, marks[1]))
    begin, end = document.find(marks[0]), document.find(marks[1])
    return document[:begin] + wanted + document[end + len(marks[1]):] if 0 <= begin < end else f"{document}\n{wanted}\n"


def complaints(document, wanted, reached, specs, users):
    """What is wrong in the document, which definition leaves a case out, and which number is not proved."""
    files = sorted({path for path, _ in reached}, key=short)
    for path in files:
        if f"`{short(path)}`" not in document:
            yield f"{DOCUMENT} does not name `{short(path)}`, on which `bench` rests"
    if document != wanted:
        yield f"a table in {DOCUMENT} is not that of the code: python3 .ci/definitions.py --write"
    for path, name in sorted(reached, key=str):
        if has_catch_all(name, specs[path].bodies[name]):
            yield f"`{name}` of {short(path)} has one case for all other variants: each has its own"
    proved = proved_numbers()
    for path, name in sorted(users, key=str):
        if proved.get((path, name)) != Constant(path, name).number:
            yield f"`WorkedLimits` does not say that `{name}` of {short(path)} is {Constant(path, name).number}"


def main(arguments):
    if "--self-test" in arguments:
        wrong = [text for text, due in SAMPLES.items() if number_of(text) != due]
        for text in wrong:
            print(f"look: definitions.py reads {text!r} as {number_of(text)}", file=sys.stderr)
        return 1 if wrong else 0
    text = BENCH.read_text(encoding="utf-8")
    names, _ = read_imports(text, "ghost use")
    clauses, specs = clauses_of(text), {}
    words = {word for _, clause in clauses for word in re.findall(r"\w+", clause)}
    reached = closure([names[word] for word in words if word in names] + list(named_by_traits()), specs)
    users = constants_reached(text, clauses, reached, specs)
    if "--list" in arguments:
        for path in sorted({path for path, _ in reached}, key=short):
            print(short(path), ", ".join(sorted(name for p, name in reached if p == path)))
        return 0
    document = DOCUMENT.read_text(encoding="utf-8")
    wanted = renewed(renewed(document, CLAUSES, table(clauses, names, specs)), CONSTANTS, constant_table(users))
    if "--write" in arguments:
        DOCUMENT.write_text(wanted, encoding="utf-8")
        return 0
    found = list(complaints(document, wanted, reached, specs, users))
    for complaint in found:
        print(f"look: {complaint}", file=sys.stderr)
    return 1 if found else 0


if __name__ == "__main__":
    sys.exit(main(sys.argv[1:]))
