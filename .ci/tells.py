#!/usr/bin/env python3
"""Fails where code names `TELLS`, but for the lines of MAY_SAY.

A disk's `TELLS` says whether it tells its bytes. Clauses may ask for it; a body that branches on it would do something
else on a real disk, where no clause on bytes holds. So clauses, ghost items, ghost fields and comments are cut away, and
`TELLS` may stand in what is left of a file of `crates/*/src` only on a line of MAY_SAY: there a type says what it is.
`tells.py --self-test` tries the texts of SAMPLES in place of the files.
"""
import pathlib
import re
import sys

CLAUSES = {"requires", "ensures", "invariant", "decreases"}
TOKEN = re.compile(r'//[^\n]*|/\*.*?\*/|b?"(?:\\.|[^"\\])*"|\'(?:\\.|[^\'\\])\'|\w+|\n|.', re.S)
DECLARED, FALSE, TRUE = "const TELLS: bool;", "const TELLS: bool = false;", "const TELLS: bool = true;"
MAY_SAY = {
    "crates/bench_disk/src/disk.rt": [DECLARED],
    "crates/bench_disk/src/file_handle.rt": [DECLARED],
    "crates/bench_disk/src/memory_disk.rt": [TRUE],
    "crates/bench_disk/src/file_disk.rt": [FALSE],
    "crates/bench_disk/src/short_file.rt": [FALSE],
    "crates/bench_disk/src/failing_disk.rt": ["const TELLS: bool = D::TELLS;"],
    "crates/bench_disk/src/handle_disk.rt": ["const TELLS: bool = F::TELLS;"],
    "crates/memory_file/src/held.rt": [TRUE],
    "crates/program_edges/src/path_disk.rt": [FALSE],
    # A test of both kinds, which asks that only a disk that tells nothing gives the bytes of a place past its end.
    "crates/journal_tests/src/disks.rt": ["assert!(rt; at == 0 || !D::TELLS);"],
}
SAMPLES = {
    "fn f<D: Disk>(d: D)\n    requires { IsHonest D.TELLS }\n{ g(d) }": [],
    "ghost use Rattle.x.{TELLS};\nfn f() {}": [],
    "impl Disk for A {\n    ghost TELLS = { D.TELLS };\n    fn f() {}\n}": [],
    "struct A<D: Disk> { disk: D, ghost silent: { IsHonest D.TELLS → ⊥ } }\nfn f<D: Disk>() -> bool { D::TELLS }": [2],
    "struct A<D: Disk> { ghost silent: { IsHonest D.TELLS → ⊥ }, disk: D }\nimpl A { const ASKS: bool = D::TELLS; }": [2],
    "macro_rules! asks { ($d:ty) => { <$d>::TELLS } }": [1],
}


def code_of(text):
    """The words of the code with their lines, without clauses, ghost items, ghost fields, comments and texts."""
    tokens, line = [], 1
    for match in TOKEN.finditer(text):
        token = match.group()
        if not token.isspace() and not token.startswith(("//", "/*", '"', 'b"')):
            tokens.append((token, line))
        line += token.count("\n")
    at = 0
    while at < len(tokens):
        token, line = tokens[at]
        if token == "ghost" and at + 1 < len(tokens) and tokens[at + 1][0] == "use":
            at = behind(tokens, at + 1, ";")
        elif token == "ghost" or token in CLAUSES:
            at = behind(tokens, at + 1, "}")
        else:
            yield token, line
            at += 1


def behind(tokens, at, end):
    """The place behind a ghost import, which ends with a semicolon, or behind a clause, ghost item or ghost field, which ends with its braces."""
    depth = 0
    while at < len(tokens):
        token = tokens[at][0]
        depth += {"{": 1, "}": -1}.get(token, 0)
        at += 1
        if depth == 0 and token == end:
            break
    return at


def lines_that_ask(text):
    return sorted({line for token, line in code_of(text) if token == "TELLS"})


def main():
    if "--self-test" in sys.argv[1:]:
        wrong = [text for text, due in SAMPLES.items() if lines_that_ask(text) != due]
        for text in wrong:
            print(f"look: tells.py reads {text!r} as {lines_that_ask(text)}", file=sys.stderr)
        return 1 if wrong else 0
    status = 0
    for path in sorted(pathlib.Path("crates").glob("*/src/**/*.rt")):
        text = path.read_text(encoding="utf-8")
        left = list(MAY_SAY.get(str(path), []))
        for line in lines_that_ask(text):
            says = text.splitlines()[line - 1].strip()
            if says in left:
                left.remove(says)
                continue
            print(f"look: {path}:{line}: code asks whether a disk tells its bytes", file=sys.stderr)
            status = 1
    return status


if __name__ == "__main__":
    sys.exit(main())
