#!/usr/bin/env python3
"""Runs `report` and `certify` again and again on a journal while `solve` writes to it.

Each report has to end with status 0 or 1, so none is refused, and to show what the journal held at some moment: no root or all, in
their order, and no value that an earlier report had is gone or another one. `certify` of the last root writes a certificate, or says
that there is no such root or that it has no value. At least one of either has to run. An argument names another program.
"""
import pathlib
import re
import subprocess
import sys
import tempfile

TOP = pathlib.Path(__file__).resolve().parent.parent
# The first root has no value when the run ends; each of the others has one behind its first search.
ROOTS = ["B:W18,22,26,30:B3,7,11,12", "B:W22:B10,17", "B:W21:B10,17", "W:W16,23:B12"]
GAMES = "".join(f'[FEN "{fen}"] *\n' for fen in ROOTS).encode()
LINE = re.compile(r"root (\d+) (\S+) (black-wins|white-wins|draw|unsolved)")
CERTIFY = ["certify", str(len(ROOTS))]
REFUSED = (f"refused input no-root {len(ROOTS)}\n".encode(), f"refused input unsettled-root {len(ROOTS)}\n".encode())
BUDGET = "3000"
ENOUGH_LOOKS = 40
MOST_RUNS = 10


def looks_beside(program, folder):
    """What `report` and `certify` wrote, with their statuses, that ran in turn beside one run of `solve`, and that run's status."""
    journal = f"{folder}/journal"
    words = [program, journal, "solve", "--depth", "0", "--budget", BUDGET]
    ended = []
    with subprocess.Popen(words, stdin=subprocess.PIPE, stdout=subprocess.DEVNULL) as run:
        run.stdin.write(GAMES)
        run.stdin.close()
        while run.poll() is None:
            look = ["report"] if len(ended) % 2 == 0 else CERTIFY
            looked = subprocess.run([program, journal, *look], stdin=subprocess.DEVNULL, capture_output=True, check=False)
            ended.append((look[0], looked.returncode, looked.stdout))
    return ended, run.returncode


def faults_of_reports(texts):
    """What is wrong with reports on one journal that ran one after the other."""
    known = {}
    for text in texts:
        *lines, last = text.decode("ascii").splitlines()
        roots = [LINE.fullmatch(line) for line in lines]
        values = {found.group(2): found.group(3) for found in roots if found}
        settled = {fen: value for fen, value in values.items() if value != "unsolved"}
        numbers = [int(found.group(1)) for found in roots if found]
        if list(values) not in ([], ROOTS) or numbers != list(range(1, len(lines) + 1)):
            yield f"a report has other roots: {text[:200]!r}"
        elif last != f"roots {len(values)} settled {len(settled)} unsolved {len(values) - len(settled)}":
            yield f"a report counts otherwise: {text[-80:]!r}"
        elif any(settled.get(fen) != value for fen, value in known.items()):
            yield f"a report lacks a value of an earlier one: {text[:200]!r}"
        known.update(settled)


def fault_of_certify(code, text):
    """What is wrong with how `certify` ended; none where nothing is."""
    is_good = text.startswith(b"certificate 1\n") and text.endswith(b"end\n") if code == 0 else code == 3 and text in REFUSED
    return [] if is_good else [f"certify ended with {code}: {text[:200]!r}"]


def main():
    if len(sys.argv) > 1:
        program = sys.argv[1]
    else:
        subprocess.run([TOP / "bin/opening_bench", "--version"], stdout=subprocess.DEVNULL, check=True)
        program = TOP / "crates/opening_bench/out/opening_bench"
    ended, faults = [], []
    for _ in range(MOST_RUNS):
        with tempfile.TemporaryDirectory() as folder:
            looked, status = looks_beside(program, folder)
        ended += looked
        faults += [f"`solve` ended with {status}"] if status not in (0, 1) else []
        faults += faults_of_reports(text for look, code, text in looked if look == "report" and code in (0, 1))
        if len(ended) >= ENOUGH_LOOKS:
            break
    faults += [] if len(ended) > 1 else ["no report and no certificate ran beside `solve`"]
    faults += [f"a report ended with {code}: {text[:200]!r}" for look, code, text in ended if look == "report" and code not in (0, 1)]
    for look, code, text in ended:
        faults += fault_of_certify(code, text) if look == "certify" else []
    for fault in faults[:5]:
        print(f"beside: {fault}", file=sys.stderr)
    return 1 if faults else 0


if __name__ == "__main__":
    sys.exit(main())
