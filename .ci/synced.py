#!/usr/bin/env python3
"""Fails where a run on a journal does not write and sync the file in the order that a commit owes, as `strace` sees it.

No contract can say what reaches a file of the operating system. So `solve` is run on a journal that does not exist, and its calls on
the file and on its folder are compared with what is due. The folder is synced and then the file, by the opening sync; the head of the
new journal is written and synced; and each of COMMITS commits writes its frame, syncs, writes the frame's gate, and syncs. The program
is the first argument. Where `strace` is not there, a line says so.
"""
import os
import re
import shutil
import subprocess
import sys
import tempfile

# The roots are one commit, and each of the two records of work is one.
WORDS, SOURCE, COMMITS = ["solve", "--depth", "0", "--budget", "2"], b"*", 3
CALL = re.compile(r"(?:\[pid +\d+\] )?(pwrite64|fsync|fdatasync|ftruncate)\(\d+<([^>]*)>.*= (-?\d+)")


def calls_of(trace, journal):
    """The calls on the journal and on its folder, in order: "write", "sync" and "sync folder"."""
    names = {journal: {"pwrite64": "write", "fsync": "sync", "fdatasync": "sync data", "ftruncate": "cut"}, os.path.dirname(journal): {"fsync": "sync folder"}}
    for line in trace.splitlines():
        found = CALL.search(line)
        if found and found.group(2) in names:
            yield names[found.group(2)].get(found.group(1), found.group(1))


def main():
    if not shutil.which("strace"):
        print("look: strace is not here, so the order of writes and syncs was not looked at", file=sys.stderr)
        return 0
    with tempfile.TemporaryDirectory() as folder:
        folder = os.path.realpath(folder)
        journal, trace = os.path.join(folder, "journal"), os.path.join(folder, "trace")
        tracing = ["strace", "-f", "-y", "-o", trace, "-e", "trace=pwrite64,write,fsync,fdatasync,ftruncate"]
        ended = subprocess.run([*tracing, os.path.abspath(sys.argv[1]), journal, *WORDS], input=SOURCE, stdout=subprocess.DEVNULL, stderr=subprocess.PIPE)
        if "Operation not permitted" in ended.stderr.decode(errors="replace"):
            print("look: strace may not trace here, so the order of writes and syncs was not looked at", file=sys.stderr)
            return 0
        with open(trace, encoding="utf-8", errors="replace") as lines:
            found = list(calls_of(lines.read(), journal))
    due = ["sync folder", "sync"] + ["write", "sync"] + ["write", "sync", "write", "sync"] * COMMITS
    if found != due:
        print(f"look: on the journal's file the calls are {found} and not {due}", file=sys.stderr)
        return 1
    return 0


if __name__ == "__main__":
    sys.exit(main())
