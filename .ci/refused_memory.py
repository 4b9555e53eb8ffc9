#!/usr/bin/env python3
"""Fails where a run that is refused memory does something else than it may. Each allocation is refused once, one number at a time.

The program is the first argument. It is run with a small library before the C library that refuses one call of `malloc`, `calloc` or
`realloc`, told by its number, and passes the others. Four runs are tried so: `verify`, `solve` of two roots by four workers, on a
journal in memory and on a new file, and `learn` on a new file. Each ends with status 6, or as it ends with ample memory, or with
status 4 or 8 if the disk or the sink found no memory. It writes what that status has. The file that `solve` leaves reads as no root
or as both, each with its value or none, and a run with ample memory goes on from it to both values. That of `learn` reads as no root
or as its one with its value. The second argument, where there is one, is `journal_shorten`: it
is run on a journal of two records in the same way, has to leave that as it was, and the new file without a record or whole. How many
allocations were refused is written at the end. If no C compiler is here, or the library cannot be put before the C library, a line
says so.
"""
import os
import pathlib
import shutil
import struct
import subprocess
import sys
import tempfile

REFUSING = r"""
typedef __SIZE_TYPE__ size;
void *__libc_malloc(size), *__libc_calloc(size, size), *__libc_realloc(void *, size);
void *mmap(void *, size, int, int, int, long);
char *getenv(const char *);
int open(const char *, int, ...), *__errno_location(void);
// The file of the run: how many allocations there were, and the number of the one to refuse.
static unsigned long none[2], *counts = none;
__attribute__((constructor)) static void begins(void) {
    int file = open(getenv("ALLOCATIONS"), 02);
    void *at = file < 0 ? (void *)-1 : mmap(0, sizeof none, 3, 1, file, 0);
    if (at != (void *)-1) counts = at;
}
static int refuses(void) {
    int is_refused = __atomic_add_fetch(&counts[0], 1, __ATOMIC_SEQ_CST) == counts[1];
    if (is_refused) *__errno_location() = 12;
    return is_refused;
}
void *malloc(size n) { return refuses() ? 0 : __libc_malloc(n); }
void *calloc(size n, size m) { return refuses() ? 0 : __libc_calloc(n, m); }
void *realloc(void *at, size n) { return refuses() ? 0 : __libc_realloc(at, n); }
"""
ROOTS = b'[FEN "W:W16,23:B12"] * [FEN "B:W21:B10,17"] *'
SOLVE = ["solve", "--workers", "4", "--depth", "1"]
CERTIFICATE = b"certificate 1\ntable 2\nposition W:W16,23:B12\nclaim white-wins\nwin white 2\nW:W16,23:B12 1 23-19\nB:W16,19:B12 0\nend\n"
VERIFIED = b"verified W:W16,23:B12 white-wins\n"
LEARN = ["learnt", "learn"]
LEARNT = (0, b"learnt 1 W:W16,23:B12 white-wins\n")
LESSONS = [(0, b"roots 0 settled 0 unsolved 0\n"), (0, b"root 1 W:W16,23:B12 white-wins\nroots 1 settled 1 unsolved 0\n")]
OLD = pathlib.Path(__file__).resolve().parent.parent / "crates" / "journal_shorten" / "data" / "first.journal"
SHORTEN = ["shorten", "old", "new"]
SHORTER = (0, b"roots 1 records 2 to 2\n")
# A fresh file has at most this number of bytes.
MOST_FRESH = 9


def report(first, second):
    settled = (first != b"unsolved") + (second != b"unsolved")
    lines = [b"root 1 W:W16,23:B12 " + first, b"root 2 B:W21:B10,17 " + second, b"roots 2 settled %d unsolved %d" % (settled, 2 - settled), b""]
    return (1 if settled < 2 else 0, b"\n".join(lines))


WHOLE = report(b"white-wins", b"black-wins")
REPORTS = [(0, b"roots 0 settled 0 unsolved 0\n")]
REPORTS += [report(first, second) for first in (b"unsolved", b"white-wins") for second in (b"unsolved", b"black-wins")]
# What main writes where it finds no memory itself: nothing.
REFUSED = {4: [b"refused disk\n"], 6: [b"refused memory\n", b""]}
complaints = []


class Program:
    def __init__(self, path, library, folder):
        self.path, self.library, self.folder = path, library, folder
        self.told = os.path.join(folder, "allocations")

    def run(self, words, source, refused=None):
        """The status and what is written; with a number, that allocation is refused, and none with 0."""
        environment = {}
        if refused is not None:
            pathlib.Path(self.told).write_bytes(struct.pack("=QQ", 0, refused))
            environment = {"LD_PRELOAD": self.library, "ALLOCATIONS": self.told}
        ended = subprocess.run([self.path, *words], input=source, stdout=subprocess.PIPE, stderr=subprocess.DEVNULL, env=environment, cwd=self.folder)
        return ended.returncode, ended.stdout

    def allocations(self, words, source):
        """How the run ends with ample memory, and how many allocations it makes."""
        ended = self.run(words, source, 0)
        return ended, struct.unpack("=QQ", pathlib.Path(self.told).read_bytes())[0]


def may_end(status, written, due):
    """A run may be refused as it is due, come to its end, or fail while it writes."""
    if status == 8:
        return due[1].startswith(written) and written != due[1]
    return (status, written) == due or written in REFUSED.get(status, [])


def each_refused(program, words, source, due, prepare=lambda: None):
    """Each number of an allocation that the run makes, and how it ends without that one. What it does wrong is complained of."""
    prepare()
    ended, most = program.allocations(words, source)
    if ended != due:
        complaints.append(f"{words} ends with {ended}")
    for number in range(1, most + 1):
        prepare()
        ended = program.run(words, source, number)
        if not may_end(*ended, due):
            complaints.append(f"{words} without allocation {number} ends with {ended}")
        yield number


def try_file(program):
    """How many allocations a run on a new file makes; what is left of the file without each is looked at, and gone on with."""
    journal, tried = pathlib.Path(program.folder, "journal"), 0
    words = [journal.name, *SOLVE]
    for tried in each_refused(program, words, ROOTS, WHOLE, lambda: journal.unlink(missing_ok=True)):
        ended = program.run([journal.name, "report"], b"")
        if ended not in REPORTS:
            complaints.append(f"the file that {words} leaves without allocation {tried} is reported as {ended}")
        ended = program.run(words, ROOTS)
        if ended != WHOLE:
            complaints.append(f"from the file that {words} leaves without allocation {tried} a run comes to {ended}")
    return tried


def try_lesson(program):
    """How many allocations a run makes that learns a certificate; what is left of the file without each is looked at."""
    journal, tried = pathlib.Path(program.folder, LEARN[0]), 0
    for tried in each_refused(program, LEARN, CERTIFICATE, LEARNT, lambda: journal.unlink(missing_ok=True)):
        ended = program.run([journal.name, "report"], b"")
        if ended not in LESSONS:
            complaints.append(f"the file that {LEARN} leaves without allocation {tried} is reported as {ended}")
    return tried


def try_shortening(shortener):
    """How many allocations a run of `journal_shorten` makes; what is left of both files without each is looked at."""
    old, new = (pathlib.Path(shortener.folder, name) for name in SHORTEN[1:])
    bytes_before, tried = OLD.read_bytes(), 0
    old.write_bytes(bytes_before)
    shortener.run(SHORTEN, b"")
    whole = new.read_bytes()
    for tried in each_refused(shortener, SHORTEN, b"", SHORTER, lambda: new.unlink(missing_ok=True)):
        left = new.read_bytes() if new.exists() else b""
        if old.read_bytes() != bytes_before:
            complaints.append(f"{SHORTEN} without allocation {tried} changes the old journal")
        if left != whole and len(left) > MOST_FRESH and left[8] == 1:
            complaints.append(f"{SHORTEN} without allocation {tried} leaves another new journal")
    return tried


def library_in(folder):
    """The library, compiled by the kit's compiler or another one; none where there is none."""
    source, library = os.path.join(folder, "refusing.c"), os.path.join(folder, "refusing.so")
    pathlib.Path(source).write_text(REFUSING)
    kit = shutil.which("rt") and os.path.join(os.path.dirname(os.path.realpath(shutil.which("rt"))), "..", "toolchain", "bin", "clang")
    for compiler in (shutil.which("cc"), shutil.which("clang"), shutil.which("gcc"), kit):
        if compiler and subprocess.run([compiler, "-O1", "-shared", "-fPIC", "-w", "-o", library, source], stderr=subprocess.DEVNULL).returncode == 0:
            return library
    return None


def main():
    with tempfile.TemporaryDirectory() as folder:
        library = library_in(folder)
        if library is None:
            print("look: no C compiler is here, so no allocation was refused", file=sys.stderr)
            return 0
        program = Program(os.path.abspath(sys.argv[1]), library, folder)
        tried = [
            sum(1 for _ in each_refused(program, ["-", "verify"], CERTIFICATE, (0, VERIFIED))),
            sum(1 for _ in each_refused(program, ["-", *SOLVE], ROOTS, WHOLE)),
            try_file(program),
            try_lesson(program),
        ]
        if len(sys.argv) > 2:
            tried.append(try_shortening(Program(os.path.abspath(sys.argv[2]), library, folder)))
    if 0 in tried:
        print("look: no library can be put before the C library here, so no allocation was refused", file=sys.stderr)
        return 0
    print(*(f"look: {line}" for line in complaints), sep="\n", end="\n" if complaints else "", file=sys.stderr)
    said = "{} allocations of `verify`, {} of `solve` in memory and {} on a file, {} of `learn`, {} of `journal_shorten`".format(*tried, *([0] * (5 - len(tried))))
    print(f"refused memory: {said}, each once", file=sys.stderr)
    return 1 if complaints else 0


if __name__ == "__main__":
    sys.exit(main())
