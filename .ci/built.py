#!/usr/bin/env python3
"""Tries the scripts that build, start and install the programs, in a copy of the repository with files of one byte each and a
toolchain that proves nothing: it waits a little for each crate, and gives a program that copies its input and its words.

It fails where a build that runs does not say which crate of how many is proved, each once; where one that is stopped does not
end, or begins again from the front; where a run of a built program calls the toolchain, says anything of its own, or costs more
than 40 ms of processor time, twice what is wanted, since a gate may run on a slow machine; where a source that changed is not seen;
and where what is installed does not run by itself, or is not complete.
"""
import os
import pathlib
import pty
import re
import resource
import shutil
import signal
import subprocess
import sys
import tempfile
import time

TOP = pathlib.Path(__file__).resolve().parent.parent
NAME = "opening_bench"
BEGUN = re.compile(rf"{NAME}: proving crate (\d+) of (\d+), ([a-z_]+), \d+:\d\d")
CRATES = ["bench_core", "disk_journal", "tree_manager", "journal_runs", NAME]
MOST_MILLISECONDS = 40
SECONDS_A_CRATE = 0.4
RT = f"""#!/bin/sh
echo "$1" >>"$FAKE/calls"
[ "$1" = run ] || exec echo 'a toolchain of no use'
program=$(basename "$PWD")
for crate in $(cat "$FAKE/crates"); do
    [ -e "../$crate/out/rlib/stamp" ] && continue
    echo "rt: chose --jobs 2 for $crate"
    sleep {SECONDS_A_CRATE}
    while [ "$crate" = {CRATES[3]} ] && [ -e "$FAKE/held" ]; do sleep 0.1; done
    mkdir -p "../$crate/out/rlib"
    : >"../$crate/out/rlib/stamp"
done
[ ! -e "$FAKE/edits" ] || echo '// edited while it was built' >>"$(cat "$FAKE/edits")"
printf '#!/bin/sh\\n[ "$1" = --version ] && exit\\ncat\\necho "%s $@"\\nexit 7\\n' "$program" >"out/$program"
chmod +x "out/$program"
"""


class Fake:
    """A copy of these crates, and what is wrong with it."""

    def __init__(self, folder, crates):
        self.top, self.rt, self.faults = folder / "a copy", folder / "rt", []
        for crate in crates:
            for root, folders, files in os.walk(TOP / "crates" / crate):
                folders[:] = [name for name in folders if name not in ("out", "must-fail", "more-edits", "data")]
                (self.top / os.path.relpath(root, TOP)).mkdir(parents=True)
                for name in files:
                    (self.top / os.path.relpath(root, TOP) / name).write_bytes(b"\n")
        for name in ("bin", "completions"):
            shutil.copytree(TOP / name, self.top / name)
        (self.top / "docs").mkdir()
        for path in [TOP / "crates.txt", TOP / "HANDLES", *TOP.glob("docs/*.1")]:
            shutil.copy(path, self.top / path.relative_to(TOP))
        self.rt.mkdir()
        (self.rt / "rt").write_text(RT, encoding="utf-8")
        (self.rt / "rt").chmod(0o755)
        (self.rt / "crates").write_text("\n".join(CRATES), encoding="utf-8")
        self.how = {"env": {**os.environ, "PATH": f"{self.rt}:{os.environ['PATH']}", "FAKE": str(self.rt)}, "cwd": folder}
        self.program = self.top / "bin" / NAME

    def expect(self, is_so, what):
        if not is_so:
            self.faults.append(what)

    def calls(self):
        """What the toolchain was called for since this was asked last."""
        try:
            return (self.rt / "calls").read_text(encoding="utf-8").split()
        finally:
            (self.rt / "calls").write_text("", encoding="utf-8")

    def run(self):
        ran = subprocess.run([self.program, "a b", "c"], input=b"in\n", capture_output=True, check=False, **self.how)
        wrote = (ran.returncode, ran.stdout)
        self.expect(wrote == (7, b"in\n%s a b c\n" % NAME.encode()), f"a run ends with {wrote}")
        return ran.stderr.decode()


def due(names):
    """What a build says of these crates: their places among those that the program stands on, each behind those below it."""
    lines = (TOP / "crates.txt").read_text(encoding="utf-8").splitlines()
    heads = [line.partition(":") for line in lines if ":" in line and not line.startswith("#")]
    lows = {head.split()[0]: rest.split() for head, _, rest in heads}
    order = []

    def visit(name):
        if name in lows and name not in order:
            for low in lows[name]:
                visit(low)
            order.append(name)

    visit(NAME)
    return [(str(order.index(name) + 1), str(len(order)), name) for name in names]


def is_stopped_and_goes_on(fake):
    # However slow this script is, the build stands still before its last crates until it is stopped.
    held = fake.rt / "held"
    held.touch()
    building = subprocess.Popen([fake.program], stdin=subprocess.DEVNULL, stderr=subprocess.PIPE, **fake.how)
    for line in building.stderr:
        if BEGUN.match(line.decode()):
            break
    building.send_signal(signal.SIGTERM)
    fake.expect(building.wait() == 130, f"a build that is stopped ends with {building.returncode}")
    stamps = list(fake.top.glob("crates/*/out/rlib/stamp"))
    held.unlink()
    time.sleep(2 * SECONDS_A_CRATE)
    fake.expect(stamps == list(fake.top.glob("crates/*/out/rlib/stamp")), "the toolchain goes on behind a build that was stopped")
    fake.expect(len(stamps) < len(CRATES), "a build was not stopped")
    again = BEGUN.findall(fake.run())
    fake.expect(again == due(CRATES[len(stamps):]), f"a build that goes on behind {len(stamps)} crates of {CRATES} says {again}")


def says_one_line_at_a_terminal(fake):
    for name in CRATES[2:]:
        shutil.rmtree(fake.top / "crates" / name / "out/rlib")
    (fake.top / "crates" / NAME / "out" / NAME).unlink()
    ours, theirs = pty.openpty()
    building = subprocess.Popen([fake.program], stdin=subprocess.DEVNULL, stdout=subprocess.DEVNULL, stderr=theirs, **fake.how)
    os.close(theirs)
    said = b""
    try:
        while part := os.read(ours, 4096):
            said += part
    except OSError:
        pass
    building.wait()
    lines = said.decode().split("\n")
    fake.expect(len(lines) == 2 and BEGUN.search(lines[1]) and lines[1].endswith("\r\033[K"), f"at a terminal a build says {lines}")


def costs_little(fake):
    built = fake.top / "crates" / NAME / "out" / NAME
    fake.run()
    fake.calls()
    kept = built.read_bytes()
    shutil.copy(shutil.which("true"), built)
    spent = []
    while not spent or min(spent) > MOST_MILLISECONDS and len(spent) < 10:
        before = resource.getrusage(resource.RUSAGE_CHILDREN)
        for _ in range(5):
            subprocess.run([fake.program], check=False, **fake.how)
        after = resource.getrusage(resource.RUSAGE_CHILDREN)
        spent.append(200 * (after.ru_utime + after.ru_stime - before.ru_utime - before.ru_stime))
    fake.expect(min(spent) <= MOST_MILLISECONDS, f"a run of a built program costs {min(spent):.1f} ms of processor time")
    built.write_bytes(kept)
    fake.expect(fake.run() == "" and fake.calls() == [], "a run of a built program says something, or calls the toolchain")


def sees_changes(fake):
    source = fake.top / "crates/fen_text/src/lib.rt"
    old = source.stat().st_mtime - 1e6

    def edit_and_set_back():
        source.write_text("// another\n", encoding="utf-8")
        os.utime(source, (old, old))

    def move_an_older_one_here():
        other = fake.top / "older"
        other.write_text("// an older one\n", encoding="utf-8")
        os.utime(other, (old, old))
        other.replace(source)

    def swap_folders():
        (source.parent).rename(fake.top / "away")
        shutil.copytree(fake.top / "away", source.parent)
        source.write_text("// of another folder\n", encoding="utf-8")

    changes = {
        "a text that was added": lambda: source.write_text("// more\n", encoding="utf-8"),
        "an edit whose time is set back": edit_and_set_back,
        "an older file that is moved here": move_an_older_one_here,
        "a folder in place of another": swap_folders,
        "a new file": lambda: (source.parent / "new.rt").write_text("//\n", encoding="utf-8"),
        "a file that is gone": (source.parent / "new.rt").unlink,
        "another crates.txt": lambda: (fake.top / "crates.txt").open("a", encoding="utf-8").write("# more\n"),
        "a folder that is gone": lambda: shutil.rmtree(fake.top / "crates/fen_text/specs"),
    }
    fake.calls()
    for what, change in changes.items():
        change()
        fake.run()
        fake.expect("run" in fake.calls(), f"{what} is not seen")
        fake.run()
        fake.expect(fake.calls() == [], f"behind {what} the toolchain is called twice")
    source.touch()
    fake.run()
    fake.expect(fake.calls() == ["version"], "a file that is only touched is built again, or not looked at")
    (fake.rt / "edits").write_text(str(source), encoding="utf-8")
    (source.parent / "new.rt").write_text("//\n", encoding="utf-8")
    fake.run()
    (fake.rt / "edits").unlink()
    fake.calls()
    fake.run()
    fake.expect("run" in fake.calls(), "a source that is edited while it is built is not seen")


def is_installed(fake):
    installing = subprocess.run([fake.top / "bin/install", "a prefix"], capture_output=True, check=False, **fake.how)
    fake.expect(installing.returncode == 0, f"installing ends with {installing.returncode} and says {installing.stderr.decode()}")
    prefix = fake.how["cwd"] / "a prefix"
    for name in (NAME, "game_reader", "strategy_player", "journal_view", "journal_shorten"):
        how = {"input": b"in\n", "stdout": subprocess.PIPE, "env": {"PATH": "/usr/bin:/bin"}, "check": False}
        wrote = subprocess.run([prefix / "bin" / name, "a b"], **how).stdout
        fake.expect(wrote == b"in\n%s a b\n" % name.encode(), f"where it is installed {name} writes {wrote}")
        for path in (f"man/man1/{name}.1", f"zsh/site-functions/_{name}", f"fish/vendor_completions.d/{name}.fish"):
            fake.expect((prefix / "share" / path).stat().st_size > 0, f"share/{path} is empty")
        completing = f'. "$0"; COMP_WORDS=({name} ""); COMP_CWORD=1; _{name}; echo "${{COMPREPLY[@]}}"'
        words = ["bash", "-c", completing, prefix / "share/bash-completion/completions" / name]
        completed = subprocess.run(words, stdout=subprocess.PIPE, check=False).stdout
        fake.expect(b"--version" in completed, f"bash completes no word of {name}")


def main():
    faults = []
    with tempfile.TemporaryDirectory(prefix="built-") as folder:
        fake = Fake(pathlib.Path(folder), [*CRATES, "fen_text", "game_reader", "strategy_player", "journal_view", "journal_shorten"])
        for look in (is_stopped_and_goes_on, says_one_line_at_a_terminal, sees_changes, is_installed):
            look(fake)
        faults += fake.faults
    with tempfile.TemporaryDirectory(prefix="built-") as folder:
        fake = Fake(pathlib.Path(folder), [path.name for path in (TOP / "crates").iterdir()])
        (fake.rt / "crates").write_text("", encoding="utf-8")
        costs_little(fake)
        faults += fake.faults
    for fault in faults:
        print(f"look: {fault}", file=sys.stderr)
    sys.exit(1 if faults else 0)


main()
