#!/usr/bin/env python3
"""Runs a command that searches with a terminal on standard error, and without one.

Standard output has to be the same byte for byte, and the exit status too. The terminal has to show one line of progress that is
rewritten, once a second at most, whose numbers do not fall, and that is cleared at the end. What is no terminal has to get
one line a minute at most, and none in the first one: a run that stands still for a minute has one line when it goes on, and no
second one before the next minute. A terminal that has both streams shows that a journal is read and that certificates are joined,
and then the report from the line's begin on. How long the held run works is told by its processor time, so a busy machine changes
nothing. An argument names another program.
"""
import os
import pathlib
import pty
import re
import select
import signal
import subprocess
import sys
import tempfile
import time

TOP = pathlib.Path(__file__).resolve().parent.parent
WORDS = ["-", "generate", "7", "100"]
SAID = rb"records (\d+) of (\d+), roots settled (\d+) of (\d+)(?:, root \d+ in work, \d+ searches/s(?:, \d+ positions)?)?"
LINE = re.compile(rb"\r" + SAID + rb"\x1b\[K")
LOGGED = re.compile(SAID + rb"\n")
CLEAR = b"\r\x1b[K"
READ = b"\rreading the journal and joining certificates\x1b[K" + CLEAR + b"roots 0 settled 0 unsolved 0\r\n"
JOINED = (b"\rreading the journal\x1b[K" + CLEAR + b"\rjoining certificates\x1b[K" + CLEAR +
          b"root 1 W:W16,23:B12 white-wins\r\nroots 1 settled 1 unsolved 0\r\n")


def at_terminal(program, words, has_both=False, source=os.devnull):
    """What it writes to standard output and to the terminal, how it ended, and how many seconds it took."""
    ours, theirs = pty.openpty()
    begun = time.monotonic()
    where = {"stdout": theirs if has_both else subprocess.PIPE, "stderr": theirs}
    with open(source, "rb") as read, subprocess.Popen([program, *words], stdin=read, **where) as run:
        os.close(theirs)
        shown = b""
        while True:
            try:
                part = os.read(ours, 4096)
            except OSError:  # the other end is closed
                break
            if not part:
                break
            shown += part
        output = b"" if has_both else run.stdout.read()
        status = run.wait()
    os.close(ours)
    return output, shown, status, time.monotonic() - begun


def worked(run):
    """How many seconds of processor time a run has taken; none of one that has ended."""
    if run.poll() is not None:
        return 0.0
    fields = pathlib.Path(f"/proc/{run.pid}/stat").read_text(encoding="utf-8").rpartition(")")[2].split()
    return (int(fields[11]) + int(fields[12])) / os.sysconf("SC_CLK_TCK")


def held(program):
    """Begins a run without a terminal that has minutes of work, and holds it once it has worked for half a second."""
    words = [program, "-", "solve", "--depth", "6", "--budget", "1000000"]
    run = subprocess.Popen(words, stdin=subprocess.PIPE, stdout=subprocess.DEVNULL, stderr=subprocess.PIPE)
    run.stdin.write(b"*")
    run.stdin.close()
    while run.poll() is None and worked(run) < 0.5:
        time.sleep(0.05)
    run.send_signal(signal.SIGSTOP)
    return run, time.monotonic()


def faults_of_held(run, since):
    """What is wrong with what the held run writes when it goes on, a minute later: a line within two seconds of work, and no second one."""
    time.sleep(max(0, since + 60 - time.monotonic()))
    before, begun, said = worked(run), time.monotonic(), b""
    run.send_signal(signal.SIGCONT)
    while run.poll() is None and worked(run) < before + (4 if said else 2):
        if select.select([run.stderr], [], [], 0.1)[0]:
            said += os.read(run.stderr.fileno(), 4096)
    ended, minutes = run.poll(), (time.monotonic() - begun) // 60
    run.kill()
    said += run.stderr.read()
    if ended is not None:
        yield f"a run with minutes of work ends with {ended} behind a minute in which it was held, and says {said[:200]!r}"
    if LOGGED.sub(b"", said) or not 1 <= len(LOGGED.findall(said)) <= 1 + minutes:
        yield f"where standard error is no terminal it gets {said[:200]!r} behind a minute in which the run was held"


def main():
    if len(sys.argv) > 1:
        program = sys.argv[1]
    else:
        subprocess.run([TOP / "bin/opening_bench", "--version"], stdout=subprocess.DEVNULL, check=True)
        program = TOP / "crates/opening_bench/out/opening_bench"
    waits, since = held(program)
    output, shown, status, seconds = at_terminal(program, WORDS)
    begun = time.monotonic()
    plain = subprocess.run([program, *WORDS], stdin=subprocess.DEVNULL, capture_output=True, check=False)
    minutes = (time.monotonic() - begun) // 60
    faults = []
    if LOGGED.sub(b"", plain.stderr) or len(LOGGED.findall(plain.stderr)) > minutes:
        faults.append(f"where standard error is no terminal it gets in {minutes:.0f} minutes {plain.stderr[:200]!r}")
    if (output, status) != (plain.stdout, plain.returncode):
        faults.append("standard output or the exit status is another one at a terminal")
    lines = [tuple(map(int, found)) for found in LINE.findall(shown)]
    if LINE.sub(b"", shown) != CLEAR or not lines:
        faults.append(f"the terminal shows no lines of progress, or others too: {shown[:200]!r}")
    if len(lines) > seconds + 1:
        faults.append(f"{len(lines)} lines in {seconds:.1f} seconds")
    for before, after in zip(lines, lines[1:]):
        if after[0] < before[0] or after[2] < before[2] or (after[1], after[3]) != (before[1], before[3]):
            faults.append(f"the numbers fall: {before}, {after}")
    if any(settled > roots for _, _, settled, roots in lines):
        faults.append("more roots are settled than there are")
    with tempfile.TemporaryDirectory() as folder:
        open(f"{folder}/journal", "wb").close()
        read = at_terminal(program, [f"{folder}/journal", "report"], has_both=True)[1]
        first = TOP / "examples/first.pdn"
        joined = at_terminal(program, [f"{folder}/journal", "solve", "--depth", "1"], has_both=True, source=first)[1]
    if read != READ or LINE.sub(b"", joined) != JOINED:
        faults.append(f"a terminal shows other reports: {read[:200]!r}, {joined[:400]!r}")
    faults += faults_of_held(waits, since)
    for fault in faults:
        print(f"progress: {fault}", file=sys.stderr)
    return 1 if faults else 0


if __name__ == "__main__":
    sys.exit(main())
