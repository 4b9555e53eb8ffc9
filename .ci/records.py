#!/usr/bin/env python3
"""A plain reader of journals and of their records, written from docs/FORMATS.md alone, and what the programs have to say by it.

Without words it works out what crates/records_trial has to print, by dice of the same make. Then a journal that `solve` makes is
written again with the records of either version, and of both mixed: `report` has to write the same of each. Each byte of the mixed
journal is changed, and it is cut behind each byte: where this reader finds no record, `report` has to refuse that payload, and
nothing before the change may be refused. The journals of `examples/version_1`, which stood in the tests before version 2 did, have to
be reported as the files beside them say. An argument names another program.

With the words `version N OLD NEW` it writes a journal again with the records of version N, 1 or 2.
"""
import concurrent.futures
import pathlib
import random
import subprocess
import sys
import tempfile

TOP = pathlib.Path(__file__).resolve().parent.parent
HEAD = b"DRBENCH"
MOST_LONG = 2 ** 64 - 1


class BadField(Exception):
    """A field that is not whole or not allowed; its argument is its place."""


def is_position(field):
    """Whether 17 bytes are a position."""
    black_men, black_kings, white_men, white_kings = (int.from_bytes(field[at:at + 4], "big") for at in (1, 5, 9, 13))
    black, white = black_men | black_kings, white_men | white_kings
    return (field[0] <= 1 and not black_men & black_kings and not white_men & white_kings and not black & white
            and black.bit_count() <= 12 and white.bit_count() <= 12
            and not black_men & 0xf0000000 and not white_men & 0xf)


class Record:
    """A record read from its payload, behind the positions named before. `named` is the list behind it, a dict from position to
    number, and `sheet` is what it says: bytes, and tuples of one position."""

    def __init__(self, payload, named, listed):
        self.payload, self.at, self.named, self.listed, self.new, self.sheet = payload, 1, named, listed, {}, []
        self.first = []  # the positions of `new`, in order
        self.short = payload[0] >= 4
        if payload[0] in (1, 4):
            self.position(())
            return
        self.number(8, 0, MOST_LONG)
        if payload[0] != 3:
            self.position(())
            for _ in range(self.number(1, 1, 4)):
                self.certificate()

    def field(self, width):
        if self.at + width > len(self.payload):
            raise BadField(self.at)
        self.at += width
        return self.payload[self.at - width:self.at]

    def number(self, width, least, most):
        at = self.at
        field = self.field(width)
        if not least <= int.from_bytes(field, "big") <= most:
            raise BadField(at)
        self.sheet.append(field)
        return int.from_bytes(field, "big")

    def is_named(self, p):
        return p in self.named or p in self.new

    def in_full(self):
        at = self.at
        p = self.field(17)
        if not is_position(p):
            raise BadField(at)
        return p

    def position(self, others):
        at = self.at
        count = len(self.listed) + len(self.new)
        if not self.short:
            p = self.in_full()
            if p in others:
                raise BadField(at)
        else:
            n = int.from_bytes(self.field(4), "big")
            if n > count or n == 2 ** 32 - 1:
                raise BadField(at)
            if n < count:
                p = self.listed[n] if n < len(self.listed) else self.first[n - len(self.listed)]
                if p in others:
                    raise BadField(at)
            else:
                p = self.in_full()
                if self.is_named(p):
                    raise BadField(at + 4)
        if not self.is_named(p):
            self.new[p] = count
            self.first.append(p)
        self.sheet.append((p,))
        return p

    def certificate(self):
        claim, part = self.number(1, 1, 4), set()
        for _ in range(self.number(4, 0, 2 ** 32 - 1)):
            part.add(self.position(part))
            if claim <= 2:
                self.number(8, 0, 2 ** 40)
            at = self.at
            count = self.number(1, 0, 13)
            if count == 1:
                raise BadField(at)
            for _ in range(count):
                self.number(1, 1, 32)


def read_record(payload, named, listed):
    """What is answered: a word and a place, and the record where it is read."""
    if not payload or not 1 <= payload[0] <= 5:
        return "kind", None, None
    try:
        record = Record(payload, named, listed)
    except BadField as bad:
        return "field", bad.args[0], None
    if record.at < len(payload):
        return "trailing", record.at, None
    return "read", None, record


def go_on(record, named, listed):
    """The list gets the positions that the record names first."""
    named.update(record.new)
    listed.extend(record.new)


def text(kind, sheet, version, named):
    """The record of this sheet in this version, behind these positions."""
    new, out = {}, [bytes([{1: kind, 2: kind if kind == 3 else kind + 3}[version]])]
    for item in sheet:
        if isinstance(item, bytes):
            out.append(item)
            continue
        p = item[0]
        number = named.get(p, new.get(p))
        if version == 1:
            out.append(p)
        elif number is not None:
            out.append(number.to_bytes(4, "big"))
        else:
            new[p] = len(named) + len(new)
            out.append(new[p].to_bytes(4, "big") + p)
    return b"".join(out)


# ---- the dice of records_trial


class Pcg32:
    """The generator of that name, by its paper."""

    def __init__(self, state, stream):
        self.step_by = stream << 1 | 1
        self.state = state + self.step_by & MOST_LONG
        self.word()

    def word(self):
        old = self.state
        self.state = old * 6364136223846793005 + self.step_by & MOST_LONG
        turn, bits = old >> 59, (old >> 18 ^ old) >> 27 & 0xffffffff
        return (bits >> turn | bits << 32 - turn) & 0xffffffff

    def roll(self, bound):
        return self.word() % bound

    def mask(self, free):
        return self.word() & self.word() & self.word() & self.word() & free


POOL, JOURNALS, RECORDS, CHANGES = 6, 4, 6, (1, 3, 128, 255)


def dice_position(dice):
    black_men = dice.mask(0x0fffffff)
    black_kings = dice.mask(~black_men & 0xffffffff)
    white_men = dice.mask(~(black_men | black_kings) & 0xfffffff0)
    white_kings = dice.mask(~(black_men | black_kings | white_men) & 0xffffffff)
    masks = (black_men, black_kings, white_men, white_kings)
    return bytes([dice.roll(2)]) + b"".join(mask.to_bytes(4, "big") for mask in masks)


def dice_certificate(dice, pool):
    claim, count, first = 1 + dice.roll(4), dice.roll(5), dice.roll(POOL)
    sheet = [bytes([claim]), count.to_bytes(4, "big")]
    for place in range(first, first + count):
        sheet.append((pool[place % POOL],))
        if claim <= 2:
            sheet.append(dice.word().to_bytes(8, "big"))
        squares = dice.roll(14)
        squares = 0 if squares == 1 else squares
        sheet += [bytes([squares])] + [bytes([1 + dice.roll(32)]) for _ in range(squares)]
    return sheet


def dice_record(dice, pool):
    """The kind of version 1, and the sheet."""
    own, sort = pool[dice.roll(POOL)], dice.roll(4)
    if sort == 0:
        return 1, [(own,)]
    node = dice.word().to_bytes(8, "big")
    if sort == 1:
        return 3, [node]
    count = 1 + dice.roll(4)
    sheet = [node, (own,), bytes([count])]
    for _ in range(count):
        sheet += dice_certificate(dice, pool)
    return 2, sheet


def damaged(payload):
    """Each front of the payload, each of its bytes as others, and the payload with a byte more."""
    for length in range(len(payload)):
        yield payload[:length]
    for at, byte in enumerate(payload):
        for change in CHANGES:
            yield payload[:at] + bytes([(byte + change) % 256]) + payload[at + 1:]
    yield payload + b"\0"


def trial():
    """What records_trial has to print."""
    tally, names = dict.fromkeys(("read", "kind", "field", "trailing"), 0), 0
    for seed in range(1, JOURNALS + 1):
        dice, named, listed = Pcg32(seed, 1), {}, []
        pool = [dice_position(dice) for _ in range(POOL)]
        for _ in range(RECORDS):
            kind, sheet = dice_record(dice, pool)
            for version in (1, 2):
                payload = text(kind, sheet, version, named)
                answer, _, record = read_record(payload, named, listed)
                if answer != "read" or text(kind, sheet, 1, {}) != text(kind, record.sheet, 1, {}):
                    raise SystemExit("records: a record by the dice is not read")
                for other in damaged(payload):
                    tally[read_record(other, named, listed)[0]] += 1
            go_on(record, named, listed)
            dice.roll(2)
        names += len(listed)
    return (f"{JOURNALS} journals of {RECORDS} records in two versions, {names} positions named\n"
            f"damaged: {tally['read']} read, {tally['kind']} of no kind, {tally['field']} with a bad field, "
            f"{tally['trailing']} with bytes behind\n")


# ---- whole journals


def payloads_of(data):
    """The payloads of a journal, each with the place of its length; or the place at which the file is damaged."""
    if len(data) <= 9:
        return []
    found, gate = [], 8
    while True:
        if gate >= len(data):
            return gate
        if data[gate] != 1:
            return found
        at, end = gate + 9, gate + 9 + int.from_bytes(data[gate + 1:gate + 9], "big")
        if at > len(data) or end > len(data) or at == end:
            return gate
        while at < end:
            length = int.from_bytes(data[at:at + 4], "big")
            if at + 4 > end or length == 0 or at + 4 + length > end:
                return gate
            found.append((at, data[at + 4:at + 4 + length]))
            at += 4 + length
        gate = end


def written_again(data, version_of):
    """The journal with each record in the version that is answered for its number. Each stands in a frame of its own."""
    out, named, listed = [data[:8]], {}, []
    for number, (_, payload) in enumerate(payloads_of(data)):
        record = read_record(payload, named, listed)[2]
        kind = {4: 1, 5: 2}.get(payload[0], payload[0])
        again = text(kind, record.sheet, version_of(number), named)
        out.append(b"\1" + (4 + len(again)).to_bytes(8, "big") + len(again).to_bytes(4, "big") + again)
        go_on(record, named, listed)
    return b"".join(out) + b"\0"


def may_say(before, data):
    """The refusals that `report` may write of the changed journal, and whether it may write a report: what stands before the change
    is lawful as it was, and of what stands behind it this reader cannot tell. With the other table it cannot tell of any record."""
    if len(data) > 9 and (data[:7] != HEAD or data[7] not in (2, 3)):
        return ["refused journal not-a-journal"], False
    found = payloads_of(data)
    if isinstance(found, int):
        return [f"refused journal damaged byte {found}"], False
    named, listed, lines, is_same = {}, [], [], data[7:8] == b"\2"
    for (at, payload), known in zip(found, before + [(None, None)] * len(found)):
        is_same = is_same and (at, payload) == known
        if not is_same:
            lines.append(f"refused journal damaged byte {at}")
        record = read_record(payload, named, listed)[2]
        if record is None:
            return lines, False
        go_on(record, named, listed)
    return lines, True


def report_of(program, path):
    run = subprocess.run([program, path, "report"], stdin=subprocess.DEVNULL, capture_output=True, check=False)
    return run.returncode, run.stdout.decode()


def fault_of(program, folder, number, before, data):
    """What is wrong with the report of a changed journal."""
    path = pathlib.Path(folder) / f"{number}.journal"
    path.write_bytes(data)
    status, written = report_of(program, path)
    path.unlink()
    lines, any_report = may_say(before, data)
    if status in (0, 1) and any_report or status == 5 and written.rstrip("\n") in lines:
        return None
    return f"change {number} is answered {status} {written!r}; due is one of {lines}, or a report: {any_report}"


def look(program):
    """The faults of the program on whole journals."""
    games = b'[FEN "W:W16,23:B12"] *\n[FEN "W:W14,22:B9"] *\n[FEN "B:WK27:BK24,K32"] *\n[FEN "B:W26,30:B17,18"] *\n'
    with tempfile.TemporaryDirectory() as folder:
        path = pathlib.Path(folder) / "first.journal"
        subprocess.run([program, path, "solve", "--depth", "3", "--budget", "12"], input=games, stdout=subprocess.DEVNULL, check=False)
        first = path.read_bytes()
        kinds = {payload[0] for _, payload in payloads_of(first)}
        faults = [] if kinds == {3, 4, 5} else [f"solve writes records of the kinds {sorted(kinds)}"]
        due = report_of(program, path)
        chance = random.Random(1)
        versions = [chance.choice((1, 2)) for _ in payloads_of(first)]
        mixed = written_again(first, lambda number: versions[number])
        for name, again in (("1", written_again(first, lambda _: 1)), ("2", written_again(first, lambda _: 2)), ("1 and 2", mixed)):
            path.write_bytes(again)
            if report_of(program, path) != due:
                faults.append(f"another report of the records in version {name}")
        before = payloads_of(mixed)
        changed = [mixed[:at] + bytes([mixed[at] + change & 255]) + mixed[at + 1:] for at in range(len(mixed)) for change in (1, 255)]
        changed += [mixed[:length] for length in range(len(mixed))]
        with concurrent.futures.ThreadPoolExecutor(4) as pool:
            found = pool.map(lambda case: fault_of(program, folder, case[0], before, case[1]), enumerate(changed))
            faults += [fault for fault in found if fault][:5]
    print(f"records: {len(before)} records of both versions in {len(mixed)} bytes, {len(changed)} changed journals looked at")
    return faults


def look_at_kept(program):
    """The faults of the program on the journals of version 1 that are kept."""
    faults = []
    for path in sorted((TOP / "examples/version_1").glob("*.journal")):
        before = path.read_bytes()
        run = subprocess.run([program, path, "report"], stdin=subprocess.DEVNULL, capture_output=True, check=False)
        if run.stdout != path.with_suffix(".written").read_bytes() or path.read_bytes() != before:
            faults.append(f"{path.name} is reported as {run.stdout!r}")
    return faults


def main():
    if sys.argv[1:2] == ["version"]:
        version, old, new = int(sys.argv[2]), pathlib.Path(sys.argv[3]), pathlib.Path(sys.argv[4])
        new.write_bytes(written_again(old.read_bytes(), lambda _: version))
        return 0
    if len(sys.argv) > 1:
        program = sys.argv[1]
    else:
        subprocess.run([TOP / "bin/opening_bench", "--version"], stdout=subprocess.DEVNULL, check=True)
        program = TOP / "crates/opening_bench/out/opening_bench"
    faults = look_at_kept(program) + look(program)
    if trial() != (TOP / "crates/records_trial/stdout").read_text():
        faults.append("records_trial is to print something else")
    for fault in faults:
        print(f"records: {fault}", file=sys.stderr)
    return 1 if faults else 0


if __name__ == "__main__":
    sys.exit(main())
