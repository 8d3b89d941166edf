#!/usr/bin/env python3
"""A second reader and a second writer of turn files, which follow docs/FORMAT.md.

They share no code with the Rattle reader and writer, and what they say of each case is what those are held to.

    second_reader.py read FILE     print the file as `inspect` does
    second_reader.py cases         write stdin and stdout of crates/vectors, crates/inspect and crates/compose
    second_reader.py examples      write the files of examples/
    second_reader.py texts         compare the built program `compose` with a second reader of texts

A case of crates/vectors is a line of its stdin: a file in hexadecimal, or a plan and the space that is lent for it
(`plan_line` has the form). The same line of its stdout is the answer.
"""

import random
import subprocess
import sys
from copy import deepcopy
from dataclasses import dataclass
from itertools import chain, groupby
from pathlib import Path

ROOT = Path(__file__).resolve().parent.parent
LONGEST = 60_000
MOST_WORKERS = 64
TICKET, MCS = 1, 2
NAMES = {TICKET: "ticket", MCS: "mcs"}

# The kinds of record, as a fault names them.
NONE, LEVELS, LEVEL, SCRIPT, SCHEDULE = range(5)


@dataclass
class Plan:
    """levels: (algorithm, fan-out, handoff limit or None); scripts: (turns, rest, hold); schedule: workers."""

    levels: list
    scripts: list
    schedule: list

    def workers(self):
        product = 1
        for _, fan_out, _ in self.levels:
            product *= fan_out
        return product


class Fault(Exception):
    """The four numbers of a fault: cause, place, kind, layer."""


# ---- reading


def number_at(file, at, kind):
    """The number whose first byte is at `at`, and the place after it."""
    value = 0
    for group in range(5):
        if at + group >= len(file):
            raise Fault(1, at, kind, 1)
        byte = file[at + group]
        if group > 0 and byte == 0:
            raise Fault(2, at, kind, 1)
        if group == 4 and byte >= 0x10:
            raise Fault(3, at, kind, 1)
        value |= (byte & 0x7F) << (7 * group)
        if byte < 0x80:
            return value, at + group + 1
    raise AssertionError("a fifth byte is below 10 hex, so it ends the number")


class Numbers:
    """The numbers of a file, from the first to the last."""

    def __init__(self, file):
        self.file = file
        self.at = 0

    def take(self, kind, cause=None, least=0, most=2**32 - 1):
        place = self.at
        value, self.at = number_at(self.file, place, kind)
        if not least <= value <= most:
            raise Fault(cause, place, kind, 2)
        return value


def read_plan(file):
    if len(file) > LONGEST:
        raise Fault(11, LONGEST, NONE, 3)
    numbers = Numbers(file)
    levels, workers = [], 1
    for rank in range(numbers.take(LEVELS, 4, 1, 4)):
        algorithm = numbers.take(LEVEL, 5, 1, 2)
        fan_out = numbers.take(LEVEL, 6, 1, MOST_WORKERS // workers)
        limit = numbers.take(LEVEL, 7, 1, 65_535) if rank > 0 else None
        levels.append((algorithm, fan_out, limit))
        workers *= fan_out
    scripts = [tuple(numbers.take(SCRIPT, 8, 0, 65_535) for _ in range(3)) for _ in range(workers)]
    count = numbers.take(SCHEDULE)
    schedule = []
    while len(schedule) < count:
        schedule.append(numbers.take(SCHEDULE, 9, 0, workers - 1))
    if numbers.at < len(file):
        raise Fault(10, numbers.at, NONE, 3)
    return Plan(levels, scripts, schedule)


def read(file):
    """('ok', plan) or ('fault', cause, place, kind, layer)."""
    try:
        return ("ok", read_plan(bytes(file)))
    except Fault as fault:
        return ("fault", *fault.args)


# ---- writing


def groups(value):
    """The bytes of a number."""
    out = []
    while value >= 0x80:
        out.append(0x80 | value & 0x7F)
        value >>= 7
    return bytes(out + [value])


def plan_numbers(plan):
    """All numbers of a plan, in the file's order."""
    yield len(plan.levels)
    for level in plan.levels:
        yield from (number for number in level if number is not None)
    for script in plan.scripts:
        yield from script
    yield len(plan.schedule)
    yield from plan.schedule


def write(plan):
    return b"".join(map(groups, plan_numbers(plan)))


@dataclass
class Tables:
    """A plan as a writer is given it: tables of which a part is used, and numbers that may not fit.

    levels: [algorithm, fan-out, handoff limit], the top level too; scripts: [turns, rest, hold]; schedule: entries.
    What is missing of four levels and 64 scripts is blank.
    """

    count: int
    levels: list
    scripts: list
    schedule: list

    def used_levels(self):
        return (self.levels + [[TICKET, 0, 0]] * 4)[: self.count]

    def used_scripts(self, workers):
        return (self.scripts + [[0, 0, 0]] * MOST_WORKERS)[:workers]


def tables_of(plan):
    levels = [[algorithm, fan_out, limit or 0] for algorithm, fan_out, limit in plan.levels]
    return Tables(len(levels), levels, [list(script) for script in plan.scripts], list(plan.schedule))


class Judged:
    """The file of a plan, as far as its numbers have been judged."""

    def __init__(self):
        self.file = bytearray()

    def put(self, value, kind, cause=None, least=0, most=2**32 - 1):
        """A number is judged before it is written, so its place is the length of what is there."""
        if not least <= value <= most:
            raise Fault(cause, len(self.file), kind, 2)
        self.file += groups(value)

    def put_levels(self, tables):
        """The answer is the number of workers. The top level's handoff limit is neither judged nor written."""
        self.put(tables.count, LEVELS, 4, 1, 4)
        workers = 1
        for rank, (algorithm, fan_out, limit) in enumerate(tables.used_levels()):
            self.put(algorithm, LEVEL)
            self.put(fan_out, LEVEL, 6, 1, MOST_WORKERS // workers)
            if rank > 0:
                self.put(limit, LEVEL, 7, 1, 65_535)
            workers *= fan_out
        return workers

    def put_scripts(self, scripts):
        for number in chain.from_iterable(scripts):
            self.put(number, SCRIPT, 8, 0, 65_535)

    def put_schedule(self, schedule, workers):
        """More entries than a file has bytes are too many, whatever they are."""
        if len(schedule) > LONGEST:
            raise Fault(11, LONGEST, NONE, 3)
        self.put(len(schedule), SCHEDULE)
        for entry in schedule:
            self.put(entry, SCHEDULE, 9, 0, workers - 1)


def judged_file(tables):
    """The file of a plan. What the plan does not use is neither judged nor written.

    The numbers are judged in the file's order, the whole length after them, and the first fault is told.
    """
    judged = Judged()
    workers = judged.put_levels(tables)
    judged.put_scripts(tables.used_scripts(workers))
    judged.put_schedule(tables.schedule, workers)
    if len(judged.file) > LONGEST:
        raise Fault(11, LONGEST, NONE, 3)
    return bytes(judged.file)


def judged_write(tables, output):
    """('written', length) or ('fault', cause, place, kind, layer), and the output afterwards.

    A refusal leaves the output as it was, and a file what is behind it. The output is judged last.
    """
    try:
        file = judged_file(tables)
        if len(file) > len(output):
            raise Fault(12, 0, NONE, 3)
    except Fault as fault:
        return ("fault", *fault.args), output
    return ("written", len(file)), file + output[len(file) :]


# ---- text


def plan_text(plan):
    lines = [f"levels {len(plan.levels)}"]
    lanes = 1
    for number, (algorithm, fan_out, limit) in enumerate(plan.levels, start=1):
        handoff = "" if limit is None else f" handoff-limit {limit}"
        lines.append(f"level {number} {NAMES[algorithm]} fan-out {fan_out}{handoff} # lanes {lanes}")
        lanes *= fan_out
    lines.append(f"# workers {lanes}")
    for worker, (turns, rest, hold) in enumerate(plan.scripts):
        lines.append(f"script {worker} turns {turns} rest {rest} hold {hold}")
    lines.append(f"# entries {len(plan.schedule)}")
    for first in range(0, max(1, len(plan.schedule)), 32):
        lines.append(" ".join(["schedule", *map(str, plan.schedule[first : first + 32])]))
    return "".join(line + "\n" for line in lines)


def inspect_text(file):
    answer = read(file)
    return plan_text(answer[1]) if answer[0] == "ok" else word_line(answer)


def word_line(words):
    return " ".join(map(str, words)) + "\n"


def checksum(numbers):
    total = 0
    for number in numbers:
        total = (total * 31 + number) % 2**64
    return total


def vector_line(file):
    """What the program `vectors` prints of a file."""
    answer = read(file)
    if answer[0] == "fault":
        return word_line(answer)
    plan = answer[1]
    assert judged_file(tables_of(plan)) == file, "what was read is written back as it was"
    return word_line(["ok", len(plan.levels), plan.workers(), len(plan.schedule), checksum(plan_numbers(plan))])


def outcome_line(case):
    """What the program `vectors` prints of a plan. The checksum is that of the whole output, first all AA hex."""
    space, tables = case
    answer, output = judged_write(tables, bytes([0xAA]) * space)
    return word_line([*answer, checksum(output)])


def starred(values, form=""):
    """A word for each value, and one with a star and a number for a long run of one value."""
    for value, run in groupby(values):
        length = len(list(run))
        yield from [f"{value:{form}}*{length}"] if length > 3 else [f"{value:{form}}"] * length


def hex_line(file):
    return word_line(starred(file, "02x"))


def plan_line(case):
    """`plan SPACE COUNT levels A F H .. scripts T R H .. schedule E E*N ..`"""
    space, tables = case
    levels = ["levels", *chain.from_iterable(tables.levels)]
    scripts = ["scripts", *chain.from_iterable(tables.scripts)]
    return word_line(["plan", space, tables.count, *levels, *scripts, "schedule", *starred(tables.schedule)])


# ---- reading texts


class Unreadable(Exception):
    """A line by its number, and what it lacks."""


def text_lines(text):
    """The lines that have words, each with its number; then an empty one behind the last, again and again."""
    lines = text.split(b"\n")
    if lines[-1] == b"":
        lines.pop()
    for number, line in enumerate(lines, start=1):
        words = line.split(b"#")[0].replace(b"\t", b" ").replace(b"\r", b" ").split(b" ")
        if any(words):
            yield number, [word for word in words if word]
    while True:
        yield len(lines) + 1, []


class TextLine:
    """The words of a line, as far as they are not yet read."""

    def __init__(self, number, words):
        self.number, self.words = number, words

    def lack(self, what):
        return Unreadable(f"line {self.number}: expected {what}")

    def next_number(self):
        word = self.words.pop(0) if self.words else b""
        if not word or set(word) - set(b"0123456789") or int(word) >= 2**32:
            raise self.lack("a number up to 4294967295")
        return int(word)

    def expect(self, word):
        if self.words[:1] != [word.encode()]:
            raise self.lack(word)
        self.words.pop(0)

    def setting(self, name):
        self.expect(name)
        return self.next_number()

    def record(self, name, number):
        try:
            if self.setting(name) == number:
                return
        except Unreadable:
            pass
        raise self.lack(f"{name} {number}")

    def algorithm(self):
        for number, name in NAMES.items():
            if self.words[:1] == [name.encode()]:
                self.words.pop(0)
                return number
        raise self.lack("ticket or mcs")

    def end(self):
        if self.words:
            raise self.lack("the end of the line")


def read_level_line(line, number):
    line.record("level", number)
    level = [line.algorithm(), line.setting("fan-out"), 0 if number == 1 else line.setting("handoff-limit")]
    line.end()
    return level


def read_script_line(line, worker):
    line.record("script", worker)
    script = [line.setting("turns"), line.setting("rest"), line.setting("hold")]
    line.end()
    return script


def read_entries(line):
    line.expect("schedule")
    while line.words:
        yield min(line.next_number(), 255)


def read_text(text):
    """The tables that a text describes."""
    lines = (TextLine(number, words) for number, words in text_lines(text))
    first = next(lines)
    tables = Tables(first.setting("levels"), [], [], [])
    if not 1 <= tables.count <= 4:
        return tables
    first.end()
    tables.levels = [read_level_line(next(lines), number) for number in range(1, tables.count + 1)]
    workers = 1
    for _, fan_out, _ in tables.levels:
        workers *= fan_out
    if not 1 <= workers <= MOST_WORKERS:
        return tables
    tables.scripts = [read_script_line(next(lines), worker) for worker in range(workers)]
    line = next(lines)
    tables.schedule += read_entries(line)
    while (line := next(lines)).words:
        tables.schedule += read_entries(line)
    return tables


def composed(text):
    """What `compose` writes to standard output and standard error, and its status."""
    try:
        return judged_file(read_text(text)), b"", 0
    except Unreadable as unreadable:
        return b"", f"{unreadable}\n".encode(), 1
    except Fault as fault:
        return b"", word_line(["fault", *fault.args]).encode(), 1


WORDS = [b"levels", b"level", b"script", b"schedule", b"ticket", b"mcs", b"fan-out", b"handoff-limit", b"turns"]
WORDS += [b"rest", b"hold", b"0", b"1", b"2", b"3", b"007", b"64", b"65", b"255", b"256", b"65535", b"65536"]
WORDS += [b"4294967295", b"4294967296", b"-1", b"+1", b"1x", b"#", b"# x", b"", b"\n", b"\r\n", b"\xff"]


def edited(rng, text):
    """A text with a few words or lines changed, left out, put in or set apart."""
    pieces = text.replace(b"\n", b" \n ").split(b" ")
    for _ in range(rng.randint(1, 3)):
        at = rng.randrange(len(pieces))
        way = rng.randrange(4)
        if way == 0:
            pieces[at] = rng.choice(WORDS)
        elif way == 1:
            pieces.insert(at, rng.choice(WORDS))
        elif way == 2:
            del pieces[at]
        else:
            pieces[at] = b"\t" + pieces[at] + rng.choice([b" ", b"\r", b"#\x00"])
    return rng.choice([b" ", b"  "]).join(pieces)


def texts(count):
    rng = random.Random(20_240_317)
    good = [plan_text(plan).encode() for plan in good_plans()]
    yield from [b"", b"\n", b"# x", plan_text(largest()).encode(), *good]
    yield from (text[:length] for text in good[:2] for length in range(len(text)))
    for _ in range(count):
        yield edited(rng, rng.choice(good))


def compare_texts():
    program = ROOT / "crates" / "compose" / "out" / "compose"
    seen = {"written": 0, "refused": 0, "unreadable": 0}
    for text in texts(3_000):
        run = subprocess.run([program], input=text, capture_output=True)
        answer = (run.stdout, run.stderr, run.returncode)
        if answer != composed(text):
            sys.exit(f"{text!r}\ncompose: {answer!r}\nthis:    {composed(text)!r}")
        seen["written" if run.returncode == 0 else "refused" if run.stderr.startswith(b"fault") else "unreadable"] += 1
    print(" ".join(f"{name} {number}" for name, number in seen.items()))


# ---- the files of examples/

HANDOFF = Plan(
    levels=[(TICKET, 1, None), (TICKET, 2, 2)],
    scripts=[(1, 0, 0), (1, 0, 0)],
    schedule=[0, 0, 0, 0, 0, 0, 1, 1, 0, 0, 0, 1, 1, 1, 1, 1, 1],
)

ONE_MCS_LOCK = Plan(
    levels=[(MCS, 3, None)],
    scripts=[(2, 0, 1), (2, 1, 1), (2, 2, 1)],
    schedule=[0, 1, 2, 0, 1, 2, 0, 0, 1, 1, 2, 2] * 4,
)

# Four workers at a time run side by side, two plays each, as four processors would let them.
THREE_LEVELS = Plan(
    levels=[(MCS, 4, None), (TICKET, 4, 8), (TICKET, 4, 2)],
    scripts=[(2, 1, 1)] * 64,
    schedule=[first + worker for first in range(0, 64, 4) for _ in range(4) for worker in (0, 0, 1, 1, 2, 2, 3, 3)],
)


def largest():
    """One worker, and as many entries as fill the longest file."""
    plan = Plan(levels=[(TICKET, 1, None)], scripts=[(65_535, 0, 0)], schedule=[])
    room = LONGEST - len(write(plan)) - 2  # the count takes three bytes, not one
    plan.schedule = [0] * room
    return plan


def damaged():
    """The second level's fan-out makes 72 workers of 8 lanes."""
    return write(Plan(levels=[(MCS, 8, None), (TICKET, 9, 4)], scripts=[(1, 0, 0)] * 72, schedule=[0, 1, 2, 3]))


def write_examples():
    folder = ROOT / "examples"
    folder.mkdir(exist_ok=True)
    (folder / "handoff.turns").write_bytes(write(HANDOFF))
    (folder / "three-levels.turns").write_bytes(write(THREE_LEVELS))
    (folder / "one-mcs-lock.turns").write_bytes(write(ONE_MCS_LOCK))
    (folder / "largest.turns").write_bytes(write(largest()))
    (folder / "damaged.turns").write_bytes(damaged())


# ---- the files of crates/vectors


def broken_numbers():
    """Each way in which a number can be wrong."""
    for open_groups in range(5):
        yield bytes([0x80] * open_groups)
    for open_groups in range(1, 5):
        yield bytes([0x81] * open_groups + [0x00])
    for fifth in (0x00, 0x10, 0x7F, 0x80, 0xFF):
        yield bytes([0x80] * 4 + [fifth])
    yield bytes([0xFF] * 4 + [0x10])
    yield bytes([0x80] * 4 + [0x90, 0x01])


def broken_files():
    """Each broken number in each place where a number can stand, alone and with more behind it."""
    start = [2, TICKET, 2, MCS, 2, 9]  # two levels, four workers
    scripts = [1, 2, 3] * 4
    fronts = {
        "levels": [],
        "algorithm": [2],
        "fan-out": [2, TICKET],
        "second algorithm": [2, TICKET, 2],
        "second fan-out": [2, TICKET, 2, MCS],
        "handoff limit": [2, TICKET, 2, MCS, 2],
        "turns": start,
        "rest": start + [1],
        "hold": start + [1, 2],
        "last hold": start + scripts[:-1],
        "count": start + scripts,
        "first entry": start + scripts + [3],
        "last entry": start + scripts + [3, 0, 1],
    }
    for front in fronts.values():
        for broken in broken_numbers():
            yield bytes(front) + broken
            if len(broken) == 5:
                yield bytes(front) + broken + bytes([1, 1])


def numbers_file(*numbers):
    return b"".join(map(groups, numbers))


def limit_files():
    """Values at and past each limit.

    Many files stop right behind the value, so that an accepted value ends in cause 1.
    """
    file = numbers_file
    huge = 2**32 - 1
    for levels in (0, 1, 2, 3, 4, 5, 64, 127, 128, 129, 2**14, 2**28 + 1, huge):
        yield file(levels)
        yield file(levels, 1)
    for algorithm in (0, 1, 2, 3, 128, 129, 256 + 1, 2**16 + 1, 2**31 + 1, huge):
        yield file(1, algorithm)
        yield file(2, TICKET, 2, algorithm)
    for fan_out in (0, 1, 64, 65, 128, 2**16, 2**26, 2**32 - 64, huge):
        yield file(1, TICKET, fan_out)
        yield file(2, TICKET, 64, MCS, fan_out)
        yield file(2, TICKET, 2, MCS, fan_out)
    products = [(8, 8), (8, 9), (9, 8), (16, 4), (16, 5), (7, 9), (7, 10), (1, 64), (1, 65)]
    for first, second in products + [(32, 2**27), (64, 2**26), (64, 2**26 + 1)]:
        yield file(2, MCS, first, TICKET, second, 1)
        yield file(3, MCS, first, TICKET, second, 1, TICKET, 1, 1)
        yield file(4, MCS, 1, TICKET, first, 1, TICKET, second, 1, TICKET, 2, 1)
    for limit in (0, 1, 2, 65_535, 65_536, 2**16 + 1, huge):
        yield file(2, TICKET, 2, MCS, 2, limit)
        yield file(3, TICKET, 1, MCS, 1, 7, MCS, 1, limit)
        yield file(4, TICKET, 1, MCS, 1, 7, MCS, 1, 7, MCS, 2, limit)
    for number in (0, 1, 65_535, 65_536, 2**16 + 1, 2**31, huge):
        yield file(1, TICKET, 2, number)
        yield file(1, TICKET, 2, 1, number)
        yield file(1, TICKET, 2, 1, 1, number)
        yield file(1, TICKET, 2, 1, 1, 1, 1, 1, number)
        yield file(1, TICKET, 1, number, number, number, 0)
    for count in (0, 1, 2, 127, 128, 60_000, huge):
        yield file(1, TICKET, 2, 0, 0, 0, 0, 0, 0, count)
        yield file(1, TICKET, 2, 0, 0, 0, 0, 0, 0, count, 1)
        yield file(1, TICKET, 2, 0, 0, 0, 0, 0, 0, count, 1, 2)
    for entry in (0, 1, 2, 3, 64, 127, 128, 256, 2**16 + 1, huge):
        yield file(1, TICKET, 2, 0, 0, 0, 0, 0, 0, 1, entry)
        yield file(1, TICKET, 2, 0, 0, 0, 0, 0, 0, 3, 1, 0, entry)
    for entry in (0, 62, 63, 64, 65):
        yield file(2, TICKET, 8, MCS, 8, 1, *[0] * 192, 2, 63, entry)


def whole_files():
    """Good files, each with all of its beginnings where it is short, and with a byte too many."""
    for plan in good_plans():
        file = write(plan)
        yield file
        for extra in (0x00, 0x01, 0x80, 0xFF):
            yield file + bytes([extra])
        yield file + bytes([0, 0, 0])
    for plan in good_plans()[:3]:
        file = write(plan)
        for length in range(len(file)):
            yield file[:length]


def good_plans():
    return [
        HANDOFF,
        Plan([(MCS, 1, None)], [(0, 0, 0)], []),
        Plan([(MCS, 1, None), (TICKET, 2, 300), (MCS, 1, 65_535)], [(65_535, 128, 0), (127, 16_384, 1)], [1, 0, 1]),
        Plan(
            [(TICKET, 1, None), (MCS, 2, 1), (TICKET, 1, 2), (MCS, 3, 3)],
            [(n, n + 1, n + 2) for n in range(6)],
            [5, 4, 3, 2, 1, 0],
        ),
        Plan([(MCS, 64, None)], [(1, 1, 1)] * 64, [63, 0, 62, 1]),
        Plan([(MCS, 4, None), (TICKET, 4, 8), (TICKET, 4, 2)], [(2, 2, 2)] * 64, [0, 1, 2, 3, 60, 61, 62, 63]),
        Plan([(TICKET, 3, None)], [(7, 8, 9)] * 3, [0] * 50 + [1] * 50 + [2] * 50),
    ]


def long_files():
    """At and past the longest length."""
    longest = write(largest())
    yield longest
    yield longest[:-1]
    yield longest + b"\x00"
    yield longest[:-1] + b"\x01"
    yield longest[:-2] + b"\x01\x00"
    for length in (LONGEST, LONGEST + 1, LONGEST + 2, 70_000):
        for byte in (0x00, 0x01, 0x80, 0xFF):
            yield bytes([byte]) * length
    yield bytes([5]) + bytes(LONGEST)
    short = write(HANDOFF)
    yield short + bytes(LONGEST - len(short))
    yield short + bytes(LONGEST + 1 - len(short))


def mutations(count):
    """Good files with a few bytes changed, left out or put in."""
    rng = random.Random(20_240_229)
    files = [write(plan) for plan in good_plans()]
    for _ in range(count):
        file = bytearray(rng.choice(files))
        for _ in range(rng.randint(1, 3)):
            at = rng.randrange(len(file))
            byte = rng.choice([0, 1, 2, 3, 4, 5, 0x0F, 0x10, 0x7F, 0x80, 0x81, 0xFF, rng.randrange(256)])
            way = rng.randrange(4)
            if way == 0:
                file[at] = byte
            elif way == 1:
                file.insert(at, byte)
            elif way == 2 and len(file) > 1:
                del file[at]
            else:
                file[at] ^= 1 << rng.randrange(8)
        yield bytes(file)


def files():
    rows = [b"", bytes([1, 3])]
    for source in (broken_files(), limit_files(), whole_files(), long_files(), mutations(200)):
        rows.extend(source)
    return list(dict.fromkeys(rows))


# ---- the plans of crates/vectors: a case is the space that is lent, and the tables

# The columns of a level and of a script.
ALGORITHM, FAN_OUT, LIMIT = range(3)
TURNS, REST, HOLD = range(3)
HUGE = 2**32 - 1


def with_number(tables, table, row, column, value):
    """The same tables with one number of the levels or scripts changed."""
    copy = deepcopy(tables)
    getattr(copy, table)[row][column] = value
    return copy


def with_entry(tables, place, value):
    copy = deepcopy(tables)
    copy.schedule[place] = value
    return copy


def with_count(tables, count):
    copy = deepcopy(tables)
    copy.count = count
    return copy


def flat():
    """Three workers below one lock."""
    return Tables(1, [[MCS, 3, 0]], [[300, 2, 1], [0, 65_535, 128], [7, 8, 16_384]], [2, 1, 0, 0, 1, 2])


def deep():
    """Four levels and six workers, with numbers of one, two and three bytes."""
    levels = [[TICKET, 1, 0], [MCS, 2, 300], [TICKET, 1, 65_535], [MCS, 3, 1]]
    scripts = [[n * n, 130 * n, 16_384 + n] for n in range(6)]
    return Tables(4, levels, scripts, [5, 4, 3, 2, 1, 0, 5])


def wide():
    """Eight lanes of eight workers."""
    scripts = [[worker, 0, 0] for worker in range(63)] + [[128, 1, 2]]
    return Tables(2, [[TICKET, 8, 0], [MCS, 8, 9]], scripts, [63, 0, 62])


def tall(first, *others):
    """Levels of these fan-outs, blank scripts and no entry."""
    levels = [[TICKET, first, 0]] + [[MCS, fan_out, 1] for fan_out in others]
    return Tables(len(levels), levels, [], [])


def lone(entries):
    """One worker, and these entries."""
    return Tables(1, [[TICKET, 1, 0]], [[65_535, 0, 0]], entries)


def count_plans():
    """Counts of levels, with more or fewer levels in the table."""
    for count in (0, 1, 2, 3, 4, 5, 64, 256 + 2, 2**16 + 1, 2**31, HUGE - 3, HUGE):
        yield with_count(flat(), count)
        yield with_count(deep(), count)
    yield Tables(0, [], [], [])
    yield Tables(1, [], [], [])
    yield Tables(5, [[TICKET, 0, 0]], [[HUGE, HUGE, HUGE]], [255])
    yield Tables(1, [[TICKET, 2, 0]], [], [0, 1])


def fan_out_plans():
    """Fan-outs at and past their limits, in the first, a middle and the last level."""
    for fan_out in (0, 1, 2, 63, 64, 65, 128, 65_536, 2**26, 2**32 - 64, HUGE):
        yield tall(fan_out)
        yield with_number(deep(), "levels", 0, FAN_OUT, fan_out)
        yield with_number(deep(), "levels", 1, FAN_OUT, fan_out)
        yield with_number(deep(), "levels", 3, FAN_OUT, fan_out)
    for pair in [(8, 8), (8, 9), (9, 8), (16, 4), (13, 5), (7, 9), (1, 64), (64, 1), (1, 65), (64, 2)]:
        yield tall(*pair)
        yield tall(1, *pair, 1)
    for others in [(2**26,), (2**26 + 1,), (1, 2**26), (2, 2**25), (1, 1, 2**26), (1, 1, HUGE)]:
        yield tall(64, *others)
    for fan_outs in [(4, 4, 4), (4, 4, 5), (4, 4, 4, 1), (4, 4, 4, 2), (2, 2, 4, 4), (3, 3, 7, 1), (3, 3, 8, 1)]:
        yield tall(*fan_outs)


def limit_plans():
    """Handoff limits at and past their limits, in the second and in the last level."""
    for limit in (0, 1, 2, 127, 128, 65_535, 65_536, 2**17, 2**31, HUGE):
        yield with_number(deep(), "levels", 1, LIMIT, limit)
        yield with_number(deep(), "levels", 3, LIMIT, limit)
        yield with_number(wide(), "levels", 1, LIMIT, limit)


def script_plans():
    """Turns, rest and hold at and past their limit, of the first, a middle and the last worker."""
    for number in (0, 127, 128, 65_535, 65_536, HUGE):
        for column in (TURNS, REST, HOLD):
            yield with_number(flat(), "scripts", 0, column, number)
            yield with_number(flat(), "scripts", 2, column, number)
            yield with_number(deep(), "scripts", 3, column, number)
    for number in (65_535, 65_536, 2**31):
        yield with_number(wide(), "scripts", 0, TURNS, number)
        yield with_number(wide(), "scripts", 63, HOLD, number)


def entry_plans():
    """Entries at and past the number of workers, first, in the middle and last; and counts of one and two bytes."""
    for entry in (0, 1, 2, 3, 4, 63, 64, 127, 128, 255):
        for place in (0, 3, -1):
            yield with_entry(flat(), place, entry)
    for entry in (5, 6, 7, 255):
        yield with_entry(deep(), 0, entry)
        yield with_entry(deep(), -1, entry)
    for entry in (62, 63, 64, 65, 128, 255):
        yield with_entry(wide(), 0, entry)
        yield with_entry(wide(), -1, entry)
    for length in (0, 1, 127, 128, 129, 300):
        yield lone([0] * length)
        yield lone([0] * length + [1])


def unused_plans():
    """Wrong numbers where the plan uses none: each is written as if they were right."""
    for limit in (1, 65_536, HUGE):
        yield with_number(flat(), "levels", 0, LIMIT, limit)
        yield with_number(deep(), "levels", 0, LIMIT, limit)
    for number in (0, 65, 65_536, HUGE):
        level, script = [MCS, number, number], [number, number, number]
        yield Tables(1, flat().levels + [level] * 3, flat().scripts, flat().schedule)
        yield Tables(1, flat().levels, flat().scripts + [script], flat().schedule)
        yield Tables(2, deep().levels[:2] + [level], deep().scripts[:2] + [script] * 3, [1, 0])
    bad = [[TICKET, HUGE, HUGE]]
    yield Tables(3, tall(1, 1, 1).levels + bad, [[1, 1, 1]] + [[HUGE, 0, 0]] * 63, [0])


def twice_wrong_plans():
    """Two wrong numbers: only the first is told."""
    base = deep()
    wrong = [
        ("levels", 0, FAN_OUT, 0),
        ("levels", 1, FAN_OUT, 65),
        ("levels", 1, LIMIT, 0),
        ("levels", 3, FAN_OUT, HUGE),
        ("levels", 3, LIMIT, 65_536),
        ("scripts", 0, TURNS, 65_536),
        ("scripts", 0, HOLD, HUGE),
        ("scripts", 5, REST, 65_536),
    ]
    for at, first in enumerate(wrong):
        yield with_count(with_number(base, *first), 5)
        yield with_entry(with_number(base, *first), 0, 6)
        for second in wrong[at + 1 :]:
            yield with_number(with_number(base, *first), *second)
    yield with_entry(with_entry(base, 2, 7), 4, 6)
    yield with_entry(with_entry(base, 0, 255), -1, 6)


def long_plans():
    """At and past the longest file, with good and with wrong entries; entries are judged before the whole length."""
    room = len(largest().schedule)
    for length in (room - 1, room, room + 1, LONGEST - 1, LONGEST, LONGEST + 1, LONGEST + 9_999):
        good = lone([0] * length)
        yield good
        yield with_entry(good, 0, 1)
        yield with_entry(good, -1, 1)
        yield with_number(good, "scripts", 0, HOLD, 65_536)
        yield with_number(good, "levels", 0, FAN_OUT, 0)
    for length in (LONGEST - 201, LONGEST - 200, LONGEST):
        yield Tables(2, wide().levels, [], [63] * length)


def good_tables():
    return [tables_of(plan) for plan in good_plans()] + [flat(), deep(), wide(), tall(1)]


def space_cases():
    """Good plans in spaces that suffice and in some that do not; and wrong plans in no space."""
    for tables in good_tables():
        length = len(judged_file(tables))
        for space in (0, 1, length - 1, length, length + 1, length + 100):
            yield space, tables
    for length in (LONGEST - 1, LONGEST, LONGEST + 1, 70_000):
        yield length, tables_of(largest())
        yield length, lone([0] * (len(largest().schedule) + 1))
    wrong = [
        with_count(flat(), 0),
        tall(0),
        with_number(deep(), "levels", 1, LIMIT, 0),
        with_number(flat(), "scripts", 0, TURNS, 65_536),
        with_entry(flat(), -1, 3),
        lone([0] * LONGEST),
        lone([0] * (LONGEST + 1)),
    ]
    for tables in wrong:
        yield 0, tables
        yield 7, tables


def random_tables(rng):
    """A good plan, with some levels and scripts more than it uses."""
    numbers = [0, 1, 2, 127, 128, 16_383, 16_384, 65_535]
    count = rng.randint(1, 4)
    levels, workers = [], 1
    for _ in range(count):
        fan_out = rng.randint(1, min(MOST_WORKERS // workers, rng.choice([1, 2, 3, 4, 16])))
        levels.append([rng.choice([TICKET, MCS]), fan_out, rng.choice(numbers[1:])])
        workers *= fan_out
    levels += [[MCS, rng.choice(numbers), 0] for _ in range(rng.randint(count, 4) - count)]
    rows = min(MOST_WORKERS, workers + rng.randint(0, 2))
    scripts = [[rng.choice(numbers) for _ in range(3)] for _ in range(rows)]
    schedule = [rng.randrange(workers) for _ in range(rng.choice([0, 1, 2, 5, 9]))]
    repeated = [rng.randrange(workers)] * rng.choice([0, 0, 0, 120, 128, 400])
    return Tables(count, levels, scripts, schedule + repeated)


def spoil(rng, tables):
    """Puts a number that is wrong in most places somewhere into the tables."""
    number = rng.choice([0, 5, 64, 65, 65_536, 65_537, 2**26, 2**31, HUGE])
    way = rng.randrange(8)
    if way == 0:
        tables.count = number
    elif way <= 3:
        rng.choice(tables.levels)[rng.choice([FAN_OUT, LIMIT])] = number
    elif way <= 5:
        rng.choice(tables.scripts)[rng.randrange(3)] = number
    elif tables.schedule:
        tables.schedule[rng.randrange(len(tables.schedule))] = rng.choice([1, 2, 16, 63, 64, 128, 255])


def random_cases(count):
    """Good plans with none, one or two numbers spoiled, in spaces about the length of the good file."""
    rng = random.Random(20_240_301)
    for _ in range(count):
        tables = random_tables(rng)
        length = len(judged_file(tables))
        for _ in range(rng.randint(0, 2)):
            spoil(rng, tables)
        yield rng.choice([0, length - 1, length, length, length + 1, length + 20]), tables


def plan_cases():
    """All cases, each once. Where only the numbers matter, the space suffices and some is left."""
    rows = []
    for source in (count_plans(), fan_out_plans(), limit_plans(), script_plans(), entry_plans(), unused_plans()):
        rows.extend((700, tables) for tables in source)
    for source in (twice_wrong_plans(), long_plans()):
        rows.extend((len(tables.schedule) + 250, tables) for tables in source)
    rows.extend(space_cases())
    rows.extend(random_cases(150))
    return list({plan_line(case): case for case in rows}.values())


# ---- all cases


def write_pair(crate, given, answer):
    """What a program is run on, and what it has to write."""
    folder = ROOT / "crates" / crate
    (folder / "stdin").write_bytes(given)
    (folder / "stdout").write_bytes(answer)


def write_cases():
    rows, plans = files(), plan_cases()
    given = [*map(hex_line, rows), *map(plan_line, plans)]
    answers = [*map(vector_line, rows), *map(outcome_line, plans)]
    write_pair("vectors", "".join(given).encode(), "".join(answers).encode())
    write_pair("inspect", write(HANDOFF), plan_text(HANDOFF).encode())
    write_pair("compose", plan_text(HANDOFF).encode(), write(HANDOFF))
    print_coverage("files", answers[: len(rows)])
    print_coverage("plans", answers[len(rows) :])


def print_coverage(name, answers):
    """How many are accepted, and how many are refused by each cause in each kind of record."""
    seen = {}
    for answer in answers:
        word, cause, _, kind, layer, *_ = [*answer.split(), *[""] * 3]
        key = f"cause {cause} kind {kind} layer {layer}" if word == "fault" else word
        seen[key] = seen.get(key, 0) + 1
    print(f"{len(answers)} {name}")
    for key in sorted(seen, key=lambda name: [int(word) if word.isdigit() else 0 for word in name.split()]):
        print(f"  {key}: {seen[key]}")


def main(arguments):
    match arguments:
        case ["read", name]:
            sys.stdout.write(inspect_text(Path(name).read_bytes()))
        case ["cases"]:
            write_cases()
        case ["examples"]:
            write_examples()
        case ["texts"]:
            compare_texts()
        case _:
            sys.exit(__doc__)


if __name__ == "__main__":
    main(sys.argv[1:])
