#!/usr/bin/env python3
"""Judges a printed report: whether it is that of some run of the image, which need not be the only one.

    python3 tests/judge.py IMAGE CLUSTERS HARTS BUDGET REPORT

says so with status 0, or names the first line that is wrong with status 1. Each hart is done again by the
interpreter of reference.py, from one printed access to the next, and must make just those accesses. In their
printed order they must be a sequential run of the image: each reads what one memory holds there, an Ask is
granted where its lock word is 0, an SC succeeds only on a reservation that nothing broke (it may fail always). From
the first access on that races with an earlier one nothing is promised of what memory holds, and READ is taken as it is
printed; all else is judged as before. The console must be the harts' bytes in an order that goes with that of the
accesses. Where the column SEEN says anything, shown.py judges it.

It shares no code with the program. What a report doesn't tell, it can't judge: in which order stores are committed,
whether an SC had to fail, and which instructions that are no accesses stand between those of other harts.
"""

import collections
import re
import sys

import common  # with it tools/races.py is found
import races
import reference
import shown

ECALL = 0x00000073
# The console is looked for among so many orders at most.
MOST_ORDERS = 200_000

NUMBER, HEX = "(?:0|[1-9][0-9]*)", "[0-9a-f]{8}"
CAUSES = "illegal|misaligned|unmapped|readonly|fetch|lockuse|badcall|break"
HART = re.compile(f"hart ({NUMBER}) (exit {HEX}|trap (?:{CAUSES}) {HEX}|budget|waits) pc ({HEX}) retired ({NUMBER})")
REGISTERS = re.compile(f"x(0|8|16|24)((?: {HEX}){{8}})")
ACCESS = re.compile(
    f"({NUMBER}) ({NUMBER}) (load|store|lr|sc|amo|ask|unlock) (-|a|r|ar) ({HEX}) ([1-9a-f]) ({HEX}|-) ({HEX}|-)"
    f" (-|line {NUMBER}|own {NUMBER}|lock {NUMBER})"
)

# An access line, with its number in the report.
Access = collections.namedtuple("Access", "hart number op labels word mask read written seen line")
# A hart's part of the harts section; the numbers of its first line, and the text of its registers.
Printed = collections.namedtuple("Printed", "line end pc retired registers")
# A byte that a hart put, with the places of the hart's last access before it and of its next one.
Put = collections.namedtuple("Put", "byte after before")


class Wrong(Exception):
    """What is wrong, and in which line of the report."""

    def __init__(self, line, cause):
        super().__init__(f"line {line}: {cause}")


class Report:
    """The parts of a report that has the form of one."""

    def __init__(self, data, harts):
        head, newline, rest = data.partition(b"\n")
        size = re.fullmatch(f"console ({NUMBER})".encode(), head)
        if not newline or not size:
            raise Wrong(1, "it is no line of the form: console N")
        size = int(size[1])
        self.console = rest[:size]
        if rest[size : size + 1] != b"\n":
            raise Wrong(2, f"no newline stands behind the {size} bytes of the console")
        self.at = 3 + self.console.count(b"\n")
        self.lines = rest[size + 1 :].decode("latin-1").split("\n")
        if self.lines.pop():
            raise Wrong(self.at + len(self.lines), "the last line has no newline")
        self.lines.reverse()
        self.harts = [self.hart(number) for number in range(harts)]
        self.status_line = self.at
        self.status = int(self.next("status N", f"status ({NUMBER})")[1])
        self.accesses = self.access_section()

    def next(self, name, pattern):
        """The next line by its form."""
        found = re.fullmatch(pattern, self.lines.pop()) if self.lines else None
        if not found:
            raise Wrong(self.at, f"it is no line of the form: {name}")
        self.at += 1
        return found

    def hart(self, number):
        line = self.at
        found = self.next("hart H END pc PC retired N", HART)
        if int(found[1]) != number:
            raise Wrong(line, f"it is of hart {found[1]}, where that of hart {number} should stand")
        registers = []
        for first in (0, 8, 16, 24):
            row = self.next("xN and eight registers", REGISTERS)
            if int(row[1]) != first:
                raise Wrong(self.at - 1, f"it is of x{row[1]}, where x{first} should stand")
            registers += row[2].split()
        return Printed(line, found[2], found[3], int(found[4]), registers)

    def access_section(self):
        count = int(self.next("accesses N", f"accesses ({NUMBER})")[1])
        if count != len(self.lines):
            raise Wrong(self.at - 1, f"it says that there are {count} accesses, and {len(self.lines)} lines follow")
        accesses = []
        for line, text in enumerate(reversed(self.lines), self.at):
            found = ACCESS.fullmatch(text)
            if not found:
                raise Wrong(line, "it is no line of the form: HART NUMBER OP LABELS WORD MASK READ WRITTEN SEEN")
            hart, number, op, labels, word, mask, read, written, seen = found.groups()
            if int(hart) >= len(self.harts):
                raise Wrong(line, f"there is no hart {hart}")
            accesses.append(Access(int(hart), int(number), op, labels, word, int(mask, 16), read, written, seen, line))
        return accesses


def is_waiting_fence(word):
    """A FENCE that retires only once its hart's stores are done: pred has W, and succ is not 0."""
    return word & 0x707F == 0x0F and word >> 24 & 1 == 1 and word >> 20 & 0xF != 0


class Judge:
    """Does the harts of a report again, and compares."""

    def __init__(self, data, clusters, harts, budget, report):
        self.report = Report(report, clusters * harts)
        self.accesses = self.report.accesses
        failing = frozenset((one.hart, one.number) for one in self.accesses if one.op == "sc" and one.written == "-")
        self.machine = reference.Machine(reference.Image(data), clusters, harts, budget, failing)
        self.first_race = self.place_of_first_race()
        self.puts = [[] for _ in self.machine.harts]
        # By hart: the place of its last access, or -1.
        self.last = [-1] * len(self.machine.harts)
        has_seen = any(one.seen != "-" for one in self.accesses)
        self.shown = shown.Shown(self.machine.image.opening, clusters, harts) if has_seen else None

    def place_of_first_race(self):
        """The place of the first access that races with an earlier one; behind the last one where none does."""
        place = -1

        def counted():
            nonlocal place
            for one in self.accesses:
                place += 1
                yield one

        race = next(races.races_among(counted()), None)
        return len(self.accesses) if race is None else place

    def judge(self):
        for place, access in enumerate(self.accesses):
            self.do_access(place, access)
        for hart, printed in zip(self.machine.harts, self.report.harts):
            self.finish(hart, printed)
        self.check_status()
        self.check_console()

    def advance(self, hart, before):
        """Does an instruction of the hart; whether it didn't have to wait."""
        word = self.machine.image.fetch(hart.pc)
        if not hart.turn():
            return False
        if hart.end is None and word == ECALL:
            self.puts[hart.number].append(Put(self.machine.console[-1], self.last[hart.number], before))
        if self.shown is not None and word is not None and is_waiting_fence(word):
            self.shown.drain(hart.number)
        return True

    def do_access(self, place, access):
        """Does the hart up to its next access, which must be this one."""
        hart = self.machine.harts[access.hart]
        reserved = [other.reserved for other in self.machine.harts] if place >= self.first_race else None
        if place >= self.first_race and access.read != "-":
            self.take_as_printed(access)
        self.machine.accesses.clear()
        while not self.machine.accesses:
            if hart.retired == self.machine.budget:
                raise Wrong(access.line, f"hart {hart.number} spends its budget before it makes another access")
            if not self.advance(hart, place):
                raise Wrong(access.line, f"hart {hart.number}'s next access asks for a lock word that is not 0")
            if hart.end is not None:
                raise Wrong(access.line, f"hart {hart.number} ends ({hart.end}) before it makes another access")
        self.compare(access, self.machine.accesses[0])
        if reserved is not None and access.op == "store":
            # A store that races may be committed later than it stands here.
            for other, word in zip(self.machine.harts, reserved):
                other.reserved = word
        self.last[hart.number] = place
        if self.shown is not None:
            try:
                self.shown.take(access)
            except shown.Unfit as unfit:
                raise Wrong(access.line, str(unfit)) from None

    def take_as_printed(self, access):
        """Memory holds what the access is printed to read; what else it holds is of no account after a race."""
        at = int(access.word, 16) - reference.BASE
        if at <= reference.MEMORY - 4:
            self.machine.memory[at : at + 4] = int(access.read, 16).to_bytes(4, "little")

    def compare(self, access, text):
        """The access as it is printed and as the hart makes it."""
        _, number, op, labels, word, mask, read, written, _ = text.split(" ")
        who = f"hart {access.hart}'s next access"
        if int(number) != access.number:
            raise Wrong(access.line, f"NUMBER is {access.number}, but {who} is its instruction {number}")
        printed = access.op, access.labels, access.word, f"{access.mask:x}"
        if printed != (op, labels, word, mask):
            raise Wrong(access.line, f"the access is {' '.join(printed)}, but {who} is {op} {labels} {word} {mask}")
        if read != access.read:
            raise Wrong(access.line, f"READ is {access.read}, but {who} reads {read}")
        if op == "sc" and written == "-" and access.written != "-":
            raise Wrong(access.line, f"an SC succeeds, but hart {access.hart} has no reservation of its word")
        if written != access.written:
            raise Wrong(access.line, f"WRITTEN is {access.written}, but {who} writes {written}")

    def finish(self, hart, printed):
        """Does the rest of a hart, which has no access, and compares its end."""
        self.machine.accesses.clear()
        while hart.end is None and hart.retired < self.machine.budget and self.advance(hart, len(self.accesses)):
            if self.machine.accesses:
                text = self.machine.accesses[0].rpartition(" ")[0]
                if printed.end == "waits" and " ask " in text:
                    raise Wrong(printed.line, f"hart {hart.number} waits, but the lock word is 0: {text}")
                raise Wrong(printed.line, f"an access of hart {hart.number} is not printed: {text}")
        for name, found, right in (
            ("END", printed.end, hart.end_text()), ("pc", printed.pc, f"{hart.pc:08x}"), ("retired", printed.retired, hart.retired),
        ):
            if found != right:
                raise Wrong(printed.line, f"hart {hart.number}'s {name} is {found}, and should be {right}")
        for number, (found, right) in enumerate(zip(printed.registers, hart.registers)):
            if int(found, 16) != right:
                line = printed.line + 1 + number // 8
                raise Wrong(line, f"hart {hart.number}'s x{number} is {found}, and should be {right:08x}")

    def check_status(self):
        status = self.machine.status()
        if self.report.status != status:
            raise Wrong(self.report.status_line, f"the status is {self.report.status}, and should be {status}")

    def check_console(self):
        count = sum(len(puts) for puts in self.puts)
        console = self.report.console
        if len(console) != count:
            raise Wrong(1, f"the console has {len(console)} bytes, but the harts put {count}")
        fitting = longest_order(console, [puts for puts in self.puts if puts])
        if fitting < count:
            line = 2 + console[:fitting].count(b"\n")
            raise Wrong(line, f"in no order of the harts the console's byte {fitting} is {console[fitting]:02x}")


def next_puts(byte, harts, places):
    """Which harts may put this byte next, and that as the later tries first: those that must put soon come last.

    A put stands between two accesses of its hart. So none may come next whose hart's last access stands behind the
    next access of a hart that has still to put."""
    nexts = [puts[place] if place < len(puts) else None for puts, place in zip(harts, places)]
    soonest = min(put.before for put in nexts if put is not None)
    fitting = [
        (-put.before, number) for number, put in enumerate(nexts)
        if put is not None and put.byte == byte and put.after < soonest
    ]
    return [number for _, number in sorted(fitting)]


def longest_order(console, harts):
    """How many bytes of the console can be put by these harts in some order: all, where the console is right."""
    tries, known, longest = [(0,) * len(harts)], set(), 0
    while tries and len(known) < MOST_ORDERS:
        places = tries.pop()
        if places in known:
            continue
        known.add(places)
        done = sum(places)
        longest = max(longest, done)
        if done == len(console):
            break
        for number in next_puts(console[done], harts, places):
            tries.append(places[:number] + (places[number] + 1,) + places[number + 1 :])
    return longest


def fault_of(data, numbers, report):
    """What is wrong with the report of an image on a machine of these numbers, or None."""
    try:
        Judge(data, *numbers, report).judge()
    except Wrong as wrong:
        return str(wrong)
    return None


def main():
    if len(sys.argv) != 6:
        sys.exit("usage: judge.py IMAGE CLUSTERS HARTS BUDGET REPORT")
    with open(sys.argv[1], "rb") as file:
        data = file.read()
    with open(sys.argv[5], "rb") as file:
        report = file.read()
    fault = fault_of(data, [int(word) for word in sys.argv[2:5]], report)
    print("the report is that of a run" if fault is None else fault)
    sys.exit(0 if fault is None else 1)


if __name__ == "__main__":
    main()
