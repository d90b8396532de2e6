"""Whether the program's answer to an image is right.

A refusal is that of the interpreter of reference.py, byte by byte. So is the report of one hart, but for the column
SEEN, which judge.py judges: it tells what a machine with caches showed, and the interpreter has none. And there an SC
may fail since its line had to leave the cache for another one; where that may be, the interpreter fails it too. The
report of several harts has many right answers, and is judged.
"""

import judge
import reference
from common import Ran

LINE_BYTES = 16
# Of the lines of one index a hart's cache has room for one.
INDEXES = 256
FIELDS = 8


def masked(report):
    """A report without the column SEEN."""
    head, _, section = report.rpartition(b"\naccesses ")
    count, *lines = section.split(b"\n")
    return head, count, [line.split(b" ", FIELDS)[:FIELDS] for line in lines]


def has_seen(report):
    """Whether the column SEEN says anything."""
    lines = report.rpartition(b"\naccesses ")[2].split(b"\n")[1:-1]
    return any(not line.endswith(b" -") for line in lines)


def failed_conditions(report):
    """The SCs that failed, by hart and number."""
    lines = (line.split(b" ") for line in report.rpartition(b"\naccesses ")[2].split(b"\n")[1:-1])
    return frozenset((int(line[0]), int(line[1])) for line in lines if line[2:3] == [b"sc"] and line[7:8] == [b"-"])


def may_leave(machine, address):
    """Whether the line of an address may have left the cache of a machine's one hart: it used another of its index."""
    used = {int(text.split(" ")[4], 16) // LINE_BYTES for text in machine.accesses} | {at // LINE_BYTES for at in machine.hints}
    line = address // LINE_BYTES
    return any(other != line and other % INDEXES == line % INDEXES for other in used)


def report_of_one(data, budget, report):
    """The interpreter's report of one hart, in which those SCs fail that the printed one has failed for a reason."""
    image = reference.Image(data)
    machine = reference.Machine(image, budget=budget)
    machine.run()
    if masked(report) != masked(machine.report()):
        other = reference.Machine(image, budget=budget, failing=failed_conditions(report))
        other.run()
        if all(may_leave(other, address) for address in other.made_to_fail):
            machine = other
    return machine


def fault_of(data, numbers, ran):
    """What is wrong with how the program ended on an image, with no numbers or three, or None."""
    clusters, harts, budget = numbers or (1, 1, reference.BUDGET)
    refused = reference.refusal_of(data, clusters, harts, budget)
    if refused is not None:
        wanted = Ran(refused[1], b"", refused[0])
        return None if ran == wanted else f"found {ran}; wanted {wanted}"
    if clusters * harts == 1:
        machine = report_of_one(data, budget, ran.out)
        wanted = Ran(machine.status(), machine.report(), b"")
        if (ran.status, masked(ran.out), ran.err) != (wanted.status, masked(wanted.out), wanted.err):
            return f"found {ran}; wanted {wanted}"
        return judge.fault_of(data, (clusters, harts, budget), ran.out) if has_seen(ran.out) else None
    fault = None if ran.out else "it prints nothing"
    fault = fault or judge.fault_of(data, (clusters, harts, budget), ran.out)
    status = ran.out.rpartition(b"\nstatus ")[2].split(b"\n")[0]
    if fault is None and (ran.err or status != b"%d" % ran.status):
        fault = f"the program ends with status {ran.status} and prints {status}, and says {ran.err}"
    return fault
