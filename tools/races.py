"""Finds the data races of one run in the access section of its report."""

import collections

MOST_HARTS = 64

Access = collections.namedtuple("Access", "hart number op labels word mask read written")


def nothing():
    """By hart the number of its last instruction that happens before; none do."""
    return [0] * MOST_HARTS


def latest(one, other):
    return [a if a > b else b for a, b in zip(one, other)]


def accesses_of(report):
    lines = report.rpartition(b"\naccesses ")[2].decode().split("\n")[1:-1]
    for line in lines:
        hart, number, op, labels, word, mask, read, written, _ = line.split(" ", 8)
        yield Access(int(hart), int(number), op, labels, word, int(mask, 16), read, written)


def races_of(report):
    return races_among(accesses_of(report))


def races_among(accesses):
    """Pairs of accesses by two harts that have a byte in common, of which at least one writes and at least one
    has no label, and neither happens before the other. A release happens before each later acquire of its word,
    and an access before the later ones of its hart."""
    # What of each hart's accesses happens before the next one of a hart, and before an acquire of a word.
    before, released = collections.defaultdict(nothing), collections.defaultdict(nothing)
    # How often a word was released, and how often when a hart last acquired it.
    releases, acquired = collections.Counter(), {}
    # The last access of a word by each hart of each kind, those without labels and those with them apart: where
    # that happens before one, the earlier ones do.
    ordinary, labelled = collections.defaultdict(dict), collections.defaultdict(dict)
    for access in accesses:
        known = before[access.hart]
        if "a" in access.labels and access.read != "-":
            place = access.hart, access.word
            if acquired.get(place) != releases[access.word]:
                known = latest(known, released[access.word])
                acquired[place] = releases[access.word]
        for of_kind in (ordinary, labelled) if access.labels == "-" else (ordinary,):
            for other in of_kind[access.word].values():
                is_race = (
                    other.hart != access.hart
                    and other.mask & access.mask != 0
                    and (other.written != "-" or access.written != "-")
                    and known[other.hart] < other.number
                )
                if is_race:
                    yield other, access
        known[access.hart] = access.number
        if "r" in access.labels and access.written != "-":
            released[access.word] = latest(known, released[access.word])
            releases[access.word] += 1
        before[access.hart] = known
        kind = access.hart, access.mask, access.written != "-"
        (ordinary if access.labels == "-" else labelled)[access.word][kind] = access
