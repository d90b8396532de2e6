"""A plain reader and writer of the text of a log, that shares no code with the program.

A line is its stamp, its cluster, the name of its kind and the fields of that kind, with one space between two words.
FORMS has the sort of each field; a sort is how its word is read, and how what was read is written again.
"""

import re

FIRST = b"dash log 1\n"
SHORT, LONG = 1 << 32, 1 << 64


class Refused(Exception):
    """Where a text is no log's: `head`, `cut`, or `line N`."""


class NoLine(Exception):
    """These words are no event's."""


def decimal(bound):
    def read(word):
        if not re.fullmatch(rb"0|[1-9][0-9]{0,19}", word) or int(word) >= bound:
            raise NoLine
        return int(word)

    return read, lambda value: b"%d" % value


def hexadecimal(count):
    def read(word):
        if not re.fullmatch(rb"[0-9a-f]{%d}" % count, word):
            raise NoLine
        return int(word, 16)

    return read, lambda value: f"{value:0{count}x}".encode()


def one_of(*names):
    def read(word):
        if word not in names:
            raise NoLine
        return names.index(word)

    return read, lambda place: names[place]


def or_none(sort):
    read, write = sort
    return (lambda word: None if word == b"-" else read(word)), (lambda value: b"-" if value is None else write(value))


SORTS = {
    "number": decimal(SHORT),
    "count": decimal(LONG),
    "word": hexadecimal(8),
    "byte": hexadecimal(2),
    "mask": hexadecimal(1),
    "slot": or_none(decimal(SHORT)),
    "content": or_none(hexadecimal(8)),
    "op": one_of(b"load", b"store", b"lr", b"sc", b"amo", b"ask", b"unlock"),
    "labels": one_of(b"-", b"a", b"r", b"ar"),
    "own": one_of(b"read", b"own"),
    "cause": one_of(b"illegal", b"misaligned", b"unmapped", b"readonly", b"fetch", b"lockuse", b"badcall", b"break"),
}

# Of these a first word says which fields follow.
CHOICES = {
    "seen": {"line": "count", "own": "number", "lock": "count", "-": ""},
    "end": {"exit": "word", "trap": "cause word", "running": ""},
    "message": {
        "read": "number",
        "readex": "number",
        "fwdread": "number number",
        "fwdreadex": "number number",
        "inval": "number number",
        "writeback": "number copy",
        "sharingback": "number copy number",
        "transfer": "number number",
        "lockask": "number number word word",
        "unlock": "number number word",
        "data": "number copy",
        "dataex": "number copy number",
        "ack": "number",
        "transferack": "number",
        "nak": "number",
        "lockgrant": "number",
        "unlockack": "number word",
    },
    "kind": {
        "alu": "number word",
        "fence": "number word",
        "hint": "number word slot",
        "put": "number word byte",
        "stop": "number word end",
        "load": "access number",
        "store": "access",
        "commit": "number number number count",
        "rmw": "access number count",
        "scfail": "access",
        "locksend": "number message",
        "busread": "number number",
        "busown": "number number",
        "evict": "number number",
        "ask": "number number number own",
        "again": "number number",
        "install": "number number number",
        "grant": "access",
        "free": "number access",
        "take": "number message",
    },
}
SHORTHANDS = {
    "access": "number number op labels word mask content content seen",
    "copy": "word word word word count",
    "event": "count number kind",
}


def read_fields(sorts, words):
    """What these words say, as pairs of a sort and a value; words are taken from the front of the list."""
    values = []
    for sort in sorts.split():
        if sort in SHORTHANDS:
            values += read_fields(SHORTHANDS[sort], words)
            continue
        if not words:
            raise NoLine
        word = words.pop(0)
        if sort in CHOICES:
            name = word.decode("latin-1")
            if name not in CHOICES[sort]:
                raise NoLine
            values.append((sort, name))
            values += read_fields(CHOICES[sort][name], words)
        else:
            values.append((sort, SORTS[sort][0](word)))
    return values


def read_line(line):
    """The event of a line without its newline."""
    words = line.split(b" ")
    values = read_fields("event", words)
    if words:
        raise NoLine
    return values


def write_line(values):
    return b" ".join(value.encode() if sort in CHOICES else SORTS[sort][1](value) for sort, value in values) + b"\n"


def read_log(text):
    """The events of a text, or Refused."""
    if not text.startswith(FIRST):
        raise Refused("head")
    if not text.endswith(b"\n"):
        raise Refused("cut")
    events = []
    for number, line in enumerate(text[:-1].split(b"\n")[1:], 2):
        try:
            events.append(read_line(line))
        except NoLine:
            raise Refused(f"line {number}") from None
    return events


def write_log(events):
    return FIRST + b"".join(map(write_line, events))
