"""What the column SEEN of a report's access lines may say: which content of several an access was shown.

`line V` is a content of the word's line of 16 bytes after V commits, `own K` the hart's own store of that number
out of its write buffer, `lock N` a lock word after N accesses. Which store made which version is not in a report.
What is: how many stores and atomic operations were printed so far, which of them must be committed, and which of
those every hart must be shown. So a version has a least and a greatest value, which are often the same.
"""

import collections

LINE_BYTES = 16
# The stores that a hart's write buffer has room for.
BUFFER = 4
LOCK_OPS = ("ask", "unlock")

Store = collections.namedtuple("Store", "number line word mask written")


class Unfit(Exception):
    """Why what the column says can't be."""


class Shown:
    """What is known of commits behind the access lines so far."""

    def __init__(self, opening, clusters, harts):
        self.opening = opening
        self.harts = harts
        # By lock word: its accesses.
        self.locks = collections.Counter()
        # By line: the writes that were printed, the commits that every hart is shown from now on, the least
        # version of which every hart is shown one from now on, and the greatest that there was.
        self.writes, self.public = collections.Counter(), collections.Counter()
        self.least, self.greatest = collections.Counter(), collections.Counter()
        # By cluster and line: the greatest version that the cluster was shown.
        self.floors = collections.Counter()
        # By hart: the stores that may still be in its buffer, the oldest first; and by line how many of its
        # stores are committed that others needn't be shown.
        self.buffers = [collections.deque() for _ in range(clusters * harts)]
        self.own = [collections.Counter() for _ in range(clusters * harts)]
        # By line and version: the bytes of it that were shown, by their places.
        self.contents = {}

    def commit(self, hart, number):
        """The hart's stores up to that number are committed."""
        buffer = self.buffers[hart]
        while buffer and buffer[0].number <= number:
            self.own[hart][buffer.popleft().line] += 1

    def drain(self, hart):
        """All stores of the hart are committed, and every hart is shown them from now on."""
        buffer = self.buffers[hart]
        if buffer:
            self.commit(hart, buffer[-1].number)
        self.public.update(self.own[hart])
        self.own[hart].clear()

    def newest(self, hart, word):
        """The newest store of the hart to the word that may be in its buffer, or None."""
        return next((store for store in reversed(self.buffers[hart]) if store.word == word), None)

    def take(self, access):
        """Judges the next access line, and learns what it tells."""
        kind, _, number = access.seen.partition(" ")
        fitting = self.kinds_of(access)
        if kind not in fitting:
            raise Unfit(f"SEEN is {access.seen}, but this access is shown {' or '.join(fitting)}")
        if access.op in LOCK_OPS:
            self.take_lock(access, int(number))
        elif access.op == "store":
            self.take_store(access)
        elif kind == "own":
            self.take_own(access, int(number))
        elif kind == "line" and access.written == "-":
            self.take_read(access, int(number))
        elif kind == "line":
            self.take_atomic(access, int(number))

    def kinds_of(self, access):
        if access.op in LOCK_OPS:
            return ("lock",)
        if access.op == "store" or access.op == "sc" and access.written == "-":
            return ("-",)
        return ("line", "own") if access.op == "load" else ("line",)

    def take_lock(self, access, count):
        if count != self.locks[access.word]:
            raise Unfit(f"SEEN is lock {count}, but {self.locks[access.word]} accesses of that lock word stand before it")
        self.locks[access.word] += 1
        if access.op == "unlock":
            self.drain(access.hart)

    def take_store(self, access):
        line = int(access.word, 16) // LINE_BYTES
        self.writes[line] += 1
        buffer = self.buffers[access.hart]
        buffer.append(Store(access.number, line, access.word, access.mask, access.written))
        if len(buffer) > BUFFER:
            self.commit(access.hart, buffer[0].number)

    def take_own(self, access, number):
        store = self.newest(access.hart, access.word)
        if store is None:
            raise Unfit(f"SEEN is own {number}, but the hart has no store to that word in its buffer")
        if store.number != number:
            raise Unfit(f"SEEN is own {number}, but the hart's newest store to that word is {store.number}")
        if access.mask & ~store.mask:
            raise Unfit(f"SEEN is own {number}, but that store does not write every byte that is read")
        if int(access.read, 16) != int(store.written, 16) & bits_of(access.mask):
            raise Unfit(f"SEEN is own {number}, but that store wrote {store.written}")

    def take_read(self, access, version):
        line = self.prepare(access)
        self.check_version(line, version, self.least_for(access.hart, line))
        cluster = access.hart // self.harts
        self.floors[cluster, line] = max(self.floors[cluster, line], version)
        self.greatest[line] = max(self.greatest[line], version)
        self.learn(line, version, access, access.read)

    def take_atomic(self, access, version):
        line = self.prepare(access)
        if "r" in access.labels:
            self.drain(access.hart)
        commits = self.public[line] + sum(own[line] for own in self.own)
        self.check_version(line, version, max(self.least[line], self.greatest[line], commits))
        if access.read != "-":
            self.learn(line, version, access, access.read)
        self.writes[line] += 1
        self.public[line] += 1
        self.least[line] = self.greatest[line] = version + 1
        # The rest of the line is as it was.
        self.contents[line, version + 1] = dict(self.content(line, version))
        place = int(access.word, 16) % LINE_BYTES
        self.contents[line, version + 1].update(enumerate(int(access.written, 16).to_bytes(4, "little"), place))

    def prepare(self, access):
        """The line of an access that was shown a version: no store to its word is in its hart's buffer."""
        store = self.newest(access.hart, access.word)
        if store is not None:
            self.commit(access.hart, store.number)
        return int(access.word, 16) // LINE_BYTES

    def least_for(self, hart, line):
        """The least version of the line that the hart may be shown now."""
        cluster = hart // self.harts
        neighbours = self.own[cluster * self.harts : (cluster + 1) * self.harts]
        commits = self.public[line] + sum(own[line] for own in neighbours)
        return max(self.least[line], self.floors[cluster, line], commits)

    def check_version(self, line, version, least):
        if version < least:
            raise Unfit(f"SEEN is line {version}, but this access is shown version {least} at least")
        if version > self.writes[line]:
            raise Unfit(f"SEEN is line {version}, but only {self.writes[line]} writes to that line stand before it")

    def content(self, line, version):
        if (line, version) not in self.contents:
            first = line * LINE_BYTES
            known = enumerate(self.opening[first : first + LINE_BYTES]) if version == 0 else ()
            self.contents[line, version] = dict(known)
        return self.contents[line, version]

    def learn(self, line, version, access, value):
        """A version of a line has one content, and version 0 that of the image."""
        content = self.content(line, version)
        place = int(access.word, 16) % LINE_BYTES
        for offset, byte in enumerate(int(value, 16).to_bytes(4, "little")):
            if access.mask >> offset & 1 and content.setdefault(place + offset, byte) != byte:
                raise Unfit(f"SEEN is line {version}, but that version has another content: READ is {value}")


def bits_of(mask):
    """The bits of a word that are in the bytes of a mask."""
    return sum(0xFF << 8 * offset for offset in range(4) if mask >> offset & 1)
