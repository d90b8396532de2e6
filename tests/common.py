"""What the test scripts share: running the program by its launcher, images, and counting checks."""

import os
import shutil
import struct
import subprocess
import sys
import tempfile

ROOT = os.path.dirname(os.path.dirname(os.path.realpath(__file__)))
# Races are looked for by what users have for it.
sys.path.insert(0, os.path.join(ROOT, "tools"))
LAUNCHER = os.path.join(ROOT, "dash")
# What the launcher builds and runs: for many short runs, once it is built.
PROGRAM = os.path.join(ROOT, "crates", "dash", "out", "dash")
# A run that takes so many seconds hangs; the slowest run here takes a small part of it.
HANG = 120

USAGE = (
    b"dash: usage: dash run IMAGE [TOPOLOGY [--log] | CLUSTERS HARTS BUDGET [--log]] | dash gen SEED\n"
)


class Ran:
    """How a run ended: its status (negative: by a signal; None: it hung), and what it printed."""

    def __init__(self, status, out, err):
        self.status = status
        self.out = out
        self.err = err

    def __eq__(self, other):
        return (self.status, self.out, self.err) == (other.status, other.out, other.err)

    def __repr__(self):
        return f"status {self.status}, stdout {shortened(self.out)}, stderr {shortened(self.err)}"


def shortened(data):
    if data is None:
        return "not looked at"
    return repr(data if len(data) <= 300 else data[:150] + b" ... " + data[-150:])


def run(*words, launcher=LAUNCHER, **options):
    """Runs the launcher with these words; stdout and stderr are taken unless options say otherwise."""
    settings = {"stdin": subprocess.DEVNULL, "stdout": subprocess.PIPE, "stderr": subprocess.PIPE}
    settings.update(options)
    with subprocess.Popen([launcher, *words], **settings) as process:
        try:
            out, err = process.communicate(timeout=HANG)
        except subprocess.TimeoutExpired:
            process.kill()
            out, err = process.communicate()
            return Ran(None, out, err)
    return Ran(process.returncode, out, err)


def read(path):
    """The bytes of a file, or None where it is not there."""
    try:
        with open(path, "rb") as file:
            return file.read()
    except FileNotFoundError:
        return None


class Checks:
    """Prints a line for each check, and at the end how many passed and failed."""

    def __init__(self):
        self.passed = 0
        self.failed = 0

    def check(self, name, holds, told=""):
        if holds:
            self.passed += 1
            print(f"ok      {name}", flush=True)
        else:
            self.failed += 1
            print(f"FAILED  {name}: {told}", flush=True)

    def equal(self, name, found, wanted):
        self.check(name, found == wanted, f"found {found}; wanted {wanted}")

    def build(self):
        """Has the program built, so that no later run does; without it nothing is worth a try."""
        hello = os.path.join(ROOT, "examples", "hello", "hello.elf")
        with subprocess.Popen([LAUNCHER, "run", hello], stdin=subprocess.DEVNULL, stdout=subprocess.PIPE) as process:
            process.communicate()
        self.check("the program is built", process.returncode == 0, f"status {process.returncode}")
        if self.failed:
            self.end()

    def build_crate(self, name):
        """Has the program of that crate proved and built, and gives its path."""
        folder = os.path.join(ROOT, "crates", name)
        path = os.path.join(folder, "out", name)
        # `rt run` runs it as well: these words are none that it serves.
        with subprocess.Popen(["rt", "run", "--", "none"], cwd=folder, stdin=subprocess.DEVNULL, stdout=subprocess.PIPE, stderr=subprocess.STDOUT) as process:
            said, _ = process.communicate()
        self.check(f"the program of {name} is built", os.path.exists(path), f"`rt run` says in its folder: {shortened(said)}")
        if self.failed:
            self.end()
        return path

    def end(self):
        print(f"{self.passed} passed, {self.failed} failed", flush=True)
        sys.exit(1 if self.failed or not self.passed else 0)


class Folder:
    """A folder of its own under the system's temporary one, removed at the end."""

    def __enter__(self):
        self.path = tempfile.mkdtemp(prefix="dash-test-")
        return self

    def __exit__(self, *_):
        shutil.rmtree(self.path)

    def at(self, name):
        """The path of that name in the folder, as bytes: in UTF-8, whatever the locale is."""
        return os.path.join(os.fsencode(self.path), name.encode())

    def write(self, name, data):
        with open(self.at(name), "wb") as file:
            file.write(data)
        return self.at(name)


# The fields of a file header and of a program header, in their order, with the values of an accepted image.
HEADER = {
    "magic": b"\x7fELF",
    "ei_class": 1,
    "ei_data": 1,
    "ei_rest": bytes([1]) + bytes(9),
    "e_type": 2,
    "e_machine": 243,
    "e_version": 1,
    "e_entry": 0x10000,
    "e_phoff": 52,
    "e_shoff": 0,
    "e_flags": 0,
    "e_ehsize": 52,
    "e_phentsize": 32,
    "e_phnum": 1,
    "e_shentsize": 0,
    "e_shnum": 0,
    "e_shstrndx": 0,
}
SEGMENT = {
    "p_type": 1,
    "p_offset": 84,
    "p_vaddr": 0x10000,
    "p_paddr": 0x10000,
    "p_filesz": None,
    "p_memsz": None,
    "p_flags": 5,
    "p_align": 4,
}


def image(code, **fields):
    """An ELF file with one segment of these bytes; fields replace what stands in its headers."""
    for name in fields:
        assert name in HEADER or name in SEGMENT, name
    header = {**HEADER, **{name: fields[name] for name in fields if name in HEADER}}
    segment = {**SEGMENT, "p_filesz": len(code), "p_memsz": len(code)}
    segment.update({name: fields[name] for name in fields if name in SEGMENT})
    return (
        struct.pack("<4sBB10sHHIIIIIHHHHHH", *header.values())
        + struct.pack("<8I", *segment.values())
        + code
    )


def image_of(entry, *segments):
    """An ELF file of several segments, each given by its address, its bytes, its size in memory and its flags."""
    place = 52 + 32 * len(segments)
    table, contents = b"", b""
    for at, data, memsz, flags in segments:
        fields = {"p_offset": place + len(contents), "p_vaddr": at, "p_paddr": at, "p_filesz": len(data), "p_memsz": memsz, "p_flags": flags}
        table += struct.pack("<8I", *{**SEGMENT, **fields}.values())
        contents += data
    return image(b"", e_entry=entry, e_phnum=len(segments))[:52] + table + contents


def code_of(words):
    return b"".join(struct.pack("<I", word & 0xFFFFFFFF) for word in words)
