"""The fingerprint of a release, which docs/PRINT.md lays down to the byte: a line for each record of a folder tree, and a sum at its end. And the tree itself."""
import hashlib
import os
import re

from . import calls, prints

FIRST = b"taleviqa fingerprint "
HEAD = re.compile(rb"taleviqa fingerprint 1\nrules ([a-z]\w*)\nprogram ([0-9a-f]{64})\nrecords (0|[1-9]\d*)\n")
ENTRY = re.compile(rb"([0-9a-f]{64}) (0|[1-9]\d*) ([0-9a-f]{64}) (0|[1-9]\d*) ((?:[!-\[\]-~]|\\x[0-9a-f]{2})+)\n")
HEAD_LINES = 4
PLAIN = re.compile(r"[!-\[\]-~]+")
MOST_LINE = 1 << 16  # four times the longest path, and more
RECORD_END = b".record"


def escaped(name, also=b""):
    """A name as it stands in a fingerprint: a byte that is no visible ASCII, and the backslash, as \\x and two digits."""
    plain = PLAIN.fullmatch(name)
    return name if plain else "".join(chr(byte) if 0x21 <= byte <= 0x7E and byte != 0x5C or byte in also else f"\\x{byte:02x}" for byte in os.fsencode(name))


def unescaped(text):
    return re.sub(rb"\\x(..)", lambda found: bytes([int(found.group(1), 16)]), text)


def head(rules, program, count):
    return f"taleviqa fingerprint 1\nrules {rules}\nprogram {program}\nrecords {count}\n".encode()


def line(name, seen):
    return f"{seen.record} {seen.length} {seen.points} {seen.number} {escaped(name)}\n".encode()


class Broken(Exception):
    """A fingerprint whose own sum fails."""


class Fingerprint:
    """A fingerprint that is open to be read, its sum seen to be right."""

    def __init__(self, name):
        self.name = name
        try:
            self.file = open(name, "rb")
            start = self.file.read(len(FIRST))
            if start != FIRST:
                raise calls.Bad(f"{name} is no fingerprint: it doesn't begin with {FIRST.decode()!r}")
            self.sum = self.hold_sum()
            self.file.seek(0)
            found = HEAD.fullmatch(b"".join(self.file.readline(MOST_LINE) for _ in range(HEAD_LINES)))
        except OSError as bad:
            raise calls.Bad(f"{name}: {bad.strerror}") from None
        if not found:
            raise calls.Bad(f"{name} is a fingerprint of another version than 1, or none")
        self.rules, self.program, self.count = found.group(1).decode(), found.group(2).decode(), int(found.group(3))

    def hold_sum(self):
        """The sum of all lines before the last, which says it."""
        self.file.seek(0)
        total, held = hashlib.sha256(), b""
        while True:
            part = self.file.read(1 << 20)
            if not part:
                break
            held += part
            total.update(held[: -prints.SUM_BYTES])
            held = held[-prints.SUM_BYTES :]
        said = prints.SUM.fullmatch(held)
        if not said or said.group(1).decode() != total.hexdigest():
            raise Broken("its own sum fails: it was changed, or is cut short")
        return total.hexdigest()

    def entries(self):
        """The name of each record and what was kept of it, in the order of the names' bytes."""
        last = b""
        for _ in range(self.count):
            found = ENTRY.fullmatch(self.file.readline(MOST_LINE))
            name = unescaped(found.group(5)) if found else b""
            if name <= last or escaped(os.fsdecode(name)).encode() != found.group(5):
                raise calls.Bad(f"{self.name}: its sum is right, and a line of it is none of a fingerprint, or stands out of order")
            last = name
            made_of, length, points, number = (word.decode() for word in found.groups()[:4])
            yield name, prints.Kept(made_of, int(length), self.rules, self.program, int(number), points, None, "")
        if not prints.SUM.fullmatch(self.file.readline(MOST_LINE)):
            raise calls.Bad(f"{self.name}: its sum is right, and it has not as many lines as it says")


# ---- the tree


def records_below(folder, below=b""):
    """Each *.record below a folder, by the bytes of its relative name and in their order, and no fault; a folder that can't be read by its name, a slash at its
    end, and the reason. The names of one folder are held at a time, and those of the folders that it is in."""
    folders, links = set(), set()
    try:
        with os.scandir(os.path.join(os.fsencode(folder), below)) as found:
            names = []
            for entry in found:
                if entry.is_dir():
                    (links if entry.is_symlink() else folders).add(entry.name + b"/")
                    names.append(entry.name + b"/")
                elif entry.name.endswith(RECORD_END):
                    names.append(entry.name)
    except OSError as bad:
        yield below, bad.strerror
        return
    for name in sorted(names):
        if name in links:
            yield below + name, "a link to a folder; name the folder itself"
        elif name in folders:
            yield from records_below(folder, below + name)
        else:
            yield below + name, ""
