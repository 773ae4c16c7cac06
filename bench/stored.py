"""The records to measure on: the oracle's runs that are stored in crates/vectors_cases/stdin, one of 800 points, and streams of records."""
import pathlib
import struct
import sys

ROOT = pathlib.Path(__file__).resolve().parent.parent
sys.path.insert(0, str(ROOT / "bin"))
from lib import record_text  # noqa: E402

# places in a case, docs/ORACLE.md
KIND, SIZES, STATE, LISTS = 1, 24, 39, 73
RUN, ALIKE, MOST, EDITION = 0, 1 << 31, 24 * 1024, 3


def stored_runs():
    """The stored runs that fit a record, as records."""
    data = (ROOT / "crates/vectors_cases/stdin").read_bytes()
    words, place = struct.unpack("<%dI" % (len(data) // 4), data), 0
    while place < len(words):
        case = words[place : place + words[place]]
        place += case[0]
        if case[KIND] != RUN:
            continue
        lists, at = [], LISTS
        for size in case[SIZES:STATE]:
            length, stored = size % ALIKE, 1 if size & ALIKE else size
            lists.append(case[at : at + stored] * (length if size & ALIKE else 1))
            at += stored
        body = list(case[STATE:LISTS]) + [word for one in lists for word in one]
        words_of = body + [len(lists[k]) for k in (0, 7, 8, 13, 14)] + [EDITION, 4 * len(body)]
        if len({len(one) for one in lists[:7]}) == 1 and len({len(one) for one in lists[8:13]}) == 1 and 4 * len(words_of) < MOST:
            yield struct.pack("<%dI" % (len(words_of) + 1), *words_of, sum(words_of) % 2**32)


def many_points():
    """The record of 800 points that docs/PERFORMANCE.md measures one program by."""
    points = "".join(f"point {i * 7} {i * 5} {i * 64} {i * 40 + 7} {i * 64} {i * 40 + 7} 1\n" for i in range(800))
    return record_text.make((points + "contours 799\nline SVTCA[y]\nline MDAP[1] 0\nline IUP[y]\n").encode())


def framed(texts):
    return b"".join(struct.pack("<I", len(text)) + text for text in texts)
