"""The form of a kept print, which docs/PRINT.md lays down to the byte, and what a print says that was kept in it or in the form of before, points alone."""
import collections
import hashlib
import re

from . import record
from .calls import Bad

MOST_BYTES = 1 << 20  # far more than any print has
FIRST = b"taleviqa print "
HEAD = re.compile(rb"taleviqa print 1\nrecord ([0-9a-f]{64}) (0|[1-9]\d*)\nrules ([a-z]\w*)\nprogram ([0-9a-f]{64})\n")
SUM = re.compile(rb"sum ([0-9a-f]{64})\n")
SUM_BYTES = len("sum \n") + 64

# What was kept of a record, in a print or in a line of a fingerprint. record and length are of the record that it was made of, rules and program those
# that made it: None in an old print, which doesn't say them. points is the sum of what was printed, text all of it, where that was kept. fault says why
# the print itself is not to be gone by.
Kept = collections.namedtuple("Kept", "record length rules program number points text fault")


def is_old(kept):
    return kept.record is None and not kept.fault


def sum_of(data):
    return hashlib.sha256(data).hexdigest()


def summed(text):
    """Text, and the line with its sum that ends it."""
    return text + f"sum {sum_of(text)}\n".encode()


def made(data, rules, program, printed):
    """The print of a record that printed this under the rules of a name, by the program of this sum."""
    head = f"taleviqa print 1\nrecord {sum_of(data)} {len(data)}\nrules {rules}\nprogram {program}\n"
    return summed(head.encode() + printed)


def read(stored):
    """What a print says, of either form."""
    if stored.startswith(FIRST):
        return read_named(stored)
    number, fault = number_and_fault(stored)
    return Kept(None, None, None, None, number, sum_of(stored), stored, fault)


def number_and_fault(printed):
    """The answer's number in what was printed, and what is wrong with its form."""
    try:
        return record.whole_print(printed)[0][0], ""
    except Bad as bad:
        return None, str(bad)


def read_named(stored):
    text, last = stored[:-SUM_BYTES], stored[-SUM_BYTES:]
    head, whole = HEAD.match(text), SUM.fullmatch(last)
    fault = "" if whole and whole.group(1).decode() == sum_of(text) else "its own sum fails: it was changed, or is cut short"
    if not head and not fault:
        raise Bad(f"a print of another version than 1, and its sum is right: {ascii(stored.splitlines()[0].decode(errors='replace'))}")
    if not head:
        return Kept(None, None, None, None, None, None, None, fault)
    printed = text[head.end() :]
    number, wrong = number_and_fault(printed)
    made_of, length, rules, program = (word.decode() for word in head.groups())
    return Kept(made_of, int(length), rules, program, number, sum_of(printed), printed, fault or wrong)
