"""The verdict on a record and what was kept of it: the one place that decides it, for single prints and for fingerprints, and what follows from each."""
import collections
import textwrap

from . import prints, record, rules
from .calls import CANNOT, GOOD, OTHERWISE

SAME, RULES, RECORD, DAMAGED, PRINT = "same", "rules", "record", "damaged", "print"
UNEXPLAINED, REFUSED_SINCE, MISSING, EXTRA = "unexplained", "refused since", "missing", "extra"
UNCHECKED = "unchecked"

# the words in the order of the totals; what each means, and what to do
FOLLOWS = {
    SAME: ("the points are the kept ones", "nothing is to be done"),
    RULES: (
        "the master is sound: the print's own rules still give the kept points, and today's give others",
        "keep the masters and the prints as they are; --rules NAME checks them under the rules that they were made under",
    ),
    RECORD: (
        "the record's bytes are not those that the print was made of",
        "keep both, and compare the record with another copy of the master: one of the two is another file than was kept",
    ),
    DAMAGED: (
        "the file of the record is damaged, or it was cut short",
        "keep the file, fetch the master from another copy, and check that one against the same print",
    ),
    PRINT: (
        "the print is not as it was written, so it says nothing against the master",
        "keep the masters; fetch the print from another copy, or keep a new one under another name",
    ),
    UNEXPLAINED: (
        "other points, and nothing that accounts for them: keep the master; the replayer or the print is at fault",
        "keep the masters and the prints as they are, and have the replayer looked at: docs/ARCHIVISTS.md says how",
    ),
    REFUSED_SINCE: (
        "an answer that came with a later landing refuses what the kept print still took; the master may be sound",
        "keep the masters and the prints; docs/ARCHIVISTS.md says what to do with such a record",
    ),
    MISSING: ("there is no record of this name", "look for the masters in another copy; what was kept of them stays"),
    EXTRA: ("there is a record and nothing was kept of it", "keep their prints with bin/check-shelf --keep, or make a further fingerprint"),
    UNCHECKED: ("nothing is said of it", "make them readable, or the replay possible, and check again"),
}
# answers that a later landing introduced: prints of before have another for the same record
SINCE = {record.ENDS: "K8"}

# What was found: the record's sum and length, the number of its answer and the sum of its points under the rules asked for.
Seen = collections.namedtuple("Seen", "record length number points")
# One record's verdict, lines that say why, what was found (None where nothing was replayed), the mark of the file that was read, and whether that was in an
# earlier part of an interrupted run.
Result = collections.namedtuple("Result", "name verdict says seen mark earlier")


def result(name, verdict, says=(), seen=None, mark=None):
    return Result(name, verdict, list(says), seen, mark, False)


def listed():
    """The words and what each means, for the help of a command."""
    return "\n".join(textwrap.fill(means, 118, initial_indent=f"  {word:<15}", subsequent_indent=" " * 17) for word, (means, _) in FOLLOWS.items())


def seen_of(data, printed):
    return Seen(prints.sum_of(data), len(data), record.number_in(printed), prints.sum_of(printed))


def rules_wanted(kept, seen, under):
    """The other rules that a verdict has to know the replay under, beside those asked for, which gave what was seen."""
    if seen.points == kept.points or seen.number in record.REFUSED or kept.fault:
        return []
    return [name for name in rules.others(under) if prints.is_old(kept) or name == kept.rules]


def judged(kept, data, seen, printed, under, program):
    """The verdict on a record of these bytes, and lines that say why. printed is what it prints by the name of the rules: those asked for (under), which gave
    what was seen, and those of rules_wanted; program is the sum of the one that printed it."""
    now, unchanged = printed[under], (kept.record, kept.length) == (seen.record, seen.length)
    agreeing = [name for name, text in printed.items() if (seen.points if name == under else prints.sum_of(text)) == kept.points]
    if seen.number in record.REFUSED:
        also = ["its bytes are those that the print was made of: it was refused then too"] if unchanged and not kept.fault else []
        also += [f"the print too: {kept.fault}"] if kept.fault else []
        return DAMAGED, [record.meaning(seen.number)] + also
    if kept.fault:
        return PRINT, [kept.fault] + [same_sum_line(unchanged)] + difference(kept, now) + told_of(seen.number, data)
    if not prints.is_old(kept) and not unchanged:
        return RECORD, [FOLLOWS[RECORD][0], f"its points {agreement(agreeing, under)}"] + difference(kept, now) + told_of(seen.number, data)
    old = ["an old print: points alone, and not of which record or by which rules"] if prints.is_old(kept) else []
    if under in agreeing:
        return SAME, old + told_of(seen.number, data)
    if refused_since(kept, seen.number, data):
        why = "the record's bytes are those that the print was made of: the master is as it was"
        return REFUSED_SINCE, [FOLLOWS[REFUSED_SINCE][0]] + ([why] if unchanged else []) + old + told_of(seen.number, data) + difference(kept, now)
    if agreeing:
        return RULES, [f"{FOLLOWS[RULES][0]} (the print's: {' and '.join(agreeing)}; today's: {under})"] + old + difference(kept, now)
    if not old and kept.rules not in rules.NAMES:
        return UNCHECKED, [f"the print was made under the rules {kept.rules}, which this release doesn't have, and those of {under} give other points"]
    why = [old_and_other(kept, data)] if old else [FOLLOWS[UNEXPLAINED][0], by_which(kept.program, program)]
    return UNEXPLAINED, old + why + difference(kept, now) + told_of(seen.number, data)


def same_sum_line(unchanged):
    if unchanged:
        return "the record has the sum and the length that the print names: the master is sound"
    return "of which record it was made can't be said"


def agreement(agreeing, under):
    if under in agreeing:
        return "agree with the kept ones all the same"
    return f"agree with the kept ones under the rules {agreeing[0]}" if agreeing else "are others too"


def by_which(then, now):
    return "the print was made by this very program" if then == now else f"the print was made by the program {then}, and this is {now}"


def old_and_other(kept, data):
    """What an old print leaves open where no rules give its points."""
    points = record.whole_print(kept.text)[1]
    if kept.number not in record.REFUSED and points != record.points_in(data):
        return f"no rules give it: it has {points} points, and the record {record.points_in(data)}, so it is cut short or another record's"
    return "no rules give it: the record or the print was changed, or the print is of before an earlier landing (docs/RULE-EDITIONS.md)"


def refused_since(kept, number, data):
    """Whether an answer is one that came later, and what was kept a whole print of the record with another."""
    if number not in SINCE or kept.number == number or kept.number in record.REFUSED:
        return False
    return not prints.is_old(kept) or record.whole_print(kept.text)[1] == record.points_in(data)


def told_of(number, data):
    """What is said of a record beside its verdict."""
    if number not in SINCE:
        return []
    why = f"contour ends, {record.bad_end(data)}" if number == record.ENDS else record.MEANINGS[number]
    return [f"refused by {number} since {SINCE[number]}: {why}; docs/ARCHIVISTS.md says what to do"]


def difference(kept, now):
    """The first line that differs: its number, as kept, as it is now. The end of a print counts as a line; a fingerprint has no lines."""
    if kept.text is None or kept.text == now:
        return []
    old, new = kept.text.split(b"\n"), now.split(b"\n")
    place = next(k for k in range(max(len(old), len(new))) if old[k : k + 1] != new[k : k + 1])
    return [f"line {place + 1}, stored: {shown(old[place : place + 1])}", f"line {place + 1}, now:    {shown(new[place : place + 1])}"]


def shown(line):
    return ascii(line[0].decode(errors="replace")) if line else "no line"


# ---- of many records


def totals(counts):
    """How many of each word; same always, the others where there are some."""
    return ", ".join(f"{counts[word]} {word}" for word in FOLLOWS if counts[word] or word == SAME)


def to_do(counts):
    """What to do, a line for each word that isn't same."""
    return [f"{word}: {FOLLOWS[word][1]}" for word in FOLLOWS if counts[word] and word != SAME]


def status_of(counts, strict):
    good = (SAME,) if strict else (SAME, RULES)
    if counts[UNCHECKED]:
        return CANNOT
    return GOOD if all(word in good for word in counts if counts[word]) else OTHERWISE
