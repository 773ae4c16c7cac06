"""Cases as words, and the two programs that answer them: the Rust and FreeType."""

import pathlib
import struct
import subprocess

HERE = pathlib.Path(__file__).resolve().parent
ORACLE = HERE.parent
MASK = 0xFFFFFFFF
FRESH = [16384, 0] * 3 + [0, 0, 0, 64] + [0] * 6 + [1] + [1] * 3 + [0] * 5 + [68, 0] + [64, 0, 0, 1, 0, 0, 0]
STATE_NAMES = (["projection x", "projection y", "dual x", "dual y", "freedom x", "freedom y", "mode", "threshold",
                "phase", "period", "rp0", "rp0 high", "rp1", "rp1 high", "rp2", "rp2 high", "loop", "zp0", "zp1",
                "zp2", "compatible", "pedantic", "native", "x done", "y done", "cut-in", "wrapped", "minimum", "width",
                "width cut-in", "flips", "scale", "pushed", "pushes"])
# FreeType has no count of wrapped roundings: it is the one word that isn't compared.
WRAPPED = STATE_NAMES.index("wrapped")
# The rules of a run by their names, and the argument that says their number.
RULES, CHOICE = {"skrifa": 0, "freetype": 1}, 5
LIST_NAMES = ["unscaled x", "unscaled y", "original x", "original y", "x", "y", "flags", "contours",
              "twilight original x", "twilight original y", "twilight x", "twilight y", "twilight flags", "values",
              "sheet"]


class Case:
    """A call with its world; lists hold words."""

    def __init__(self, state, lists, kind=0, arguments=(0,) * 8, start=0, budget=2**64 - 1):
        self.state, self.lists = state, lists
        self.kind, self.arguments, self.start, self.budget = kind, arguments, start, budget

    @property
    def rules(self):
        """A run's; a direct call chooses something else there, and has none."""
        return self.arguments[CHOICE] if self.kind == 0 else RULES["skrifa"]

    def under(self, rules):
        """The same run by the rules of that name."""
        arguments = [*self.arguments[:CHOICE], RULES[rules], *self.arguments[CHOICE + 1:]]
        return Case(self.state, self.lists, self.kind, arguments, self.start, self.budget)

    def words(self, outcome=None):
        """With the outcome, or with none."""
        limits = [part for number in (self.start, self.budget) for part in halves(number)]
        limits = limits if self.kind == 0 else [0] * 4
        body = [*self.state] + [word for one in self.lists for word in one]
        said, changes = outcome.words() if outcome else ([0] * 10, [])
        head = [self.kind, *self.arguments, *limits, *said] + [len(one) for one in self.lists]
        return [len(head) + len(body) + len(changes) + 1, *head, *body, *changes]

    def expanded(self):
        return [*self.state] + [word for one in self.lists for word in one]

    def line_after(self, outcome):
        """The next line alone, from where the outcome left the world."""
        words = outcome.world(self)
        lists, place = [], len(STATE_NAMES)
        for one in self.lists:
            lists.append(words[place:place + len(one)])
            place += len(one)
        return Case(words[:len(STATE_NAMES)], lists, arguments=self.arguments, start=outcome.place, budget=1)

    def text(self):
        names = {name: word for name, word in zip(STATE_NAMES, self.state)}
        state = [f"{name} {signed(word)}" for (name, word), fresh in zip(names.items(), FRESH) if word != fresh]
        lists = [f"{name} {list(map(signed, one))}" for name, one in zip(LIST_NAMES, self.lists) if one]
        by = " by freetype" if self.rules else ""
        call = f"start {self.start}{by}" if self.kind == 0 else f"kind {self.kind} {list(map(signed, self.arguments))}"
        return "; ".join([call, *state, *lists])


class Outcome:
    """What a program said of a case: number, place, lines, detail, value, changed words."""

    def __init__(self, number, place, lines, detail, value, changes):
        self.number, self.place, self.lines, self.detail = number, place, lines, detail
        self.value, self.changes = value, changes

    def words(self):
        """The ten words that it says, and the changed ones."""
        numbers = [half for number in (self.place, self.lines, self.detail) for half in halves(number)]
        return [self.number, *numbers, *self.value, len(self.changes)], [word for pair in self.changes for word in pair]

    def world(self, case):
        words = case.expanded()
        for index, word in self.changes:
            words[index] = word
        return words

    def text(self, case):
        names = STATE_NAMES + [f"{name} {i}" for name, one in zip(LIST_NAMES, case.lists) for i in range(len(one))]
        changed = [f"{names[index]} = {signed(word)}" for index, word in self.changes]
        value = f" value {list(map(signed, self.value))}" if case.kind else ""
        return f"answer {self.number} detail {self.detail}{value}: " + (", ".join(changed) or "nothing changed")


def halves(number):
    return [number & MASK, number >> 32]


def signed(word):
    return word - 2**32 if word >> 31 else word


def alike(case, one, other):
    """FreeType says neither which index it refuses nor whether a point or a control value."""
    def shown(outcome):
        named = outcome.number not in (7, 8)
        return outcome.number if named else 7, outcome.detail if named or case.kind else 0
    def left(outcome):
        words = outcome.world(case)
        return words[:WRAPPED] + words[WRAPPED + 1:]
    same = (one.place, one.lines, one.value) == (other.place, other.lines, other.value)
    return same and shown(one) == shown(other) and left(one) == left(other)


def rust():
    subprocess.run([ORACLE / "build"], check=True)
    return [ORACLE / "target/release/oracle", "serve"]


def freetype(width):
    subprocess.run([HERE / "build", width], check=True)
    return [HERE / "built" / width]


def ask_words(program, stream, words):
    given = struct.pack(f"<{len(words)}I", *words)
    done = subprocess.run([*program, stream], input=given, stdout=subprocess.PIPE, check=True)
    return struct.unpack(f"<{len(done.stdout) // 4}I", done.stdout)


def ask(program, cases, stream="cases"):
    """The program's outcome of each case."""
    words = ask_words(program, stream, [word for case in cases for word in case.words()])
    outcomes, place = [], 0
    for _ in cases:
        number, *rest, count = words[place:place + 10]
        pairs = words[place + 10:place + 10 + 2 * count]
        numbers = [rest[i] + (rest[i + 1] << 32) for i in (0, 2, 4)]
        outcomes.append(Outcome(number, *numbers, tuple(rest[6:]), list(zip(pairs[::2], pairs[1::2]))))
        place += 10 + 2 * count
    if place != len(words):
        raise ValueError(f"{program[0]} wrote {len(words)} words for {place}")
    return outcomes
