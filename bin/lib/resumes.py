"""What an interrupted run had done, so that it goes on from there: a file with a line for each record that was replayed, with the mark of the file that was read.
A record whose file has another mark by then is replayed again, and a run that ends takes its file away: the next one begins anew."""
import json
import os

from . import calls, checks, files, prints, verdicts

FIRST = "taleviqa run 1 "
SHORT = 16  # digits of a line's own sum: a line that was cut short is none


class State:
    """Lines of an earlier part of the run are taken in order, and a new file is written beside: it takes the old one's place once it has all that was taken."""

    def __init__(self, name, asked):
        self.name, self.beside, self.first = name, name + ".new", FIRST + prints.sum_of(json.dumps(asked).encode()) + "\n"
        self.old, self.ahead, self.taken, self.in_place = None, None, 0, False
        try:
            if os.path.lexists(self.beside):
                with open(self.beside, "rb") as left:
                    self.hold_ours(self.beside, left.readline(1 << 16))
            if os.path.lexists(name):
                self.old = open(name, "rb")
                self.hold_same(self.old.readline(1 << 16))
            self.step()
            self.file = os.open(self.beside, os.O_WRONLY | os.O_CREAT | os.O_TRUNC | os.O_CLOEXEC, 0o666)
            calls.write_all(self.file, self.first.encode())
            self.settle()
        except OSError as bad:
            raise calls.Bad(f"{bad.filename or name}: {bad.strerror}") from None

    def hold_ours(self, name, first):
        if first and not first.startswith(FIRST.encode()):
            raise calls.Bad(f"{name} is there already, and is no file that an interrupted run left")

    def hold_same(self, first):
        self.hold_ours(self.name, first)
        if first and first != self.first.encode():
            raise calls.Bad(f"{self.name} is of another run: another fingerprint, folder, program or rules; name another file, or give the same call")

    def step(self):
        """The next line of the earlier part; None behind the last that is whole."""
        text = self.old.readline(1 << 20) if self.old else b""
        total, _, rest = text.rstrip(b"\n").partition(b" ")
        whole = text.endswith(b"\n") and total.decode(errors="replace") == prints.sum_of(rest)[:SHORT]
        self.ahead = json.loads(rest.decode()) if whole else None

    def earlier(self, name, path):
        """What the earlier part of the run came to for a record, if its file is still the one that was read."""
        text = name.hex()
        while self.ahead and self.ahead["name"] < text:
            self.step()
        if not self.ahead or self.ahead["name"] != text or self.ahead["mark"] != mark_or_none(path):
            return None
        self.taken += 1
        return self.ahead

    def note(self, name, mark, held, was_taken):
        """Keeps what a record came to."""
        rest = json.dumps({"name": name.hex(), "mark": mark, "held": held}).encode()
        try:
            calls.write_all(self.file, prints.sum_of(rest)[:SHORT].encode() + b" " + rest + b"\n")
            self.taken -= was_taken
            self.settle()
        except OSError as bad:
            raise calls.Bad(f"{self.beside if not self.in_place else self.name}: {bad.strerror}") from None

    def settle(self):
        """The new file takes the place of the old one as soon as nothing is left that only the old one has."""
        if not self.in_place and not self.ahead and not self.taken:
            os.rename(self.beside, self.name)
            self.in_place = True

    def end(self):
        """The run is done: its file goes, so that no later run takes its word for a check of its own."""
        os.close(self.file)
        for name in (self.beside, self.name):
            if os.path.lexists(name):
                os.unlink(name)


def resumed(tasks, state):
    """The tasks, with a result in the place of each that an earlier part of the run came to."""
    for task in tasks:
        held = state.earlier(os.fsencode(task.name), task.path) if isinstance(task, checks.Task) else None
        if held:
            verdict, says, seen = held["held"]
            task = verdicts.Result(task.name, verdict, says, verdicts.Seen(*seen), held["mark"], True)
        yield task


def noted(results, state):
    """The results, each kept that was replayed."""
    for result in results:
        if result.mark:
            state.note(os.fsencode(result.name), result.mark, [result.verdict, result.says, result.seen], result.earlier)
        yield result


def mark_or_none(path):
    try:
        return files.mark_of(path)
    except calls.Bad:
        return None
