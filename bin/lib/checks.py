"""Records read once, replayed in lists and judged: what is said of a record is said of the bytes that were replayed."""
import collections
import json

from . import calls, files, fingerprints, prints, programs, record, rules, verdicts, workers

# how many records a worker is given at a time; one where each takes a process of its own, which is long beside a worker's turn
MOST_RECORDS = 256

# A record to be judged: its name in what is said, its file, and what was kept of it, or the name of the print that has it.
Task = collections.namedtuple("Task", "name path kept")


class Reading:
    """A record's bytes, the mark of its file, what is printed of it by the name of the rules, and what that comes to under those asked for; or why it can't
    be had."""

    def __init__(self, path):
        self.path, self.data, self.mark, self.printed, self.seen, self.bad = path, b"", None, {}, None, ""
        try:
            self.data, self.mark = files.read_marked(path, "RECORD", record.READ_BYTES)
        except calls.Bad as bad:
            self.bad = str(bad)

    def settle(self):
        """A file that was replaced meanwhile is none of which anything is said."""
        try:
            if not self.bad:
                files.hold_mark(self.path, self.mark)
        except calls.Bad as bad:
            self.bad = str(bad)


def replay(readings, under):
    good = [reading for reading in readings if not reading.bad]
    for reading, answer in zip(good, programs.replay_each([reading.data for reading in good], under) if good else []):
        if isinstance(answer, calls.Bad):
            reading.bad = str(answer)
        else:
            reading.printed[under] = answer[1]


def read_and_replayed(paths, under):
    readings = [Reading(path) for path in paths]
    replay(readings, under)
    for reading in readings:
        reading.settle()
        if not reading.bad:
            reading.seen = verdicts.seen_of(reading.data, reading.printed[under])
    return readings


def start(count):
    """Finds the program before anything is said of a record, and tells where very many go through the slow one. The sum of its file, and how many records
    go at a time."""
    name, total = programs.replayer()
    if name != programs.MANY and count > MOST_RECORDS:
        calls.say(f"no {programs.MANY} in release/: {count} records are replayed one by one, which is slower")
    return total, MOST_RECORDS if name == programs.MANY else 1


# ---- verdicts


def judged(tasks, under, program):
    """A result for each task; what is a result already stays."""
    done = {k: task for k, task in enumerate(tasks) if isinstance(task, verdicts.Result)}
    kept = {}
    for k, task in enumerate(tasks):
        if k not in done:
            try:
                kept[k] = task.kept if isinstance(task.kept, prints.Kept) else prints.read(calls.read(task.kept, "PRINT", prints.MOST_BYTES))
            except calls.Bad as bad:
                done[k] = verdicts.result(task.name, verdicts.UNCHECKED, [str(bad)])
    readings = dict(zip(kept, read_and_replayed([tasks[k].path for k in kept], under)))
    wanted = {k: verdicts.rules_wanted(kept[k], one.seen, under) for k, one in readings.items() if one.seen}
    for name in rules.others(under):
        replay([readings[k] for k in wanted if name in wanted[k]], name)
    for k, one in readings.items():
        done[k] = result_of(tasks[k].name, kept[k], one, under, program)
    return [done[k] for k in range(len(tasks))]


def result_of(name, kept, reading, under, program):
    if reading.bad:
        return verdicts.result(name, verdicts.UNCHECKED, [reading.bad])
    verdict, says = verdicts.judged(kept, reading.data, reading.seen, reading.printed, under, program)
    return verdicts.result(name, verdict, says, reading.seen, reading.mark)


def looked_at(tasks, under):
    """What each task's record comes to, for a fingerprint that is made; what is a result already stays."""
    done = {k: task for k, task in enumerate(tasks) if isinstance(task, verdicts.Result)}
    left = [k for k in range(len(tasks)) if k not in done]
    for k, one in zip(left, read_and_replayed([tasks[k].path for k in left], under)):
        done[k] = verdicts.result(tasks[k].name, verdicts.UNCHECKED if one.bad else verdicts.EXTRA, [one.bad], one.seen, one.mark if one.seen else None)
    return [done[k] for k in range(len(tasks))]


def report(results, total, as_json=False, strict=False, summary=True, shown=str):
    """Writes each result as it comes, and the totals with what to do. The exit status."""
    counts, progress = collections.Counter(), workers.Progress(total)
    try:
        for result in results:
            progress.clear_for_output()
            calls.write(as_object(result) if as_json else as_text(shown(result.name), result))
            counts[result.verdict] += 1
            progress.count()
    except (KeyboardInterrupt, calls.Bad):
        progress.clear()
        calls.say(f"stopped after {sum(counts.values())} of {total}: {verdicts.totals(counts)}")
        raise
    progress.clear()
    status = verdicts.status_of(counts, strict)
    if as_json:
        last = {"summary": {word: counts[word] for word in verdicts.FOLLOWS}, "to do": verdicts.to_do(counts), "records": sum(counts.values()), "status": status}
        calls.write(json.dumps(last) + "\n")
    elif summary:
        calls.write("\n".join([verdicts.totals(counts)] + verdicts.to_do(counts)) + "\n")
    return status


def as_text(name, result):
    return "".join([f"{name}: {result.verdict}\n"] + [f"  {line}\n" for line in result.says])


def as_object(result):
    """One line of JSON; a name stands in it as in a fingerprint."""
    held = {"name": fingerprints.escaped(result.name), "verdict": result.verdict}
    held.update(result.seen._asdict() if result.seen else {})
    return json.dumps({**held, "says": [fingerprints.escaped(line, b" ") for line in result.says]}) + "\n"
