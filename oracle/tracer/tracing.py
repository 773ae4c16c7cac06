"""Traces a font and has the proved programs replay what was traced: what is counted, and where the two part."""
import collections
import hashlib
import json
import pathlib
import struct
import subprocess
import tempfile

import opcode_table
from lib.calls import Bad

MODES = {"35": "version 35", "40": "version 40", "lcd": "version 40, LCD"}
RULES = "freetype"
FRAME = struct.Struct("<I")
# what the tracer says of a run whose record is too long with its sheet, and of one with a line that FreeType does otherwise
SHEET_FED, LINE_OF_ONE_POINT = 16, 64
# places in what a run leaves: the answer's four numbers, the state with its zone pointers, and then the points
NUMBER, PLACE, DETAIL, STATE, POINTERS, POINTS = 0, 1, 3, 4, slice(21, 24), 38
# places in a record's trailer, counted from its end
N, M, VALUES, SHEET, EDITION, TRAILER_WORDS = -8, -6, -5, -4, -3, 8
# answers that FreeType hasn't when it isn't pedantic: it goes on (docs/DIFFERENCES.md, Refusals)
NAMED = {7: "a point outside its zone", 8: "a control value outside the list", 9: "a bad zone", 11: "a range outside"}
ONE_POINT = "SDPVTL across two points that are one in the original outline: FreeType takes the current ones along their line"
UNNAMED = "no known reason"


class Programs:
    """The tracer, the proved programs for many records and for a sheet that is fed, and the program around the proved library; and the sum of all."""

    def __init__(self, tracer, replayer, feeder, leaver, total):
        self.tracer, self.replayer, self.feeder, self.leaver, self.total = tracer, replayer, feeder, leaver, total


def sum_of(path):
    return hashlib.sha256(path.read_bytes()).hexdigest()


def run(words, path=None):
    """What a program writes, given a file. It has to end with status 0 and say nothing else."""
    with open(path or "/dev/null", "rb") as given:
        return output_of(words, stdin=given)


def output_of(words, **given):
    try:
        ran = subprocess.run(words, **given, stdout=subprocess.PIPE, stderr=subprocess.PIPE)
    except OSError as bad:
        raise Bad(f"{words[0]}: {bad.strerror}") from None
    if ran.returncode or ran.stderr:
        raise Bad(f"{words[0]} ended with status {ran.returncode}: {ran.stderr.decode(errors='replace').strip()}")
    return ran.stdout


def frames(stream):
    """The parts of a stream."""
    found, at = [], 0
    while at < len(stream):
        [size] = FRAME.unpack_from(stream, at)
        at += FRAME.size
        found.append(stream[at : at + size])
        at += size
    return found


def words_of(data):
    return struct.unpack(f"<{len(data) // 4}i", data)


def packed(words):
    return struct.pack(f"<{len(words)}I", *(word & 0xFFFFFFFF for word in words))


# ---- one font in one mode


def cached(folder, programs, font, path, mode, sizes):
    """What came of a font in a mode: from the cache if nothing has changed that it depends on, else traced and replayed now."""
    key = f"{programs.total} {sum_of(path)} {sizes}"
    kept = folder / "results" / f"{path.stem}.{mode}.json"
    try:
        result = json.loads(kept.read_text())
        if result["key"] == key:
            return result, True
    except (OSError, ValueError, KeyError):
        pass
    result = {"key": key, "font": font.file, "mode": mode, **traced(folder, programs, path, mode, sizes)}
    kept.parent.mkdir(parents=True, exist_ok=True)
    unfinished = kept.with_suffix(".new")
    unfinished.write_text(json.dumps(result))
    unfinished.rename(kept)
    return result, False


def traced(folder, programs, path, mode, sizes):
    executed, lines, by_size, different = collections.Counter(), collections.Counter(), {}, []
    for old in (folder / "different").glob(f"{path.stem}.{mode}.*.record"):
        old.unlink()
    with tempfile.TemporaryDirectory(dir=folder) as streams:
        for size in sizes:
            out = pathlib.Path(streams, "run")
            for code, times, held in trace(programs, path, mode, size, out):
                executed[code] += times
                lines[code] += held
            apart = compared(programs, out)
            by_size[size] = counted(out, len(apart))
            different += [kept_difference(folder, path, mode, size, one) for one in apart]
    return {"sizes": by_size, "executed": executed, "lines": lines, "different": different}


def trace(programs, path, mode, size, out):
    """Traces a font at a size into files; says of each opcode how often it was executed and how often it stands in a record."""
    try:
        said = run([str(programs.tracer), str(path), mode, str(size), str(out)]).decode().splitlines()
    except Bad as bad:
        raise Bad(f"at {size} pixels: {bad}") from None
    return [(code, int(times), int(held)) for code, times, held in (line.split() for line in said[1:])]


def held_runs(out, fed=False):
    """The runs that became records, in the records' order, by glyph and means; those whose sheets are fed stand by themselves."""
    rows = [line.split() for line in pathlib.Path(f"{out}.runs").read_text().splitlines()]
    held = [(int(row[0]), int(row[3])) for row in rows if row[1] == "held"]
    return [(glyph, means) for glyph, means in held if bool(means & SHEET_FED) == fed]


def counted(out, apart):
    """Runs of a size: how many, how many are held, by what means, how many agree, and what hinders the others."""
    obstacles, lowered, held, points, lines = collections.Counter(), collections.Counter(), 0, 0, 0
    for line in pathlib.Path(f"{out}.runs").read_text().splitlines():
        _, outcome, code, means, line_count, _, point_count = line.split()
        if outcome != "held":
            obstacles[f"{outcome} {code}"] += 1
            continue
        held += 1
        lowered[means] += 1
        points += int(point_count)
        lines += int(line_count)
    runs = held + sum(obstacles.values())
    return {"runs": runs, "held": held, "same": held - apart, "obstacles": obstacles, "lowered": lowered, "points": points, "lines": lines}


# ---- what the proved programs make of it


def compared(programs, out):
    """The runs that end otherwise: glyph and means, record, what FreeType leaves and what the replay leaves."""
    records, fed_records = pathlib.Path(f"{out}.records"), pathlib.Path(f"{out}.fed.records")
    fed = [feed(programs, words_of(record)) for record in frames(fed_records.read_bytes())]
    whole = apart(programs, out, held_runs(out), run([*programs.replayer, RULES], records))
    return whole + apart(programs, f"{out}.fed", held_runs(out, fed=True), b"".join(FRAME.pack(len(text)) + text for text in fed))


def feed(programs, record):
    """What is printed of a record that is too long, when its sheet is fed to what it is without it."""
    end = len(record) - TRAILER_WORDS
    start = end - record[SHEET]
    words = [*record[:start], *record[end:SHEET], 0, record[EDITION], 4 * start]
    data = packed([*words, sum(words)])
    return output_of([*programs.feeder, RULES], input=FRAME.pack(len(data)) + data + packed(record[start:end]))


def apart(programs, out, runs, printed):
    """What of these runs ends otherwise, by what was printed of them and what the library leaves."""
    records, wanted, prints = (pathlib.Path(f"{out}.{kind}") for kind in ("records", "after", "prints"))
    left = run([str(programs.leaver)], records)
    if left == wanted.read_bytes() and printed == prints.read_bytes():
        return []
    rows = [runs, *(frames(stream) for stream in (records.read_bytes(), wanted.read_bytes(), left, prints.read_bytes(), printed))]
    if len({len(row) for row in rows}) != 1:
        raise Bad("a program didn't answer every record")
    return [(held, record, after, got) for held, record, after, got, text, said in zip(*rows) if after != got or text != said]


def kept_difference(folder, path, mode, size, difference):
    """A difference as it is counted; its record is kept for a closer look."""
    (glyph, means), record, after, got = difference
    kept = folder / "different" / f"{path.stem}.{mode}.{size}.{glyph}.record"
    kept.parent.mkdir(parents=True, exist_ok=True)
    kept.write_bytes(record)
    return {"size": size, "glyph": glyph, "reason": reason_of(means, record, after, got), "record": kept.name}


def reason_of(means, record, after, got):
    """Why a replay ends otherwise than FreeType, by the answer; the line is named that was refused."""
    got, held = words_of(got), words_of(record)
    if got[NUMBER] == 0 and means & LINE_OF_ONE_POINT:
        return ONE_POINT
    if got[NUMBER] in NAMED and is_outside(held, got):
        sheet = len(held) - TRAILER_WORDS - held[SHEET]
        row = opcode_table.names()[held[sheet + got[PLACE]]]
        return f"{row.name} with {NAMED[got[NUMBER]]}: {got[NUMBER]} here, FreeType goes on"
    return f"{UNNAMED}: answer {got[NUMBER]}, {parts_apart(words_of(after), got, held[N])}"


def is_outside(held, got):
    """A point or control value that is refused must be one that isn't there."""
    zones = {0: held[M], 1: held[N]}
    sizes = {7: min(zones[pointer] for pointer in got[POINTERS]), 8: held[VALUES]}
    return not 0 <= got[DETAIL] < sizes.get(got[NUMBER], 0)


def parts_apart(after, got, points):
    """Which of state, glyph and twilight zone differ."""
    glyph = POINTS + 3 * points
    parts = {"state": slice(STATE, POINTS), "glyph": slice(POINTS, glyph), "twilight": slice(glyph, None)}
    return " and ".join(name for name, part in parts.items() if after[part] != got[part]) or "the print"
