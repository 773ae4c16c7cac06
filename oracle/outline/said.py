"""A glyph as a record, and what is said of its outline: steps and box in 128ths of a pixel, as outline_record's text, and as a line of the stored sample. No
step is worked out here: they are FreeType's (freetype.py), or those that were stored."""

import pathlib
import re
import sys

import glyphs

sys.path.append(str(pathlib.Path(__file__).resolve().parent.parent.parent / "bin"))
from lib import record  # noqa: E402

NAMES = {"m": "move", "l": "line", "c": "curve", "z": "close"}
FAR = 19


def record_of(glyph, turn=0):
    """The record with that glyph for its current points and nothing to replay; of each edition by turns. All other coordinates are others."""
    x, y, flags = map(list, zip(*glyphs.points_of(glyph))) if glyphs.points_of(glyph) else ([], [], [])
    others = [[place + 1000 * k for k in range(len(x))] for place in (11, 22, 33, 44)]
    lists = {**dict(zip(("ux", "uy", "ox", "oy"), others)), "x": x, "y": y, "flag": flags, "contours": glyphs.ends_of(glyph)}
    editions = list(record.STATE_WORDS)
    return record.to_bytes({**record.fresh(), **lists, "edition": editions[turn % len(editions)]})


def fits(glyph):
    """Whether each edition has room for it."""
    return all(len(record_of(glyph, turn)) <= record.MOST_BYTES for turn in range(len(record.STATE_WORDS)))


def decimal(number):
    """A number of 128ths, exactly: it has seven digits behind the point at most."""
    digits = f"{abs(number) * (10**7 // 128):08d}"
    return f"{'-' * (number < 0)}{digits[:-7]}.{digits[-7:]}".rstrip("0").rstrip(".")


def text(outline):
    """What outline_record prints of a record without a sheet; the outline is steps and box, or the number that refuses it."""
    if isinstance(outline, int):
        return f"0 0 0 0\noutline {outline}\n"
    steps, box = outline
    lines = [" ".join([NAMES[name]] + [decimal(number) for number in numbers]) for name, *numbers in steps]
    return "\n".join(["0 0 0 0", *lines, "box " + (" ".join(decimal(edge) for edge in box) if box else "none")]) + "\n"


# ---- the stored sample: POINTS | STEPS | BOX. Points are x y flag in 64ths, with a comma between two, a semicolon between contours, and a plus before those
# behind the last contour. The rest is in 128ths; a glyph that is refused has its number for it. What there is none of is "none".

NONE = "none"


def sample_line(glyph, outline):
    several = lambda points: ", ".join("{} {} {}".format(*point) for point in points)
    points = ("; ".join(several(contour) for contour in glyph.contours) or NONE) + (f" + {several(glyph.loose)}" if glyph.loose else "")
    if isinstance(outline, int):
        return f"{points} | {outline}\n"
    steps, box = outline
    return f"{points} | {' '.join(' '.join(map(str, step)) for step in steps) or NONE} | {' '.join(map(str, box or ())) or NONE}\n"


def from_sample_line(line):
    points, *rest = (part.strip() for part in line.split("|"))
    contours, _, loose = points.partition("+")
    several = lambda words: [tuple(int(word) for word in point.split()) for point in words.split(",") if point.strip()]
    glyph = glyphs.Glyph([several(contour) for contour in contours.split(";") if contour.strip() != NONE], several(loose))
    if len(rest) == 1:
        return glyph, int(rest[0])
    steps, box = ("" if part == NONE else part for part in rest)
    return glyph, ([(name, *map(int, numbers.split())) for name, numbers in re.findall(r"([mlcz])((?: -?\d+)*)", steps)], [int(edge) for edge in box.split()] or None)
