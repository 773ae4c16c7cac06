"""What the program outline_record says of a record: the steps of its glyph's outline and the box around them, and that it is the whole of it."""
import collections
import re

from . import record
from .calls import Bad

# an answer of the outline alone: a replay never gives it
MOST = 4_194_304
MEANINGS = {19: f"a coordinate of the glyph is below -{MOST:,} or above {MOST:,} 64ths of a pixel, and no outline is made of that"}

# The four numbers of the replay's answer; the number that refuses the outline, 0 where it isn't; each step as its words; the box's four edges, None where
# there is none. Numbers of steps and edges are the program's own texts, in pixels.
Outline = collections.namedtuple("Outline", "answer refused steps box")

NUMBER = rb"(?:-?(?:[1-9]\d*(?:\.\d*[1-9])?|0\.\d*[1-9])|0)"
PLACE = NUMBER + b" " + NUMBER
CONTOUR = b"move " + PLACE + rb"\n(?:line " + PLACE + rb"\n|curve " + PLACE + b" " + PLACE + rb"\n)*close\n"
TEXT = re.compile(
    rb"(\d+ \d+ \d+ \d+)\n(?:outline (\d+)\n|((?:" + CONTOUR + rb")*)box (none|" + PLACE + b" " + PLACE + rb")\n)?"
)


def whole(data, said):
    """What the program said of a record, once it is seen to be all that it says of this one: it has no exit status, and a write of its may be cut short."""
    found = TEXT.fullmatch(said)
    if not found:
        raise Bad(f"the outline is cut short or damaged: of its {len(said)} bytes not every line is one of an outline")
    answer, refused, steps, box = ((part or b"").decode() for part in found.groups())
    answer = [int(word) for word in answer.split()]
    if bool(answer[0]) != (not refused and not box):
        raise Bad(f"the outline is cut short or damaged: the answer is {answer[0]}, and {len(said)} bytes are not all of it")
    outline = Outline(answer, int(refused or 0), [line.split() for line in steps.splitlines()], box.split()[:4] if box not in ("", "none") else None)
    if box:
        hold_contours(outline, record.from_bytes(data)["contours"])
    return outline


def hold_contours(outline, ends):
    closed = outline.steps.count(["close"])
    if closed != len(ends) or (outline.box is None) != (not ends):
        raise Bad(f"the outline is cut short, or another record's: {closed} contours, and the record has {len(ends)}")


def before(data):
    """The record of a lawful one's glyph as it was before any replay: its original points in the place of the current ones, and nothing to replay."""
    held = record.from_bytes(data)
    glyph = {name: held[name] for name in ("ux", "uy", "ox", "oy", "flag", "contours", "edition")}
    return record.to_bytes({**record.fresh(), **glyph, "x": held["ox"], "y": held["oy"]})


def original_points(data):
    """Original x and y and the flag of each point of a lawful record's glyph."""
    held = record.from_bytes(data)
    return list(zip(held["ox"], held["oy"], held["flag"]))


def meaning(number):
    return f"{number}: {MEANINGS.get(number, record.MEANINGS.get(number, 'a number that is in no list'))}"


def far_point(points):
    """The first point too far out for an outline, in words."""
    for k, (x, y, _) in enumerate(points):
        if not -MOST <= x <= MOST or not -MOST <= y <= MOST:
            return f"point {k} lies at {x}, {y}"
    return "no point lies there"
