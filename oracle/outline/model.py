"""Document 02's rule of outlines read once more, for oracle/outline/faults alone: neither the product nor the judge goes by it."""

import glyphs
import said


def outline(glyph):
    """Steps and box of a glyph in 128ths, or 19."""
    if glyphs.is_refused(glyph):
        return said.FAR
    steps = [step for contour in glyph.contours for step in steps_of([(2 * x, 2 * y, flag & 1) for x, y, flag in contour])]
    places = [place for step in steps for place in zip(step[1::2], step[2::2])]
    if not places:
        return steps, None
    xs, ys = zip(*places)
    return steps, [min(xs), min(ys), max(xs), max(ys)]


def middle(one, other):
    return (one[0] + other[0]) // 2, (one[1] + other[1]) // 2


def start_of(contour):
    """Where a contour starts, and the points that are visited then."""
    first, last = contour[0], contour[-1]
    if first[2]:
        return first[:2], contour[1:]
    if last[2]:
        return last[:2], contour[:-1]
    return middle(first, last), contour


def steps_of(contour):
    start, rest = start_of(contour)
    yield ("m", *start)
    if len(contour) == 1:
        yield ("z",)
        return
    pending = None
    for *place, on in rest:
        if on and pending:
            yield ("c", *pending, *place)
        elif on:
            yield ("l", *place)
        elif pending:
            yield ("c", *pending, *middle(pending, place))
        pending = None if on else place
    if pending:
        yield ("c", *pending, *start)
    yield ("z",)
