"""FreeType's steps and box of glyphs, brought to document 02's form. FT_Outline_Decompose differs in two things, and both are undone here and nowhere else:
- it hands out a line back to the start where a contour doesn't end with a pending control point. It is the contour's last step then, and no other line can be
  (`without_closing_line`);
- of a single point off the curve it makes a curve from that point to itself (`without_curve_of_one`).
It has no step that closes: one is put behind each contour. Its box is that of FT_Outline_Get_CBox over the contours' points, in 64ths."""

import pathlib
import struct
import subprocess

import glyphs

HERE = pathlib.Path(__file__).resolve().parent


def words_of(glyph):
    points, ends = glyphs.points_of(glyph), glyphs.ends_of(glyph)
    return [len(points), len(ends)] + [word for x, y, flag in points for word in (x, y, flag & 1)] + ends


def outlines(given):
    """FreeType's version, and steps and box of each glyph."""
    subprocess.run([HERE / "build"], check=True)
    stream = b"".join(struct.pack(f"<{len(words)}i", *words) for words in map(words_of, given))
    version, *lines = subprocess.run([HERE / "built/decompose"], input=stream, stdout=subprocess.PIPE, check=True).stdout.decode().splitlines()
    lines = iter(lines)
    found = [outline_of(glyph, lines) for glyph in given]
    if next(lines, None) is not None:
        raise ValueError("FreeType handed out more than was asked for")
    return version, found


def outline_of(glyph, lines):
    """The steps of one glyph, up to its box."""
    contours = []
    for name, *numbers in (line.split() for line in lines):
        numbers = tuple(map(int, numbers))
        if name == "b":
            break
        if name == "m":
            contours.append([])
        contours[-1].append((name, *numbers))
    if len(contours) != len(glyph.contours):
        raise ValueError(f"FreeType handed out {len(contours)} contours of {len(glyph.contours)}")
    steps = [step for points, handed in zip(glyph.contours, contours) for step in (*without_curve_of_one(points, without_closing_line(handed)), ("z",))]
    return steps, [2 * edge for edge in numbers] or None


def without_closing_line(steps):
    if steps[-1][0] != "l":
        return steps
    if steps[-1][1:] != steps[0][1:]:
        raise ValueError(f"FreeType's last line isn't to the start: {steps}")
    return steps[:-1]


def without_curve_of_one(points, steps):
    if len(points) > 1 or len(steps) == 1:
        return steps
    [move, curve] = steps
    if curve != ("c", *move[1:], *move[1:]):
        raise ValueError(f"FreeType's curve of a single point leads elsewhere: {steps}")
    return [move]
