"""The steps and boxes of glyphs that the proved library hands out, through its calls of C (through_c.c)."""

import pathlib
import struct
import subprocess

import glyphs

HERE = pathlib.Path(__file__).resolve().parent
ROOT = HERE.parent.parent
LIBRARY = ROOT / "release/lib/libtaleviqa.a"


def build(folder, library=LIBRARY):
    """The program in a folder."""
    program = pathlib.Path(folder, "through_c")
    subprocess.run(["gcc", "-std=c99", "-O2", "-Wall", "-Wextra", "-Werror", f"-I{ROOT / 'include'}", "-o", program, HERE / "through_c.c", library, "-lm"], check=True)
    return program


def words_of(glyph):
    points, ends = glyphs.points_of(glyph), glyphs.ends_of(glyph)
    return [len(points), len(ends)] + [word for point in points for word in point] + ends


def outlines(program, given):
    """Steps and box of each glyph, or the number that refuses it."""
    stream = b"".join(struct.pack(f"<{len(words)}i", *words) for words in map(words_of, given))
    lines = iter(subprocess.run([program], input=stream, stdout=subprocess.PIPE, check=True).stdout.decode().splitlines())
    found = [outline_in(lines) for _ in given]
    if next(lines, None) is not None:
        raise ValueError("the library handed out more than was asked for")
    return found


def outline_in(lines):
    steps = []
    for name, *numbers in (line.split() for line in lines):
        numbers = [int(number) for number in numbers]
        if name == "r":
            return numbers[0]
        if name == "b":
            return steps, numbers or None
        steps.append((name, *numbers))
    raise ValueError("the library handed out less than was asked for")
