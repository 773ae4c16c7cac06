"""The form of a record (docs/RECORD.md tells it in prose), and what a proved program must have written about one."""
import re
import struct

from .calls import Bad

# words of state by edition; the second adds the count of wrapped roundings, the third what measured distances need and what was pushed
STATE_WORDS = {1: 26, 2: 27, 3: 34}
EDITION = 3  # the one that is written
AUTO_FLIP = 30  # a fact that doesn't stand with the other five
TRAILER_WORDS = 8
MOST_BYTES = 24 * 1024
# one byte more than a record may have, so that a longer one is seen to be too long
READ_BYTES = MOST_BYTES + 1
# glyph unscaled, original and current x and y, flags, contours; twilight original and current x and y, flags; control values; sheet
LISTS = ["ux", "uy", "ox", "oy", "x", "y", "flag", "contours", "tox", "toy", "tx", "ty", "tflag", "controls", "sheet"]
UNSIGNED = ("flag", "contours", "tflag")

REFUSED = (15, 16, 17)
ENDS = 14  # an answer of the replay, and not of the record: its points are printed
MEANINGS = {
    0: "all lines are done",
    1: "the budget is used and words of the sheet remain",
    2: "a size above its limit; nothing has changed",
    3: "a vector out of range, or Super 45 with period 0; nothing has changed",
    4: "an unknown opcode, or a count word that is missing, negative or past the end",
    5: "more operands than the line takes",
    6: "an operand is wanted and there is none left",
    7: "a point outside its zone; the detail is its number",
    8: "a control value outside the list; the detail is its number",
    9: "a zone pointer that is neither 0 nor 1; the detail is the operand",
    10: "a negative loop count; the detail is the operand",
    11: "a range of points outside the zone; the detail is its start",
    12: "a contour that zp2's zone doesn't have; the detail is its number. Correct the SHC line, or clear the fact pedantic: then such a line does nothing",
    13: "SHPIX under backward compatibility. Take the line out, or clear that fact",
    14: "contour ends that don't rise, or one at or above the number of points; nothing has changed. docs/ARCHIVISTS.md says what to do",
    15: "the record is refused: its sum is not that of its words, so something in it has changed",
    16: "the record is refused: its length, its trailer or a word is out of range, so this is no record of edition 1, 2 or 3, or it is damaged",
    17: "the record is refused: it has more than 24 KiB",
    18: "a line of more than 4,096 operands, which a feed doesn't wait for",
}

PRINT = re.compile(rb"(\d+) (\d+) (\d+) (\d+)\n((?:-?\d+ -?\d+ \d+\n)*)")


class Refused(Exception):
    """A record that is refused; its arguments are the number and the reason."""


def meaning(number):
    return f"{number}: {MEANINGS.get(number, 'a number that is in no list')}"


def bits(value):
    return value & 0xFFFFFFFF


def signed(word):
    return word - 2**32 if word >= 2**31 else word


# ---- bytes and what they hold


def fresh():
    """What a record holds of a glyph that starts: the fresh state, no points and an empty sheet."""
    return {
        "vectors": [16384, 0] * 3, "round": [0, 0, 0, 64], "references": [0, 0, 0], "loop": 1, "pointers": [1, 1, 1],
        "facts": [0] * 5, "cut-in": 68, "wrapped": 0, "minimum-distance": 64, "single-width": [0, 0], "auto-flip": 1, "scale": 0,
        "pushed": [0, 0], "edition": EDITION, **{name: [] for name in LISTS},
    }


def state_of(held):
    """The words of the state in the newest edition."""
    words = held["vectors"] + held["round"]
    for reference in held["references"]:
        words += [reference & 0xFFFFFFFF, reference >> 32]
    words = words + [held["loop"]] + held["pointers"] + held["facts"] + [held["cut-in"], held["wrapped"]]
    return words + [held["minimum-distance"]] + held["single-width"] + [held["auto-flip"], held["scale"]] + held["pushed"]


def to_bytes(held):
    words = state_of(held)[: STATE_WORDS[held["edition"]]]
    for name in LISTS:
        words = words + held[name]
    back = 4 * len(words)
    words += [len(held["x"]), len(held["contours"]), len(held["tx"]), len(held["controls"]), len(held["sheet"]), held["edition"], back]
    words = [bits(word) for word in words]
    words.append(bits(sum(words)))
    return struct.pack(f"<{len(words)}I", *words)


def from_bytes(data):
    """What a record holds; Refused in the order 17, 16, 15."""
    if len(data) > MOST_BYTES:
        raise Refused(17, "above 24 KiB")
    if len(data) % 4 or len(data) < 4 * (STATE_WORDS[1] + TRAILER_WORDS):
        raise Refused(16, "no whole number of words, or too few")
    words = list(struct.unpack(f"<{len(data) // 4}I", data))
    n, contours, m, controls, sheet, edition, back, total = words[-TRAILER_WORDS:]
    sizes = [n] * 7 + [contours] + [m] * 5 + [controls, sheet]
    if edition not in STATE_WORDS:
        raise Refused(16, f"edition {edition}, and 1 to {EDITION} are known")
    at = STATE_WORDS[edition]
    if at + sum(sizes) + TRAILER_WORDS != len(words) or back != 4 * (len(words) - TRAILER_WORDS):
        raise Refused(16, "the trailer's counts or way back are not those of the record")
    # what an older edition hasn't is as a glyph starts
    state = words[:at] + state_of(fresh())[at:]
    if state[6] > 7 or max(state[17:25] + [state[AUTO_FLIP]]) > 1:
        raise Refused(16, "a round mode above 7, or a zone pointer or fact above 1")
    held = {
        "vectors": [signed(word) for word in words[0:6]], "round": [words[6]] + [signed(word) for word in words[7:10]],
        "references": [words[k] + (words[k + 1] << 32) for k in (10, 12, 14)], "loop": words[16],
        "pointers": words[17:20], "facts": words[20:25], "cut-in": signed(words[25]), "wrapped": state[26],
        "minimum-distance": signed(state[27]), "single-width": [signed(state[28]), signed(state[29])], "auto-flip": state[AUTO_FLIP],
        "scale": signed(state[31]), "pushed": [signed(state[32]), state[33]], "edition": edition,
    }
    for name, size in zip(LISTS, sizes):
        own = words[at : at + size]
        held[name] = own if name in UNSIGNED else [signed(word) for word in own]
        at += size
    if any(flag > 255 for flag in held["flag"] + held["tflag"]) or any(end > 65535 for end in held["contours"]):
        raise Refused(16, "a flag above 255, or a contour end above 65,535")
    if bits(sum(words[:-1])) != total:
        raise Refused(15, "the sum is not that of the words before it")
    return held


def bad_end(data):
    """The first contour of a lawful record that doesn't end behind the one before it and at a point, in words; nothing where none is so."""
    held = from_bytes(data)
    ends, points = held["contours"], len(held["x"])
    for k, end in enumerate(ends):
        if k and end <= ends[k - 1]:
            return f"contour {k} ends at point {end}, and contour {k - 1} at {ends[k - 1]}"
        if end >= points:
            return f"contour {k} ends at point {end}, and there are {points} points, from 0 on"
    return ""


def explained(answer, data):
    """What the answer of a record means and where it was given, in words."""
    number, place, lines, _ = answer
    if number in REFUSED:
        return meaning(number)
    where = bad_end(data) if number == ENDS else f"at word {place} of the sheet, after {lines} lines"
    return f"{meaning(number)} ({where})"


def is_cut(answer, data):
    """Whether it is the sheet that was refused with 16, and not the record."""
    try:
        from_bytes(data)
    except Refused:
        return False
    return answer[0] == 16


def cut_within(size):
    return f"16: the sheet ends within a word: it has {size} bytes, which is no multiple of 4"


# ---- what a program wrote, held to the record: a program has no exit status, and a write of its may be cut short


def points_in(data):
    """How many glyph points a record has, by its trailer."""
    return int.from_bytes(data[-4 * TRAILER_WORDS :][:4], "little")


def whole_print(printed):
    """The four numbers of a print and how many points it has, once it is seen to be whole lines that a replay prints."""
    found = PRINT.fullmatch(printed)
    if not found:
        raise Bad(f"the print is cut short or damaged: of its {len(printed)} bytes not every line is one that a replay prints")
    answer, points = [int(word) for word in found.groups()[:4]], found.group(5).count(b"\n")
    if answer[0] in REFUSED and (points or answer[1:] != [0, 0, 0]):
        raise Bad("the print is damaged: a refused record has a number and three zeros alone")
    return answer, points


def glyph_in(printed):
    """The points of a whole print: x, y and flag of each."""
    return [tuple(int(word) for word in line.split()) for line in printed.splitlines()[1:]]


def number_in(printed):
    """The answer's number in a whole print."""
    return int(printed.split(b" ", 1)[0])


def answer_in(data, printed):
    """The four numbers of a record's print, once it is seen to be the whole print: an answer, and a line for each glyph point if it isn't refused."""
    answer, points = whole_print(printed)
    wanted = 0 if answer[0] in REFUSED else points_in(data)
    if points != wanted:
        raise Bad(f"the print is cut short, or another record's: {points} lines of points, and the record has {wanted}")
    return answer


def newest_bytes(data):
    """How many bytes a record has in the newest edition: one of an older edition gains the words of the state that it hasn't."""
    edition = int.from_bytes(data[-12:-8], "little")
    return len(data) + 4 * (STATE_WORDS[EDITION] - STATE_WORDS.get(edition, STATE_WORDS[EDITION]))


def rewritten_bytes(data):
    """How many bytes are written of a record: none where that would be above 24 KiB."""
    size = newest_bytes(data)
    return size if size <= MOST_BYTES else 0


def no_room(data):
    """Why nothing is written of a record that is not refused."""
    return (
        f"nothing is written: in edition {EDITION} the record would have {newest_bytes(data)} bytes, and at most {MOST_BYTES} may be. "
        "bin/replay prints its points; to write it, take words out of its sheet, its control values or its contours"
    )


def hold_rewritten(data, written):
    """A record that is written has as many bytes as the one that was read, but for what its edition adds."""
    wanted = rewritten_bytes(data)
    if len(written) != wanted:
        raise Bad(f"the record is cut short, or another's: {len(written)} bytes were written, and it has {wanted}")
