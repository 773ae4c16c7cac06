"""A record as text that a person writes and reads."""
import textwrap

from . import record
from .record import LISTS

MODES = ["grid", "half-grid", "double-grid", "down", "up", "off", "super", "super45"]
ZONES = ["twilight", "glyph"]
FACTS = ["backward-compatibility", "pedantic", "native-cleartype-x", "iup-x", "iup-y"]
YES_OR_NO = ["no", "yes"]
NAMES = {
    "SVTCA[y]": 0x00, "SVTCA[x]": 0x01, "SPVTCA[y]": 0x02, "SPVTCA[x]": 0x03, "SFVTCA[y]": 0x04, "SFVTCA[x]": 0x05,
    "ISECT": 0x0F, "SRP0": 0x10, "SRP1": 0x11, "SRP2": 0x12, "SZP0": 0x13, "SZP1": 0x14, "SZP2": 0x15, "SZPS": 0x16,
    "SLOOP": 0x17, "RTG": 0x18, "RTHG": 0x19, "MDAP[0]": 0x2E, "MDAP[1]": 0x2F, "IUP[y]": 0x30, "IUP[x]": 0x31,
    "SHP[0]": 0x32, "SHP[1]": 0x33, "SHC[0]": 0x34, "SHC[1]": 0x35, "SHZ[0]": 0x36, "SHZ[1]": 0x37, "SHPIX": 0x38,
    "MSIRP[0]": 0x3A, "MSIRP[1]": 0x3B, "ALIGNRP": 0x3C, "RTDG": 0x3D, "MIAP[0]": 0x3E, "MIAP[1]": 0x3F,
    "SROUND": 0x76, "S45ROUND": 0x77, "ROFF": 0x7A, "RUTG": 0x7C, "RDTG": 0x7D, "FLIPPT": 0x80,
    "FLIPRGON": 0x81, "FLIPRGOFF": 0x82, "GC[0]": 0x46, "GC[1]": 0x47, "MD[0]": 0x49, "MD[1]": 0x4A,
    "ALIGNPTS": 0x27, "UTP": 0x29, "IP": 0x39,
    "SPVTL[0]": 0x06, "SPVTL[1]": 0x07, "SFVTL[0]": 0x08, "SFVTL[1]": 0x09, "SPVFS": 0x0A, "SFVFS": 0x0B, "SFVTPV": 0x0E,
    "SDPVTL[0]": 0x86, "SDPVTL[1]": 0x87, "SMD": 0x1A, "SCVTCI": 0x1D, "SSWCI": 0x1E, "SSW": 0x1F, "FLIPON": 0x4D, "FLIPOFF": 0x4E,
    # the five bits of the code, as OpenType's [abcde]
    **{f"{name}[{bits:05b}]": first + bits for name, first in (("MDRP", 0xC0), ("MIRP", 0xE0)) for bits in range(32)},
}
OPCODES = {opcode: name for name, opcode in NAMES.items()}
OPCODE_NAMES = textwrap.fill(" ".join(NAMES), 118, initial_indent="  ", subsequent_indent="  ", break_on_hyphens=False)


class Bad(Exception):
    """A text that makes no record."""


# ---- text to what a record holds


def number(text, low=-(2**31), high=2**31 - 1):
    try:
        value = int(text, 0)
    except ValueError:
        raise Bad(f"{text} is no number") from None
    if not low <= value <= high:
        raise Bad(f"{text} is not from {low} to {high}")
    return value


def numbers(words, shape, low=-(2**31), high=2**31 - 1):
    return [number(text, low, high) for text in counted(words, shape)]


def one_of(text, names, what):
    if text not in names:
        raise Bad(f"{text} is no {what}: {', '.join(names)}")
    return names.index(text)


def counted(words, shape):
    """The words of a line; its shape has the words in small letters as they are."""
    wanted = shape.split()[1:]
    if len(words) != len(wanted) or any(want.islower() and want != word for want, word in zip(wanted, words)):
        raise Bad(f"wanted: {shape}")
    return words


def opcode_of(text):
    if text in NAMES:
        return NAMES[text]
    try:
        return number(text)
    except Bad as bad:
        near = [name for name in NAMES if name.split("[")[0] == text.split("[")[0].upper()]
        raise Bad(f"{bad}, nor an opcode's name: {', '.join(near or NAMES)}") from None


def read_line(held, word, rest):
    if word == "edition":
        held["edition"] = numbers(rest, "edition N", min(record.STATE_WORDS), record.EDITION)[0]
    elif word == "vectors":
        counted(rest, "vectors projection X Y dual X Y freedom X Y")
        held["vectors"] = [number(rest[k]) for k in (1, 2, 4, 5, 7, 8)]
    elif word == "round":
        counted(rest, "round MODE threshold N phase N period N")
        held["round"] = [one_of(rest[0], MODES, "round mode")] + [number(rest[k]) for k in (2, 4, 6)]
    elif word == "references":
        held["references"] = numbers(rest, "references RP0 RP1 RP2", 0, 2**64 - 1)
    elif word == "loop":
        held["loop"] = numbers(rest, "loop N", 0, 2**32 - 1)[0]
    elif word == "pointers":
        held["pointers"] = [one_of(text, ZONES, "zone") for text in counted(rest, "pointers ZP0 ZP1 ZP2")]
    elif word == "facts":
        held["facts"] = [0] * 5
        for text in rest:
            held["facts"][one_of(text, FACTS, "fact")] = 1
    elif word == "cut-in":
        held["cut-in"] = numbers(rest, "cut-in N")[0]
    elif word == "wrapped-roundings":
        held["wrapped"] = numbers(rest, "wrapped-roundings N", 0, 2**32 - 1)[0]
    elif word == "minimum-distance":
        held["minimum-distance"] = numbers(rest, "minimum-distance N")[0]
    elif word == "single-width":
        counted(rest, "single-width N cut-in N")
        held["single-width"] = [number(rest[k]) for k in (0, 2)]
    elif word == "auto-flip":
        held["auto-flip"] = one_of(counted(rest, "auto-flip YES|NO")[0], YES_OR_NO, "answer")
    elif word == "scale":
        held["scale"] = numbers(rest, "scale N")[0]
    elif word == "pushed":
        counted(rest, "pushed VALUE COUNT")
        held["pushed"] = [number(rest[0]), number(rest[1], 0, 2**32 - 1)]
    elif word == "point":
        counted(rest, "point UX UY OX OY X Y FLAG")
        for name, text in zip(LISTS[:6], rest):
            held[name].append(number(text))
        held["flag"].append(number(rest[6], 0, 255))
    elif word == "contours":
        held["contours"] += [number(text, 0, 65535) for text in rest]
    elif word == "twilight":
        counted(rest, "twilight OX OY X Y FLAG")
        for name, text in zip(LISTS[8:12], rest):
            held[name].append(number(text))
        held["tflag"].append(number(rest[4], 0, 255))
    elif word == "controls":
        held["controls"] += [number(text) for text in rest]
    elif word == "line":
        if not rest:
            raise Bad("wanted: line NAME [OPERAND ...]")
        held["sheet"] += [opcode_of(rest[0]), len(rest) - 1] + [number(text) for text in rest[1:]]
    elif word == "words":
        held["sheet"] += [number(text) for text in rest]
    else:
        raise Bad(f"{word} is nothing that a record has")


def decoded(data):
    """A byte order mark, which some editors write, is none of the text."""
    try:
        return data.decode("utf-8-sig")
    except UnicodeDecodeError as bad:
        raise Bad(f"no text in UTF-8: byte {bad.start} is {data[bad.start]:#04x}") from None


def make(data):
    """The record of a text, as bytes."""
    held, said = record.fresh(), False
    for place, line in enumerate(decoded(data).splitlines(), 1):
        words = line.split("#", 1)[0].split()
        if words:
            said = True
            try:
                read_line(held, words[0], words[1:])
            except Bad as bad:
                raise Bad(f"line {place}: {bad}") from None
    if not said:
        raise Bad("the text is empty, and no record is made of that")
    if held["edition"] == 1 and held["wrapped"]:
        raise Bad("a record of edition 1 has no count of wrapped roundings")
    kept = record.STATE_WORDS[held["edition"]]
    if record.state_of(held)[kept:] != record.state_of(record.fresh())[kept:]:
        raise Bad(f"a record of edition {held['edition']} has no minimum distance, single width, auto flip, scale or pushes")
    made = record.to_bytes(held)
    if len(made) > record.MOST_BYTES:
        raise Bad(f"the record would have {len(made)} bytes, and at most {record.MOST_BYTES} may be")
    record.from_bytes(made)  # what would be refused is not written
    return made


# ---- what a record holds to text


def sheet_lines(sheet):
    """The sheet line by line; what is no whole line stands as words."""
    at = 0
    while at < len(sheet):
        whole = sheet[at] in OPCODES and at + 1 < len(sheet) and 0 <= sheet[at + 1] <= len(sheet) - at - 2
        if not whole:
            yield " ".join(["words"] + [str(word) for word in sheet[at:]])
            return
        end = at + 2 + sheet[at + 1]
        yield " ".join(["line", OPCODES[sheet[at]]] + [str(word) for word in sheet[at + 2 : end]])
        at = end


def show(data):
    """The text of a record."""
    held = record.from_bytes(data)
    v, r = held["vectors"], held["round"]
    lines = [
        f"edition {held['edition']}",
        f"vectors projection {v[0]} {v[1]} dual {v[2]} {v[3]} freedom {v[4]} {v[5]}",
        f"round {MODES[r[0]]} threshold {r[1]} phase {r[2]} period {r[3]}",
        "references " + " ".join(str(reference) for reference in held["references"]),
        f"loop {held['loop']}",
        "pointers " + " ".join(ZONES[zone] for zone in held["pointers"]),
        " ".join(["facts"] + [name for name, yes in zip(FACTS, held["facts"]) if yes]),
        f"cut-in {held['cut-in']}",
    ]
    if held["edition"] > 1:
        lines.append(f"wrapped-roundings {held['wrapped']}")
    if held["edition"] > 2:
        lines += [
            f"minimum-distance {held['minimum-distance']}",
            "single-width {} cut-in {}".format(*held["single-width"]),
            f"auto-flip {YES_OR_NO[held['auto-flip']]}",
            f"scale {held['scale']}",
            "pushed {} {}".format(*held["pushed"]),
        ]
    lines += ["point " + " ".join(str(held[name][k]) for name in LISTS[:7]) for k in range(len(held["x"]))]
    if held["contours"]:
        lines.append("contours " + " ".join(str(end) for end in held["contours"]))
    lines += ["twilight " + " ".join(str(held[name][k]) for name in LISTS[8:13]) for k in range(len(held["tx"]))]
    if held["controls"]:
        lines.append("controls " + " ".join(str(value) for value in held["controls"]))
    return "\n".join(lines + list(sheet_lines(held["sheet"]))) + "\n"
