"""The tables of docs/REAL-FONTS.md, each between its markers; the words around them are not touched."""
import collections
import hashlib
import pathlib
import re
import struct

import opcode_table
import tally
import tracing
from lib.calls import ROOT, Bad
from tally import number, total

PAGE = ROOT / "docs/REAL-FONTS.md"
NO_PROGRAM = "none"
MEANS = {
    1: "a point that DELTAP, SCFS or SHPIX moves goes by MSIRP, or by ALIGNRP in twilight",
    2: "a control value that the program changed has an entry of its own",
    4: "a SHPIX under backward compatibility is left out, but for the points that it moves",
    8: "FreeType ends the program with an error, which isn't at a line: the lines before it stand",
    16: "the record would have more than 24 KiB: its sheet is fed to it by feed_sheet",
    32: "a looped instruction finds too few operands, and FreeType does nothing but set the loop counter back: SLOOP",
}


def write(results):
    text = PAGE.read_text()
    for name, table in tables(results).items():
        text, times = re.subn(rf"(<!-- {name} -->\n).*?(<!-- end of {name} -->)", lambda found, table=table: found[1] + table + found[2], text, flags=re.S)
        if times != 1:
            raise Bad(f"{PAGE.relative_to(ROOT)}: no place for the table {name}")
    PAGE.write_text(text)


def tables(results):
    return {
        "totals": totals(results), "fonts": fonts(results), "sizes": sizes(results), "opcodes": opcodes(results), "means": means(results),
        "not held": not_held(results), "differences": differences(results),
    }


def table(head, rows):
    lines = ["| " + " | ".join(str(cell) for cell in line) + " |\n" for line in (head, *rows)]
    return "".join([lines[0], "|" + "---|" * len(head) + "\n", *lines[1:]])


def by_font(results):
    """Results of one font together, in the order of the list."""
    groups = collections.OrderedDict()
    for result in results:
        groups.setdefault((result["package"], result["font"]), []).append(result)
    return groups


def totals(results):
    groups = by_font(results)
    makers = {result["maker"] for result in results}
    programs = {font_program(result["path"])[1] for result in results} - {NO_PROGRAM}
    apart = tally.differences(results)
    unnamed = sum(one["reason"].startswith(tracing.UNNAMED) for one in apart)
    rows = [
        ("fonts", len(groups)), ("packages", len({result["package"] for result in results})), ("makers", len(makers)),
        ("different font programs (fpgm)", len(programs)), ("glyph programs run", number(total(results, "runs"))),
        ("of these became records", number(total(results, "held"))), ("replayed to what FreeType reached, to the last word", number(total(results, "same"))),
        ("differ, for a named reason", number(len(apart) - unnamed)), ("differ, for none", number(unnamed)),
        ("have an SDPVTL across two points that are one in the original outline", number(tally.with_means(results, tracing.LINE_OF_ONE_POINT))),
        ("points in these records", number(total(results, "points"))), ("lines in these records", number(total(results, "lines"))),
    ]
    return table(["", "count"], rows)


def fonts(results):
    rows = []
    for (package, font), group in by_font(results).items():
        size, sum_ = font_program(group[0]["path"])
        counts = [number(total(group, what)) for what in ("runs", "held", "same")]
        rows.append([f"{package} {group[0]['version']}", font, group[0]["maker"], f"{number(size)} `{sum_[:6]}`", *counts, number(len(tally.differences(group)))])
    return table(["package", "font", "maker", "fpgm, bytes and sum", "runs", "held", "agree", "differ"], rows)


def font_program(path):
    """How many bytes a font's own program has, and its sum: fonts hinted by one tool have the same."""
    data = pathlib.Path(path).read_bytes()
    [count] = struct.unpack_from(">H", data, 4)
    for k in range(count):
        tag, _, offset, length = struct.unpack_from(">4sIII", data, 12 + 16 * k)
        if tag == b"fpgm":
            return length, hashlib.sha256(data[offset : offset + length]).hexdigest()
    return 0, NO_PROGRAM


def sizes(results):
    counts = collections.defaultdict(lambda: [0, 0, 0])
    for result in results:
        for size, held in result["sizes"].items():
            for k, what in enumerate(("runs", "held", "same")):
                counts[int(size), result["mode"]][k] += held[what]
    head = ["pixels"] + [f"{name}: {what}" for name in tracing.MODES.values() for what in ("runs", "held", "agree")]
    rows = [[size] + [number(count) for mode in tracing.MODES for count in counts[size, mode]] for size in sorted({size for size, _ in counts})]
    rows.append(["all"] + [number(sum(counts[key][k] for key in counts if key[1] == mode)) for mode in tracing.MODES for k in range(3)])
    return table(head, rows)


def opcodes(results):
    executed, lines = tally.by_opcode(results, "executed"), tally.by_opcode(results, "lines")
    handling = collections.OrderedDict((row.name, row.handling) for row in opcode_table.rows())
    rows = [[name, how, number(executed[name]), number(lines[name])] for name, how in handling.items()]
    rows.append(["all others: stack, storage, arithmetic, flow", "left out", number(executed[None]), number(lines[None])])
    return table(["instruction", "handled as", "executed in all runs", "lines in the records"], rows)


def means(results):
    rows = [["every line stands as it was executed", number(tally.merged(results, "lowered")["0"])]]
    rows += [[words, number(tally.with_means(results, bit))] for bit, words in MEANS.items()]
    return table(["what was done to hold a run", "records"], rows)


def not_held(results):
    rows = [[words, number(times), len(names), ", ".join(names[:4]) + (" and others" if len(names) > 4 else "")] for words, times, names in tally.obstacles(results)]
    return table(["why", "runs", "fonts", "which"], rows) if rows else "None: every run became a record.\n"


def differences(results):
    counts, seen = collections.Counter(), {}
    for one in tally.differences(results):
        counts[one["reason"]] += 1
        seen.setdefault(one["reason"], f"{one['font']}, {tracing.MODES[one['mode']]}, {one['size']} pixels, glyph {one['glyph']}")
    if not counts:
        return "None: every record was replayed to what FreeType reached.\n"
    return table(["why", "runs", "the first"], [[reason, number(times), seen[reason]] for reason, times in counts.most_common()])
