"""Sums over what came of fonts and modes."""
import collections

import opcode_table
import tracing

# why a run can't be held, in words; NAME is the instruction that is the reason
OBSTACLES = {
    "compatibility-switched": "NAME switches backward compatibility",
    "twilight-point-moved": "NAME moves a twilight point",
    "shift-off-the-axes": "NAME under backward compatibility, off the axes",
    "spare-point-shifted": "NAME shifts the twilight zone, where SHPIX needs a spare point",
    "above-32-bits": "a number has more than 32 bits",
    "above-24-kib": "the record would have more than 24 KiB without its sheet",
    "ended-by-freetype": "FreeType ends the program with an error, at NAME",
}


def name_of(code):
    return opcode_table.names()[code].name


def total(results, what):
    """A count over all sizes: runs, held, same, points or lines."""
    return sum(size[what] for result in results for size in result["sizes"].values())


def differences(results):
    return [{**one, "font": result["font"], "mode": result["mode"]} for result in results for one in result["different"]]


def merged(results, what):
    """A table of counts that each size has, over all."""
    counts = collections.Counter()
    for result in results:
        for size in result["sizes"].values():
            counts.update(size[what])
    return counts


def with_means(results, bit):
    """How many records the tracer says a thing of."""
    return sum(times for bits, times in merged(results, "lowered").items() if int(bits) & bit)


def obstacle_in_words(obstacle):
    kind, code = obstacle.split()
    return OBSTACLES[kind].replace("NAME", name_of(int(code, 16)))


def obstacles(results):
    """Why runs aren't held: in words, how many, and in which fonts."""
    counts, fonts = collections.Counter(), collections.defaultdict(set)
    for result in results:
        for obstacle, times in merged([result], "obstacles").items():
            words = obstacle_in_words(obstacle)
            counts[words] += times
            fonts[words].add(result["font"])
    return [(words, times, sorted(fonts[words])) for words, times in counts.most_common()]


def by_opcode(results, what):
    """Instructions by their names: executed, or lines of records."""
    counts = collections.Counter()
    for result in results:
        for code, times in result[what].items():
            counts[name_of(int(code, 16)) if int(code, 16) in opcode_table.names() else None] += times
    return counts


def number(count):
    return f"{count:,}"


def in_words(results):
    apart = len(differences(results))
    return f"{number(total(results, 'runs'))} runs, {number(total(results, 'held'))} held, {number(total(results, 'same'))} agree, {number(apart)} differ"


def report(results):
    """What is printed at the end."""
    for words, times, fonts in obstacles(results):
        yield f"{times:9}  not held: {words} ({len(fonts)} fonts)"
    for reason, times in collections.Counter(one["reason"] for one in differences(results)).most_common():
        yield f"{times:9}  differ: {reason}"
    for one in differences(results)[:20]:
        yield f"           {one['font']}, {tracing.MODES[one['mode']]}, {one['size']} pixels, glyph {one['glyph']}: different/{one['record']} of the cache"
    fonts = len({result["font"] + result["package"] for result in results})
    yield f"{fonts} fonts, {in_words(results)}; {number(total(results, 'points'))} points and {number(total(results, 'lines'))} lines replayed"


def status(results):
    reasons = [one["reason"] for one in differences(results)]
    if any(reason.startswith(tracing.UNNAMED) for reason in reasons):
        return 1
    return 3 if reasons or total(results, "runs") != total(results, "held") else 0
