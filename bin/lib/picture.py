"""A glyph on its pixel grid, before and after its replay. The outlines are the steps that the proved program said, number by number; none is made here."""
import collections
import itertools
import math
import textwrap

from .svg import document, element, escaped, lines, number, path, text

# before or after: the outline, and x, y and flag of each point in 64ths of a pixel
Side = collections.namedtuple("Side", "name outline points")
# what the record is called and replayed under, what it holds, and its sides; after is None where the replay is refused, and refusal says why
Picture = collections.namedtuple("Picture", "title rules held before after refusal")

WORDS = {"before": "before: the original points", "after": "after the replay: the current points"}
STEPS = {"move": "M", "line": "L", "curve": "Q", "close": "Z"}
ON, X, Y = 1, 2, 4

# units of the picture: the longer side of a panel and the size of a pixel at most, the shorter side at least; the spaces between; heights of text
LONGEST, LARGEST_PIXEL, SHORTEST, NARROWEST = 560, 56, 90, 760
EDGE, BETWEEN, TICKS, HEAD, LINE = 24, 30, 42, 50, 19
SMALL, TEXT, TITLE = 10.5, 13, 18
# how wide a letter is, of its height
LETTER = 0.6

INK, FAINT, AXIS, GRID, FILL, PAPER = "#222222", "#6e6e6e", "#8c8c8c", "#d0d0d0", "#dde6f0", "#ffffff"
BOX, ALARM = "#009e73", "#b00020"
# the colours of Okabe and Ito, for those who see few; the bars tell the same
TOUCHED = {0: "#444444", X: "#0072b2", Y: "#d55e00", X | Y: "#cc79a7"}


def svg(picture):
    """The whole text of a picture."""
    sides = [side for side in (picture.before, picture.after) if side]
    ends = picture.held["contours"]
    window = window_of(sides, ends)
    column = TICKS + max([window.width] + [side_words_wide(side) for side in sides])
    width = max(NARROWEST, 2 * EDGE + len(sides) * (column + BETWEEN) - BETWEEN)
    head, legend = heading(picture, outside(sides, window), width), legend_rows(window, bool(picture.after))
    top = 2 * EDGE + LINE * len(head) + HEAD
    height = top + window.height + TICKS + LINE * len(legend) + EDGE
    parts = [
        element("title", escaped(picture.title)),
        element("desc", escaped(" ".join(line for line, *_ in head[1:]))),
        element("rect", width="100%", height="100%", fill=PAPER),
        *(text(EDGE, EDGE + LINE * (k + 0.7), *line, **how) for k, (*line, how) in enumerate(head)),
    ]
    for k, side in enumerate(sides):
        view = View(window, EDGE + TICKS + k * (column + BETWEEN), top)
        parts += panel(view, side, picture.before if k else None, ends)
    parts += legend_at(legend, EDGE, top + window.height + TICKS + LINE)
    return document(parts, width, height)


# ---- what it says


def heading(picture, beyond, width):
    """The lines above the panels: each with its size, its colour and how it is set."""
    letters = lambda size: int((width - 2 * EDGE) / (LETTER * size))
    told = [(shortened(picture.title, letters(1.1 * TITLE)), TITLE, INK, {"font_weight": "bold"})]
    refusal = f"The replay is refused, and this is the glyph before it alone. {picture.refusal}" if picture.refusal else ""
    for words, colour in [(facts(picture), INK), (refusal, ALARM), (beyond, INK)]:
        told += [(line, TEXT, colour, {}) for line in textwrap.wrap(words, letters(TEXT))]
    return told


def facts(picture):
    """What the picture is of."""
    held = picture.held
    told = [counted(len(held["x"]), "point"), counted(len(held["contours"]), "contour")]
    told += [f"{counted(len(held['tx']), 'twilight point')} (not drawn)"] if held["tx"] else []
    return f"{', '.join(told)}; replayed under the rules {picture.rules}. Each point has its number; units are pixels, y is up."


def counted(number_of, what):
    return f"{number_of or 'no'} {what}{'s' * (number_of != 1)}"


def box_words(box):
    return "box: left {}, bottom {}, right {}, top {}".format(*box) if box else "no contours: no outline and no box"


def side_words_wide(side):
    return max(letters_wide(WORDS[side.name], 1.1 * TEXT), letters_wide(box_words(side.outline.box), SMALL))


def letters_wide(words, size):
    """How wide a text is, as far as can be said without its font."""
    return LETTER * size * len(words)


def shortened(words, most):
    return words if len(words) <= most else words[: most // 2 - 1] + "…" + words[len(words) - most // 2 :]


# ---- the part of the plane that is shown


class Window(collections.namedtuple("Window", "left bottom right top scale")):
    """Its edges in whole pixels, and how many units of the picture a pixel is."""

    @property
    def width(self):
        return (self.right - self.left) * self.scale

    @property
    def height(self):
        return (self.top - self.bottom) * self.scale

    @property
    def square(self):
        """How many pixels a square of the grid has on a side: one, unless that is too small to be seen."""
        return next(step for step in round_numbers() if step * self.scale >= 6)

    @property
    def has_centres(self):
        return self.scale >= 14

    def shows(self, x, y):
        return self.left <= x <= self.right and self.bottom <= y <= self.top


class View:
    """A window at its place in the picture."""

    def __init__(self, window, left, top):
        self.window, self.left, self.top = window, left, top
        self.right, self.bottom = left + window.width, top + window.height

    def across(self, x):
        return self.left + (x - self.window.left) * self.window.scale

    def down(self, y):
        return self.top + (self.window.top - y) * self.window.scale

    def place(self, point):
        """Where a point stands in the picture."""
        return self.across(point[0] / 64), self.down(point[1] / 64)

    def thin(self, units):
        """So many units of the picture, in pixels."""
        return number(units / self.window.scale, 6)


def window_of(sides, ends):
    """The window that shows each outline whole, and the points of no contour that don't lie far from them."""
    boxes = [[float(edge) for edge in side.outline.box] for side in sides if side.outline.box]
    loose = [[x / 64, y / 64] * 2 for side in sides for x, y, _ in side.points[on_contours(ends) :]]
    edges = around(boxes or loose or [[0, 0, 1, 1]])
    reach = max(2, edges[2] - edges[0], edges[3] - edges[1])
    near = Window(edges[0] - reach, edges[1] - reach, edges[2] + reach, edges[3] + reach, 1)
    left, bottom, right, top = around([edges] + [one for one in loose if near.shows(*one[:2])])
    margin = max(1, math.ceil(0.03 * max(right - left, top - bottom)))
    left, bottom, right, top = math.floor(left) - margin, math.floor(bottom) - margin, math.ceil(right) + margin, math.ceil(top) + margin
    scale = min(LARGEST_PIXEL, LONGEST / (right - left), LONGEST / (top - bottom))
    # a thin glyph has some room at its sides
    more_x, more_y = (math.ceil(max(0, SHORTEST / scale - size) / 2) for size in (right - left, top - bottom))
    return Window(left - more_x, bottom - more_y, right + more_x, top + more_y, scale)


def around(boxes):
    lefts, bottoms, rights, tops = zip(*boxes)
    return [min(lefts), min(bottoms), max(rights), max(tops)]


def on_contours(ends):
    """How many points are on contours; those of none stand behind them."""
    return ends[-1] + 1 if ends else 0


def outside(sides, window, most=6):
    """Which points lie too far away to be seen, in words: they are on no contour."""
    far = [(side.name, k, x / 64, y / 64) for side in sides for k, (x, y, _) in enumerate(side.points) if not window.shows(x / 64, y / 64)]
    if not far:
        return ""
    told = [f"{k} {name}, at {number(x, 6)}, {number(y, 6)}" for name, k, x, y in far[:most]]
    more = f"; and {len(far) - most} more" if len(far) > most else ""
    return f"On no contour and outside the picture: point {'; '.join(told)}{more}."


# ---- a panel


def panel(view, side, other, ends):
    """One side: its words, the grid, the box, the outline and the points. Of the other side the outline and the ways of the points are shown faintly."""
    yield text(view.left, view.top - 28, WORDS[side.name], TEXT + 1, INK, font_weight="bold")
    yield text(view.left, view.top - 11, box_words(side.outline.box), SMALL, INK)
    yield from grid(view)
    yield element("g", lines(in_pixels(view, side, other)), transform=to_pixels(view), stroke_linejoin="round")
    if other:
        yield from ways(view, other.points, side.points)
    size = 4 if view.window.scale >= 20 and len(side.points) <= 150 else 3 if len(side.points) <= 400 else 2
    shown = {k: view.place(point) for k, point in enumerate(side.points) if view.window.shows(point[0] / 64, point[1] / 64)}
    for k, place in shown.items():
        yield from mark(*place, side.points[k][2], size, k >= on_contours(ends))
    yield from point_numbers(view, shown, size, side.outline)
    yield element("rect", x=view.left, y=view.top, width=view.window.width, height=view.window.height, fill="none", stroke=AXIS)


def to_pixels(view):
    scale = number(view.window.scale, 9)
    return f"translate({number(view.across(0))} {number(view.down(0))}) scale({scale} -{scale})"


def in_pixels(view, side, other):
    """What is drawn by the program's own numbers."""
    yield path(drawn(side.outline), fill=FILL, fill_opacity="0.75")
    if side.outline.box:
        left, bottom, right, top = side.outline.box
        yield path([f"M {left} {bottom} L {right} {bottom} L {right} {top} L {left} {top} Z"], **box_line(view.thin))
    if other:
        yield path(drawn(other.outline), **before_line(view.thin))
    yield path(drawn(side.outline), stroke=INK, stroke_width=view.thin(1.6))


def drawn(outline):
    return [" ".join([" " * (k > 0) + STEPS[name]] + numbers) for k, (name, *numbers) in enumerate(outline.steps)]


def box_line(thin=number):
    """Wide, so that an outline that runs along it doesn't hide it."""
    return {"stroke": BOX, "stroke_opacity": "0.7", "stroke_width": thin(3.2), "stroke_dasharray": f"{thin(9)} {thin(5)}"}


def before_line(thin=number):
    return {"stroke": FAINT, "stroke_width": thin(1), "stroke_dasharray": f"{thin(3)} {thin(2)}"}


def ways(view, points, moved):
    """From where each point was to where it is."""
    found = [(view.place(old), view.place(new)) for old, new in zip(points, moved) if old[:2] != new[:2] and view.window.shows(new[0] / 64, new[1] / 64)]
    if found:
        yield path([f"M{number(a)} {number(b)}L{number(x)} {number(y)}" for (a, b), (x, y) in found], stroke=FAINT)


# ---- the grid


def round_numbers():
    """1, 2, 5, 10, 20, 50 and so on."""
    return (digit * 10**zeros for zeros in itertools.count() for digit in (1, 2, 5))


def multiples(low, high, step):
    return range(-(-low // step) * step, high + 1, step)


def grid(view):
    """Pixel edges, the two axes, pixel centres where they have room, and numbers along the left and the bottom."""
    window = view.window
    upright = lambda x: f"M{number(view.across(x))} {number(view.top)}V{number(view.bottom)}"
    level = lambda y: f"M{number(view.left)} {number(view.down(y))}H{number(view.right)}"
    xs, ys = multiples(window.left, window.right, window.square), multiples(window.bottom, window.top, window.square)
    yield path([upright(x) for x in xs] + [level(y) for y in ys], stroke=GRID)
    yield path([upright(0)] * (0 in xs) + [level(0)] * (0 in ys), stroke=AXIS, stroke_width=1.5)
    if window.has_centres:
        centres = itertools.product(range(window.left, window.right), range(window.bottom, window.top))
        yield dots([(view.across(x + 0.5), view.down(y + 0.5)) for x, y in centres], 1.8)
    widest = max(letters_wide(str(edge), SMALL) for edge in (window.left, window.right)) + 8
    for x in multiples(window.left, window.right, step_of(window, widest)):
        yield text(view.across(x), view.bottom + 14, str(x), SMALL, FAINT, text_anchor="middle")
    for y in multiples(window.bottom, window.top, step_of(window, SMALL + 4)):
        yield text(view.left - 5, view.down(y) + 4, str(y), SMALL, FAINT, text_anchor="end")


def dots(places, wide):
    return path([f"M{number(x)} {number(y)}h.01" for x, y in places], stroke=AXIS, stroke_width=wide, stroke_linecap="round")


def step_of(window, room):
    """Of how many lines one has its number, where that takes so much room."""
    return next(step for step in round_numbers() if step >= window.square and step * window.scale >= room)


# ---- the points


def mark(x, y, flag, size, loose=False):
    """A square on the curve and a circle off it, a diamond on no contour; with a bar along each axis in which the point is touched."""
    colour, bar = TOUCHED[flag & (X | Y)], 2.4 * size
    bars = [f"M{number(x - bar)} {number(y)}h{number(2 * bar)}"] * bool(flag & X) + [f"M{number(x)} {number(y - bar)}v{number(2 * bar)}"] * bool(flag & Y)
    if bars:
        yield path(bars, stroke=colour, stroke_width=2)
    line = {"fill": colour if flag & ON else PAPER, "stroke": colour, "stroke_width": 1.5}
    if loose:
        far = number(1.35 * size)
        yield path([f"M{number(x)} {number(y)}m0 -{far}l{far} {far}l-{far} {far}l-{far} -{far}z"], **line)
    elif flag & ON:
        yield element("rect", x=x - size, y=y - size, width=2 * size, height=2 * size, fill=colour)
    else:
        yield element("circle", cx=x, cy=y, r=size, **line)


def point_numbers(view, shown, size, outline):
    """The points' numbers, each beside its point, and beside the outline where that can be; points in one place share a text, and one without room has none."""
    room, curves, together = Room(view), Room(view), collections.defaultdict(list)
    for k, (x, y) in shown.items():
        together[number(x), number(y)].append(k)
        room.take(x - 2 * size, y - 2 * size, x + 2 * size, y + 2 * size)
    for x, y in along(outline, view.window.scale):
        curves.take(view.across(x) - 1, view.down(y) - 1, view.across(x) + 1, view.down(y) + 1)
    for same in together.values():
        words = ",".join(str(k) for k in same)
        places = list(beside(*shown[same[0]], letters_wide(words, SMALL), SMALL - 2, 2 * size + 2))
        free = [place for place in places if room.is_free(*place)]
        if free:
            left, top, right, bottom = next((place for place in free if curves.is_free(*place)), free[0])
            room.take(left, top, right, bottom)
            yield text(left, bottom, words, SMALL, INK, stroke=PAPER, stroke_width=3, stroke_linejoin="round", paint_order="stroke")


def beside(x, y, width, height, off):
    """Where a text can stand beside a place: at its corners first, then at its sides."""
    lefts, tops = [x + off, x - off - width, x - width / 2], [y - off - height, y + off, y - height / 2]
    for across, down in [(0, 0), (1, 0), (0, 1), (1, 1), (0, 2), (1, 2), (2, 0), (2, 1)]:
        yield lefts[across], tops[down], lefts[across] + width, tops[down] + height


def along(outline, scale):
    """Places along the lines and curves, near enough to each other that no text slips between them."""
    at = (0, 0)
    for name, *numbers in outline.steps:
        control, end = ([float(one) for one in numbers[:2]], [float(one) for one in numbers[-2:]]) if numbers else (at, at)
        if name in ("line", "curve"):
            control = control if name == "curve" else [(a + b) / 2 for a, b in zip(at, end)]
            parts = max(1, min(200, math.ceil((math.dist(at, control) + math.dist(control, end)) * scale / 5)))
            for t in (k / parts for k in range(parts + 1)):
                yield tuple((1 - t) ** 2 * a + 2 * t * (1 - t) * b + t**2 * c for a, b, c in zip(at, control, end))
        at = end


class Room:
    """What is taken of a panel, by rectangles; found by squares, since there may be thousands."""

    SQUARE = 24

    def __init__(self, view):
        self.view, self.taken = view, collections.defaultdict(list)

    def squares(self, left, top, right, bottom):
        return itertools.product(*(range(int(low // self.SQUARE), int(high // self.SQUARE) + 1) for low, high in ((left, right), (top, bottom))))

    def take(self, *place):
        for square in self.squares(*place):
            self.taken[square].append(place)

    def is_free(self, left, top, right, bottom):
        if left < self.view.left or top < self.view.top or right > self.view.right or bottom > self.view.bottom:
            return False
        near = (other for square in self.squares(left, top, right, bottom) for other in self.taken.get(square, ()))
        return not any(left < other[2] and other[0] < right and top < other[3] and other[1] < bottom for other in near)


# ---- the legend


def legend_rows(window, two):
    """Rows of the legend; an entry is what draws its mark at a place, and its words."""
    point = lambda flag, loose=False: lambda x, y: mark(x, y, flag, 4, loose)
    line = lambda **how: lambda x, y: [path([f"M{number(x - 12)} {number(y)}h24"], **how)]
    square = "one pixel" if window.square == 1 else f"{window.square:,} by {window.square:,} pixels"
    rows = [
        [(point(ON), "point on the curve"), (point(0), "off it, a control point"), (point(ON, True), "on no contour")],
        [(point(ON), "not touched"), (point(ON | X), "touched in x"), (point(ON | Y), "touched in y"), (point(ON | X | Y), "touched in both")],
        [(line(stroke=INK, stroke_width=1.6), "the outline"), (line(**box_line()), "the box around it, control points included")],
        [(line(stroke=GRID, stroke_width=2), f"the grid, a square is {square}")],
    ]
    if window.has_centres:
        rows[-1].append((lambda x, y: [dots([(x, y)], 3)], "a pixel's centre"))
    if two:
        rows.append([(line(**before_line()), "the outline before, again"), (line(stroke=FAINT), "the way of a point from there")])
    return rows


def legend_at(rows, left, top):
    for k, row in enumerate(rows):
        x, y = left, top + LINE * k
        for sign, words in row:
            yield from sign(x + 12, y - 4)
            yield text(x + 32, y, words, TEXT - 1, INK)
            x += 32 + letters_wide(words, TEXT - 1) + 22
