"""Cases with a seed: sane ones, whose sums stay within 32 bits, and wild ones of every size."""

import streams

ONE = 16384
SETTERS = [0, 1, 2, 3, 4, 5, 0x10, 0x11, 0x12, 0x13, 0x14, 0x15, 0x16, 0x17, 0x18, 0x19, 0x3D, 0x7D, 0x7C, 0x7A,
           0x76, 0x77]
MOVERS = [0x0F, 0x2E, 0x2F, 0x2F, 0x30, 0x31, 0x32, 0x33, 0x3A, 0x3B, 0x3C, 0x3E, 0x3F, 0x3F, 0x80]
MSIRP = [0x3A, 0x3B]
ZP1, NATIVE = streams.STATE_NAMES.index("zp1"), streams.STATE_NAMES.index("native")
SINGLES = [0x27, 0x29, 0x39, 0x39]
# Lines that set a vector, and lines that set a size.
TO_LINE, FROM_STACK, SIZES = [0x06, 0x07, 0x08, 0x09, 0x86, 0x87], [0x0A, 0x0B], [0x1A, 0x1D, 0x1E, 0x1F]
SETTINGS = [*TO_LINE, *FROM_STACK, 0x0E, *SIZES, 0x4D, 0x4E]
DISTANCES = [0x46, 0x47, 0x49, 0x4A] * 8 + list(range(0xC0, 0x100))
# Corners of 32-bit numbers, for wild cases.
CORNERS = [0, 1, -1, 31, 32, 63, 64, -64, ONE, -ONE, 2**30, -2**30, 2**31 - 1, -2**31, -2**31 + 1]
# Sane coordinates stay below these; ISECT multiplies two differences, and so does IP, which then moves by up to 16 times the product.
REACH, ISECT_REACH, IP_REACH = 2**24, 2**14, 2**11


class Maker:
    """Makes cases; wild ones have numbers of any size."""

    # Whether points may have been on one place, all of a glyph, so that a line through them had no direction.
    meets = True

    def __init__(self, random, wild):
        self.random, self.wild = random, wild

    def chance(self, times):
        return self.random.randrange(times) == 0

    def number(self, reach):
        if self.wild and self.chance(3):
            return self.random.choice([self.random.choice(CORNERS), self.random.randint(-2**31, 2**31 - 1)])
        return self.random.randint(-reach, reach)

    def numbers(self, count, reach):
        return [self.number(reach) % 2**32 for _ in range(count)]

    def vector(self):
        kind = self.random.randrange(17)
        if kind < 9:
            return [(ONE, 0), (0, ONE)][kind % 2]
        if kind < 11:
            return self.random.choice([(-ONE, 0), (0, -ONE)])
        if kind == 11:
            return 0, 0
        if kind < 14:
            return self.random.choice([11585, -11585]), self.random.choice([11585, -11585])
        # Close to where a small dot product is replaced.
        x = self.random.randint(-0x402, 0x402) if kind == 16 else self.random.randint(-ONE, ONE)
        y = int((ONE * ONE - x * x) ** 0.5)
        return x, self.random.choice([y, -y])

    def rounding(self):
        """Mode, threshold, phase, period."""
        mode = self.random.choice([0, 0, 1, 2, 3, 4, 5, 6, 6, 7, 7])
        if self.wild and self.chance(4):
            # A quotient of -2^31 by -1 traps in C, and 0 is answer 3.
            period = self.number(100)
            return mode, self.number(100), self.number(100), period if period not in (0, -1) else 64
        period = self.random.choice([16, 22, 32, 45, 64, 90, 128])
        return mode, self.random.randint(-period, period), self.random.randint(0, period), period

    def index(self, count):
        """Mostly inside; outside now and then, and beyond 16 bits."""
        if count and not self.chance(14):
            return self.random.randrange(count)
        return self.random.choice([count, count, count + 1, -1, 70000, 65536, 65536 + count])

    def selector(self):
        """A byte, mostly alone, else below bits that don't count."""
        byte = self.random.randrange(256)
        return byte if self.random.randrange(3) else byte + 256 * self.random.randrange(-2**23, 2**23)

    def counts(self):
        """Points, twilight points, control values."""
        twilight = 40 if self.chance(30) else self.random.randrange(6)
        return self.random.choice([0, 1, 2, 3, 4, 5, 6, 8]), twilight, self.random.randrange(4)

    def state(self, counts):
        random = self.random
        projection = self.vector()
        dual = projection if random.randrange(3) else self.vector()
        freedom = projection if random.randrange(3) else self.vector()
        zones = [int(not self.chance(4)) for _ in range(3)]
        # rp1 is read in zp0 and rp2 in zp1.
        references = [self.index(counts[1 - zones[i]]) % 2**64 for i in (0, 0, 1)]
        halves = [part for reference in references for part in streams.halves(reference)]
        facts = [int(self.chance(times)) for times in (2, 2, 6, 3, 3)]
        loop = random.choice([1, 1, 1, 2, 3, 0])
        cut_in = self.number(random.choice([5, 200]))
        words = [*projection, *dual, *freedom, *self.rounding(), *halves, loop, *zones, *facts, cut_in, 0]
        return [word % 2**32 for word in words + self.distances()]

    def distances(self):
        """Minimum distance, single width and its cut-in, auto flip, scale, what was pushed."""
        scale = self.random.choice([65536, 65536, 32768, 0, -65536, 1234, 98304])
        if self.wild and self.chance(3):
            scale = self.number(2**17)
        widths = [self.number(200), self.random.choice([0, self.number(5), self.number(200)])]
        pushes = self.random.choice([0, 0, 3, 2**32 - 2, 2**32 - 1])
        return [self.random.choice([64, 64, self.number(200)]), *widths, self.random.randrange(2), scale, self.number(90), pushes]

    def lists(self, counts, reach):
        points, twilight, values = counts
        glyph = [self.numbers(points, reach) for _ in range(6)]
        if self.chance(2):
            # Originals are mostly in the order of the unscaled points.
            glyph[2], glyph[3] = glyph[0], glyph[1]
        if self.meets and self.chance(10):
            glyph[2], glyph[3] = glyph[2][:1] * points, glyph[3][:1] * points
        shade = [self.numbers(twilight, reach) for _ in range(4)]
        if self.chance(4):
            glyph[4:], shade[2:] = self.row(points, reach), self.row(twilight, reach)
        flags = [[self.random.choice([0, 1, 1, 2, 3, 4, 5, 6, 7, 255]) for _ in range(count)] for count in counts[:2]]
        ends = sorted(self.random.sample(range(points), self.random.randint(1, points))) if points else []
        if ends and self.chance(8):
            ends = [self.random.choice([*range(points + 2), 65535]) for _ in range(3)]
        return [*glyph, flags[0], ends, *shade, flags[1], self.numbers(values, reach)]

    def row(self, count, reach):
        """Points nearly along one line, where an intersection grazes; x and y."""
        steps = [self.number(reach // 4) for _ in range(2)]
        times = [self.random.randint(-3, 3) for _ in range(count)]
        bends = [self.random.randint(-reach // 64, reach // 64) for _ in range(count)]
        return [[(step * time + bend * axis) % 2**32 for time, bend in zip(times, bends)]
                for axis, step in enumerate(steps)]

    def operands(self, opcode, state, counts, reach):
        def point(pointer):
            return self.index(counts[1 - state[17 + pointer]])
        looped = {0x32: 2, 0x33: 2, 0x3C: 1, 0x39: 2}
        if opcode in looped:
            return [point(looped[opcode]) for _ in range(state[16])]
        if opcode == 0x80:
            return [self.index(counts[0]) for _ in range(state[16])]
        return {0x0F: lambda: [point(0), point(0), point(1), point(1), point(2)],
                0x17: lambda: [self.random.choice([0, 1, 2, 2, 3, 70000, -1])],
                0x2E: lambda: [point(0)], 0x2F: lambda: [point(0)],
                0x3A: lambda: [self.number(reach), point(1)], 0x3B: lambda: [self.number(reach), point(1)],
                0x3E: lambda: [self.index(counts[2]), point(0)], 0x3F: lambda: [self.index(counts[2]), point(0)],
                **{code: lambda: [point(self.random.randrange(3))] for code in range(0x10, 0x13)},
                **{code: lambda: [self.random.choice([0, 1, 1, 0, 1, 2, -1])] for code in range(0x13, 0x17)},
                **{code: lambda: [self.selector()] for code in (0x76, 0x77)},
                0x27: lambda: [point(0), point(1)], 0x29: lambda: [point(0)],
                **{code: lambda: [point(2), point(1)] for code in TO_LINE},
                **{code: lambda: [self.component(), self.component()] for code in FROM_STACK},
                **{code: lambda: [self.number(self.random.choice([3, 70, 400]))] for code in SIZES},
                **{code: lambda: [point(2)] for code in (0x46, 0x47)},
                **{code: lambda: [point(1), point(0)] for code in (0x49, 0x4A)},
                **{code: lambda: [point(1)] for code in range(0xC0, 0xE0)},
                **{code: lambda: [self.random.choice([self.index(counts[2]), -1]), point(1)] for code in range(0xE0, 0x100)},
                }.get(opcode, list)()

    def component(self):
        """Of a vector, mostly in 2.14; what stands above 16 bits doesn't count."""
        choices = [0, 1, -1, ONE, -ONE, 11585, self.random.randint(-ONE, ONE), self.random.randint(-2**15, 2**15 - 1),
                   self.random.randint(-2**31, 2**31 - 1)]
        return self.random.choice(choices)

    def opcode(self):
        return self.random.choice(SETTINGS) if self.chance(6) else self.later_opcode()

    def later_opcode(self):
        """Of a line that sets no vector and no size, but along an axis."""
        return self.random.choice(SINGLES) if self.chance(8) else self.older_opcode()

    def older_opcode(self):
        """Of a line that is no IP, ALIGNPTS or UTP."""
        return self.random.choice(SETTERS if self.chance(3) else MOVERS if self.chance(2) else DISTANCES)

    def sheet(self, state, counts, reach):
        """Lines whose operands suit the state as it will be: pointers and loop are followed."""
        state, words = list(state), []
        for _ in range(self.random.randint(1, 6)):
            opcode = self.opcode()
            operands = self.operands(opcode, state, counts, reach)
            if self.chance(30):
                operands = operands[1:]
            words += [opcode, len(operands), *operands]
            self.follow(state, opcode, operands)
        return [word % 2**32 for word in words]

    def follow(self, state, opcode, operands):
        if opcode in (0x32, 0x33, 0x3C, 0x80):
            state[16] = 1
        if not operands:
            return
        if opcode == 0x17:
            # Few sheets have the operands for a longer loop.
            state[16] = min(max(operands[0], 0), 4)
        if 0x13 <= opcode <= 0x16 and operands[0] in (0, 1):
            for pointer in range(3) if opcode == 0x16 else [opcode - 0x13]:
                state[17 + pointer] = operands[0]

    def reach(self):
        """Small numbers meet each other, and the cut-in, exactly."""
        return self.random.choice([3, 20, 200, 1500, 1500, ISECT_REACH, REACH])

    def run(self):
        counts, reach = self.counts(), self.reach()
        state = self.state(counts)
        lists = self.lists(counts, reach)
        return streams.Case(state, [*lists, self.sheet(state, counts, reach)])

    def call(self):
        """A direct call that FreeType has a function for, with an index inside."""
        points, twilight, _ = counts = [count + 1 for count in self.counts()]
        reach = self.reach()
        state, lists = self.state(counts), [*self.lists(counts, reach), []]
        kind, zone = self.random.randint(9, 13), self.random.randrange(2)
        number = lambda: self.number(reach) % 2**32
        index = self.random.randrange([twilight, points][state[19] if kind == 12 else zone])
        arguments = {9: [0, 0, 0, 0, 0, self.random.randint(1, 2), 0, 0], 10: [zone, index, 0, 0, 0, 0, number(), 0],
                     11: [zone, index, 0, 0, 0, 0, number(), 0],
                     12: [0, index, 0, 0, 0, self.random.randrange(2), number(), number()],
                     13: [0, 0, 0, 0, 0, self.random.choice([0x32, 0x33]), 0, 0]}[kind]
        return streams.Case(state, lists, kind, arguments)


class CalmMaker(Maker):
    """Sane sheets poor in what FreeType does otherwise."""

    meets = False

    def index(self, count):
        """Mostly inside, else the first that isn't: a greater one may be told apart by its 16 bits alone."""
        return self.random.randrange(count) if count and not self.chance(40) else count

    def counts(self):
        return self.random.randint(1, 8), self.random.randint(1, 6), self.random.randrange(4)

    def state(self, counts):
        state = super().state(counts)
        state[NATIVE] = 0
        return state


class TwilightMaker(CalmMaker):
    """Rich in MSIRP into twilight."""

    def opcode(self):
        return self.random.choice(MSIRP) if self.chance(2) else self.older_opcode()

    def state(self, counts):
        state = super().state(counts)
        state[ZP1] = int(self.chance(6))
        return state


class SinglesMaker(CalmMaker):
    """Rich in IP, ALIGNPTS and UTP, whose sums stay within 32 bits."""

    def opcode(self):
        return self.random.choice(SINGLES) if self.chance(2) else self.older_opcode()

    def reach(self):
        return self.random.choice([3, 20, 200, 1500])


class SettingsMaker(CalmMaker):
    """Rich in lines that set vectors and sizes; the others go by what they set."""

    def opcode(self):
        return self.random.choice(SETTINGS) if self.chance(2) else self.later_opcode()

    def older_opcode(self):
        return self.random.choice(SETTERS) if self.chance(6) else self.random.choice(self.random.choice([MOVERS, DISTANCES]))

    def reach(self):
        return self.random.choice([3, 20, 200, 1500])


def far_out(reach, cases):
    """None where no coordinate and no control value of the cases lies beyond the reach."""
    numbers = [word for case in cases for one in [*case.lists[:6], *case.lists[8:12], case.lists[13]] for word in one]
    return "its sums might leave 32 bits" if any(abs(streams.signed(word)) > reach for word in numbers) else None


def reach_of(opcodes):
    """How far coordinates may lie for lines of these opcodes."""
    return IP_REACH if 0x39 in opcodes else ISECT_REACH if 0x0F in opcodes else REACH


def line_obstacle(case):
    """None where no sum of the line or call can leave 32 bits."""
    opcodes = [case.lists[14][case.start]] if case.kind == 0 else []
    return far_out(reach_of(opcodes), [case])


def sheet_obstacle(case, outcomes):
    """The same of a whole sheet, by what it starts from and what it is said to end with."""
    return far_out(reach_of(case.lists[14]), [case, *(case.line_after(outcome) for outcome in outcomes)])
