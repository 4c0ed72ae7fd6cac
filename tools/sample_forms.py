"""The forms of the trials of the sample call, with the reading, of the marked sample and of the line call: their files and what the
program has to print.

What is expected is computed here by rules S1 to S7 of docs/SPECIFICATION.md, in fractions that are rounded once. tools/trials.py,
tools/marked_sample_trials.py and tools/line_trials.py have the trials.
"""

import struct
from dataclasses import dataclass, field
from fractions import Fraction
from itertools import product
from math import comb

from meshes import CONTROL, CONTROLS, STEPS
from patches import PATCH, POINTS, sample_mark
from trial_forms import FILLING, LINE, MARKED, SAMPLE, doubles, filled, spaced, summed

# ---- Control values.


def patch(points):
    """A patch with the control points that are named, {(i, j): (x, y, z)}, and zeros."""
    return [x for j, i in product(range(4), repeat=2) for x in points.get((i, j), (0, 0, 0))]


def cross(values):
    """A patch with these values for x at i = 0, one for each j, and for y at j = 0, one for each i."""
    return patch({(i, j): (values[j] if i == 0 else 0, values[i] if j == 0 else 0, 0) for i, j in product(range(4), repeat=2)})


def random_patches(random, count):
    return [random.randint(-CONTROL, CONTROL) for _ in range(PATCH * count)]


def with_number(numbers, place, value):
    return numbers[:place] + [value] + numbers[place + 1 :]


def limits(random):
    """Patches with every control value at the limit, each with a word for its signs."""
    signs = {
        "plus": lambda i, j, k: 1,
        "minus": lambda i, j, k: -1,
        "alternating": lambda i, j, k: (-1) ** (i + j + k),
        "alternating-along-u": lambda i, j, k: (-1) ** (i + k),
        "alternating-along-v": lambda i, j, k: (-1) ** (j + k),
        "random": lambda i, j, k: random.choice((-1, 1)),
    }
    for word, sign in signs.items():
        yield word, [CONTROL * sign(i, j, k) for j, i, k in product(range(4), range(4), range(3))]


def packed(numbers):
    return struct.pack(f"<{len(numbers)}i", *numbers)


# ---- Sample trials: the arguments of the sample call and of the reading.


@dataclass
class SampleTrial:
    numbers: list
    f: int = 0
    n: int = 2
    a: int = 1
    b: int = 1

    def bytes(self):
        """The trial's file, as crates/trials/src/reading.rt has it."""
        return struct.pack("<H4Q", SAMPLE, self.f, self.n, self.a, self.b) + packed(self.numbers)

    def answer(self):
        return SampleAnswer(self)


class SampleAnswer:
    """What the rules say of the sample call and of the reading."""

    def __init__(self, trial):
        self.trial = trial
        self.patch = trial.numbers[PATCH * trial.f : PATCH * trial.f + PATCH]

    def short(self):
        """Whether a list ends before the face does."""
        return PATCH * self.trial.f + PATCH > len(self.trial.numbers)

    def causes(self):
        """The numbers of all causes that are met, in order; the answer is the first."""
        t = self.trial
        met = {
            12: self.short(),
            13: any(x not in CONTROLS for x in self.patch),
            14: t.n not in STEPS or t.a > t.n or t.b > t.n,
        }
        return [number for number, holds in met.items() if holds]

    def exact(self):
        """The point of the patch, before it is rounded."""
        t = self.trial
        bernstein = lambda x: [comb(3, i) * x**i * (1 - x) ** (3 - i) for i in range(4)]
        u, v = bernstein(Fraction(t.a, t.n)), bernstein(Fraction(t.b, t.n))
        return [sum(u[i] * v[j] * self.patch[3 * (i + 4 * j) + k] for i in range(4) for j in range(4)) for k in range(3)]

    def sample(self):
        """The point of the patch. A fraction is rounded once, ties to even."""
        return [round(x) for x in self.exact()]

    def words(self):
        """The answer of the sample call."""
        causes = self.causes()
        return ["refused", causes[0]] if causes else self.sample()

    def line(self):
        """What the program prints after the trial's name."""
        reading = ["reading", *self.words()] if self.causes() else doubles(self.sample())
        return spaced(self.words(), reading)


# ---- Marked sample trials: the arguments of the marked sample call.


@dataclass
class MarkedTrial(SampleTrial):
    # The bytes of the points, sixteen a face.
    marks: list = field(default_factory=lambda: [1] * POINTS)

    def bytes(self):
        """The trial's file, as crates/trials/src/reading.rt has it."""
        head = struct.pack("<H4QH", MARKED, self.f, self.n, self.a, self.b, len(self.marks))
        return head + bytes(self.marks) + packed(self.numbers)

    def answer(self):
        return MarkedAnswer(self)


class MarkedAnswer(SampleAnswer):
    """What the rules say of the marked sample call, and of the sample call, which needs no marks."""

    def short(self):
        return super().short() or POINTS * self.trial.f + POINTS > len(self.trial.marks)

    def mark(self):
        """1 where the sample is exact, else 0."""
        t = self.trial
        return sample_mark(t.marks[POINTS * t.f : POINTS * t.f + POINTS], self.exact())

    def line(self):
        """What the program prints after the trial's name."""
        causes, plain = self.causes(), SampleAnswer(self.trial)
        words = ["refused", causes[0]] if causes else [*self.sample(), "mark", self.mark()]
        return spaced(words, ["sample"], plain.words())


# ---- Line trials: the arguments of the line call.


@dataclass
class LineTrial:
    numbers: list
    f: int
    n: int
    b: int
    # The length of the lent list.
    lent: int

    def bytes(self):
        """The trial's file, as crates/trials/src/reading.rt has it."""
        return struct.pack("<H3QH", LINE, self.f, self.n, self.b, self.lent) + packed(self.numbers)

    def answer(self):
        return LineAnswer(self)


class LineAnswer:
    """What the rules say of the line call, by what they say of the sample call at each of its places."""

    def __init__(self, trial):
        self.trial = trial

    def at(self, a):
        """The answer of the sample call at (a, b)."""
        t = self.trial
        return SampleTrial(t.numbers, t.f, t.n, a, t.b).answer()

    def causes(self):
        """The numbers of all causes that are met, in order; the answer is the first."""
        t = self.trial
        return self.at(0).causes() + ([17] if t.lent < 3 * (t.n + 1) else [])

    def exact(self):
        """The coordinates of the samples, before they are rounded."""
        return [x for a in range(self.trial.n + 1) for x in self.at(a).exact()]

    def line(self):
        """What the program prints after the trial's name."""
        t, causes = self.trial, self.causes()
        if causes:
            return "\n".join([f"refused {causes[0]}", *summed(" line", [FILLING] * t.lent)])
        written = [x for a in range(t.n + 1) for x in self.at(a).sample()]
        words = ["same"] * (t.n + 1)
        return "\n".join(["done", *summed(" line", filled(written, t.lent)), spaced([" samples"], words)])
