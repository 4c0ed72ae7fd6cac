"""The trials of the cosines and of the weights, which tools/trials.py writes: every n up to 40 and large ones, each with its weights at
every place up to 16, with what the constant lists and the generated ones have for it, and some with places far off.

What is expected comes from cosines.py. None of these calls refuses anything.
"""

import struct
from dataclasses import dataclass

from cosines import ROW, cosine, edge_weight, face_weight, listed
from meshes import INNER_VALENCES
from trial_forms import WEIGHTS, spaced

# The places that the program tries of each n, besides those that the file names.
NEAR = range(17)

# ---- The form of these trials.


@dataclass
class WeightTrial:
    n: int
    # Further places.
    far: tuple = ()

    def bytes(self):
        """The trial's file, as crates/trials/src/reading.rt has it."""
        return struct.pack(f"<HQ{len(self.far)}Q", WEIGHTS, self.n, *self.far)

    def answer(self):
        return WeightAnswer(self)


class WeightAnswer:
    """What the rules say of the calls."""

    def __init__(self, trial):
        self.trial = trial

    def causes(self):
        return []

    def row(self, weight):
        """The places of n in the list of the weights of a kind; `-` where it has none."""
        first = ROW * (self.trial.n - INNER_VALENCES[0])
        return listed(weight)[first : first + ROW] if self.trial.n in INNER_VALENCES else ["-"]

    def line(self):
        """What the program prints after the trial's name."""
        t, kinds = self.trial, {"edge": edge_weight, "face": face_weight}
        lines = [str(cosine(t.n))]
        lines += [spaced(["", word], (weight(t.n, i) for i in (*NEAR, *t.far))) for word, weight in kinds.items()]
        for source in ("table", "generated"):
            lines += [spaced(["", source, word], self.row(weight)) for word, weight in kinds.items()]
        return "\n".join(lines)


# ---- The trials.


def every_count():
    """Every n of a cosine or of a weight, and those on either side."""
    for n in range(41):
        yield f"weights-{n}-faces", WeightTrial(n)


def large():
    """Numbers of faces that are far too large, and such as would be small ones where a product or a lower half is taken for them."""
    for word, n in (
        ("256", 2**8),
        ("65536", 2**16),
        ("4294967301", 2**32 + 5),
        # 16(n - 3) is 2^64 + 32, and 2n is 2^64 + 10.
        ("many-whose-row-wraps-to-that-of-5", 2**60 + 5),
        ("many-whose-double-wraps-to-10", 2**63 + 5),
        ("half-the-largest", 2**63),
        ("largest", 2**64 - 1),
    ):
        yield f"weights-{word}-faces", WeightTrial(n)


# Places that no n has; some are small ones where their double or their lower half is taken for them.
FAR = (17, 31, 32, 208, 255, 256, 2**16, 2**32, 2**32 + 1, 2**60, 2**63, 2**63 + 1, 2**64 - 1)


def far_places():
    """Places far off, and the one that lies at the front of the list modulo 2^64; of 3 faces this is their own place 0."""
    for n in (0, 2, 3, 4, 5, 10, 16, 17, 2**64 - 1):
        word = "largest" if n == 2**64 - 1 else n
        yield f"weights-{word}-faces-places-far-off", WeightTrial(n, (*FAR, ROW * (INNER_VALENCES[0] - n) % 2**64))


GROUPS = (every_count, large, far_places)


# ---- Files that are no trial.


def files():
    """Files that are no weight trial, with what the program says of them."""
    whole = WeightTrial(5, (0,)).bytes()
    for words, content in (
        ("first-number-only", whole[:2]),
        ("head-one-byte-short", whole[:9]),
        ("head-one-byte-long", whole[:11]),
        ("one-byte-short", whole[:-1]),
        ("one-byte-long", whole + b"\0"),
    ):
        yield f"weights-file-{words}-not-whole", content, "not whole"
