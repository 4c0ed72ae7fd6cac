"""The forms of the trials: each one's file, as crates/trials/src/reading.rt has it, and what the program has to print for it.

What is expected is computed here, in meshes.py and in patches.py by the rules of docs/SPECIFICATION.md, of a mesh by sets and
dictionaries over the whole of it and of control points and samples by fractions, and not as the library does it, so the gate compares
two readings of the rules. tools/trials.py, tools/mark_trials.py, tools/mirror_trials.py and tools/fan_trials.py have the trials. The
forms of the sample call, of the marked sample and of the line call are in sample_forms.py, that of the cosines and weights in
weight_trials.py, that of the tangent call in tangent_trials.py.
"""

import struct
from dataclasses import dataclass

from meshes import MESH_FAULTS, NO_TWIN, Mesh, MeshReading, PatchReading, changed, mirrored, numbered, spoiled
from patches import PATCH, POINTS, mirrored_marks, mirrored_patch, mirrored_samples, mirrored_side, points, rounded, sample_marks, shuffled
from shapes import Shape, cube, notched, square

# What the program fills the lent lists with, the places that it has for a list, for that of patches and for that of marks, and how many
# of a list of control values or positions it prints in clear.
FILLING = 7
PLACES = 2048
PATCH_PLACES = 12291
MARK_PLACES = 4099
CLEAR = 816

# What a sample trial's file begins with, a patch trial's, a mirror trial's, a line trial's, a weight trial's, a tangent trial's, and a marked
# sample trial's.
SAMPLE = 65535
HEAD = 65533
MIRROR = 65531
LINE = 65529
WEIGHTS = 65527
TANGENT = 65525
MARKED = 65523


# ---- Mesh trials: the arguments of the check.


@dataclass
class MeshTrial(Mesh):
    twins: int

    def bytes(self):
        """The trial's file, as crates/trials/src/reading.rt has it."""
        assert self.v not in (SAMPLE, HEAD, MIRROR, LINE, WEIGHTS, TANGENT, MARKED)
        sizes = struct.pack("<6H", self.v, self.f, len(self.positions), len(self.tags), len(self.faces), self.twins)
        return sizes + self.packed()

    def answer(self):
        return MeshAnswer(self)


def trial_of(mesh):
    """A mesh, and a lent list three places longer than need be."""
    return MeshTrial(**vars(mesh), twins=4 * mesh.f + 3)


def mesh(shape):
    """A shape with positions of its own, smooth."""
    return trial_of(numbered(shape))


def shortened(trial, name):
    return changed(trial, **{name: getattr(trial, name)[:-1]})


def lengthened(trial, name):
    return changed(trial, **{name: getattr(trial, name) + [0]})


# A fault for each cause, as a word for the trial's name.
FAULTS = {1: "long-tags", 2: "short-twins", **MESH_FAULTS}


def with_faults(causes):
    """A trial that meets these causes, the later ones earlier in the lists."""
    trial = trial_of(spoiled(causes))
    if 2 in causes:
        changed(trial, twins=4 * trial.f - 1)
    if 1 in causes:
        lengthened(trial, "tags")
    return trial


# ---- Patch trials: the arguments of the patch call, and the N of rule S1.


@dataclass
class PatchTrial(MeshTrial):
    n: int
    # The lengths of the lent lists of patches and of marks.
    patches: int
    marks: int

    def bytes(self):
        """The trial's file, as crates/trials/src/reading.rt has it."""
        return struct.pack("<4H", HEAD, self.patches, self.marks, self.n) + super().bytes()

    def answer(self):
        return PatchAnswer(self)


def patched(trial, n=2):
    """A mesh trial as one of the patch call, with lists of patches and of marks three places longer than need be."""
    return PatchTrial(**vars(trial), n=n, patches=PATCH * trial.f + 3, marks=POINTS * trial.f + 3)


def placed(shape, points, n=2):
    """A shape with the vertices at these points."""
    return patched(changed(mesh(shape), positions=[x for point in points for x in point]), n)


def tagged(trial, *corners):
    """A trial with corner tags at these vertices."""
    return changed(trial, tags={p: 1 for p in corners})


def scattered(random, shape, n):
    """A shape with coordinates of either sign, small ones along one axis and large ones along another."""
    sizes = random.sample((30, 3000, 1048576), 3)
    return placed(shape, [[random.randint(-size, size) for size in sizes] for _ in range(shape.vertices)], n)


def shuffled_trial(random, trial):
    """A patch trial with its mesh renumbered, and the renumbering."""
    change = shuffled(random, trial.v, trial.f)
    old = trial.answer()
    other = placed(Shape(change.faces(old.faces)), change.moved(old.points), trial.n)
    return change, changed(other, tags=change.moved(trial.tags))


def renumbered_too(random, name, trial):
    """A patch trial by its name, and the same one renumbered, whose samples and marks are held against its own place by place."""
    change, other = shuffled_trial(random, trial)
    old, new = trial.answer(), other.answer()
    change.assert_same(old.samples, new.samples, trial.n)
    change.assert_same(old.marked, new.marked, trial.n)
    change.assert_same(*([points(marks) for marks in answer.marks] for answer in (old, new)), 3)
    yield name, trial
    yield f"{name}-renumbered", other


def the_square(n=2):
    """The square of rule X1."""
    return placed(square(), [(0, 0, 0), (21, 0, 0), (21, 21, 0), (0, 21, 0)], n)


def the_cube(n=2):
    """The cube of rule X3."""
    return placed(cube(), [(24 * x, 24 * y, 24 * z) for z in (-1, 1) for x, y in ((-1, -1), (1, -1), (1, 1), (-1, 1))], n)


def the_strip(n=2):
    """The strip of rule X6."""
    at = [(0, 0, 0), (9, 0, 0), (18, 0, 9), (18, 9, 0), (9, 9, 0), (0, 9, 0)]
    return placed(Shape([(0, 1, 4, 5), (1, 2, 3, 4)]), at, n)


def the_reentrant(n=2):
    """The three faces about a vertex of rule X14."""
    return placed(notched(2, 2), [(99 * x, 99 * y, 0) for y in range(3) for x in range(3)][:8], n)


# ---- Mirror trials: the arguments of the mirror call; the lent twins, the patches and N are for the image.


@dataclass
class MirrorTrial(PatchTrial):
    # The lengths of the lent positions, tags and faces.
    lent: list

    def bytes(self):
        """The trial's file, as crates/trials/src/reading.rt has it."""
        return struct.pack("<4H", MIRROR, *self.lent) + super().bytes()

    def answer(self):
        return MirrorAnswer(self)


def lengths(mesh):
    """The lengths of a mesh's three lists."""
    return [len(mesh.positions), len(mesh.tags), len(mesh.faces)]


def mirroring(trial):
    """A patch trial as one of the mirror call, with lent lists of the lengths of its own."""
    return MirrorTrial(**vars(trial), lent=lengths(trial))


def image_of(trial):
    """The patch trial of a patch trial's mirror image."""
    return PatchTrial(**vars(mirrored(trial)), twins=trial.twins, n=trial.n, patches=trial.patches, marks=trial.marks)


# ---- The rules, read once more.


def doubles(sample):
    """The reading of a sample: the bits of each coordinate over 256, which a double has exactly."""
    return ["reading"] + [struct.pack(">d", x / 256).hex() for x in sample]


def spaced(*lists):
    return " ".join(str(x) for words in lists for x in words)


def two_sums(numbers):
    """The sum of the numbers and that of the sums on the way, as the program has them."""
    first = second = 0
    for x in numbers:
        first += x
        second += first
    return [first % 2**32, second % 2**32]


def summed(word, numbers):
    """The lines of a long list: a word and the list's two sums, and its first numbers in clear."""
    shown = numbers[:CLEAR]
    return [spaced([word], two_sums(numbers)), *(spaced([""], shown[at : at + PATCH]) for at in range(0, len(shown), PATCH))]


def patch_lines(words, twins, patches, marks, samples, marked, n):
    """The lines of the patch call: its answer, the three lists afterwards, and the samples of each face with their marks."""
    lines = [spaced(words, ["twins"], twins), *summed(" patches", patches), spaced([" marks"], marks)]
    for face, exact in zip(samples, marked):
        sums, half = two_sums(x for sample in face.values() for x in sample), face[n // 2, n // 2]
        lines.append(spaced([" samples"], sums, half, doubles(half), ["marked"], two_sums(exact.values())))
    return lines


def joined(lists):
    """The numbers of some lists in one."""
    return [x for numbers in lists for x in numbers]


def filled(written, length):
    """A lent list of this length, after these numbers are written to it from the front."""
    return written + [FILLING] * (length - len(written))


class MeshAnswer(MeshReading):
    """What the rules say of a trial's mesh and its lent list."""

    def lent_short(self):
        return self.mesh.twins < 4 * self.mesh.f

    def twins_after(self):
        """The lent list after the call."""
        refusal = min(self.causes(), default=None)
        if refusal in range(1, 8):
            written = []
        elif refusal in range(8, 12):
            written = [NO_TWIN] * (4 * self.mesh.f)
        else:
            written = [NO_TWIN if twin is None else twin for twin in self.twins]
        return filled(written, self.mesh.twins)

    def words(self):
        """The answer of the call."""
        causes = self.causes()
        return ["refused", causes[0]] if causes else self.counts()

    def line(self):
        """What the program prints after the trial's name."""
        twins, n = self.twins_after(), 4 * self.mesh.f
        shown = [str(twins[i]) if 0 <= i < len(twins) else "-" for i in (0, n - 1, n, len(twins) - 1)]
        return spaced(self.words(), ["twins"], shown)


class PatchAnswer(MeshAnswer, PatchReading):
    """What the rules say of the patch call, and of the samples of what it wrote."""

    def lent_short(self):
        t = self.mesh
        return super().lent_short() or t.patches < PATCH * t.f or t.marks < POINTS * t.f

    def lists(self):
        """The three lent lists after the call."""
        t = self.mesh
        return self.twins_after(), filled(joined(self.patches), t.patches), filled(joined(self.marks), t.marks)

    def line(self):
        """What the program prints after the trial's name."""
        return "\n".join(patch_lines(self.words(), *self.lists(), self.samples, self.marked, self.mesh.n))


class MirrorAnswer(PatchReading):
    """What the rules say of the mirror call, and of the patches and samples of the image, from those of the mesh itself."""

    def causes(self):
        """The numbers of all causes that are met, in order; the answer is the first."""
        return super().causes() + ([16] if self.mesh.lent != lengths(self.mesh) else [])

    @staticmethod
    def list_lines(positions, tags, faces):
        """The lines of the lent lists after the call."""
        return [*summed(" positions", positions), spaced([" tags"], tags), spaced([" faces"], faces)]

    def image_lines(self):
        """The lines of the patch call on the image."""
        t = self.mesh
        turned = [self.twins[mirrored_side(side)] for side in range(4 * t.f)]
        twins = [NO_TWIN if twin is None else mirrored_side(twin) for twin in turned]
        patches, marks = [mirrored_patch(patch) for patch in self.patches], [mirrored_marks(marks) for marks in self.marks]
        exact = [mirrored_samples(exact) for exact in self.exact]
        marked = [sample_marks(*face) for face in zip(marks, exact)]
        lists = filled(twins, t.twins), filled(joined(patches), t.patches), filled(joined(marks), t.marks)
        return patch_lines(self.counts(), *lists, [rounded(face) for face in exact], marked, t.n)

    def line(self):
        """What the program prints after the trial's name."""
        causes = self.causes()
        if causes:
            untouched = [[FILLING] * length for length in self.mesh.lent]
            return "\n".join([f"refused {causes[0]}", *self.list_lines(*untouched)])
        image, shown = mirrored(self.mesh), self.image_lines()
        # The image, read by itself, gives the same.
        assert image_of(self.mesh).answer().line() == "\n".join(shown)
        lists = self.list_lines(image.positions, image.tags, image.faces)
        return "\n".join(["done", *lists, spaced([" check"], self.counts()), f" image {shown[0]}", *shown[1:]])
