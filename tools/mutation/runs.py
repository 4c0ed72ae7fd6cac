"""Mutants tried in copies of the repository, which stand outside of it and are removed in the end.

A copy has crates.txt and crates/, without out/ and must-fail/: `rt check` begins there with what checks of other copies kept. The mutants of a batch are
written into their files, tried by one run, and undone; those of which it says nothing are tried again, as smaller batches or alone. A constant or a
definition that survives in its crate is tried by `rt check` in the libraries above, in the order of crates.txt, until one refuses it. A constant that
survives there, too, is tried by running the programs above, as is a function that prints: no contract says how large the buffers of a program are, and
what is printed. A survivor of a program is tried by running it.

A program is proved and linked by `rt run`, and then run as `rt ci` does it: in a copy of its folder data/, over its file stdin and with the words of its
file args. What it writes is to be what its file stdout has, and its status what its file status has.
"""

import os
import queue
import shutil
import signal
import subprocess
import tempfile
import threading
import time
from collections import deque
from contextlib import contextmanager, suppress
from pathlib import Path
from typing import NamedTuple

from command import Failure
from mutation.batches import decided, left, merged, places
from mutation.mutants import CODE, above, crates, is_program
from mutation.verdicts import FALSE, SURVIVED, UNKNOWN, Verdict, verdict

LIMIT = 240

# What a copy goes without: what checks left, and the edits of the gate, of which each check would say that they no longer fit.
LEFT_OUT = ("out", "must-fail")

SIGNALS = (signal.SIGINT, signal.SIGTERM, signal.SIGHUP)

# The runs of rt and of programs that are under way, in all threads.
running = set()


class Over(Exception):
    """That a run was ended since all is over."""


class Outcome(NamedTuple):
    """What became of a mutant: its verdict, the crate that gave it, and the seconds that it took."""

    verdict: Verdict
    crate: str
    seconds: float


def run_words(folder, words, limit, given=b"", errors=subprocess.STDOUT):
    """The exit status and the output of a run in a folder over what it is given, None for the status where the time was up."""
    pipes = {"stdin": subprocess.PIPE, "stdout": subprocess.PIPE, "stderr": errors}
    # what is run and what it starts are a session of their own, to be ended together
    with subprocess.Popen(words, cwd=folder, start_new_session=True, **pipes) as child:
        running.add(child)
        try:
            output, _ = child.communicate(given, timeout=limit)
            status = child.returncode
        except subprocess.TimeoutExpired:
            end(child)
            output, status = child.communicate()[0], None
        except BaseException:
            end(child)
            raise
        finally:
            running.discard(child)
    return status, output


def end(child):
    """Ends a run with all that it started."""
    with suppress(ProcessLookupError):
        os.killpg(child.pid, signal.SIGKILL)


@contextmanager
def undisturbed():
    """A stretch that no signal ends which asks for the end."""
    if threading.current_thread() is not threading.main_thread():
        yield
        return
    before = {number: signal.signal(number, signal.SIG_IGN) for number in SIGNALS}
    try:
        yield
    finally:
        for number, handler in before.items():
            signal.signal(number, handler)


def bytes_of(path):
    """The bytes of a file; none of a file that is not there."""
    return path.read_bytes() if path.is_file() else b""


class Copy:
    """A copy of a repository in a temporary folder, with the crates that are known to pass as they stand."""

    def __init__(self, root, limit=LIMIT):
        self.limit, self.listed, self.passed, self.is_over = limit, crates(root), set(), threading.Event()
        self.folder = Path(tempfile.mkdtemp(prefix="mutants."))
        try:
            shutil.copy(root / "crates.txt", self.folder)
            shutil.copytree(root / "crates", self.folder / "crates", symlinks=True, ignore=shutil.ignore_patterns(*LEFT_OUT))
        except BaseException:
            with undisturbed():
                self.remove()
            raise

    def remove(self):
        """Removes the copy."""
        shutil.rmtree(self.folder, ignore_errors=True)

    def run(self, folder, words, limit, *more):
        """The exit status and the output of a run in a folder."""
        if self.is_over.is_set():
            raise Over
        found = run_words(folder, words, limit, *more)
        if self.is_over.is_set():
            raise Over
        return found

    def rt(self, verb, crate, limit):
        """The exit status and the output of a run of rt in a crate."""
        status, output = self.run(self.folder / "crates" / crate, ["rt", verb, "--jobs", "1"], limit)
        return status, output.decode(errors="replace")

    @contextmanager
    def changed(self, texts):
        """The copy with other texts at these paths."""
        before = {path: (self.folder / path).read_bytes() for path in texts}
        try:
            for path, text in texts.items():
                (self.folder / path).write_text(text, encoding="utf-8")
            yield
        finally:
            for path, content in before.items():
                (self.folder / path).write_bytes(content)

    def assert_proved(self, crate):
        """That a crate passes as it stands, asked once: without that no verdict on a mutant says anything."""
        if crate in self.passed:
            return
        status, output = self.rt("check", crate, None)
        if status != 0:
            # what rt itself says comes before and behind what it runs
            last = [line for line in output.strip().splitlines() if not line.startswith("rt: ")][-1:] or ["nothing was said"]
            raise Failure(f"{crate}: rt check does not pass before any edit: {last[0]}")
        self.passed.add(crate)

    def checked(self, crate):
        """The verdict of the prover on a crate."""
        return verdict(*self.rt("check", crate, self.limit))

    def ran(self, crate):
        """The verdict on a program: of the prover, and then by what it writes and its status."""
        found = self.checked(crate)
        if found.kind != SURVIVED:
            return found
        folder = self.folder / "crates" / crate
        program = folder / "out" / crate
        for path in (program, program.with_name(f"{crate}.stamp")):
            path.unlink(missing_ok=True)
        status, _ = self.rt("run", crate, self.limit)
        if status is None or not program.exists():
            return Verdict(UNKNOWN, "the time limit" if status is None else "the program is not linked")
        with tempfile.TemporaryDirectory(prefix="mutants.") as room:
            data = shutil.copytree(folder / "data", f"{room}/data") if (folder / "data").is_dir() else room
            words = [str(program), *bytes_of(folder / "args").decode().splitlines()]
            status, output = self.run(data, words, self.limit, bytes_of(folder / "stdin"), subprocess.DEVNULL)
        if status is None:
            return Verdict(UNKNOWN, "the time limit")
        if (status, output) != (int(bytes_of(folder / "status") or b"0"), bytes_of(folder / "stdout")):
            return Verdict(FALSE, "the program writes something else than its file stdout, or ends with another status")
        return Verdict(SURVIVED)

    def tried_above(self, crate, runs):
        """The verdict of the libraries above and, with runs, of the programs above (of a program, of its own run), and which gave it."""
        own = [crate] if is_program(self.folder, crate) else []
        higher = above(self.listed, crate)
        libraries = [name for name in higher if not is_program(self.folder, name)]
        programs = [name for name in higher if runs and is_program(self.folder, name)]
        for name in own + libraries + programs:
            found = self.ran(name) if is_program(self.folder, name) else self.checked(name)
            if found.kind != SURVIVED:
                return found, name
        return Verdict(SURVIVED), crate

    def tried(self, mutant, climb):
        """What becomes of a mutant; with climb a survivor is tried in the crates above."""
        began, crate = time.monotonic(), mutant.crate
        with self.changed({mutant.path: mutant.text}):
            found = self.checked(crate)
            if found.kind == SURVIVED and climb:
                found, crate = self.tried_above(crate, mutant.kind == CODE)
        return Outcome(found, crate, time.monotonic() - began)

    def merged(self, batch):
        """The texts by path that have the changes of a batch."""
        paths = dict.fromkeys(mutant.path for mutant in batch)
        own = {path: [mutant for mutant in batch if mutant.path == path] for path in paths}
        return {path: merged((self.folder / path).read_text(encoding="utf-8"), mutants) for path, mutants in own.items()}

    def tried_together(self, batch, climbs):
        """Each mutant of a batch with its outcome, as it comes."""
        if len(batch) == 1:
            yield batch[0], self.tried(batch[0], climbs(batch[0]))
            return
        began, texts = time.monotonic(), self.merged(batch)
        with self.changed(texts):
            status, output = self.rt("check", batch[0].crate, self.limit)
        seconds = time.monotonic() - began
        found, came_to_proofs = decided(status, output, places(batch, texts))
        for mutant in batch:
            if mutant.key in found:
                yield mutant, Outcome(found[mutant.key], mutant.crate, seconds / len(found))
        for part in left(batch, found, status == 0, came_to_proofs):
            yield from self.tried_together(part, climbs)


class Waiting:
    """The batches that wait, by crate, those of functions and others apart. Who takes one stays with its like, since the copy has checked that crate;
    then it begins others, and in the end it helps with some."""

    def __init__(self, batches):
        self.lock, self.left, self.begun = threading.Lock(), {}, set()
        for batch in batches:
            self.left.setdefault(likeness(batch), deque()).append(batch)

    def taken(self, last=None):
        """The next batch for who had this one last; None where none is left."""
        with self.lock:
            names = [name for name, waiting in self.left.items() if waiting]
            fresh = [name for name in names if name not in self.begun]
            if not names:
                return None
            same = last is not None and likeness(last) in names
            chosen = likeness(last) if same else fresh[0] if fresh else max(names, key=lambda name: len(self.left[name]))
            self.begun.add(chosen)
            return self.left[chosen].popleft()


def likeness(batch):
    """What batches have in common that go well one after the other: the crate, and whether they are of functions."""
    return batch[0].crate, bool(batch[0].function)


def work(copy, waiting, done, climbs):
    """Tries the batches that wait in a copy, until none is left or it is over."""
    try:
        batch = waiting.taken()
        while batch is not None:
            copy.assert_proved(batch[0].crate)
            for pair in copy.tried_together(batch, climbs):
                done.put(pair)
            batch = waiting.taken(batch)
    except Over:
        pass
    except BaseException as error:
        done.put((None, error))
    finally:
        done.put(None)


def in_copies(copies, batches, climbs):
    """Each mutant with its outcome, as it comes; a thread for each copy."""
    waiting, done = Waiting(batches), queue.Queue()
    workers = [threading.Thread(target=work, args=(copy, waiting, done, climbs), daemon=True) for copy in copies]
    for worker in workers:
        worker.start()
    left_over = len(workers)
    try:
        while left_over:
            pair = done.get()
            if pair is None:
                left_over -= 1
            elif pair[0] is None:
                raise pair[1]
            else:
                yield pair
    finally:
        with undisturbed():
            stop(copies, workers)


def stop(copies, workers):
    """Ends what is under way in copies."""
    for copy in copies:
        copy.is_over.set()
    while alive := [worker for worker in workers if worker.is_alive()]:
        for child in list(running):
            end(child)
        alive[0].join(0.1)


def outcomes(root, batches, jobs, climbs, limit=LIMIT):
    """Each mutant of the batches with its outcome, as it comes; so many runs at a time. climbs says whether a survivor is tried above."""
    copies = []
    try:
        while len(copies) < min(jobs, len(batches)):
            copies.append(Copy(root, limit))
        yield from in_copies(copies, batches, climbs)
    finally:
        with undisturbed():
            for copy in copies:
                copy.remove()
