"""What the commands of tools/ have in common: exit statuses, words on standard error, files that are read, files that are written whole."""

import argparse
import errno
import os
import signal
import sys
import tempfile
import traceback
from contextlib import contextmanager, suppress
from pathlib import Path

VERSION = "0.1"

NAME = os.path.basename(sys.argv[0])
REFUSALS = Path(__file__).resolve().parent.parent / "docs" / "REFUSALS.md"

DONE, REFUSED, FAILED = 0, 1, 2


class Failure(Exception):
    """What went wrong, in words; the exit status is 2."""


class Unusable(Exception):
    """What is wrong with an input that could be read, in lines of words; the exit status is 1."""


class Stopped(BaseException):
    """The number of a signal that asked for the end."""


def stop(number, _frame):
    raise Stopped(number)


def say(*lines):
    """Lines on standard error, as far as there is one; what a terminal would not show as it is, by its number."""
    with suppress(OSError):
        if sys.stderr is not None:
            for line in lines:
                words = "".join(c if c.isprintable() or c == "\n" else f"\\x{ord(c):02x}" for c in str(line))
                print(f"{NAME}: {words}", file=sys.stderr, flush=True)


def reason(error):
    """What the system says of an error."""
    return error.strerror or str(error)


def plural(count, one, more=None):
    """A count with its word."""
    return f"{count} {one if count == 1 else more or one + 's'}"


def meaning(number):
    """The lines that docs/REFUSALS.md has for a refusal: the cause, the usual fault, the repair."""
    try:
        rows = REFUSALS.read_text(encoding="utf-8", errors="replace").splitlines()
    except OSError:
        rows = []
    for row in rows:
        cells = [cell.strip() for cell in row.strip("|").split("|")]
        if len(cells) == 4 and cells[0] == str(number):
            return [cells[1], f"the usual fault: {cells[2]}", f"the repair: {cells[3]}"]
    return ["docs/REFUSALS.md does not say what this means"]


# ---- In and out.


def shown(name):
    """The name of a file to read, in words."""
    return "standard input" if name == "-" else name


def opened(name):
    """The file to read, standard input for -."""
    if name != "-":
        return open(name, "rb", buffering=0)
    if sys.stdin is None:
        raise Failure("standard input is closed")
    return open(sys.stdin.fileno(), "rb", buffering=0, closefd=False)


def read(name):
    """All bytes of a file, standard input for -."""
    try:
        with opened(name) as source:
            return source.read()
    except OSError as error:
        raise Failure(f"{shown(name)}: {reason(error)}") from None


def write_all(place, data):
    while data:
        data = data[os.write(place, data) :]


def show(lines):
    """Lines on standard output."""
    if sys.stdout is None:
        raise Failure("standard output is closed")
    try:
        # a name that is no text came in as one by the same way
        write_all(sys.stdout.fileno(), "".join(f"{line}\n" for line in lines).encode(errors="surrogateescape"))
    except OSError as error:
        raise Failure(f"standard output: {reason(error)}; not all of it was written") from None


def named(beside, target, force):
    """Gives a file that is whole its name; without force only where nothing has it."""
    if not force:
        try:
            os.link(beside, target)
            return os.unlink(beside)
        except OSError as error:
            # a file system without links: look, and rename
            if error.errno == errno.EEXIST or os.path.lexists(target):
                raise FileExistsError(errno.EEXIST, "exists; -f overwrites it") from None
    os.replace(beside, target)


def assert_free(name, force):
    """That a file can have this name: its folder is there, and nothing has it, or with force a regular file."""
    target = os.path.realpath(name)
    if not os.path.basename(name) or os.path.exists(target) and not os.path.isfile(target):
        raise Failure(f"{name}: is not a regular file; it was not written")
    if not os.path.isdir(os.path.dirname(target)):
        raise Failure(f"{name}: No such file or directory; it was not written")
    if not force and os.path.exists(target):
        raise Failure(f"{name}: exists; -f overwrites it")


def rights(target):
    """The rights of a file that gets this name: those of the file that has it, or the usual ones."""
    if os.path.exists(target):
        return os.stat(target).st_mode & 0o777
    mask = os.umask(0)
    os.umask(mask)
    return 0o666 & ~mask


@contextmanager
def written(name, force=True):
    """A new file beside the named one, as a function that writes bytes; named at the end, and removed where something fails."""
    target, beside = os.path.realpath(name), None
    assert_free(name, force)
    try:
        place, beside = tempfile.mkstemp(prefix=f".{os.path.basename(target)[:32]}.", dir=os.path.dirname(target))
        with open(place, "wb", buffering=0) as out:
            yield lambda data: write_all(out.fileno(), data)
            os.fchmod(out.fileno(), rights(target))
            os.fsync(out.fileno())
        named(beside, target, force)
        beside = None
    except OSError as error:
        raise Failure(f"{name}: {reason(error)}; it was not written") from None
    finally:
        if beside is not None:
            with suppress(OSError):
                os.unlink(beside)


# ---- The run.


def parser(about, epilog):
    """A parser of the command's words, with what every command has."""
    made = argparse.ArgumentParser(
        prog=NAME, description=about, epilog=epilog, allow_abbrev=False, formatter_class=argparse.RawDescriptionHelpFormatter
    )
    made.add_argument("--version", action="version", version=f"%(prog)s {VERSION}")
    return made


def add_output(made, what):
    """The words for the file that a command writes."""
    made.add_argument("-o", "--output", metavar="OUT", required=True, help=f"{what}; it is whole in the end, or not there")
    made.add_argument("-f", "--force", action="store_true", help="overwrite OUT where it exists")


def parsed(made, *inputs):
    """The command's words; its output must not be one of its inputs, which have these names, nor without -f any file that exists."""
    given = made.parse_args()
    sources = [getattr(given, name) for name in inputs]
    if given.output == "-":
        raise Failure("-: OUT is a file, not standard output")
    if sources.count("-") > 1:
        raise Failure("-: standard input can be one file, not two")
    assert_free(given.output, given.force)
    if any(is_same(source, given.output) for source in sources):
        raise Failure(f"{given.output}: is a file to read; it was not written")
    return given


def is_same(source, target):
    """Whether a name to read, if one is given, and a name to write are those of one file."""
    try:
        return source not in (None, "-") and os.path.samefile(source, target)
    except OSError:
        return False


def write(given, content):
    """Writes the output that the command's words name, whole."""
    with written(given.output, given.force) as put:
        put(content)


def whole_number(least, most):
    """A reader of whole numbers of a range, for a parser."""

    def number(text):
        # argparse turns these words into those of a wrong usage
        if not text.isascii() or not text.isdigit() or len(text) > 9 or not least <= int(text) <= most:
            raise argparse.ArgumentTypeError(f"{text} is not a whole number from {least} to {most}")
        return int(text)

    return number


def run(command):
    """The exit status of a command, a function without arguments that returns its status."""
    for number in (signal.SIGINT, signal.SIGTERM, signal.SIGHUP):
        if signal.getsignal(number) != signal.SIG_IGN:
            signal.signal(number, stop)
    try:
        return command()
    except Unusable as unusable:
        say(*unusable.args)
        return REFUSED
    except (Failure, OSError) as failure:
        say(failure)
        return FAILED
    except Exception:
        # a fault of the command itself: not to be taken for one of its input
        traceback.print_exc()
        return FAILED
    except Stopped as stopped:
        signal.signal(*stopped.args, signal.SIG_DFL)
        os.kill(os.getpid(), *stopped.args)
