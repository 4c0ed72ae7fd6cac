"""What the prover's output says of a mutant.

The rule, from the exit status and the messages, each an `error` line or a note that something is not proved:

1. Status 0: it survived.
2. Status 1 with an error of the compiler (it has a code, as in `error[mismatched-types]`), or with no `logic=` line: no program. So is a
   definition that does not parse or type: an error in a file of specs/.
3. `logic=not-proved`. A message says that a fact is not proved, or that the text of a proof no longer fits:
   - it fits no longer where a name, a field or a goal that it cites is gone or takes no invariant any more;
   - in a file with such a message a term of another type than the goal's is a misfit too, since it was written for another program; what a tactic
     (`omega`, `search`, `simp`, ..) says of a goal is a fact all the same;
   - beside such a message a goal without an answer is a misfit, since goals have their names from the conditions that lead there, and its answer may
     stand under the name that it had; where values are known at which the goal is false it is a fact all the same;
   - every other message is a fact that is not proved.
   One such fact: refused by a false fact. None: refused because the proof text no longer fits.
4. A program that writes something else than its file `stdout`, or ends with another status: refused by a false fact (runs).
5. Any other end, the time limit among them: could not tell.

A fact that is not proved is not always false: a goal may hold that this text does not prove. The rule tells what was asked from what was named.
"""

import re
from typing import NamedTuple

FALSE, MISFIT, NONE, SURVIVED, UNKNOWN = "false fact", "text no longer fits", "no program", "survived", "could not tell"

UNPROVED, SEARCH = "it is not proved", "search"
ERROR = re.compile(rf"^(?:note: )?(?P<file>\S+?\.(?:antt|rt)):(?P<line>\d+):\d+: (?P<kind>error(?:\[[\w-]+\])?|{UNPROVED})(?P<words>.*)$")
UNCLOSED = re.compile(r"^fn (?P<file>\S+): no proof: .*`search` did not prove (?P<words>.*)$")

# What is said of a goal that is false, not only without a proof.
FALSIFIED = "allow values at which this goal is false"

CONSEQUENCE = re.compile(r"error: \d+ declarations? that depends? on .*(?:was|were) not checked")

# What a proof says whose text does not fit the program.
GONE = re.compile(
    r"that can be named from here|has no field|is not in scope(?! here)|has no module|there is no module|is not a field"
    r"|is applied to an argument but has type|too many arguments|too few arguments"
)

# What a term says that is of another type than the goal's.
OTHER_TYPE = re.compile(r"expected type|the two types|the two sides|but this has type|is not the type|does not have the type|is expected here")
TACTIC = re.compile(r"`(?:omega|search|grind|simp|rw|cc|refl|decide|ring|induction)`")


class Verdict(NamedTuple):
    """What became of a mutant, and the message that says so."""

    kind: str
    words: str = ""


class Message(NamedTuple):
    """A message: the file of the crate that it is of (the function, of a search), its kind, its words, and its line in the file (0, of a search)."""

    file: str
    kind: str
    words: str
    line: int


def messages(output):
    """The messages of an output but for those that follow from others; a second line that goes on with one belongs to it."""
    found, lines = [], output.splitlines()
    for line, second in zip(lines, [*lines[1:], ""]):
        match = ERROR.match(line) or UNCLOSED.match(line)
        if match and not CONSEQUENCE.search(line):
            parts = {"kind": SEARCH, "line": 0, **match.groupdict()}
            said = f"{parts['kind']}{parts['words']}" if parts["kind"] == UNPROVED else parts["words"].lstrip(": ")
            words = f"{said} {second.strip()}" if second.startswith("  ") else said
            found.append(Message(parts["file"][2 * parts["file"].startswith("./") :], parts["kind"], words, int(parts["line"])))
    return found


def is_misfit(message, misfitting):
    """Whether a message says that the text no longer fits; where files do not, a goal without an answer says so too, and in them a term of another type."""
    if GONE.search(message.words):
        return True
    if message.kind in (UNPROVED, SEARCH):
        return bool(misfitting) and FALSIFIED not in message.words
    return message.file in misfitting and bool(OTHER_TYPE.search(message.words)) and not TACTIC.search(message.words)


def of_proofs(found):
    """The verdict by the messages of proofs."""
    gone = [message for message in found if GONE.search(message.words)]
    facts = [message for message in found if not is_misfit(message, {message.file for message in gone})]
    if facts:
        return Verdict(FALSE, facts[0].words)
    return Verdict(MISFIT, gone[0].words) if gone else Verdict(UNKNOWN, "refused without a message")


def of_compiler(found, output):
    """The messages that say that there is no program; a definition that does not parse or type is among them."""
    compiler = [message for message in found if "[" in message.kind or message.file.startswith("specs/")]
    return compiler or ([] if "logic=" in output else found)


def verdict(status, output):
    """What a run with this exit status and output says; the status is None where the time was up."""
    found = messages(output)
    compiler = of_compiler(found, output)
    if status is None:
        return Verdict(UNKNOWN, "the time limit")
    if status == 0:
        return Verdict(SURVIVED)
    if status == 1 and compiler:
        return Verdict(NONE, compiler[0].words)
    if status == 1 and "logic=not-proved" in output:
        return of_proofs(found)
    return Verdict(UNKNOWN, f"status {status}: {output.strip().splitlines()[-1] if output.strip() else 'nothing was said'}")
