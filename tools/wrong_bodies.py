"""Tries wrong bodies, as tools/wrong-bodies.sh tells."""

import collections
import glob
import os
import re
import shutil
import subprocess
import sys
import tempfile

sys.dont_write_bytecode = True
sys.path.insert(0, f"{os.path.dirname(os.path.abspath(__file__))}/programs")

from crates import SOURCES_AND_PROOFS, TOP, Listed, folder_of  # noqa: E402
from kit import Kit, Unbuilt  # noqa: E402
from prove import Crate, children_took  # noqa: E402

# Where a function begins in a source file, and the block of methods around it.
FUNCTION = re.compile(r'^( *)(?:pub(?:\([\w:]+\))? )?(?:const )?(?:unsafe )?(?:extern "C" )?fn (\w+)', re.M)
METHODS = re.compile(r"^impl(?:<[^{]*?>)? (?:(\w+(?:<[^{]*>)?) for )?(\w+)", re.M)
# A word of a type, but for lifetimes.
TYPE = re.compile(r"(?<!')\b\w+")

# What the prover says: of a function, of a place in a file, and of a proof that only lacks what the edit took away.
VERDICT = re.compile(r"^fn (\S+): (.*)$", re.M)
ERROR = re.compile(r"^(?:\./)?((?:src|specs|proofs)/\S+?):\d+:\d+: error: (.*)$", re.M)
SHAPE = re.compile(r"has no field|\(nearest: |is not in scope|has no `|was not admitted")
UNPROVED = re.compile(r"`search` did not prove (`[^;]*)")

# A function by its module, by its type with the trait, as the prover names that, where it is a method, and by its name.
Function = collections.namedtuple("Function", "module owner name")

# What a try of an edit says. Of a function that calls another one that isn't proved the prover may say no more than that: it waits.
REFUSED, PROVED, BROKEN, SHAPED, UNKNOWN, WAITS = "refused", "NOT REFUSED", "BROKEN", "REFUSED BY THE SHAPE OF ITS PROOF ALONE", "NOT KNOWN", "waits"


class Edit:
    """A wrong body, or a wrong definition."""

    def __init__(self, file):
        self.crate, _, name = os.path.abspath(file).split(os.sep)[-3:]
        self.name = f"{self.crate}: {name.removesuffix('.edit')}"
        self.changes = list(changes_in(file))
        self.texts = {path: text_of(f"{folder_of(self.crate)}/{path}") for path, _, _ in self.changes}
        self.wrong = self.fault()
        self.functions = set() if self.wrong else {function_at(path, self.texts[path], old) for path, old, _ in self.changes}

    def fault(self):
        """Why the edit can't be applied, if it can't."""
        if not self.changes:
            return "it changes nothing"
        counts = {self.texts[path].count(old) for path, old, _ in self.changes}
        return None if counts == {1} else "an old text doesn't stand just once in its file"

    def is_of_bodies(self):
        return None not in self.functions


def changes_in(file):
    """The changes of an edit: a file of the crate, the old text and the new one."""
    path = old = None
    with open(file, encoding="utf-8") as lines:
        for line in lines.read().split("\n"):
            key, _, text = line.partition(":")
            if key == "file":
                path = text.strip()
            elif key == "old":
                old = text.removeprefix(" ")
            elif key == "new":
                yield path, old, text.removeprefix(" ")


def text_of(path):
    with open(path, encoding="utf-8") as file:
        return file.read()


def function_at(path, text, old):
    """The function whose body an old text stands in, or None where it stands in none."""
    place = text.index(old)
    at = place + len(old) - len(old.lstrip())
    before = [it for it in FUNCTION.finditer(text) if it.start() <= at]
    if not path.startswith("src/") or not before:
        return None
    indent, name = before[-1].groups()
    end = re.compile(rf"^{indent}}}", re.M).search(text, before[-1].end())
    if end is None or end.start() < at:
        return None
    module = path.removeprefix("src/").removesuffix(".rt").replace("/", "::")
    around = [*METHODS.finditer(text, 0, before[-1].start())] if indent else []
    return Function(module, owner_of(*around[-1].groups()) if around else None, name)


def owner_of(trait, type_name):
    return type_name + "".join(TYPE.findall(trait or ""))


def word_for(function):
    """The function as `--only` takes it: a method by its type, which may be of another module than the method."""
    if function.owner or function.module == "lib":
        return "::".join(filter(None, [function.owner, function.name]))
    return f"{function.module}::{function.name}"


def is_named(function, crate, name):
    """Whether the prover's name of a function is this one's."""
    return name.endswith(f"::{word_for(function)}") if function.owner else name == f"{crate}::{word_for(function)}"


def batches(edits):
    """The edits, divided so that no two of a batch change one function. What changes a definition stands alone."""
    made = []
    for edit in edits:
        fits = (it for it in made if edit.is_of_bodies() and all(other.is_of_bodies() and not other.functions & edit.functions for other in it))
        batch = next(fits, None)
        if batch is None:
            made.append([edit])
        else:
            batch.append(edit)
    return made


class Scratch:
    """A scratch copy of a crate over the libraries below it, with what the prover keeps from one batch to the next."""

    def __init__(self, name, listed, kit, room):
        made = {}
        for it in listed.in_order(name):
            made[it] = Crate(it, listed, [made[lower] for lower in listed.in_order(it)[:-1]], kit, {})
        self.crate, self.at, self.kept = made[name], f"{room}/{name}", f"{room}/{name}.kept"
        os.mkdir(self.kept)

    def check(self, edits):
        """How the prover ends on the crate with these edits, and what it says."""
        shutil.rmtree(self.at, ignore_errors=True)
        for part in SOURCES_AND_PROOFS:
            if os.path.isdir(f"{self.crate.at}/{part}"):
                shutil.copytree(f"{self.crate.at}/{part}", f"{self.at}/{part}")
        for path, old, new in (change for edit in edits for change in edit.changes):
            text = text_of(f"{self.at}/{path}")
            with open(f"{self.at}/{path}", "w", encoding="utf-8") as file:
                file.write(text.replace(old, new))
        words = [*self.crate.kit.rattle("check"), *self.crate.words_of_check(1), "--incremental", self.kept]
        if all(edit.is_of_bodies() for edit in edits):
            words += [word for edit in edits for it in sorted(edit.functions, key=str) for word in ("--only", word_for(it))]
        ran = subprocess.run(words, cwd=self.at, stdin=subprocess.DEVNULL, stdout=subprocess.PIPE, stderr=subprocess.STDOUT, errors="replace", check=False)
        return ran.returncode, ran.stdout


def said_of_function(function, crate, told):
    """What a check says of a function whose body was changed, and why."""
    named = [(name, verdict) for name, verdict in VERDICT.findall(told) if is_named(function, crate, name)]
    if len(named) != 1:
        return UNKNOWN, f"{len(named)} functions are named like it"
    name, verdict = named[0]
    if verdict == "proved":
        return PROVED, verdict
    if not verdict.startswith(("not proved", "no proof")):
        return UNKNOWN, verdict
    folder = re.compile(rf"proofs/{'/'.join([*name.split('::')[1:-1], '[+]?' + function.name])}/")
    errors = [what for path, what in ERROR.findall(told) if folder.match(path)]
    unproved = UNPROVED.search(verdict)
    telling = [*([f"not proved: {unproved[1]}"] if unproved else []), *(it for it in errors if not SHAPE.search(it))]
    if telling:
        return REFUSED, telling[0]
    if "which is not proved" in verdict or "which are not proved" in verdict:
        return WAITS, verdict
    return (SHAPED, errors[0]) if errors else (UNKNOWN, verdict)


def said_of_definition(told):
    """What a check says of a crate with a wrong definition, and why. An error outside of the proofs says that it can't be read."""
    errors = ERROR.findall(told)
    unread = [f"{path}: {what}" for path, what in errors if not path.startswith("proofs/")]
    if unread:
        return BROKEN, unread[0]
    if "\nlogic=proved" in told:
        return PROVED, "proved"
    telling = [f"{path}: {what}" for path, what in errors if not SHAPE.search(what)]
    telling += [f"{name}: {verdict}" for name, verdict in VERDICT.findall(told) if UNPROVED.search(verdict)]
    if telling and "\nlogic=not-proved" in told:
        return REFUSED, telling[0]
    return (SHAPED, errors[0][1]) if errors else (UNKNOWN, told.rstrip().rpartition("\n")[2])


def said_of(edit, told):
    """What a check with the edit says of it, and why."""
    if not edit.is_of_bodies():
        return said_of_definition(told)
    said = [said_of_function(it, edit.crate, told) for it in edit.functions]
    return next((it for it in said if it[0] == REFUSED), said[0])


def try_batch(scratch, batch):
    """What the prover says of each edit of a batch, and why. Where it reads none, an edit of the batch can't be read."""
    ended_with, told = scratch.check(batch)
    if ended_with < 0:
        return [(edit, UNKNOWN, f"the prover was ended by signal {-ended_with}, for want of memory perhaps") for edit in batch]
    if VERDICT.search(told) or not batch[0].is_of_bodies():
        return [(edit, *said_of(edit, told)) for edit in batch]
    if len(batch) == 1:
        return [(batch[0], BROKEN, next((it for it in told.split("\n") if "error" in it), told.rstrip().rpartition("\n")[2]))]
    half = len(batch) // 2
    return try_batch(scratch, batch[:half]) + try_batch(scratch, batch[half:])


def try_crate(scratch, edits):
    """Tries the edits of a crate, and gives how many the prover refuses. What waits for the proof of another changed function is
    tried again without it."""
    for edit in (it for it in edits if it.wrong):
        say(edit, BROKEN, edit.wrong)
    left, refused = [it for it in edits if not it.wrong], 0
    while left:
        tried = [it for batch in batches(left) for it in try_batch(scratch, batch)]
        waiting = [edit for edit, said, _ in tried if said == WAITS]
        is_over = len(waiting) == len(left)
        for edit, said, why in tried:
            refused += said == REFUSED
            if said != WAITS or is_over:
                say(edit, said, why)
        left = [] if is_over else waiting
    return refused


def say(edit, said, why):
    print(f"{edit.name}: {said}: {why}", flush=True)


def prove_below(names, listed):
    """Proves the crates below these, where they aren't proved."""
    below = list(dict.fromkeys(it for name in names for it in listed.in_order(name)[:-1]))
    if below and subprocess.run([sys.executable, "-B", f"{TOP}/tools/programs/prove.py", *below], check=False).returncode:
        raise Unbuilt("the crates below aren't proved")


def edits_for(words, listed):
    """The edits that the words name, by their crates."""
    files = [word for word in words if word.endswith(".edit")] if words else sorted(glob.glob(f"{TOP}/crates/*/wrong-bodies/*.edit"))
    for name in (it for it in words if not it.endswith(".edit")):
        if name not in listed.named:
            raise Unbuilt(f"crates.txt has no crate {name}")
        files += sorted(glob.glob(f"{folder_of(name)}/wrong-bodies/*.edit"))
    found = {}
    for edit in map(Edit, files):
        found.setdefault(edit.crate, []).append(edit)
    return found


def main(words):
    listed, kit = Listed(), Kit()
    found = edits_for(words, listed)
    prove_below(found, listed)
    refused, before = 0, children_took()
    with tempfile.TemporaryDirectory(prefix="wrong-bodies-") as room:
        for name, edits in found.items():
            refused += try_crate(Scratch(name, listed, kit, room), edits)
    wanted = sum(map(len, found.values()))
    print(f"{refused} of {wanted} refused, in {(children_took() - before) / 60:.0f} minutes of the processor")
    return 0 if refused == wanted else 1


if __name__ == "__main__":
    try:
        sys.exit(main(sys.argv[1:]))
    except (Unbuilt, OSError) as error:
        sys.exit(f"wrong-bodies: {error}")
