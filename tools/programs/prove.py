"""Proves and builds programs and static libraries, and says how far it is.
usage: prove.py [--with-parent] [--gate-since FILE] CRATE..

The crates that they stand on are proved side by side, each over what those below it state, as the gate proves them, by the
`rattle` of the kit that `rt` belongs to: rt proves one crate at a time of those that share a library, and a library that it builds
for that holds proofs too, so that a crate over many of them takes up to three times as long. What is proved stands in
`crates/NAME/out/proved`, with a checksum of all that it was proved from, so that a build that is broken off goes on from there,
and another program's takes it. A build that fails ends with its log, and with status 1. With --with-parent it ends when whoever started
it is gone. With --gate-since it takes the programs that a gate has built which passed and began when FILE was last written, if no source is
newer; whoever calls it knows that the gate passed."""

import argparse
import contextlib
import hashlib
import os
import re
import resource
import shutil
import subprocess
import sys
import tempfile
import time

sys.dont_write_bytecode = True

from crates import SOURCES_AND_PROOFS, TOP, Listed, Stamp, add_files, bytes_in, checksum_of, files_of, folder_of
from ended import Caller, Ended, end, end_by, start, turn
from forecast import Forecast, functions_of, jobs_for, measured, work_of
from kit import Kit, Unbuilt
from progress import Progress

# The memory that a proof may take, in bytes.
MEMORY_OF_PROOF = 3_000_000_000

# How rattle ends what it says of a crate that is proved.
PROVED = re.compile(r"^logic=proved ", re.MULTILINE)


def children_took():
    """The processor time of all children that ended, in seconds."""
    took = resource.getrusage(resource.RUSAGE_CHILDREN)
    return took.ru_utime + took.ru_stime


class Crate:
    """A crate on the way, over those below it, and its proof, if that runs."""

    def __init__(self, name, listed, below, kit, known):
        self.name, self.listed, self.kit = name, listed, kit
        self.is_static = name in listed.static
        self.libraries = listed.named[name]
        self.below = below
        self.at = folder_of(name)
        self.out = f"{self.at}/out/proved"
        self.is_program = os.path.isfile(f"{self.at}/src/main.rt")
        self.functions = functions_of(name)
        self.work = work_of(name, self.functions, len(below), known)
        # The work of the longest chain of crates from this one on.
        self.chain = self.work
        self.wanted = self.checksum()
        self.running, self.begun, self.jobs, self.log = None, None, 0, None
        self.is_done = os.path.exists(self.made()) and self.proved_from() == self.wanted

    def take_from_gate(self, since):
        """Takes the program that a gate has built since then, in nanoseconds, unless a source is newer, and tells whether it could."""
        crates = [self.name, *[it.name for it in self.below]]
        sources = [f"{TOP}/crates.txt", *(path for crate in crates for path in files_of(crate, SOURCES_AND_PROOFS))]
        built = f"{self.at}/out/{self.name}"
        # What was changed and changed back has another time of change.
        is_changed = any(max(os.stat(it).st_mtime_ns, os.stat(it).st_ctime_ns) >= since for it in sources)
        if is_changed or not os.path.exists(built) or os.stat(built).st_mtime_ns < since:
            return False
        os.makedirs(self.out, exist_ok=True)
        shutil.copy(built, f"{self.out}/new")
        os.replace(f"{self.out}/new", self.made())
        self.note_proved()
        return True

    def checksum(self):
        """A checksum of all that the crate is proved from."""
        made = hashlib.sha256(self.kit.version.encode())
        made.update(repr((self.libraries, [it.wanted for it in self.below])).encode())
        add_files(made, self.name, SOURCES_AND_PROOFS)
        return made.hexdigest()

    def made(self):
        """The library, static library or program that is made of the crate."""
        if self.is_program:
            return f"{self.out}/{self.name}"
        return f"{self.at}/out/lib{self.name}.a" if self.is_static else f"{self.out}/{self.name}.rlib"

    def proved_from(self):
        with contextlib.suppress(FileNotFoundError):
            return bytes_in(f"{self.out}/proved-from").decode()
        return None

    def is_ready(self):
        return not self.is_done and not self.running and all(it.is_done for it in self.below)

    def words_of_check(self, jobs):
        """The words of a call that checks the crate over those below it."""
        words = ["--crate-name", self.name, "src/main.rt" if self.is_program else "src/lib.rt"]
        ours = {it.name: it for it in self.below}
        for name in ["std", *self.libraries]:
            words += ["--extern", f"{name}={ours[name].made()}" if name in ours else self.kit.library(name)]
        words += ["-L", f"dependency={self.kit.at}/rlibs"]
        for it in self.below:
            words += ["-L", f"dependency={it.out}"]
        words += ["--crate-type", "staticlib"] if self.is_static else []
        return [*words, *self.kit.logic(), "--jobs", str(jobs)]

    def words(self, jobs):
        """The words of the call that proves the crate and makes what is made of it."""
        words = self.words_of_check(jobs)
        if self.is_program:
            return [*words, *self.kit.toolchain(), "-o", f"{self.made()}.o"]
        if self.is_static:
            return [*words, *self.kit.toolchain(), "-o", self.made()]
        return [*words, "--statements", "-o", self.made()]

    def start(self, jobs):
        """Starts the proof."""
        os.makedirs(self.out, exist_ok=True)
        for name in "proved-from", "stamp", self.name:
            with contextlib.suppress(FileNotFoundError):
                os.remove(f"{self.out}/{name}")
        shutil.rmtree(f"{self.out}/{self.name}.rlib", ignore_errors=True)
        self.begun = time.monotonic()
        self.jobs, self.log = jobs, tempfile.TemporaryFile("w+", errors="replace")
        self.running = start([*self.kit.rattle("build"), *self.words(jobs)], cwd=self.at, stdout=self.log, stderr=subprocess.STDOUT)

    def elapsed(self):
        return time.monotonic() - self.begun

    def has_ended(self):
        """Tells whether the proof ended, and notes the processor time that it took."""
        before = children_took()
        if self.running.poll() is None:
            return False
        self.took = children_took() - before
        return True

    def finish(self):
        """Notes that the proof ended, and whether it is one."""
        self.ended_with = self.running.returncode
        is_proved = self.ended_with == 0 and PROVED.search(self.told()) is not None
        self.running = None
        if is_proved and self.is_program:
            is_proved = self.link()
        if is_proved:
            self.note_proved()
            with open(f"{self.out}/took", "w", encoding="utf-8") as file:
                file.write(f"{self.name} {self.took:.0f}\n")

    def note_proved(self):
        with open(f"{self.out}/proved-from", "w", encoding="utf-8") as file:
            file.write(self.wanted)
        self.is_done = True

    def link(self):
        """Links the program, which then has a stamp too, and tells whether it could."""
        words = self.kit.link(self.made(), [f"{self.made()}.o"])
        return subprocess.run(words, stdout=self.log, stderr=subprocess.STDOUT, check=False).returncode == 0

    def stamp(self):
        """Tells ready.sh that the program is proved, if the sources are still those that it was proved from."""
        crates = self.listed.in_order(self.name)
        begun = time.time_ns()
        if self.is_program and self.checksum() == self.wanted and all(it.checksum() == it.wanted for it in self.below):
            checksum = checksum_of(self.listed, crates, SOURCES_AND_PROOFS)
            Stamp(f"{self.out}/stamp").write(checksum, crates, SOURCES_AND_PROOFS, begun)

    def end(self):
        """Ends what still runs."""
        if self.running:
            end(self.running)

    def told(self):
        """What the proof wrote."""
        self.log.seek(0)
        return self.log.read()

    def cause(self):
        """What a proof that failed wrote, and how it ended where it was killed."""
        killed = f"rattle was ended by signal {-self.ended_with}, for want of memory perhaps" if self.ended_with < 0 else ""
        return "\n".join(filter(None, [self.told().rstrip(), killed]))


class Proof:
    """The crates on the way to some programs and static libraries, lowest first, of which some are done."""

    def __init__(self, names, kit, progress, caller):
        listed = Listed()
        made, known = {}, measured()
        for name in names:
            for it in listed.in_order(name):
                if it not in made:
                    below = [made[lower] for lower in listed.in_order(it)[:-1]]
                    made[it] = Crate(it, listed, below, kit, known)
        self.names = " and ".join(names)
        self.asked = [made[it] for it in names]
        # What is done needs nothing below it.
        needed = {it for crate in self.asked if not crate.is_done for it in [crate, *crate.below]}
        self.crates = [it for it in made.values() if it in needed]
        for crate in reversed(self.crates):
            for below in (made[it] for it in crate.libraries if it in made):
                below.chain = max(below.chain, below.work + crate.chain)
        memory = os.sysconf("SC_PAGE_SIZE") * os.sysconf("SC_PHYS_PAGES")
        self.processors = min(len(os.sched_getaffinity(0)), max(memory // MEMORY_OF_PROOF, 1))
        self.forecast = Forecast(self.crates, self.processors)
        self.progress, self.caller = progress, caller

    def show(self):
        """Shows how far the proof is."""
        done = sum(it.is_done for it in self.crates)
        left, so_far = self.forecast.seconds_left() / 60, self.progress.seconds() / 60
        # What is wanted most stands first, since a terminal may cut the line.
        how_far = f"some {left:.0f} min left, {so_far:.0f} min so far, {done} of {len(self.crates)} crates"
        at_work = ", ".join(it.name for it in self.at_work())
        self.progress.show_part(self.names, self.forecast.percent(), f"{how_far}: {at_work}")

    def at_work(self):
        return [it for it in self.crates if it.running]

    def start_ready(self):
        """Starts the crates that wait for none, as long as a processor is idle."""
        idle = self.processors - sum(it.jobs for it in self.at_work())
        for crate, jobs in jobs_for([it for it in self.crates if it.is_ready()], idle):
            crate.start(jobs)

    def run(self):
        """Proves all that is left, and gives the crate of one that can't be, if there is one."""
        while not all(it.is_done for it in self.crates):
            self.start_ready()
            self.caller.pause()
            for crate in [it for it in self.at_work() if it.has_ended()]:
                crate.finish()
                if not crate.is_done:
                    return crate
                self.forecast.note(crate, crate.elapsed())
            if self.progress.is_due():
                self.show()
        self.stamp()
        return None

    def stamp(self):
        for crate in self.asked:
            crate.stamp()

    def end(self):
        for it in self.crates:
            it.end()


def minutes_for(crate, kit):
    """How many minutes the proof of a program is likely to take."""
    return Proof([crate], kit, None, None).forecast.seconds_left() / 60


def take_from_gate(names, file, progress):
    proof = Proof(names, Kit(), progress, None)
    since = os.stat(file).st_mtime_ns
    for crate in proof.asked:
        if not crate.is_done and not crate.take_from_gate(since):
            raise Unbuilt(f"{crate.name}: a source changed since the gate began, or the gate has left no program: `bolgwyr prove` proves it")
    proof.stamp()


def prove(names, progress, caller):
    proof = Proof(names, Kit(), progress, caller)
    try:
        failed = proof.run()
    finally:
        proof.end()
    if failed:
        raise Unbuilt(f"{failed.cause()}\n{proof.names}: {failed.name} can't be built")
    progress.say(f"{proof.names}: proved, {progress.seconds() / 60:.0f} minutes")


def main():
    words = argparse.ArgumentParser(usage=__doc__.partition("usage: ")[2].partition("\n")[0], add_help=False)
    words.add_argument("--with-parent", action="store_true")
    words.add_argument("--gate-since")
    words.add_argument("crates", nargs="+")
    given = words.parse_args()
    names = given.crates
    unknown = [it for it in names if it not in Listed().named]
    if unknown:
        words.error(f"crates.txt has no crate {unknown[0]}")
    progress, caller = Progress(), Caller(given.with_parent)
    say_waiting = lambda: progress.say("another call proves in this repository; this one waits")
    try:
        with turn(f"{TOP}/crates.txt", caller, say_waiting):
            if given.gate_since:
                take_from_gate(names, given.gate_since, progress)
            else:
                prove(names, progress, caller)
    except Ended as ended:
        progress.say(f"{' and '.join(names)}: broken off; the next call goes on from here")
        end_by(ended.number)
    except PermissionError as error:
        progress.say(f"{error.filename} can't be written: prove as the owner of {TOP}")
        return 1
    except (Unbuilt, OSError) as error:
        progress.say(str(error))
        return 1
    return 0


if __name__ == "__main__":
    sys.exit(main())
