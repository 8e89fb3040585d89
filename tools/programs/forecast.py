"""How long a proof still takes: what each crate takes, and in which order the crates get a processor.

`seconds.txt` has the processor seconds that the proofs of crates took on one machine. A crate that isn't there counts by its functions.
How much slower or faster this machine is, what it has proved so far tells."""

import os
import re

from crates import SOURCES_AND_PROOFS, bytes_in, files_of

MEASURED = os.path.join(os.path.dirname(os.path.abspath(__file__)), "seconds.txt")

# What a crate takes that wasn't measured, reckoned in functions: the answers for some functions are long, what the crate stands on is
# read, and some of that is written into its own library.
FUNCTION = re.compile(rb"\bfn \w")
FUNCTIONS_FOR_CRATE = 10
FUNCTIONS_FOR_CRATE_BELOW = 2
LINES_FOR_FUNCTION = 9
ANSWERS = "Answers.antt", "Invariants.antt", "Proof.antt"
SECONDS_FOR_FUNCTION = 2.0

# A large crate may get two jobs, which take so much of the time of one.
FUNCTIONS_FOR_JOB = 40
MOST_JOBS = 2
TIME_OF_TWO_JOBS = 0.65

# What a machine has proved counts against this many seconds at the measured rate.
SECONDS_AT_MEASURED_RATE = 30
# A proof that takes longer than expected is taken to be at this part of its time, at least.
MOST_OF_A_PROOF = 0.9


def measured():
    """The processor seconds that crates took, by their names."""
    with open(MEASURED, encoding="utf-8") as file:
        return {name: float(seconds) for name, seconds in (line.split() for line in file if not line.startswith("#"))}


def functions_of(crate):
    """What the proofs of the crate's functions take, reckoned in functions."""
    functions, lines = 0, 0
    for path in files_of(crate, SOURCES_AND_PROOFS):
        if path.endswith(".rt"):
            functions += len(FUNCTION.findall(bytes_in(path)))
        elif path.endswith(ANSWERS):
            lines += bytes_in(path).count(b"\n")
    return functions + lines // LINES_FOR_FUNCTION


def work_of(crate, functions, number_below, known):
    """The seconds that a crate takes, as far as one can tell before."""
    reckoned = FUNCTIONS_FOR_CRATE + FUNCTIONS_FOR_CRATE_BELOW * number_below + functions
    return known.get(crate, SECONDS_FOR_FUNCTION * reckoned)


def jobs_for(ready, idle):
    """The crates among those that wait for none to which idle processors go, that with the longest chain above first, and how many
    jobs each gets. A large one gets a second that would stay idle. Each job reads what the crate stands on, so a small one
    gets no second, and none a third."""
    dealt = []
    for behind, crate in zip(reversed(range(len(ready))), sorted(ready, key=lambda it: -it.chain)):
        if idle > 0:
            jobs = max(min(idle - behind, MOST_JOBS, crate.functions // FUNCTIONS_FOR_JOB), 1)
            dealt.append((crate, jobs))
            idle -= jobs
    return dealt


def time_at(crate, jobs):
    return crate.work * (TIME_OF_TWO_JOBS if jobs == 2 else 1)


class Forecast:
    """What is left of the proofs of some crates, each after those below it."""

    def __init__(self, crates, processors):
        self.crates, self.processors = crates, processors
        self.expected, self.took = SECONDS_AT_MEASURED_RATE, SECONDS_AT_MEASURED_RATE

    def note(self, crate, seconds):
        """Notes that a proof took so many seconds."""
        self.expected += time_at(crate, crate.jobs)
        self.took += seconds

    def rate(self):
        """The seconds that take the place of one of the measured ones here. A proof that already takes longer than expected counts too."""
        expected, took = self.expected, self.took
        for crate in self.crates:
            if crate.running and crate.elapsed() * expected > time_at(crate, crate.jobs) * took:
                expected += time_at(crate, crate.jobs)
                took += crate.elapsed()
        return took / expected

    def done_of(self, crate, rate):
        """The part of the crate's proof that is done."""
        if crate.is_done:
            return 1
        return min(crate.elapsed() / (rate * time_at(crate, crate.jobs)), MOST_OF_A_PROOF) if crate.running else 0

    def percent(self):
        rate = self.rate()
        return 100 * sum(it.work * self.done_of(it, rate) for it in self.crates) / sum(it.work for it in self.crates)

    def seconds_left(self):
        """Deals the processors out as the proofs get them, and tells when the last ends."""
        rate, now, ends = self.rate(), 0, {}
        done = {it for it in self.crates if it.is_done}
        for crate in self.crates:
            if crate.running:
                ends[crate] = rate * time_at(crate, crate.jobs) * (1 - self.done_of(crate, rate))
        jobs = {it: it.jobs for it in ends}
        while len(done) < len(self.crates):
            ready = [it for it in self.crates if it not in done and it not in ends and all(low in done for low in it.below)]
            idle = self.processors - sum(jobs[it] for it in ends)
            for crate, number in jobs_for(ready, idle):
                ends[crate], jobs[crate] = now + rate * time_at(crate, number), number
            first = min(ends, key=ends.get)
            now = ends.pop(first)
            done.add(first)
        return now
