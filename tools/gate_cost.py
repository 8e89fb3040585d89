"""Runs the gate and says what it cost, as tools/gate-cost.sh tells. It looks at the gate's processes twice a second: what a
process takes after the last look before its end is counted among the rest."""

import collections
import os
import re
import resource
import subprocess
import sys
import time

EVERY = 0.5
TICKS = os.sysconf("SC_CLK_TCK")
DEAREST = 12

# What is done for a crate. The seed is its proof anew, with which the checks of its edits begin.
PARTS = "proof", "tests", "seed", "edits"

# What a process works for: a crate and a part, and of an edit also which.
Work = collections.namedtuple("Work", "crate part edit")

# A process as it was seen: its parent, when it started, and the seconds of it and of its children that ended.
Seen = collections.namedtuple("Seen", "parent start seconds")


def processes():
    """The processes of the machine, by their numbers."""
    found = {}
    for name in os.listdir("/proc"):
        if not name.isdigit():
            continue
        try:
            with open(f"/proc/{name}/stat", encoding="utf-8", errors="replace") as file:
                words = file.read().rpartition(")")[2].split()
        except OSError:
            continue
        found[int(name)] = Seen(int(words[1]), int(words[19]), sum(map(int, words[11:15])) / TICKS)
    return found


def words_of(number):
    """The command line of a process, or no words if it has ended."""
    try:
        with open(f"/proc/{number}/cmdline", "rb") as file:
            return file.read().decode(errors="replace").split("\0")
    except OSError:
        return []


def names_of_edits(crate):
    """The crate's edits, in the order in which the gate counts them."""
    folder = f"crates/{crate}/must-fail"
    names = os.listdir(folder) if os.path.isdir(folder) else []
    return sorted(name for name in names if name.endswith(".edit"))


def is_in_scratch(number):
    """Whether the process works in a scratch copy of a crate, as the check of an edit does."""
    try:
        return "/rt-edit-" in os.readlink(f"/proc/{number}/cwd")
    except OSError:
        return False


def work_of_check(number, words):
    """What a run of the prover or the compiler works for."""
    crate = words[words.index("--crate-name") + 1]
    at = words.index("--incremental") + 1 if "--incremental" in words[:-1] else 0
    over = re.search(r"/rt-edits-[^/]*/(\w+)$", words[at]) if at else None
    names = names_of_edits(crate)
    if over and over[1].isdigit() and int(over[1]) < len(names):
        return Work(crate, "edits", names[int(over[1])])
    if over:
        return Work(crate, "seed", "")
    if is_in_scratch(number):
        return Work(crate, "edits", names[0] if len(names) == 1 else "")
    return Work(crate, "tests" if "--test" in words else "proof", "")


def work_of(number):
    """What a process works for, if its command line says so."""
    words = words_of(number)
    if "--crate-name" in words[:-1]:
        return work_of_check(number, words)
    for word in words:
        ran = re.search(r"/rt-run-[^/]*/bin/(\w+?)(_tests)?$", word)
        if ran:
            return Work(ran[1], "tests" if ran[2] else "proof", "")
    return None


class Costs:
    """What was seen of the gate's processes."""

    def __init__(self, gate):
        self.gate = gate
        self.works = {}
        self.seconds = {}

    def look(self):
        """Notes what each process took so far that says what it works for, with those below it."""
        found = processes()
        below = collections.defaultdict(list)
        for number, seen in found.items():
            below[seen.parent].append(number)
        left = list(below[self.gate])
        while left:
            number = left.pop()
            key = number, found[number].start
            if self.works.get(key) is None:
                self.works[key] = work_of(number)
            if self.works[key] is None:
                left += below[number]
            else:
                took = taken(found, below, number)
                self.seconds[key] = max(took, self.seconds.get(key, 0))

    def by(self, name):
        """The seconds for each answer of `name` on what was worked for."""
        found = collections.Counter()
        for key, seconds in self.seconds.items():
            found[name(self.works[key])] += seconds
        return found


def taken(found, below, number):
    """The seconds of a process and of all below it."""
    seconds, left = 0, [number]
    while left:
        number = left.pop()
        seconds += found[number].seconds
        left += below[number]
    return seconds


def print_row(name, seconds, edits=""):
    """A line: the seconds of each part, how many edits there are, and the seconds of all."""
    columns = "".join(f"{seconds[part]:8.0f}" for part in PARTS)
    print(f"{name:24}{columns}{edits:>6}{sum(seconds.values()):8.0f}")


def print_table(costs):
    """A line for each crate, the dearest first, and one for all of them."""
    whole = collections.Counter()
    crates = collections.defaultdict(collections.Counter)
    for (crate, part), seconds in costs.by(lambda work: (work.crate, work.part)).items():
        crates[crate][part] += seconds
        whole[part] += seconds
    print(f"{'crate':24}" + "".join(f"{part:>8}" for part in PARTS) + f"{'':>6}{'all':>8}")
    for crate, seconds in sorted(crates.items(), key=lambda it: -sum(it[1].values())):
        edits = len(names_of_edits(crate))
        print_row(crate, seconds, f"({edits})" if edits else "")
    print_row("all", whole)


def print_edits(costs):
    """A line for each of the dearest edits."""
    edits = costs.by(lambda work: (work.crate, work.edit) if work.edit else None)
    dearest = [it for it in edits.most_common() if it[0]][:DEAREST]
    if dearest:
        print("\nthe dearest edits")
    for (crate, edit), seconds in dearest:
        print(f"{seconds:8.0f}  {crate}/{edit.removesuffix('.edit')}")


def machine_times():
    """The time of all processors since the machine began, and how much of it a host that shares them took."""
    with open("/proc/stat", encoding="utf-8") as file:
        times = [int(it) for it in file.readline().split()[1:9]]
    return sum(times), times[7] if len(times) > 7 else 0


def share_of_host(before, after):
    """The percentage of the processors' time that the host took between two such readings."""
    return 100 * (after[1] - before[1]) / max(after[0] - before[0], 1)


def known(words):
    """Those of the words that this kit's `rt` speaks of: one whose gate keeps nothing doesn't know --anew."""
    ran = subprocess.run(["rt", "help"], stdout=subprocess.PIPE, stderr=subprocess.STDOUT, errors="replace", check=False)
    return [it for it in words if it in ran.stdout]


def main(words):
    begun, times = time.monotonic(), machine_times()
    with subprocess.Popen(["rt", "ci", *known(words)]) as gate:
        costs = Costs(gate.pid)
        while gate.poll() is None:
            costs.look()
            time.sleep(EVERY)
    used = resource.getrusage(resource.RUSAGE_CHILDREN)
    whole = max(used.ru_utime + used.ru_stime, sum(costs.seconds.values()))
    print("\nprocessor seconds")
    print_table(costs)
    print_edits(costs)
    rest = whole - sum(costs.seconds.values())
    minutes = (time.monotonic() - begun) / 60
    processors = len(os.sched_getaffinity(0))
    print(f"\n{whole / 60:.1f} processor minutes, {rest:.0f} seconds of them of no crate, in {minutes:.1f} minutes on {processors} processors")
    print(f"a host that shares the processors took {share_of_host(times, machine_times()):.0f} % of the time of all")
    return gate.returncode if gate.returncode >= 0 else 128 - gate.returncode


if __name__ == "__main__":
    sys.exit(main(sys.argv[1:]))
