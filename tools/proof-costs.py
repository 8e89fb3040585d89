#!/usr/bin/env python3
"""Tells what is proved again after a change of a crate: how many crates, how many minutes of a quiet processor, and how many of them
it takes at least, however many processors there are, since crates stand one on the other.
usage: tools/proof-costs.py CRATE..

What a proof takes is what `bolgwyr prove` reckons with (tools/programs/forecast.py)."""

import os
import sys

sys.dont_write_bytecode = True
sys.path.insert(0, f"{os.path.dirname(os.path.abspath(__file__))}/programs")

from crates import Listed  # noqa: E402
from forecast import functions_of, measured, work_of  # noqa: E402


def costs(changed, listed, known):
    """The crates that are proved again, their minutes, and those of their longest chain."""
    again = [crate for crate in listed.named if changed in listed.in_order(crate)]
    seconds = {crate: work_of(crate, functions_of(crate), len(listed.in_order(crate)) - 1, known) for crate in again}
    chains = {}
    for crate in sorted(again, key=lambda it: len(listed.in_order(it))):
        chains[crate] = seconds[crate] + max((chains[it] for it in listed.named[crate] if it in chains), default=0)
    return again, sum(seconds.values()) / 60, max(chains.values()) / 60


def main(words):
    listed, known = Listed(), measured()
    unknown = [it for it in words if it not in listed.named]
    if not words or unknown:
        print(f"proof-costs: no crate {unknown[0]}" if unknown else "usage: tools/proof-costs.py CRATE..", file=sys.stderr)
        return 2
    for word in words:
        again, minutes, longest = costs(word, listed, known)
        print(f"{word}: {len(again)} crates, {minutes:.0f} minutes, at least {longest:.0f}")
    return 0


if __name__ == "__main__":
    sys.exit(main(sys.argv[1:]))
