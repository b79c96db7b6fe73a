#!/usr/bin/env python3
"""Sets a program against the naive model over generated scripts: listings, and
the bytes of the messages shown, which no listing tells.

compare.py [--program build/second] [--seeds FIRST LAST] [--records M]
"""

import argparse
import os
import subprocess
import sys

import generate
import model
from scripts import MOST_RECORDS

SECOND = os.path.dirname(os.path.dirname(os.path.abspath(__file__)))


def played(command, script):
    done = subprocess.run(command, input=script, stdout=subprocess.PIPE,
                          check=True)
    return done.stdout.decode()


def differing_line(one, other):
    pairs = zip(one.splitlines() + ["(end)"], other.splitlines() + ["(end)"])
    for mine, theirs in pairs:
        if mine != theirs:
            return "model   %s\nprogram %s" % (mine, theirs)
    return "lengths differ"


def main():
    parser = argparse.ArgumentParser(description=__doc__)
    parser.add_argument("--program",
                        default=os.path.join(SECOND, "build", "second"))
    parser.add_argument("--trust", action="store_true")
    parser.add_argument("--seeds", type=int, nargs=2, default=[1, 10])
    parser.add_argument("--records", type=int, default=500)
    options = parser.parse_args()
    command = [options.program] + (["--trust"] if options.trust else [])
    compared = messages = 0
    for seed in range(options.seeds[0], options.seeds[1] + 1):
        for profile in generate.PROFILES:
            script = generate.script(profile, seed,
                                     min(options.records, MOST_RECORDS))
            expected = model.played(script)
            found = played(command, script), played(
                command + ["--messages"], script)
            for one, other in zip(expected, found):
                if one != other:
                    sys.exit("%s seed %d differs:\n%s" % (
                        profile, seed, differing_line(one, other)))
            compared += expected[0].count("\n")
            messages += expected[1].count("\n")
    print("%d lines agree, and %d messages" % (compared, messages))


if __name__ == "__main__":
    main()
