#!/usr/bin/env python3
"""Makes the stored scripts and their listings: store.py FOLDER

Hand-made cases are compared with what their rows expect before they are
stored; headers come in pairs, one on either side of each refusal. Each kind
has its folder: cases, headers, profiles, damaged.
"""

import os
import subprocess
import sys

import cases
import generate
from scripts import (HEADER_BYTES, MOST_BYTES, MOST_RECORDS, answers_of,
                     script_of)

SECOND = os.path.dirname(os.path.dirname(os.path.abspath(__file__)))
PROGRAM = os.path.join(SECOND, "build", "second")

# (profile, seed, records) of each stored script that is generated.
GENERATED = [(profile, seed, 400) for profile in generate.AIMED
             for seed in (1, 2)]
GENERATED += [(profile, 3, MOST_RECORDS) for profile in
              ("mixed", "queues", "long_queues", "pools", "serials")]
GENERATED += [("layout", seed, 60) for seed in range(1, 5)]
GENERATED += [("damaged", seed, 8) for seed in range(1, 25)]


def headers():
    """Scripts on either side of each refusal, by name."""
    tick = (0, 1, [])
    one = script_of(5, [tick])
    with_number = generate.patched
    yield "script-no-bytes", b""
    yield "script-15-bytes", script_of(5, [])[:15]
    yield "script-empty", script_of(5, [])
    yield "script-offset-15", with_number(one + b"\0", 4, 15)
    yield "script-offset-17", with_number(one + b"\0", 4, 17)
    yield "script-record-whole", one
    yield "script-record-cut", one[:-1]
    yield "script-priority-15", script_of(15, [tick])
    yield "script-priority-16", script_of(16, [tick])
    yield "script-fourth-1", with_number(one, 12, 1)
    yield "script-fourth-high-bit", with_number(one, 12, 2 ** 31)
    yield "script-count-2", with_number(one, 0, 2)
    # 28 × 2^30 and 4,294,967,284 + 28 are small where 32 bits wrap.
    yield "script-count-wraps", with_number(one, 0, 2 ** 30)
    yield "script-offset-wraps", with_number(one, 4, 2 ** 32 - 12)
    yield "script-no-records-offset-at-end", with_number(
        script_of(5, [], after=bytes(4)), 4, 20)
    yield "script-no-records-offset-past-end", with_number(
        script_of(5, [], after=bytes(4)), 4, 21)
    yield "script-longest", one + bytes(MOST_BYTES - len(one))
    yield "script-too-long", one + bytes(MOST_BYTES + 1 - len(one))
    most = script_of(5, [tick] * MOST_RECORDS)
    yield "script-most-records", most
    yield "script-most-records-and-a-byte", script_of(
        5, [tick] * MOST_RECORDS, before=b"\xff")
    assert len(most) == HEADER_BYTES + 28 * MOST_RECORDS <= MOST_BYTES


def stored():
    """Folder, name and bytes of each script."""
    for name in cases.CASES:
        yield "cases", name, cases.case_script(name)
    for name, script in headers():
        yield "headers", name, script
    for profile, seed, records in GENERATED:
        folder = "damaged" if profile == "damaged" else "profiles"
        name = "%s-%d" % (profile.replace("_", "-"), seed)
        yield folder, name, generate.script(profile, seed, records)


def listing_of(script):
    return subprocess.run([PROGRAM], input=script, check=True,
                          stdout=subprocess.PIPE).stdout.decode()


def main():
    if len(sys.argv) != 2:
        sys.exit("usage: store.py FOLDER")
    for folder, name, script in stored():
        listing = listing_of(script)
        if name in cases.CASES:
            complaint = cases.case_complaint(name, answers_of(listing))
            if complaint:
                sys.exit("%s: %s" % (name, complaint))
        os.makedirs(os.path.join(sys.argv[1], folder), exist_ok=True)
        path = os.path.join(sys.argv[1], folder, name)
        with open(path + ".script", "wb") as out:
            out.write(script)
        with open(path + ".listing", "w") as out:
            out.write(listing)


if __name__ == "__main__":
    main()
