#!/usr/bin/env python3
"""Which statuses each call gave, against its row: statuses.py FOLDER...

Reads every NAME.script with its NAME.listing. Fails if a status of a row was
not seen, or one outside the row was. "A row says who may call and which
statuses can come back". Status 26 needs a broken state, which no script
makes; 11, 13 and 30 go to woken tasks only.
"""

import glob
import os
import sys

from scripts import CALLS, answers_of, header_of, records_of

BY_TASK = {0, 2, 24, 25}  # a task's call: an interrupt gets ILLEGAL_USE
NAMED = BY_TASK | {4, 5}  # with an identifier

ROWS = {
    "tick": {0, 25},
    "task_create": BY_TASK | {7, 19},
    "task_delete": NAMED,
    "task_ident": BY_TASK | {8},
    "task_start": NAMED | {20},
    "task_suspend": NAMED | {21, 22},
    "task_resume": NAMED | {21, 23},
    "task_set_priority": NAMED | {19},
    "sem_create": BY_TASK | {6, 7, 9},
    "sem_delete": NAMED,
    "sem_ident": BY_TASK | {8},
    "sem_claim": NAMED | {1, 3, 6, 10},
    "sem_release": NAMED - {2} | {12},
    "sem_info": NAMED,
    "pool_create": BY_TASK | {3, 6, 7, 14, 15},
    "pool_delete": NAMED | {16},
    "pool_ident": BY_TASK | {8},
    "pool_get_buff": NAMED | {17},
    "pool_ret_buff": NAMED | {18},
    "pool_info": NAMED,
    "queue_create": BY_TASK | {3, 6, 7},
    "queue_delete": NAMED,
    "queue_ident": BY_TASK | {8},
    "queue_send": NAMED - {2} | {27, 28},
    "queue_jump": NAMED - {2} | {27, 28},
    "queue_receive": NAMED | {1, 3, 6, 29},
    "queue_info": NAMED,
}

# What the call tells the tasks it wakes.
WAKES = {"tick": {13}, "sem_delete": {11}, "sem_release": {0},
         "queue_delete": {30}, "queue_send": {0}, "queue_jump": {0}}

# Whose wakes are deliveries, `task:0:length`.
DELIVERS = ("queue_send", "queue_jump")

# A number that no row has.
UNKNOWN = "unknown call"


def gather(script, listing, given, told):
    """Adds one script's statuses to those seen of each call."""
    if header_of(script) is None:
        if listing != "script refused\n":
            raise ValueError("a script to be refused was played")
        return 0
    answers = answers_of(listing)
    records = list(records_of(script))
    if len(answers) != len(records):
        raise ValueError("as many lines as records are wanted")
    for (call, _, _), answer in zip(records, answers):
        name = CALLS[call] if call < len(CALLS) else UNKNOWN
        given[name].add(answer.status)
        told[name].update(wake[1] for wake in answer.wakes)
        if any((len(wake) == 3) != (name in DELIVERS)
               for wake in answer.wakes):
            raise ValueError("%s: a delivery has a length, and no other wake"
                             % name)
    return len(answers)


def complaints(seen, rows, what):
    for name in CALLS + [UNKNOWN]:
        row = rows.get(name, set())
        for status in sorted(row - seen[name]):
            yield "%s: %s %d is shown by no script" % (name, what, status)
        for status in sorted(seen[name] - row):
            yield "%s: %s %d is outside its row" % (name, what, status)


def pairs_in(folders):
    for folder in folders:
        for name in sorted(glob.glob(os.path.join(folder, "*.script"))):
            with open(name, "rb") as script:
                with open(name[:-len("script")] + "listing") as listing:
                    yield name, script.read(), listing.read()


def main():
    if len(sys.argv) < 2:
        sys.exit("usage: statuses.py FOLDER...")
    given = {name: set() for name in CALLS + [UNKNOWN]}
    told = {name: set() for name in CALLS + [UNKNOWN]}
    lines = scripts = 0
    for name, script, listing in pairs_in(sys.argv[1:]):
        try:
            lines += gather(script, listing, given, told)
        except ValueError as error:
            sys.exit("%s: %s" % (name, error))
        scripts += 1
    rows = dict(ROWS, **{UNKNOWN: {25}})
    wrong = list(complaints(given, rows, "status"))
    wrong += complaints(told, WAKES, "wake status")
    if wrong:
        sys.exit("\n".join(wrong))
    shown = sum(len(row) for row in ROWS.values())
    print("%d scripts, %d records: each of the %d statuses of the %d rows is "
          "shown, and no other" % (scripts, lines, shown, len(ROWS)))


if __name__ == "__main__":
    main()
