#!/usr/bin/env python3
"""The hand-made cases, as rows a reader can follow: cases.py FOLDER

Fails where a case's stored script is not its rows, or its stored listing not
what they expect. A row is a call, its arguments and what the paper says comes
back:
    [N *] [mark M] call arguments -> status values; runs TASK; wakes T:S ...
where a delivery is T:0:LENGTH.
Values left out are 0, wakes left out are none, `runs` left out is not
compared. A tick has mark 1 and any other call mark 0, unless the row says.
"""

import os
import sys

from scripts import CALLS, Answer, answers_of, script_of

WORDS = {"SELF": 0, "FOREVER": 4294967295, "TOP": 4294967295, "FIFO": 1,
         "NOWAIT": 1, "FORCED_DELETE": 1}

CASES = {}


def case(name, priority, text):
    CASES[name] = (priority, text)


def number(word):
    return WORDS[word] if word in WORDS else int(word)


def row_of(line):
    """One line as (times, record, expectation)."""
    words, _, expected = line.partition("->")
    words = words.split()
    times = int(words[0]) if words[1:2] == ["*"] else 1
    words = words[2:] if words[1:2] == ["*"] else words
    mark = None
    if words[0] == "mark":
        mark, words = number(words[1]), words[2:]
    call = CALLS.index(words[0]) if words[0] in CALLS else int(words[0])
    if mark is None:
        mark = 1 if call == 0 else 0
    return times, (call, mark, [number(w) for w in words[1:]]), expected


def expectation(text):
    """What stands behind the arrow, as an answer; None for nothing said."""
    if not text.strip():
        return None
    running, wakes = None, []
    first, *others = text.split(";")
    figures = [int(word) for word in first.split()]
    for other in others:
        word, *rest = other.split()
        if word == "runs":
            running = int(rest[0])
        if word == "wakes":
            wakes = [tuple(map(int, wake.split(":"))) for wake in rest]
    return Answer(figures[0], (figures[1:] + [0] * 4)[:4], running, wakes)


def rows_of(text):
    """All (record, expectation) pairs of a case; `#` begins a remark."""
    rows = []
    for line in text.splitlines():
        line = line.partition("#")[0].strip()
        if line:
            times, record, expected = row_of(line)
            rows += [(record, expectation(expected))] * times
    return rows


def case_script(name):
    priority, text = CASES[name]
    return script_of(priority, [record for record, _ in rows_of(text)])


def case_complaint(name, answers):
    """The first row whose answer is not the one written here, or None."""
    rows = rows_of(CASES[name][1])
    for at, ((record, expected), found) in enumerate(zip(rows, answers), 1):
        if expected is None:
            continue
        if expected.running is None:
            expected = expected._replace(running=found.running)
        if expected != found:
            return "row %d %s: wanted %s, found %s" % (
                at, record, expected, found)
    return None


case("nine", 5, """
    sem_create 7 1 FIFO -> 0 64; runs 64
    sem_claim 64 0 FOREVER -> 0; runs 64
    task_create 9 8 -> 0 65; runs 64
    task_start 65 -> 0; runs 65
    sem_claim 64 0 2 -> 1; runs 64
    tick -> 0; runs 64
    tick -> 0; runs 65; wakes 65:13
    sem_info 64 -> 0 1 0 0; runs 65
    sem_claim 64 NOWAIT 0 -> 10; runs 65
""")

# Either side of the edge.

case("edge-initial-count", 5, """
    sem_create 7 32767 0 -> 0 64
    sem_info 64 -> 0 0 32767 0
    sem_create 7 32768 0 -> 9
    sem_create 7 2147483647 0 -> 9
    sem_create 7 2147483648 0 -> 9
    sem_create 7 TOP 0 -> 9
    sem_create 7 0 0 -> 0 65
""")

case("edge-release-at-32767", 5, """
    sem_create 7 32766 0 -> 0 64
    sem_release 64 -> 0
    sem_release 64 -> 12; runs 64
    mark 1 sem_release 64 -> 12; runs 64
    sem_info 64 -> 0 0 32767 0
    sem_claim 64 0 1 -> 0
    mark 1 sem_release 64 -> 0
    sem_release 64 -> 12
""")

case("edge-pool-of-100", 5, """
    pool_create 3 4096 100 32 0 -> 0 64
    pool_info 64 -> 0 3 3 32 0
    pool_get_buff 64 -> 0 4096
    pool_get_buff 64 -> 0 4128
    pool_get_buff 64 -> 0 4160
    pool_get_buff 64 -> 17
    pool_ret_buff 64 4097 -> 18
    pool_ret_buff 64 4192 -> 18
    pool_ret_buff 64 4095 -> 18
    pool_ret_buff 64 4064 -> 18
    pool_create 3 4195 1 1 0 -> 15
    pool_create 3 4196 1 1 0 -> 0 65
    pool_create 3 4095 1 1 0 -> 0 66
    pool_create 3 4096 1 1 0 -> 15
    pool_ret_buff 64 4128 -> 0
    pool_ret_buff 64 4128 -> 18
    pool_get_buff 64 -> 0 4128
""")

case("edge-end-of-memory", 5, """
    pool_create 3 4294967295 2 1 0 -> 3
    pool_create 3 4294967295 1 1 0 -> 0 64
    pool_get_buff 64 -> 0 4294967295
    pool_ret_buff 64 4294967295 -> 0
    pool_create 3 0 4294967295 67108864 0 -> 0 65
    pool_info 65 -> 0 63 63 67108864 0
    pool_delete 64 -> 0
    pool_create 3 1 4294967295 67108864 0 -> 15
    pool_delete 65 -> 0
    pool_create 3 1 4294967295 67108864 0 -> 0 128
    pool_create 3 0 1 1 0 -> 0 129
    pool_create 3 2 4294967295 67108864 0 -> 3
    pool_create 3 0 0 1 0 -> 3
    pool_create 3 0 0 0 0 -> 3
""")

case("edge-64-buffers", 5, """
    pool_create 3 0 64 1 0 -> 0 64
    pool_create 3 100 65 1 0 -> 14
    pool_create 3 1000 649 10 0 -> 0 65
    pool_create 3 2000 650 10 0 -> 14
    pool_create 3 3000 9 10 0 -> 14
    pool_create 3 3000 10 10 0 -> 0 66
    pool_create 3 4000 10 0 0 -> 14
    pool_info 64 -> 0 64 64 1 0
    64 * pool_get_buff 64
    pool_get_buff 64 -> 17
    pool_info 64 -> 0 64 0 1 0
    pool_ret_buff 64 63 -> 0
    pool_ret_buff 64 64 -> 18
    pool_get_buff 64 -> 0 63
""")

case("edge-time-out", 5, """
    sem_create 7 1 0 -> 0 64
    sem_claim 64 0 0 -> 3
    sem_claim 64 0 65536 -> 3
    sem_claim 64 0 4294967294 -> 3
    sem_info 64 -> 0 0 1 0
    sem_claim 64 NOWAIT 0 -> 0
    sem_claim 64 NOWAIT 0 -> 10
    sem_release 64 -> 0
    sem_claim 64 0 65535 -> 0
    sem_release 64 -> 0
    sem_claim 64 0 1 -> 0
    sem_claim 64 0 1 -> 1; runs 0
    tick -> 0; runs 64; wakes 64:13
    sem_claim 64 0 65535 -> 1; runs 0
    tick -> 0; runs 0
    mark 1 sem_release 64 -> 0; runs 64; wakes 64:0
""")

case("edge-identifiers", 5, """
    sem_release 0 -> 4
    sem_info 64 -> 4
    sem_create 7 1 0 -> 0 64
    sem_create 7 2 0 -> 0 65
    sem_delete 64 -> 0
    sem_info 64 -> 5
    sem_info 128 -> 4
    sem_create 7 3 0 -> 0 128
    sem_info 64 -> 5
    sem_info 128 -> 0 0 3 0
    sem_info 192 -> 4
    sem_info 80 -> 4             # slot 16 is past the table
    sem_info 79 -> 4             # slot 15 has issued nothing
    sem_info 1 -> 4              # serial 0
    sem_info 4194304 -> 4        # serial 65,536
    sem_info TOP -> 4
    pool_info 0 -> 4
    pool_info 64 -> 4
    pool_create 1 0 1 1 0 -> 0 64
    pool_info 72 -> 4            # slot 8 is past the table
    pool_delete 64 -> 0
    pool_info 64 -> 5
    task_delete 96 -> 4          # slot 32 is past the table
    task_create 7 1 -> 0 65
    task_delete 65 -> 0
    task_start 65 -> 5
    task_start 129 -> 4
""")

case("edge-tick-by-a-task", 5, """
    mark 0 tick -> 25; runs 64
    mark 2 tick -> 25; runs 64
    tick -> 0; runs 64
    task_suspend SELF -> 0; runs 0
    mark 0 tick -> 25; runs 0
    tick -> 0; runs 0
""")

# Slips seen in kernels like this.

case("slip-count-after-time-out", 1, """
    sem_create 7 0 0 -> 0 64
    task_create 1 5 -> 0 65
    task_start 65 -> 0; runs 65
    sem_claim 64 0 1 -> 1; runs 64
    sem_info 64 -> 0 0 -1 1
    tick -> 0; runs 65; wakes 65:13
    sem_info 64 -> 0 0 0 0
    sem_claim 64 0 FOREVER -> 1; runs 64
    sem_release 64 -> 0; runs 65; wakes 65:0
""")

case("slip-queue-by-todays-priority", 1, """
    sem_create 7 0 0 -> 0 64
    task_create 1 5 -> 0 65
    task_create 2 6 -> 0 66
    task_start 65 -> 0; runs 65
    sem_claim 64 0 FOREVER -> 1; runs 64
    task_start 66 -> 0; runs 66
    sem_claim 64 0 FOREVER -> 1; runs 64
    task_set_priority 65 15 -> 0 5     # moves nobody in the queue
    sem_release 64 -> 0; runs 66; wakes 66:0
    sem_release 64 -> 0; runs 65; wakes 65:0
    task_set_priority 65 4 -> 0 15; runs 66
    sem_claim 64 0 FOREVER -> 1; runs 65
    task_set_priority 66 2 -> 0 6
    sem_claim 64 0 FOREVER -> 1; runs 64
    sem_release 64 -> 0; runs 66; wakes 66:0   # joined at 6, runs at 2
""")

case("slip-granted-suspended-task", 1, """
    sem_create 7 0 0 -> 0 64
    task_create 1 5 -> 0 65
    task_start 65 -> 0; runs 65
    sem_claim 64 0 FOREVER -> 1; runs 64
    task_suspend 65 -> 0
    sem_release 64 -> 0; runs 64; wakes 65:0
    sem_info 64 -> 0 0 0 0
    task_resume 65 -> 0; runs 65
    task_resume 65 -> 23; runs 65
""")

case("slip-pool-tail", 1, """
    pool_create 1 1000 109 100 0 -> 0 64
    pool_info 64 -> 0 1 1 100 0
    pool_create 2 1108 10 10 0 -> 15      # the last byte of the tail
    pool_create 2 1100 9 9 0 -> 15        # all of the tail
    pool_create 2 1109 10 10 0 -> 0 65
    pool_create 3 900 101 100 0 -> 15     # its own tail reaches over
    pool_create 3 900 100 100 0 -> 0 66
    pool_create 4 0 4000 100 0 -> 15      # holds all the others
    pool_create 4 1050 1 1 0 -> 15        # lies within one
""")

case("slip-time-outs-in-slot-order", 1, """
    sem_create 7 0 FIFO -> 0 64
    task_create 1 5 -> 0 65
    task_create 2 5 -> 0 66
    task_create 3 5 -> 0 67
    task_start 67 -> 0; runs 67
    sem_claim 64 0 2 -> 1; runs 64
    task_start 65 -> 0; runs 65
    sem_claim 64 0 2 -> 1; runs 64
    task_start 66 -> 0; runs 66
    sem_claim 64 0 2 -> 1; runs 64
    sem_info 64 -> 0 1 -3 3
    tick -> 0; runs 64
    tick -> 0; runs 65; wakes 65:13 66:13 67:13
    sem_info 64 -> 0 1 0 0; runs 65
    task_delete SELF -> 0; runs 66
    task_delete SELF -> 0; runs 67
    task_delete SELF -> 0; runs 64
""")

# Who runs.

case("ready-order", 5, """
    task_create 1 5 -> 0 65
    task_create 2 5 -> 0 66
    task_start 65 -> 0; runs 64
    task_start 66 -> 0; runs 64
    task_set_priority SELF 5 -> 0 5; runs 65    # behind its equals
    task_set_priority 65 5 -> 0 5; runs 66
    task_set_priority SELF 5 -> 0 5; runs 64
    task_create 3 9 -> 0 67
    task_start 67 -> 0; runs 67
    task_suspend SELF -> 0; runs 64             # kept its place
    task_suspend 64 -> 0; runs 65
    task_resume 64 -> 0; runs 65                # lost its place
    task_suspend 65 -> 0; runs 66
    task_suspend 66 -> 0; runs 64
    task_resume 67 -> 0; runs 67
    task_set_priority 66 15 -> 0 5; runs 67     # not ready, stays so
    task_resume 66 -> 0; runs 66
    task_set_priority SELF 0 -> 0 15; runs 67
    task_set_priority SELF 16 -> 19; runs 67
    task_delete 67 -> 0; runs 64
    task_delete SELF -> 0; runs 66
    task_delete 66 -> 0; runs 0
    tick -> 0; runs 0
    task_resume 65 -> 24; runs 0
""")

case("tasks-refused", 5, """
    task_start SELF -> 20
    task_resume SELF -> 23
    task_set_priority SELF 16 -> 19
    task_set_priority 65 16 -> 4            # identifier first
    task_create 1 16 -> 19
    task_create 1 15 -> 0 65
    task_suspend 65 -> 21
    task_resume 65 -> 21
    task_ident 1 -> 0 65
    task_ident 0 -> 0 64
    task_ident 2 -> 8
    task_start 65 -> 0; runs 65
    task_start 65 -> 20
    task_suspend 64 -> 0
    task_suspend 64 -> 22
    task_ident 0 -> 0 64
    task_delete 64 -> 0; runs 65
    task_ident 0 -> 8
    task_delete 64 -> 5
    task_resume 64 -> 5
    task_create 0 3 -> 0 128
""")

# Waiters.

case("suspended-waiter-time-out", 1, """
    sem_create 7 0 0 -> 0 64
    task_create 1 5 -> 0 65
    task_start 65 -> 0; runs 65
    sem_claim 64 0 2 -> 1; runs 64
    task_suspend 65 -> 0
    tick -> 0; runs 64
    sem_info 64 -> 0 0 -1 1
    tick -> 0; runs 64; wakes 65:13            # the second tick ends it
    sem_info 64 -> 0 0 0 0                     # it gave its one back
    9 * tick -> 0; runs 64
    task_suspend 65 -> 22
    task_resume 65 -> 0; runs 65
    sem_claim 64 0 FOREVER -> 1; runs 64
    task_suspend 65 -> 0
    9 * tick -> 0; runs 64
    sem_info 64 -> 0 0 -1 1
""")

case("suspended-and-resumed-time-out", 1, """
    sem_create 7 0 0 -> 0 64
    task_create 1 5 -> 0 65
    task_create 2 6 -> 0 66
    task_start 65 -> 0; runs 65
    sem_claim 64 0 4 -> 1; runs 64
    task_start 66 -> 0; runs 66
    sem_claim 64 0 4 -> 1; runs 64
    tick -> 0
    task_suspend 65 -> 0
    tick -> 0
    task_resume 65 -> 0; runs 64
    tick -> 0
    task_suspend 65 -> 0
    tick -> 0; runs 66; wakes 65:13 66:13      # both at the fourth tick
    sem_info 64 -> 0 0 0 0; runs 66
    task_resume 65 -> 0; runs 66
""")

case("fifo-queue", 1, """
    sem_create 7 0 FIFO -> 0 64
    task_create 1 5 -> 0 65
    task_create 2 9 -> 0 66
    task_create 3 5 -> 0 67
    task_start 65 -> 0; runs 65
    sem_claim 64 0 FOREVER -> 1; runs 64
    task_start 66 -> 0; runs 66
    sem_claim 64 0 FOREVER -> 1; runs 64
    task_start 67 -> 0; runs 67
    sem_claim 64 0 FOREVER -> 1; runs 64
    sem_release 64 -> 0; runs 65; wakes 65:0    # by arrival
    mark 1 sem_release 64 -> 0; runs 66; wakes 66:0
    sem_release 64 -> 0; runs 66; wakes 67:0
    sem_release 64 -> 0; runs 66
    sem_info 64 -> 0 1 1 0
""")

case("fifo-place-after-departures", 1, """
    sem_create 7 0 FIFO -> 0 64
    task_create 1 8 -> 0 65
    task_create 2 8 -> 0 66
    task_create 3 8 -> 0 67
    task_create 4 8 -> 0 68
    task_create 5 8 -> 0 69
    task_start 65 -> 0; runs 65
    sem_claim 64 0 FOREVER -> 1; runs 64
    task_start 66 -> 0; runs 66
    sem_claim 64 0 2 -> 1; runs 64
    task_start 67 -> 0; runs 67
    sem_claim 64 0 FOREVER -> 1; runs 64
    task_start 68 -> 0; runs 68
    sem_claim 64 0 FOREVER -> 1; runs 64        # three ahead: release 4 - d
    task_start 69 -> 0; runs 69
    sem_claim 64 0 2 -> 1; runs 64              # behind it
    mark 1 sem_release 64 -> 0; runs 65; wakes 65:0
    task_set_priority 68 15 -> 0 8              # moves nobody in a queue
    task_suspend 67 -> 0; runs 65               # keeps its place
    tick -> 0
    tick -> 0; runs 65; wakes 66:13 69:13       # d is 1: 69 was behind it
    sem_info 64 -> 0 1 -2 2
    sem_release 64 -> 0; runs 65; wakes 67:0
    sem_release 64 -> 0; runs 68; wakes 68:0    # release 3
    sem_info 64 -> 0 1 0 0
""")

case("priority-queue-waits-longer", 5, """
    sem_create 7 0 0 -> 0 64
    task_create 9 8 -> 0 65
    task_start 65 -> 0; runs 65
    sem_claim 64 0 FOREVER -> 1; runs 64
    sem_claim 64 0 FOREVER -> 1; runs 0         # one ahead
    mark 1 sem_release 64 -> 0; runs 65; wakes 65:0
    sem_claim 64 0 FOREVER -> 1; runs 0         # ahead of 64 again
    mark 1 sem_release 64 -> 0; runs 65; wakes 65:0
    sem_claim 64 0 FOREVER -> 1; runs 0
    mark 1 sem_release 64 -> 0; runs 65; wakes 65:0
    sem_info 64 -> 0 0 -1 1                     # after three, 64 waits on
    sem_release 64 -> 0; runs 65; wakes 64:0
""")

case("slot-used-again", 1, """
    task_create 1 5 -> 0 65
    task_start 65 -> 0; runs 65
    task_suspend SELF -> 0; runs 64
    task_delete 65 -> 0
    task_create 2 6 -> 0 129
    task_suspend 129 -> 21              # nothing is left of the first
    task_resume 129 -> 21
    task_start 65 -> 5
    task_start 129 -> 0; runs 129
    task_delete 129 -> 0; runs 64
    task_start 129 -> 5
    task_start 193 -> 4
    task_create 3 1 -> 0 193
""")

case("deleted-waiter", 1, """
    sem_create 7 0 0 -> 0 64
    task_create 1 5 -> 0 65
    task_create 2 5 -> 0 66
    task_start 65 -> 0; runs 65
    sem_claim 64 0 FOREVER -> 1; runs 64
    task_start 66 -> 0; runs 66
    sem_claim 64 0 3 -> 1; runs 64
    sem_info 64 -> 0 0 -2 2
    task_delete 65 -> 0; runs 64
    sem_info 64 -> 0 0 -1 1
    task_suspend 66 -> 0
    task_delete 66 -> 0; runs 64
    sem_info 64 -> 0 0 0 0
    3 * tick -> 0
    sem_release 64 -> 0
    sem_info 64 -> 0 0 1 0
""")

case("deleted-semaphore", 1, """
    sem_create 7 0 0 -> 0 64
    task_create 1 5 -> 0 65
    task_create 2 6 -> 0 66
    task_create 3 5 -> 0 67
    task_start 65 -> 0; runs 65
    sem_claim 64 0 1 -> 1; runs 64
    task_start 66 -> 0; runs 66
    sem_claim 64 0 1 -> 1; runs 64
    task_start 67 -> 0; runs 67
    sem_claim 64 0 1 -> 1; runs 64
    task_suspend 65 -> 0
    task_set_priority 66 5 -> 0 6
    sem_delete 64 -> 0; runs 66; wakes 66:11 65:11 67:11
    tick -> 0; runs 66
    sem_delete 64 -> 5
    task_delete SELF -> 0; runs 67
    task_resume 65 -> 0; runs 67
    sem_create 8 4 FIFO -> 0 128
    sem_info 128 -> 0 1 4 0
""")

case("thirty-two-waiters", 15, """
    sem_create 7 0 0 -> 0 64
    31 * task_create 1 15
    task_create 1 15 -> 7
    task_create 1 16 -> 19
""" + "".join("    task_start %d -> 0; runs 64\n" % (64 + slot)
              for slot in range(1, 32)) + """
    31 * sem_claim 64 0 FOREVER -> 1
    sem_info 64 -> 0 0 -31 31; runs 95
    sem_claim 64 0 3 -> 1; runs 0
    sem_info 64 -> 24; runs 0
    mark 1 sem_release 64 -> 0; runs 64; wakes 64:0
    sem_info 64 -> 0 0 -31 31
    task_suspend 95 -> 0
    tick -> 0; runs 64
    tick -> 0; runs 64
    sem_delete 64 -> 0; runs 64; wakes """ + " ".join(
        "%d:11" % (64 + slot) for slot in range(1, 32)) + """
    task_suspend SELF -> 0; runs 65
    task_resume 95 -> 0; runs 65
""")

# Semaphores and pools.

case("semaphores-refused", 5, """
    sem_create 1 32768 2 -> 9
    sem_create 1 32767 2 -> 6
    sem_claim 64 2 0 -> 4
    sem_create 1 1 0 -> 0 64
    sem_claim 64 2 0 -> 6
    sem_claim 64 3 0 -> 6
    sem_claim 64 TOP 1 -> 6
    sem_claim 64 0 0 -> 3
    sem_ident 1 -> 0 64
    sem_ident 2 -> 8
    15 * sem_create 1 0 FIFO
    sem_create 1 0 0 -> 7
    sem_create 1 0 2 -> 6
    sem_create 1 32768 0 -> 9
    sem_delete 70 -> 0
    sem_delete 66 -> 0
    sem_create 9 0 0 -> 0 130
    sem_create 9 0 0 -> 0 134
    sem_ident 9 -> 0 130
    sem_create 1 0 0 -> 7
""")

case("pools-refused", 5, """
    pool_create 1 0 0 0 2 -> 3
    pool_create 1 0 10 0 2 -> 14
    pool_create 1 0 10 1 2 -> 6
    pool_create 1 0 10 1 0 -> 0 64
    pool_create 1 0 10 1 0 -> 15
    7 * pool_create 2 0 10 1 0 -> 15
""" + "".join("    pool_create 1 %d 10 1 FORCED_DELETE -> 0 %d\n"
              % (10 * slot, 64 + slot) for slot in range(1, 8)) + """
    pool_create 1 0 10 1 0 -> 7
    pool_create 1 0 10 1 TOP -> 6
    pool_create 1 0 10 11 0 -> 14
    pool_ident 1 -> 0 64
    pool_ident 2 -> 8
    pool_get_buff 64 -> 0 0
    pool_delete 64 -> 16
    pool_ret_buff 65 0 -> 18
    pool_ret_buff 64 0 -> 0
    pool_ret_buff 64 0 -> 18
    pool_delete 64 -> 0
    pool_get_buff 65 -> 0 10
    pool_info 65 -> 0 10 9 1 1
    pool_delete 65 -> 0                 # by force
    pool_ret_buff 65 10 -> 5
    pool_create 9 0 20 20 0 -> 0 128
    pool_get_buff 128 -> 0 0
    pool_get_buff 128 -> 17
""")

case("longest-free-buffer", 5, """
    pool_create 1 100 30 10 0 -> 0 64
    pool_get_buff 64 -> 0 100
    pool_ret_buff 64 100 -> 0
    pool_get_buff 64 -> 0 110           # a late reader still sees 100
    pool_get_buff 64 -> 0 120
    pool_get_buff 64 -> 0 100
    pool_get_buff 64 -> 17
    pool_ret_buff 64 120 -> 0
    pool_ret_buff 64 120 -> 18          # not twice
    pool_ret_buff 64 100 -> 0
    pool_get_buff 64 -> 0 120
    pool_get_buff 64 -> 0 100
    task_create 1 9 -> 0 65
    task_start 65 -> 0; runs 65
    pool_ret_buff 64 110 -> 0           # any task may return
    pool_get_buff 64 -> 0 110
    task_delete SELF -> 0; runs 64      # returns none
    pool_info 64 -> 0 3 0 10 0
""")

case("orders-of-two-pools", 5, """
    pool_create 1 100 30 10 1 -> 0 64
    pool_create 2 200 20 10 0 -> 0 65
    pool_get_buff 64 -> 0 100
    pool_get_buff 65 -> 0 200
    pool_get_buff 64 -> 0 110
    pool_ret_buff 64 110 -> 0
    pool_ret_buff 65 200 -> 0
    pool_ret_buff 64 100 -> 0
    pool_get_buff 65 -> 0 210
    pool_get_buff 64 -> 0 120
    pool_get_buff 65 -> 0 200
    pool_get_buff 64 -> 0 110
    pool_delete 64 -> 0                 # by force, two out and one free
    pool_create 3 100 30 10 0 -> 0 128
    pool_get_buff 128 -> 0 100          # a new pool, ascending again
    pool_get_buff 128 -> 0 110
    pool_get_buff 128 -> 0 120
""")

# Message queues.

case("queue-order", 1, """
    queue_create 7 3 12 FIFO -> 0 64
    queue_send 64 3 1 2 3 -> 0
    queue_send 64 1 4 -> 0
    queue_send 64 0 -> 0
    queue_info 64 -> 0 1 3 0
    queue_receive 64 0 FOREVER -> 0 3; runs 64  # the first sent comes first
    queue_send 64 12 5 6 7 -> 0
    queue_receive 64 0 1 -> 0 1
    queue_receive 64 NOWAIT 0 -> 0 0            # a message of no bytes
    queue_receive 64 NOWAIT 0 -> 0 12
    queue_receive 64 NOWAIT 0 -> 29
    task_create 1 5 -> 0 65
    task_create 2 9 -> 0 66
    task_start 65 -> 0; runs 65
    queue_receive 64 0 FOREVER -> 1; runs 64
    task_start 66 -> 0; runs 66
    queue_receive 64 0 FOREVER -> 1; runs 64
    queue_info 64 -> 0 1 0 2
    queue_send 64 2 9 -> 0; runs 65; wakes 65:0:2       # by arrival
    queue_send 64 0 -> 0; runs 66; wakes 66:0:0
    queue_send 64 4 9 -> 0; runs 66                     # held again
    queue_info 64 -> 0 1 1 0
""")

case("queue-jump", 1, """
    queue_create 7 3 12 0 -> 0 64
    queue_send 64 1 -> 0
    queue_jump 64 2 -> 0
    queue_jump 64 3 -> 0                        # in front of the jump before
    queue_jump 64 4 -> 28
    queue_send 64 4 -> 28
    queue_receive 64 NOWAIT 0 -> 0 3
    queue_send 64 5 -> 0
    queue_receive 64 NOWAIT 0 -> 0 2
    queue_receive 64 NOWAIT 0 -> 0 1
    queue_receive 64 NOWAIT 0 -> 0 5
    task_create 1 5 -> 0 65
    task_create 2 5 -> 0 66
    task_start 65 -> 0; runs 65
    queue_receive 64 0 FOREVER -> 1; runs 64
    task_start 66 -> 0; runs 66
    queue_receive 64 0 FOREVER -> 1; runs 64
    queue_jump 64 6 -> 0; runs 65; wakes 65:0:6 # to the first waiter too
    mark 1 queue_jump 64 7 -> 0; runs 65; wakes 66:0:7
    queue_info 64 -> 0 0 0 0
""")

case("queue-by-priority", 1, """
    queue_create 7 1 1 0 -> 0 64
    task_create 1 5 -> 0 65
    task_create 2 6 -> 0 66
    task_create 3 6 -> 0 67
    task_start 65 -> 0; runs 65
    queue_receive 64 0 FOREVER -> 1; runs 64
    task_start 67 -> 0; runs 67
    queue_receive 64 0 FOREVER -> 1; runs 64
    task_start 66 -> 0; runs 66
    queue_receive 64 0 FOREVER -> 1; runs 64
    task_set_priority 65 15 -> 0 5              # moves nobody in the queue
    queue_info 64 -> 0 0 0 3
    queue_send 64 1 -> 0; runs 67; wakes 67:0:1
    queue_send 64 0 -> 0; runs 67; wakes 66:0:0 # equals by arrival
    queue_send 64 1 -> 0; runs 65; wakes 65:0:1
""")

case("queue-deleted", 1, """
    queue_create 7 2 8 0 -> 0 64
    queue_create 7 2 8 FIFO -> 0 65
    queue_send 65 8 1 2 -> 0
    task_create 1 5 -> 0 65
    task_create 2 6 -> 0 66
    task_create 3 5 -> 0 67
    task_start 65 -> 0; runs 65
    queue_receive 64 0 1 -> 1; runs 64
    task_start 66 -> 0; runs 66
    queue_receive 64 0 1 -> 1; runs 64
    task_start 67 -> 0; runs 67
    queue_receive 64 0 FOREVER -> 1; runs 64
    task_suspend 65 -> 0
    task_set_priority 66 5 -> 0 6
    queue_delete 64 -> 0; runs 66; wakes 66:30 65:30 67:30
    tick -> 0; runs 66                          # no time_out is left
    queue_delete 64 -> 5
    queue_send 64 0 -> 5
    queue_jump 64 9 -> 5
    queue_receive 64 2 0 -> 5
    queue_info 64 -> 5
    task_delete SELF -> 0; runs 67
    task_resume 65 -> 0; runs 67
    queue_ident 7 -> 0 65
    queue_delete 65 -> 0; runs 67               # what it held is gone
    queue_ident 7 -> 8
    queue_create 8 1 8 0 -> 0 128
    queue_create 8 1 8 0 -> 0 129
    queue_info 129 -> 0 0 0 0
    queue_receive 129 NOWAIT 0 -> 29
""")

case("queue-refused", 5, """
    queue_create 7 0 12 2 -> 3
    queue_create 7 17 12 0 -> 3
    queue_create 7 TOP 12 0 -> 3
    queue_create 7 16 0 0 -> 3
    queue_create 7 16 65 0 -> 3
    queue_create 7 256 64 0 -> 3
    queue_create 7 16 320 0 -> 3
    queue_create 7 16 64 2 -> 6
    queue_create 7 16 64 TOP -> 6
    queue_send 64 65 -> 4
    queue_create 7 1 12 0 -> 0 64
    queue_send 64 13 -> 27
    queue_jump 64 13 -> 27
    queue_send 64 256 -> 27
    queue_send 64 TOP -> 27
    queue_send 64 12 -> 0
    queue_send 64 12 -> 28
    queue_jump 64 0 -> 28
    queue_send 64 13 -> 27                      # 27 before 28
    queue_jump 64 64 -> 27
    queue_receive 64 2 0 -> 6
    queue_receive 64 3 0 -> 6                   # 6 before 3
    queue_receive 64 0 0 -> 3                   # though one is held
    queue_receive 64 0 65536 -> 3
    queue_receive 64 0 4294967294 -> 3
    queue_info 64 -> 0 0 1 0
    queue_receive 64 NOWAIT 0 -> 0 12           # time_out not looked at
    queue_receive 64 NOWAIT 0 -> 29
    queue_receive 64 0 0 -> 3
    queue_receive 64 TOP 0 -> 6
    7 * queue_create 7 1 1 0
    queue_create 7 1 1 0 -> 7
    queue_create 7 1 1 2 -> 6
    queue_create 7 0 1 2 -> 3
    queue_ident 7 -> 0 64
    queue_ident 8 -> 8
""")

case("edge-messages", 5, """
    queue_create 7 16 64 0 -> 0 64
    queue_create 7 1 1 0 -> 0 65
    queue_send 64 64 TOP TOP TOP -> 0
    queue_send 64 65 -> 27
    15 * queue_jump 64 0 -> 0
    queue_info 64 -> 0 0 16 0
    queue_send 64 0 -> 28
    queue_jump 64 64 -> 28
    mark 1 queue_send 64 0 -> 28; runs 64
    queue_receive 64 NOWAIT 0 -> 0 0
    queue_send 64 63 -> 0
    queue_send 64 0 -> 28
    14 * queue_receive 64 0 1 -> 0 0
    queue_receive 64 0 1 -> 0 64
    queue_receive 64 0 1 -> 0 63
    queue_receive 64 0 1 -> 1; runs 0           # empty: the caller waits
    tick -> 0; runs 64; wakes 64:13
    queue_send 65 2 -> 27
    queue_send 65 1 -> 0
    queue_send 65 0 -> 28
    queue_receive 65 0 65535 -> 0 1
    queue_receive 65 0 65535 -> 1; runs 0
    mark 1 queue_send 65 2 -> 27; runs 0        # 27 though a task waits
    mark 1 queue_receive 65 0 1 -> 2; runs 0
    mark 1 queue_send 65 0 -> 0; runs 64; wakes 64:0:0
""")

case("edge-queue-identifiers", 5, """
    queue_send 0 0 -> 4                         # 0 is no queue
    queue_info 64 -> 4
    queue_create 1 1 1 0 -> 0 64
    queue_create 1 1 1 0 -> 0 65
    queue_info 72 -> 4                          # slot 8 is past the table
    queue_info 71 -> 4                          # slot 7 has issued nothing
    queue_info 1 -> 4                           # serial 0
    queue_info 4194304 -> 4                     # serial 65,536
    queue_info 128 -> 4
    queue_delete 64 -> 0
    queue_info 64 -> 5
    queue_receive 64 NOWAIT 0 -> 5
    queue_create 2 1 1 FIFO -> 0 128
    queue_info 128 -> 0 1 0 0
    queue_info 64 -> 5
    queue_info TOP -> 4
    sem_info 65 -> 4                            # a queue is no semaphore
    pool_info 65 -> 4
""")

case("queue-time-outs", 1, """
    queue_create 7 1 12 FIFO -> 0 64
    task_create 1 5 -> 0 65
    task_create 2 5 -> 0 66
    task_create 3 5 -> 0 67
    task_start 67 -> 0; runs 67
    queue_receive 64 0 2 -> 1; runs 64
    task_start 65 -> 0; runs 65
    queue_receive 64 0 2 -> 1; runs 64
    task_start 66 -> 0; runs 66
    queue_receive 64 0 3 -> 1; runs 64
    task_suspend 65 -> 0                        # its time_out runs on
    tick -> 0; runs 64
    queue_info 64 -> 0 1 0 3
    tick -> 0; runs 67; wakes 65:13 67:13       # by slot, not by place
    queue_info 64 -> 0 1 0 1
    queue_send 64 5 -> 0; runs 67; wakes 66:0:5
    tick -> 0; runs 67
    queue_send 64 5 -> 0; runs 67               # nobody waits any more
    queue_info 64 -> 0 1 1 0
    task_resume 65 -> 0; runs 67
""")

case("slip-receiver-gives-to-semaphore", 1, """
    sem_create 7 0 0 -> 0 64                    # 64 is both
    queue_create 7 1 12 0 -> 0 64
    task_create 1 5 -> 0 65
    task_create 2 5 -> 0 66
    task_create 3 6 -> 0 67
    task_start 65 -> 0; runs 65
    queue_receive 64 0 1 -> 1; runs 64
    task_start 66 -> 0; runs 66
    sem_claim 64 0 1 -> 1; runs 64
    task_start 67 -> 0; runs 67
    queue_receive 64 0 FOREVER -> 1; runs 64
    sem_info 64 -> 0 0 -1 1
    queue_info 64 -> 0 0 0 2
    tick -> 0; runs 65; wakes 65:13 66:13
    sem_info 64 -> 0 0 0 0                      # one came back, not two
    queue_info 64 -> 0 0 0 1
    task_delete 67 -> 0
    sem_info 64 -> 0 0 0 0                      # and none of a receiver's
    queue_info 64 -> 0 0 0 0
    queue_send 64 3 -> 0; runs 65               # nobody is left to take it
    queue_info 64 -> 0 0 1 0
    sem_release 64 -> 0; runs 65                # wakes no receiver
    sem_claim 64 NOWAIT 0 -> 0
    sem_delete 64 -> 0
    queue_receive 64 NOWAIT 0 -> 0 3            # its queue lives on
""")

case("slip-delivery-to-suspended-task", 1, """
    queue_create 7 1 12 0 -> 0 64
    task_create 1 5 -> 0 65
    task_start 65 -> 0; runs 65
    queue_receive 64 0 FOREVER -> 1; runs 64
    task_suspend 65 -> 0
    queue_send 64 7 -> 0; runs 64; wakes 65:0:7 # keeps its place
    queue_send 64 8 -> 0; runs 64
    queue_info 64 -> 0 0 1 0
    task_resume 65 -> 0; runs 65
    queue_receive 64 0 FOREVER -> 0 8; runs 65
    task_resume 65 -> 23; runs 65
""")

case("slip-full-queue-with-a-waiter", 1, """
    queue_create 7 1 12 0 -> 0 64
    task_create 1 5 -> 0 65
    task_start 65 -> 0; runs 65
    queue_receive 64 0 FOREVER -> 1; runs 64
    queue_send 64 13 -> 27; runs 64             # the waiter changes no test
    queue_info 64 -> 0 0 0 1
    queue_send 64 12 -> 0; runs 65; wakes 65:0:12
    queue_info 64 -> 0 0 0 0                    # a delivery is not held
    queue_send 64 12 -> 0
    queue_send 64 12 -> 28
    queue_receive 64 0 FOREVER -> 0 12; runs 65
    queue_info 64 -> 0 0 0 0
""")

case("messages-around-the-ring", 5, """
    queue_create 7 16 64 0 -> 0 64
""" + "".join("""
    queue_send 64 %d -> 0
    queue_send 64 %d -> 0
    queue_jump 64 %d -> 0
    queue_receive 64 NOWAIT 0 -> 0 %d
    queue_receive 64 NOWAIT 0 -> 0 %d
    queue_receive 64 NOWAIT 0 -> 0 %d
""" % (length, length + 1, length + 2, length + 2, length, length + 1)
              for length in range(40)) + """
    queue_info 64 -> 0 0 0 0
""")

case("thirty-two-receivers", 15, """
    queue_create 7 16 64 0 -> 0 64
    31 * task_create 1 15
""" + "".join("    task_start %d -> 0; runs 64\n" % (64 + slot)
              for slot in range(1, 32)) + """
    31 * queue_receive 64 0 FOREVER -> 1
    queue_info 64 -> 0 0 0 31; runs 95
    queue_receive 64 0 3 -> 1; runs 0
    queue_info 64 -> 24; runs 0
    mark 1 queue_jump 64 64 TOP -> 0; runs 64; wakes 64:0:64
    queue_info 64 -> 0 0 0 31
    task_suspend 95 -> 0
    tick -> 0; runs 64
    queue_delete 64 -> 0; runs 64; wakes """ + " ".join(
        "%d:30" % (64 + slot) for slot in range(1, 32)) + """
    task_suspend SELF -> 0; runs 65
    task_resume 95 -> 0; runs 65
""")

# Callers. Every call in turn, by each kind of caller that it refuses.

case("callers", 5, "".join("""
    mark 2 %s -> 25; runs 64
    mark TOP %s -> 25; runs 64
""" % (name, name) for name in CALLS) + "".join(
    "    mark 1 %s -> 2; runs 64\n" % name for name in CALLS
    if name not in ("tick", "sem_release", "queue_send", "queue_jump")) + """
    %d -> 25
    4294967295 -> 25
    mark 1 %d -> 25
    mark 1 sem_release 64 -> 4
    mark 1 queue_send 64 0 -> 4
    mark 1 queue_jump 64 0 -> 4
    task_suspend SELF -> 0; runs 0
""" % (len(CALLS), len(CALLS) + 1) + "".join(
    "    %s -> 24; runs 0\n" % name for name in CALLS if name != "tick")
    + "".join("    mark 3 %s -> 25; runs 0\n" % name for name in CALLS)
    + "    mark 1 task_resume 64 -> 2; runs 0\n    %d -> 25; runs 0\n"
    % len(CALLS))

case("unused-arguments", 5, """
    sem_create 7 0 0 TOP TOP -> 0 64
    tick TOP TOP TOP TOP TOP -> 0
    sem_release 64 9 9 9 9 -> 0
    sem_claim 64 NOWAIT TOP 9 9 -> 0
    task_ident 0 9 9 9 9 -> 0 64
    pool_info 0 9 9 9 9 -> 4
    queue_create 7 1 12 0 TOP -> 0 64
    queue_send 64 0 TOP TOP TOP -> 0
    queue_receive 64 NOWAIT TOP 9 9 -> 0 0
    queue_ident 7 9 9 9 9 -> 0 64
    queue_info 64 9 9 9 9 -> 0
    queue_delete 64 9 9 9 9 -> 0
""")


def read(path, mode):
    with open(path, mode) as source:
        return source.read()


def main():
    if len(sys.argv) != 2:
        sys.exit("usage: cases.py FOLDER")
    for name in CASES:
        path = os.path.join(sys.argv[1], name)
        if read(path + ".script", "rb") != case_script(name):
            sys.exit("%s: the stored script is not the rows" % name)
        answers = answers_of(read(path + ".listing", "r"))
        complaint = case_complaint(name, answers)
        if complaint or len(answers) != len(rows_of(CASES[name][1])):
            sys.exit("%s: %s" % (name, complaint or "lines are missing"))
    print("%d hand-made cases give what their rows expect" % len(CASES))


if __name__ == "__main__":
    main()
