"""The reference of the calls, docs/CALLS.md, made from the tables."""

from lib import tables

HEAD = """\
# Calls, statuses, scripts and listings

Made by `tools/script calls > docs/CALLS.md` from `tools/calls.tsv` and `tools/statuses.tsv`; `tools/test` holds this page against
them, and them against the rows that `crates/rows` is proved to have. What a call does to the last detail is in
`crates/scope/specs/`.

## Calls

`task`: the running task may call (mark 0); `interrupt`: an interrupt (mark 1); `either`: both. An argument named `task` is a
task's identifier, 0 for SELF, the caller. Options are bit 0, by the name in brackets. Statuses are by number, in ascending order.
"""
TESTS = """
The order of the tests is 26, 25, 24, 2, then the identifier (4, 5), then the call's own: sem_create 9, 6, 7; sem_claim 6, 3, 10;
pool_create 3, 14, 6, 7, 15; task_create 19, 7; task_start 20; task_suspend 21, 22; task_resume 21, 23; task_set_priority 19;
queue_create 3, 6, 7; queue_send and queue_jump 27, 28; queue_receive 6, 3, 29. An unknown call is 25.

## What each call does
"""
STATUSES = """
## Statuses

A refusal, any status but 0 and 1, has four zero values, wakes nobody and changes nothing. 11, 13 and 30 go to woken tasks only, and
26 to a state that no script makes. No call gives 33 BAD_RECORD: it refuses a list of grant records that names a slot outside its
table (`crates/grid`). Nor 31 NO_ROOM and 32 BAD_IMAGE: the functions for C give them, where a slice is too short and where bytes are
no image (`include/dryswennol.h`, `docs/IMAGE.md`).
"""
SCRIPT = """
## Identifiers and rooms

An identifier is serial x 64 + slot; slots count from 0, serials from 1 to 65,535, and a creation takes the lowest slot that is
free and has a serial left. At first there is one task, 64, started, name 0. There is room for %s, 64
buffers a pool, 16 messages of 64 bytes a queue; priorities are 0 to 15, 15 the most urgent.

## The script's bytes

At most 65,536 bytes, little-endian numbers of 32 bits. `tools/script make` writes them from text.

| byte | number |
|---|---|
| 0 | count of records |
| 4 | offset of the first record, 16 or more |
| 8 | priority of the first task, 0 to 15 |
| 12 | 0 |
| offset + 28 x i | record i + 1: call, caller mark, five arguments; those that the call does not name are ignored |

A script that is too long or shorter than 16 bytes, or whose header breaks this table, or whose records do not lie within it, is
answered by the one line `script refused`. Other bytes are ignored.

A record lends queue_send and queue_jump 64 bytes: its last three numbers, as they lie, are the first 12, and the rest are zeros. The
message is as many of them as the length says.

## The listing's line

One line a record, numbers with one space between, no leading zeros, a newline after each line; a listing without records is empty.

    7 0 0 0 0 0 65 65:13
    | | | | | | |  |
    | | | | | | |  wakes, as many as there are, in order: task:status, or task:0:length for a message delivered
    | | | | | | running task afterwards, 0 if none
    | | four values, 0 where the call names none; a count can be negative
    | status
    record, from 1
"""


def calls_table():
    rows = [(str(number), call.name, fields_words(call.arguments),
             call.caller, fields_words(call.values),
             " ".join(map(str, call.statuses)),
             " ".join(map(str, call.wakes)))
            for number, call in enumerate(tables.CALLS)]
    return table(("no.", "call", "arguments", "caller", "values",
                  "statuses", "wakes with"), rows)


def fields_words(fields):
    """Names as the text form has them, and which option bit 0 is."""
    return ", ".join(
        "%s (%s)" % (field.name, field.kind) if field.name == "options"
        else field.name for field in fields)


def does_table():
    return table(("call", "does"), [(call.name, call.does)
                                    for call in tables.CALLS])


def statuses_table():
    return table(("no.", "status", "given when"), [
        (str(number), status.name, status.when)
        for number, status in enumerate(tables.STATUSES)])


def table(heads, rows):
    """A table in columns, for a terminal as for a page."""
    widths = [max(len(row[place]) for row in [heads] + rows)
              for place in range(len(heads))]
    lines = [heads, ["-" * width for width in widths]] + rows
    return "\n".join("| %s |" % " | ".join(
        word.ljust(width) for word, width in zip(line, widths))
        for line in lines) + "\n"


def rooms():
    return ", ".join("%d %ss" % (room.room, kind)
                     for kind, room in tables.TABLES.items())


def page():
    return "".join((HEAD, "\n", calls_table(), TESTS, "\n", does_table(),
                    STATUSES, "\n", statuses_table(), SCRIPT % rooms()))
