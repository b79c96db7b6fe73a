"""The tables of document 01: rooms, statuses, caller marks and calls.

A new call is a row of tools/calls.tsv, a new status one of statuses.tsv, a
new kind of object a row in TABLES here. The text form, the words and the
checks of the other modules read these tables; the run module adds what the
call changes.
"""

import os
from collections import namedtuple

FOLDER = os.path.dirname(os.path.dirname(os.path.abspath(__file__)))

Table = namedtuple("Table", "kind room")
Status = namedtuple("Status", "name when")
Field = namedtuple("Field", "name kind")
Call = namedtuple("Call", "name arguments values makes ends mark caller "
                          "statuses wakes does")

MOST_NUMBER = 2 ** 32 - 1
FOREVER = MOST_NUMBER
SELF = 0
SLOTS = 64            # "An identifier is serial x 64 + slot."
MOST_SERIAL = 65535
MOST_PRIORITY = 15
FIRST_TASK = 64
ARGUMENTS = 5

BY_TASK, BY_INTERRUPT = 0, 1
OK, PENDING = 0, 1
GRANTED, SEMAPHORE_GONE, TIMED_OUT, QUEUE_GONE = 0, 11, 13, 30
OF_NO_CALL = ("BAD_CALL", "BAD_STATE")     # what an unknown call can be told

TABLES = {table.kind: table for table in (
    Table("task", 32),
    Table("semaphore", 16),
    Table("pool", 8),
    Table("queue", 8),
)}

# A field of this kind is the last of its call and takes three numbers.
MESSAGE, MESSAGE_NUMBERS, MESSAGE_BYTES = "message", 3, 12

# Words that stand for a number, by the kind of the field they may stand in.
WORDS = {
    "task": {"SELF": SELF},
    "time_out": {"FOREVER": FOREVER},
    "FIFO": {"FIFO": 1},
    "NOWAIT": {"NOWAIT": 1},
    "FORCED_DELETE": {"FORCED_DELETE": 1},
}


def rows_of(name):
    """The rows of a table of the tools, by the words of its first line."""
    with open(os.path.join(FOLDER, name), encoding="utf-8") as file:
        lines = [line.rstrip("\n").split("\t") for line in file]
    return [dict(zip(lines[0], line)) for line in lines[1:]]


def fields(words):
    """Fields from 'name' or 'name:kind' words; a bare name is its own kind."""
    pairs = (word.partition(":") for word in words.split())
    return tuple(Field(name, kind or name) for name, _, kind in pairs)


def numbers(words):
    return tuple(map(int, words.split()))


def call_row(row):
    """A call from its row: a create makes what it answers, a delete ends
    what it is given, and a plain line means the mark of who may call."""
    arguments, values = fields(row["arguments"]), fields(row["values"])
    return Call(
        row["name"], arguments, values,
        values[0].kind if row["name"].endswith("_create") else None,
        arguments[0].kind if row["name"].endswith("_delete") else None,
        BY_INTERRUPT if row["caller"] == "interrupt" else BY_TASK,
        row["caller"], numbers(row["statuses"]), numbers(row["wakes"]),
        row["does"])


STATUSES = tuple(Status(row["name"], row["meaning"])
                 for row in rows_of("statuses.tsv"))
CALLS = tuple(call_row(row) for row in rows_of("calls.tsv"))
NUMBER_OF = {call.name: number for number, call in enumerate(CALLS)}


def call_of(number):
    """The row of a call number, or None for an unknown call."""
    return CALLS[number] if number < len(CALLS) else None


def lends(call):
    """Whether the call is lent a message, and its wakes are deliveries."""
    return call.arguments[-1:] != () and call.arguments[-1].kind == MESSAGE


def numbers_used(call):
    """How many of a record's five numbers the call looks at."""
    return len(call.arguments) + (MESSAGE_NUMBERS - 1 if lends(call) else 0)


def is_refusal(status):
    return status not in (OK, PENDING)


def slot_of(identifier):
    return identifier % SLOTS


def word_of(kind, number):
    """The number as a reader would write it in a field of this kind."""
    for word, meaning in WORDS.get(kind, {}).items():
        if meaning == number:
            return word
    if kind == "count" and 2 ** 31 <= number <= MOST_NUMBER:
        return str(number - 2 ** 32)     # "initial count negative"
    return str(number)
