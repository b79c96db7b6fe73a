"""Listings as lines, checked against the script they belong to.

"The whole listing (record, status, four values, running, wakes) ... Records
count from 1; one space between fields, a newline after each line, no leading
zeros; sem_info's count is signed; wakes are `task:status` in order", and "a
delivery reads `task:0:length`".
"""

import re
from collections import namedtuple

from lib import script as scripts
from lib import tables
from lib.files import Trouble, text_hint, trouble_at

Answer = namedtuple("Answer", "status values running wakes")
Wake = namedtuple("Wake", "task status length")      # None: no delivery

REFUSED = "script refused"
FORM = ("record, status, four values, running, then wakes as task:status, or "
        "task:0:length for a delivery")
NUMBER = re.compile(r"(0|-?[1-9][0-9]{0,9})\Z")
WAKE = re.compile(r"([1-9][0-9]{0,9}):(0|[1-9][0-9]{0,9})"
                  r"(?::(0|[1-9][0-9]?))?\Z")
FIGURES = 7


def fitted(data, name, script, script_name):
    """The records of the script and the answers of its listing.

    A refused script has the line `script refused` and gives None.
    """
    why = scripts.refusal(script)
    if why is not None:
        if data != REFUSED.encode() + b"\n":
            raise trouble_at(name, 1, "expected the one line `%s`, for %s is "
                             "refused: %s%s" % (REFUSED, script_name, why,
                                                text_hint(script,
                                                          script_name)))
        return None
    lines = lines_of(data, name)
    if lines == [REFUSED]:
        raise trouble_at(name, 1, "found `%s`, but %s is a good script of %s"
                         % (REFUSED, script_name, header_words(script)))
    records = scripts.taken_apart(script).records
    answers = [answer_of(line, number, record, name) for number, (line, record)
               in enumerate(zip(lines, records), 1)]
    if len(lines) != len(records):
        raise Trouble(miscounted(name, lines, script_name, records))
    return records, answers


def header_words(script):
    return "%d records" % scripts.taken_apart(script).header.count


def miscounted(name, lines, script_name, records):
    what = "%s:%d: " % (name, min(len(lines), len(records)) + 1)
    if len(lines) < len(records):
        what += "expected a line for record %d" % (len(lines) + 1)
    else:
        what += "expected the end of the listing"
    return what + (": %s has %d records, the listing %d lines"
                   % (script_name, len(records), len(lines)))


def lines_of(data, name):
    """The lines of a listing, each with its newline taken off."""
    try:
        text = data.decode("ascii")
    except UnicodeDecodeError as error:
        line = data.count(b"\n", 0, error.start) + 1
        raise trouble_at(name, line, "expected figures, found the byte 0x%02x"
                         % data[error.start])
    lines = text.split("\n")
    if lines.pop() != "":
        raise trouble_at(name, len(lines) + 1,
                         "expected a newline at the end of the last line")
    return lines


def answer_of(line, number, record, name):
    parts = line.split(" ")
    if len(parts) < FIGURES:
        raise trouble_at(name, number, "expected %s; found `%s`"
                         % (FORM, line))
    figures = [figure_of(part, number, name) for part in parts[:FIGURES]]
    wakes = [wake_of(part, number, name) for part in parts[FIGURES:]]
    answer = Answer(figures[1], tuple(figures[2:6]), figures[6], wakes)
    if figures[0] != number:
        raise trouble_at(name, number, "expected record %d, found record %d"
                         % (number, figures[0]))
    wrong = fault_of(answer, record)
    if wrong:
        raise trouble_at(name, number, wrong)
    return answer


def figure_of(part, number, name):
    if not NUMBER.match(part):
        raise trouble_at(name, number, "expected a number without leading "
                         "zeros, found `%s`" % part)
    return int(part)


def wake_of(part, number, name):
    found = WAKE.match(part)
    if not found:
        raise trouble_at(name, number, "expected a wake as task:status or "
                         "task:0:length, found `%s`" % part)
    length = found.group(3)
    return Wake(int(found.group(1)), int(found.group(2)),
                None if length is None else int(length))


def fault_of(answer, record):
    """What no answer to this record can hold, or None."""
    for status in [answer.status] + [wake.status for wake in answer.wakes]:
        if not 0 <= status < len(tables.STATUSES):
            return "expected a status of the table, found %d" % status
    if tables.is_refusal(answer.status):
        if any(answer.values) or answer.wakes:
            return ("expected zero values and no wakes with a refusal (%s)"
                    % tables.STATUSES[answer.status].name)
    if answer.running < 0:
        return "expected a running task or 0, found %d" % answer.running
    return row_fault(answer, record)


def row_fault(answer, record):
    """What the row of the record's call does not have, or None."""
    call = tables.call_of(record.call)
    if call is None:
        if tables.STATUSES[answer.status].name not in tables.OF_NO_CALL:
            return "expected %s for call %d, which no row has, found %s" % (
                tables.OF_NO_CALL[0], record.call, status_words(answer.status))
        return None
    if answer.status not in call.statuses:
        return "expected a status that %s can give (%s), found %s" % (
            call.name, " ".join(map(str, call.statuses)),
            status_words(answer.status))
    for wake in answer.wakes:
        if wake.status not in call.wakes:
            return "expected no task woken by %s with %s" % (
                call.name, status_words(wake.status))
        if (wake.length is None) == tables.lends(call):
            return "expected %s, found `%s`" % (
                "task:0:length, for %s delivers" % call.name
                if tables.lends(call) else "task:status, for %s delivers "
                "nothing" % call.name, wake_words(wake))
    return values_fault(answer, call)


def wake_words(wake):
    return ":".join(str(part) for part in wake if part is not None)


def status_words(status):
    return "%d, %s" % (status, tables.STATUSES[status].name)


def values_fault(answer, call):
    for place, value in enumerate(answer.values):
        kind = (call.values[place].kind if place < len(call.values)
                else None)
        if value < 0 and kind != "count":
            return "expected value %d not negative, found %d" % (
                place + 1, value)
        if value != 0 and kind is None:
            return "expected 0 for value %d, which %s does not name, found " \
                "%d" % (place + 1, call.name, value)
    return None
