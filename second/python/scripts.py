"""Scripts as bytes and listings as numbers, for the tools beside the program.

"A script is at most 65,536 bytes, of little-endian 32-bit numbers: count of
records, offset of the first, priority of the first task, zero; then records
of seven".
"""

import collections
import struct

MOST_BYTES, HEADER_BYTES, RECORD_BYTES = 65536, 16, 28
MOST_RECORDS = (MOST_BYTES - HEADER_BYTES) // RECORD_BYTES

CALLS = ["tick", "task_create", "task_delete", "task_ident", "task_start",
         "task_suspend", "task_resume", "task_set_priority", "sem_create",
         "sem_delete", "sem_ident", "sem_claim", "sem_release", "sem_info",
         "pool_create", "pool_delete", "pool_ident", "pool_get_buff",
         "pool_ret_buff", "pool_info", "queue_create", "queue_delete",
         "queue_ident", "queue_send", "queue_jump", "queue_receive",
         "queue_info"]

Header = collections.namedtuple("Header", "count offset priority zero")
Answer = collections.namedtuple("Answer", "status values running wakes")


def script_of(priority, records, before=b"", after=b""):
    """A script of (call, mark, args) rows, with other bytes around them."""
    offset = HEADER_BYTES + len(before)
    parts = [struct.pack("<4I", len(records), offset, priority, 0), before]
    for call, mark, args in records:
        five = (list(args) + [0, 0, 0, 0, 0])[:5]
        parts.append(struct.pack("<7I", call, mark, *five))
    parts.append(after)
    return b"".join(parts)


def header_of(script):
    """The header, or None for a script that is refused."""
    if not HEADER_BYTES <= len(script) <= MOST_BYTES:
        return None
    header = Header(*struct.unpack_from("<4I", script))
    end = header.offset + RECORD_BYTES * header.count
    if header.offset < HEADER_BYTES or end > len(script):
        return None
    if header.priority > 15 or header.zero != 0:
        return None
    return header


def records_of(script):
    """The (call, mark, args) rows of an admitted script."""
    header = header_of(script)
    for number in range(header.count):
        at = header.offset + RECORD_BYTES * number
        call, mark, *args = struct.unpack_from("<7I", script, at)
        yield call, mark, args


def answers_of(listing):
    """The answers of a listing; fails where a line has not the form."""
    answers = []
    for number, line in enumerate(listing.splitlines(), 1):
        fields = line.split(" ")
        figures = [int(field) for field in fields[:7]]
        wakes = [tuple(map(int, field.split(":"))) for field in fields[7:]]
        again = [str(n) for n in figures]
        again += [":".join(map(str, wake)) for wake in wakes]
        # `task:status`, or `task:0:length` of a delivery
        forms = all(len(wake) == 2 or len(wake) == 3 and wake[1] == 0
                    for wake in wakes)
        if figures[0] != number or " ".join(again) != line or not forms:
            raise ValueError("line %d is not of the form: %s" % (number, line))
        answers.append(Answer(figures[1], figures[2:6], figures[6], wakes))
    if listing and not listing.endswith("\n"):
        raise ValueError("the last line has no newline")
    return answers
