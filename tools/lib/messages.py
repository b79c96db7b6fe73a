"""Messages: those that records lend, as bytes and as words, and those that a
run shows.

"A send or jump lends its message ... In a script the three arguments left are
the first 12 bytes, the rest zeros". A listing tells a message's length; its
bytes follow from the records.
"""

import re
import struct

from lib import tables

LENT = 64                            # bytes that a record lends, zeros and all
ESCAPE = re.compile(rb'\\(x[0-9a-fA-F]{2}|[\\"])')
QUOTED = re.compile(r'"((?:[^"\\]|\\x[0-9a-fA-F]{2}|\\[\\"])*)"\Z')


def lent(record):
    """The first twelve bytes, all that a record has room for."""
    return struct.pack("<3I", *record.arguments[-tables.MESSAGE_NUMBERS:])


def sent(record):
    """What a send or jump of the record sends."""
    return lent(record).ljust(LENT, b"\0")[:record.arguments[1]]


def quoted(data):
    """Bytes in quotes, those that are no letters as \\x00."""
    return '"%s"' % "".join(
        "\\" + chr(byte) if byte in b'"\\' else chr(byte)
        if 32 <= byte < 127 else "\\x%02x" % byte for byte in data)


def unquoted(word):
    """The bytes of a word in quotes, or None where it is none."""
    found = QUOTED.match(word)
    if not found:
        return None
    return ESCAPE.sub(lambda part: bytes.fromhex(part.group(1)[1:].decode())
                      if part.group(1)[:1] == b"x" else part.group(1),
                      found.group(1).encode("utf-8"))


def numbers_of(data):
    """At most twelve bytes as the three numbers of a record."""
    return list(struct.unpack("<3I", data.ljust(tables.MESSAGE_BYTES, b"\0")))


def in_words(data):
    """A message for a reader: its zeros at the end are counted."""
    begin = data.rstrip(b"\0")
    zeros = len(data) - len(begin)
    words = [quoted(begin)] if begin else []
    words += ["%d zero%s" % (zeros, "" if zeros == 1 else "s")
              ] if zeros else []
    return " and ".join(words) or "no bytes"


def places_of(record):
    """The places of the arguments that need words: a message in quotes says
    its length itself, and one of zeros alone needs none."""
    call = tables.call_of(record.call)
    places = list(range(len(call.arguments)))
    if tables.lends(call):
        begin = lent(record).rstrip(b"\0")
        if not begin:
            places.pop()
        elif len(begin) == record.arguments[places[-2]]:
            places.pop(-2)
    return places


def argument_word(record, place):
    """An argument of a record as a reader would write it."""
    kind = tables.call_of(record.call).arguments[place].kind
    if kind == tables.MESSAGE:
        return quoted(lent(record).rstrip(b"\0"))
    return tables.word_of(kind, record.arguments[place])


def shown(records, answers):
    """The messages that a run shows, by the number of their record: a
    delivery's is the one sent, a receive's the first of those held."""
    held, found = {}, {}
    for number, (record, answer) in enumerate(zip(records, answers), 1):
        call = tables.call_of(record.call)
        if call is None or answer.status != tables.OK:
            continue
        queue = held.setdefault(record.arguments[0], [])
        if tables.lends(call) and answer.wakes:
            found[number] = sent(record)
        elif call.name == "queue_send":
            queue.append(sent(record))
        elif call.name == "queue_jump":
            queue.insert(0, sent(record))
        elif call.name == "queue_receive" and queue:
            found[number] = queue.pop(0)
        elif call.name == "queue_delete":
            queue.clear()
    return found
