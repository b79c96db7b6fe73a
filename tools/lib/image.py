"""The state image, edition 1, read by its fields (tools/fields.tsv).

Only the kernel decides whether a state writes such bytes; here length and
header are looked at, and the fields of any other bytes are told as they are.
"""

from collections import namedtuple

from lib import messages, tables

EDITION = 1
CELL = 1 + messages.LENT             # a message's length and its bytes

Field = namedtuple("Field", "number place bytes many name meaning")

# One number of an image: what it belongs to, its field, and where it lies.
Value = namedtuple("Value", "kind slot number name value")

FIELDS = {}                          # the fields of a record, by its kind
for row in tables.rows_of("fields.tsv"):
    FIELDS.setdefault(row["kind"], []).append(Field(
        *(int(row[word]) for word in ("number", "place", "bytes", "many")),
        row["name"], row["meaning"]))


def records_of(kind):
    """How many records there are: of an object one for each slot."""
    return tables.TABLES[kind].room if kind in tables.TABLES else 1


def bytes_of(kind):
    last = FIELDS[kind][-1]
    return last.place + last.bytes * last.many


def begins():
    """Where the records of each kind begin, and where they end."""
    places, place = {}, 0
    for kind in FIELDS:
        places[kind] = place
        place += records_of(kind) * bytes_of(kind)
    return places, place


BEGINS, LENGTH = begins()


def header():
    """The numbers of the header, of which an edition has no others."""
    return [EDITION, LENGTH] + [
        number for kind in tables.TABLES
        for number in (records_of(kind), BEGINS[kind])]


def refusal(data):
    """Why bytes are no image of this edition, by length or header."""
    if data.startswith(b"script refused\n"):
        return "its script was refused, so there is no state"
    if len(data) < LENGTH:
        return "%d bytes, an image of edition %d has %d" % (
            len(data), EDITION, LENGTH)
    for field, expected in zip(FIELDS["header"], header()):
        found = number_at(data, "header", 0, field, 0)
        if found != expected:
            return "number %d of its header (%s) is %d, not %d" % (
                field.number, field.name, found, expected)
    return None


def number_at(data, kind, slot, field, place):
    begin = (BEGINS[kind] + slot * bytes_of(kind) + field.place
             + place * field.bytes)
    return int.from_bytes(data[begin:begin + field.bytes], "little")


def name_of(field, place):
    """A field's name, with the number of the one meant among many."""
    if field.name == "cells":
        cell, byte = divmod(place, CELL)
        return "message %d %s" % (cell, "byte %d" % (byte - 1) if byte
                                  else "length")
    return field.name if field.many == 1 else "%s %d" % (field.name, place)


def values(data):
    """Every field of an image, in the order of its bytes."""
    for kind, fields in FIELDS.items():
        for slot in range(records_of(kind)):
            for field in fields:
                for place in range(field.many):
                    yield Value(kind, slot, field.number + place,
                                name_of(field, place),
                                number_at(data, kind, slot, field, place))


def record(data, kind, slot):
    """The fields of a record by name; those of many are a list."""
    found = {}
    for field in FIELDS[kind]:
        numbers = [number_at(data, kind, slot, field, place)
                   for place in range(field.many)]
        found[field.name] = numbers if field.many > 1 else numbers[0]
    return found
