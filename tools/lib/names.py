"""What a text says that its script does not: labels, and numbers in hex.

A script holds numbers alone. Given the text that it was made from, a reader
of its run sees the names of that text again. Which object a label names is
taken from the answer of the create it stands before, not from a guess.
"""

import os

from lib import messages, reader, tables
from lib.files import Trouble, read_text, shown

TEXT_HELP = ("the text that SCRIPT was made from, for its labels (without it, "
             "the file beside SCRIPT that ends in .txt, if it is that text)")


class Names:
    """Objects and numbers as words, with the labels of a text or without."""

    def __init__(self, notes, records, answers):
        self.hexes = notes.hexes
        self.labels = dict(notes.used)       # (kind, identifier) to label
        self.hex_pools = set()
        for number, (record, answer) in enumerate(zip(records, answers), 1):
            call = tables.call_of(record.call)
            if call and call.makes and answer.status == tables.OK:
                self.made(notes, number, call, answer.values[0])
        self.tell_apart()

    def made(self, notes, number, call, identifier):
        if number in notes.labels:
            self.labels[call.makes, identifier] = notes.labels[number]
        places = [place for place, field in enumerate(call.arguments)
                  if field.kind == "address"]
        if any((number, place) in self.hexes for place in places):
            self.hex_pools.add(identifier)

    def tell_apart(self):
        """A label that several objects bear in turn gets their numbers."""
        bearers = {}
        for (kind, identifier), label in self.labels.items():
            bearers.setdefault((kind, label), []).append(identifier)
        for (kind, label), identifiers in bearers.items():
            for identifier in identifiers if len(identifiers) > 1 else ():
                self.labels[kind, identifier] = "%s#%d" % (label, identifier)

    def label(self, kind, identifier):
        return self.labels.get((kind, identifier))

    def short(self, kind, identifier):
        """The label, or the identifier where there is none."""
        return self.label(kind, identifier) or str(identifier)

    def thing(self, kind, identifier):
        return "%s %s" % (kind, self.short(kind, identifier))

    def whole(self, kind, identifier):
        """Kind, label and identifier."""
        label = self.label(kind, identifier)
        return self.thing(kind, identifier) + (
            " (%d)" % identifier if label else "")

    def address(self, pool, number):
        return "0x%x" % number if pool in self.hex_pools else str(number)

    def argument(self, record_number, record, place):
        """An argument as the text has it: a label, hex, or a number."""
        field = tables.call_of(record.call).arguments[place]
        number = record.arguments[place]
        if self.label(field.kind, number):
            return self.label(field.kind, number)
        if (record_number, place) in self.hexes:
            return "0x%x" % number
        return messages.argument_word(record, place)


def notes_for(text_name, script_name, data):
    """The notes of the text given, or of the one beside the script.

    A text that makes other bytes is refused where it was asked for, and left
    alone where it only lies there.
    """
    if text_name is not None:
        read = read_notes(text_name)
        if read.script() != data:
            raise Trouble("%s: expected the text that %s is made from; this "
                          "one makes another script"
                          % (shown(text_name), shown(script_name)))
        return read.notes
    beside = os.path.splitext(script_name)[0] + ".txt"
    if script_name == "-" or not os.path.isfile(beside):
        return reader.Notes()
    try:
        read = read_notes(beside)
        return read.notes if read.script() == data else reader.Notes()
    except Trouble:
        return reader.Notes()


def read_notes(name):
    read = reader.Reader(shown(name))
    read.read(read_text(name))
    return read
