"""The text form of a script, read. docs/TOOLS.md shows the form.

One Reader reads one text from top to bottom and keeps what later lines need:
the labels, the guessed slots, the header's numbers, records and bytes.
"""

import difflib
import re
from collections import namedtuple

from lib import messages
from lib import script as scripts
from lib import tables
from lib.files import trouble_at
from lib.slots import fresh_slots
from lib.text import usual_header

Label = namedtuple("Label", "number kind line hex")

LABEL_LINE = re.compile(r"\s*([A-Za-z_]\w*)\s*=\s*(.*)\Z")
NUMBER = re.compile(r"(0[xX][0-9a-fA-F]+|[0-9]+)\Z")
NEGATIVE = re.compile(r"-[0-9]+\Z")
BYTE = re.compile(r"[0-9a-fA-F]{2}\Z")
# A line up to its comment, and its words; in quotes neither ends.
CODE = re.compile(r'(?:[^"#]|"(?:[^"\\]|\\.)*")*')
WORD = re.compile(r'(?:[^\s"]|"(?:[^"\\]|\\.)*")+')
HEADER_WORDS = ("first", "count", "offset", "fourth", "header")
PREFIXES = ("interrupt", "mark", "refused")
RESERVED = set(HEADER_WORDS + PREFIXES + ("call", "bytes", "id", "unused")
               + tuple(tables.NUMBER_OF)
               + tuple(word for words in tables.WORDS.values()
                       for word in words))


class Notes:
    """What the text says beyond its bytes, by record numbers from 1."""

    def __init__(self):
        self.labels = {}             # record of a create to its label
        self.used = {}               # (kind, number) to a label set by hand
        self.hexes = set()           # (record, place) of arguments in hex


class Reader:
    def __init__(self, name):
        self.name = name
        self.line = 0
        self.header = {}
        self.records = []
        self.before, self.after = bytearray(), bytearray()
        self.labels = {}
        self.slots = fresh_slots()
        self.notes = Notes()

    def wrong(self, what):
        return trouble_at(self.name, self.line, what)

    def read(self, text):
        for self.line, line in enumerate(text.split("\n"), 1):
            code = CODE.match(line).group()
            if line[len(code):].startswith('"'):
                raise self.wrong("expected a closing `\"`")
            self.read_line(code)

    def read_line(self, line):
        found = LABEL_LINE.match(line)
        if found:
            self.read_label(found.group(1), WORD.findall(found.group(2)))
            return
        words = WORD.findall(line)
        if not words:
            return
        if words[0] in HEADER_WORDS:
            self.read_header(words)
        elif words[0] == "bytes":
            self.read_bytes(words[1:])
        else:
            self.read_call(words)

    # -- header and other bytes

    def read_header(self, words):
        usage = {"first": "first priority NUMBER", "header": "header none"}
        form = usage.get(words[0], words[0] + " NUMBER").split()
        fixed = [word for word in form if word != "NUMBER"]
        if len(words) != len(form) or words[:len(fixed)] != fixed:
            raise self.wrong("expected `%s`, found `%s`"
                             % (" ".join(form), " ".join(words)))
        if words[0] in self.header:
            raise self.wrong("expected one `%s` line, found a second"
                             % " ".join(fixed))
        self.header[words[0]] = (self.number(words[-1], None)
                                 if form[-1] == "NUMBER" else True)

    def read_bytes(self, words):
        for word in words:
            if not BYTE.match(word):
                raise self.wrong("expected bytes of two hexadecimal digits, "
                                 "found `%s`" % word)
        place = self.after if self.records else self.before
        place += bytes(int(word, 16) for word in words)

    # -- labels and numbers

    def read_label(self, name, words):
        if name in RESERVED:
            raise self.wrong("expected a label, found `%s`, a word of the "
                             "text form" % name)
        if len(words) == 1 and self.is_number(words[0]):
            number, kind = self.number(words[0], None), None
        elif words:
            number, kind = self.read_create(name, words)
            self.notes.labels[len(self.records)] = name
        else:
            raise self.wrong("expected a number or a create after `%s =`"
                             % name)
        self.labels[name] = Label(number, kind, self.line, bool(
            words and is_hex(words[0])))

    def read_create(self, name, words):
        made, kind = self.read_call(words)
        if kind is None:
            raise self.wrong("expected a create that a task makes and that "
                             "is not refused after `%s =`" % name)
        slots = self.slots[kind]
        if slots.lost_at:
            raise self.wrong(
                "cannot guess this identifier, for line %d deletes SELF; "
                "name the task there, or write `%s = NUMBER` on its own line"
                % (slots.lost_at, name))
        if made is None:
            raise self.wrong("expected a free %s slot for `%s`; all %d are "
                             "taken" % (kind, name, len(slots.live)))
        return made, kind

    @staticmethod
    def is_number(word):
        return bool(NUMBER.match(word) or NEGATIVE.match(word))

    def number(self, word, field):
        """A word as a number: figures, a word of the field, or a label."""
        kind = field.kind if field else None
        known = tables.WORDS.get(kind, {})
        if word in known:
            return known[word]
        if NUMBER.match(word):
            number = int(word, 16 if is_hex(word) else 10)
            if number > tables.MOST_NUMBER:
                raise self.wrong("expected a number up to %d, found %s"
                                 % (tables.MOST_NUMBER, word))
            return number
        if NEGATIVE.match(word) and kind == "count":
            number = int(word)
            if number < -2 ** 31:
                raise self.wrong("expected a count of %d or more, found %s"
                                 % (-2 ** 31, word))
            return number % 2 ** 32
        return self.labelled(word, field, known)

    def labelled(self, word, field, known):
        label = self.labels.get(word)
        if label is None:
            choices = ["a number"] + sorted(known)
            if field and field.kind in tables.TABLES:
                choices.append("a label made above")
            place = " for " + field.name if field else ""
            raise self.wrong("expected %s%s, found `%s`"
                             % (" or ".join(choices), place, word))
        if label.kind and field and field.kind != label.kind:
            raise self.wrong("expected a %s for %s, found `%s`, the %s of "
                             "line %d" % (field.kind, field.name, word,
                                          label.kind, label.line))
        if label.kind is None and field and field.kind in tables.TABLES:
            self.notes.used[field.kind, label.number] = word
        return label.number

    def note_hex(self, places):
        """Keeps which of the last record's arguments are written in hex."""
        for place, word in places:
            label = self.labels.get(word)
            if is_hex(word) or (label and label.hex):
                self.notes.hexes.add((len(self.records), place))

    # -- calls

    def read_call(self, words):
        """Adds a record; gives the identifier and kind of what it makes."""
        mark, refused, words = self.prefixes(list(words))
        number, call, words = self.call_named(words)
        written = list(enumerate(words))
        if call is None:
            arguments = [self.number(word, None) for word in words]
            if len(arguments) > tables.ARGUMENTS:
                raise self.wrong("expected at most five arguments, found %d"
                                 % len(arguments))
        else:
            arguments, written = self.arguments(call, words)
        arguments += [0] * (tables.ARGUMENTS - len(arguments))
        if mark is None:
            mark = call.mark if call else tables.BY_TASK
        if self.after:
            raise self.wrong("expected no call after `bytes` that follow a "
                             "call: records stand together")
        self.records.append(scripts.Record(number, mark, tuple(arguments)))
        self.note_hex(written)
        if call is None or refused or mark != tables.BY_TASK:
            return None, None
        return self.followed(call, arguments)

    def followed(self, call, arguments):
        """Keeps the slots in step with a call taken to succeed."""
        if call.ends:
            self.slots[call.ends].delete(arguments[0], self.line)
        if call.makes:
            return self.slots[call.makes].create(), call.makes
        return None, None

    def prefixes(self, words):
        mark, refused = None, False
        while words and words[0] in PREFIXES:
            prefix = words.pop(0)
            if prefix == "refused":
                refused = True
            elif mark is not None:
                raise self.wrong("expected one caller, found a second: `%s`"
                                 % prefix)
            elif prefix == "interrupt":
                mark = tables.BY_INTERRUPT
            elif words:
                mark = self.number(words.pop(0), None)
            else:
                raise self.wrong("expected a number after `mark`")
        return mark, refused, words

    def call_named(self, words):
        """The call's number, its row or None, and the words after it."""
        if not words:
            raise self.wrong("expected a call after the prefix")
        if words[0] == "call":
            if len(words) < 2:
                raise self.wrong("expected a call number after `call`")
            # A call by number takes five plain numbers, known or not.
            return self.number(words[1], None), None, words[2:]
        if words[0] not in tables.NUMBER_OF:
            raise self.wrong("expected a call, found `%s`" % words[0]
                             + nearest(words[0]))
        number = tables.NUMBER_OF[words[0]]
        return number, tables.CALLS[number], words[1:]

    def arguments(self, call, words):
        """The call's arguments in order, then those it does not use; and
        the word of each place."""
        given, unused, written = {}, [], []
        for place, word in enumerate(words):
            name, equals, value = word.partition("=")
            if equals and name == "unused":
                unused = [self.number(part, None) for part in value.split(",")]
                continue
            if word.startswith('"'):
                name, equals, value = "", "", ""
            field = (self.field_named(call, name) if equals
                     else self.field_at(call, place, word))
            if field in given:
                raise self.wrong("expected %s once, found it twice"
                                 % field.name)
            word = value if equals else word
            if field.kind == tables.MESSAGE:
                given[field] = self.message(word)
                continue
            given[field] = self.number(word, field)
            written.append((call.arguments.index(field), word))
        numbers = self.numbers(call, given)
        if len(numbers) + len(unused) > tables.ARGUMENTS:
            raise self.wrong("expected at most %d unused arguments, found %d"
                             % (tables.ARGUMENTS - len(numbers),
                                len(unused)))
        return numbers + unused, written

    def message(self, word):
        """The bytes of a message in quotes, which a record has room for."""
        data = messages.unquoted(word)
        if data is None:
            raise self.wrong("expected a message in quotes, with \\xNN, "
                             "\\\" and \\\\ for other bytes, found `%s`" % word)
        if len(data) > tables.MESSAGE_BYTES:
            raise self.wrong(
                "expected a message of at most %d bytes, all that a script's "
                "record has room for, found %d; longer ones have zeros "
                "behind: `length=%d`" % (tables.MESSAGE_BYTES, len(data),
                                         len(data)))
        return data

    def numbers(self, call, given):
        """The arguments in order: a message says its length itself, and one
        that is left out is zeros."""
        if tables.lends(call):
            length, message = call.arguments[-2:]
            if message in given:
                given.setdefault(length, len(given[message]))
            given.setdefault(message, b"")
        numbers = []
        for field in call.arguments:
            if field not in given:
                raise self.wrong("expected %s: %s is missing"
                                 % (usage_of(call), field.name))
            numbers += (messages.numbers_of(given[field])
                        if field.kind == tables.MESSAGE else [given[field]])
        return numbers

    def field_named(self, call, name):
        for field in call.arguments:
            # `id` names a task's identifier too: newcomers try it first.
            if name == field.name or (name == "id"
                                      and field.kind in tables.TABLES):
                return field
        raise self.wrong("expected %s, found `%s=`" % (usage_of(call), name))

    def field_at(self, call, place, word):
        if word.startswith('"') and tables.lends(call):
            return call.arguments[-1]
        if place >= len(call.arguments):
            raise self.wrong("expected %s, found `%s` after it"
                             % (usage_of(call), word))
        return call.arguments[place]

    # -- the whole

    def script(self):
        before, after = bytes(self.before), bytes(self.after)
        if "header" in self.header:
            if self.records or len(self.header) > 1:
                raise self.wrong("expected only `bytes` lines beside "
                                 "`header none`")
            return before
        if "first" not in self.header:
            raise self.wrong("expected a line `first priority NUMBER`, "
                             "found the end of the text")
        layout = scripts.Layout(None, before, self.records, after)
        usual = usual_header(layout, self.header["first"])
        given = {name: number for name, number in self.header.items()
                 if name != "first"}
        return scripts.put_together(
            layout._replace(header=usual._replace(**given)))


def is_hex(word):
    return bool(NUMBER.match(word)) and word[1:2] in ("x", "X")


def usage_of(call):
    names = [field.name.upper() for field in call.arguments]
    return "`%s`" % " ".join([call.name] + names)


def nearest(word):
    """A hint for a slip of the pen."""
    close = difflib.get_close_matches(word, list(tables.NUMBER_OF), 1)
    return "; did you mean `%s`?" % close[0] if close else ""


def script_of(text, name):
    """The bytes of a script from its text; raises Trouble at a bad line."""
    reader = Reader(name)
    reader.read(text)
    return reader.script()
