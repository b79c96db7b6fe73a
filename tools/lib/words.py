"""A script with its listing, told in words: a line a record."""

from collections import namedtuple

from lib import messages, tables
from lib.text import bare_words

# A piece of a line and how it is to look; plain outputs drop the look.
Piece = namedtuple("Piece", "text look")

LOOKS = {"plain": "", "dim": "2", "bold": "1", "good": "32", "wait": "33",
         "bad": "31;1", "call": "36", "now": "1;34"}
WIDEST_CALL = 64


def painted(pieces, colour):
    if not colour:
        return "".join(piece.text for piece in pieces)
    return "".join(
        "\033[%sm%s\033[0m" % (LOOKS[piece.look], piece.text)
        if LOOKS[piece.look] else piece.text for piece in pieces)


def caller_words(mark, running, names):
    """Who makes the call: the mark says, and for mark 0 who ran before."""
    if mark == tables.BY_INTERRUPT:
        return "interrupt"
    if mark != tables.BY_TASK:
        return "mark %d" % mark
    return names.thing("task", running) if running else "nobody"


def value_words(record, values, names, message):
    """The values by their meaning, and the message that they come with."""
    call = tables.call_of(record.call)
    words = [one_value(field, value, record, names)
             for field, value in zip(call.values if call else (), values)]
    if words and message is not None:
        words.append(messages.in_words(message))
    return ", ".join(words)


def one_value(field, value, record, names):
    if field.kind in tables.TABLES:
        return names.whole(field.kind, value)
    if field.kind == "address":
        return "address " + names.address(record.arguments[0], value)
    return "%s %s" % (field.name.replace("_", " "),
                      tables.word_of(field.kind, value))


def status_pieces(record, answer, caller, names, message):
    status = tables.STATUSES[answer.status]
    if tables.is_refusal(answer.status):
        return [Piece(status.name, "bad"),
                Piece(" (%s)" % status.when, "dim")]
    if answer.status == tables.PENDING:
        return [Piece(status.name, "wait"), Piece(", %s waits" % caller,
                                                  "plain")]
    values = value_words(record, answer.values, names, message)
    return [Piece(status.name, "good"),
            Piece(", " + values if values else "", "plain")]


def wake_pieces(answer, names, message):
    pieces = []
    for wake in answer.wakes:
        look = "good" if wake.status == tables.GRANTED else "wait"
        who = names.thing("task", wake.task)
        pieces += [Piece("; wakes %s with " % who, "plain"),
                   Piece(tables.STATUSES[wake.status].name, look)]
        if wake.length is not None:
            pieces.append(Piece(", handed " + messages.in_words(message),
                                "plain"))
    return pieces


def running_piece(answer, before, names):
    who = "nothing runs"
    if answer.running:
        who = names.thing("task", answer.running) + " runs"
    if answer.running == before:
        return Piece("; %s on" % who if answer.running else "; " + who, "dim")
    return Piece("; now %s" % who, "now")


def call_words(number, record, names):
    return bare_words(record, lambda place: names.argument(number, record,
                                                           place))


def story(records, answers, names):
    """The pieces of each line, calls set in a column of their own."""
    calls = [call_words(number, record, names)
             for number, record in enumerate(records, 1)]
    callers, running = [], tables.FIRST_TASK
    for record, answer in zip(records, answers):
        callers.append((caller_words(record.mark, running, names), running))
        running = answer.running
    shown = messages.shown(records, answers)
    wide = max([10] + [len(who) for who, _ in callers])
    wider = min(WIDEST_CALL, max([4] + [len(call) for call in calls]))
    yield [Piece("record  %-*s  %-*s  answer" % (wide, "caller", wider,
                                                 "call"), "dim")]
    for number, record in enumerate(records):
        who, before = callers[number]
        answer, message = answers[number], shown.get(number + 1)
        yield [Piece("%6d  " % (number + 1), "dim"),
               Piece("%-*s  " % (wide, who), "plain"),
               Piece("%-*s  " % (wider, calls[number]), "call"),
               *status_pieces(record, answer, who, names, message),
               *wake_pieces(answer, names, message),
               running_piece(answer, before, names)]
