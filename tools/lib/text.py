"""The text form of a script, written: a line a call, by its paper name."""

from lib import messages
from lib import script as scripts
from lib import tables

BYTES_A_LINE = 28


def call_words(record):
    """A record as a line of text: prefix, call, arguments by name."""
    call = tables.call_of(record.call)
    words = mark_words(call, record.mark) + [bare_words(record)]
    if call:
        unused = cut_zeros(record.arguments[tables.numbers_used(call):])
        words += ["unused=" + ",".join(map(str, unused))] if unused else []
    return " ".join(words)


def bare_words(record, word=None):
    """The call and the arguments it looks at, by name; `word` gives the word
    of a place where it is not the plain one."""
    call = tables.call_of(record.call)
    if call is None:
        numbers = cut_zeros(record.arguments)
        return " ".join(["call", str(record.call)] + list(map(str, numbers)))
    word = word or (lambda place: messages.argument_word(record, place))
    return " ".join([call.name] + [
        "%s=%s" % (call.arguments[place].name, word(place))
        for place in messages.places_of(record)])


def mark_words(call, mark):
    usual = call.mark if call else tables.BY_TASK
    if mark == usual:
        return []
    if mark == tables.BY_INTERRUPT:
        return ["interrupt"]
    return ["mark", str(mark)]


def cut_zeros(numbers):
    """The numbers without the zeros at their end, which need no words."""
    numbers = list(numbers)
    while numbers and numbers[-1] == 0:
        numbers.pop()
    return numbers


def bytes_lines(data):
    return ["bytes " + data[at:at + BYTES_A_LINE].hex(" ")
            for at in range(0, len(data), BYTES_A_LINE)]


def header_lines(layout):
    """Only what a plain script would not have is said of the header."""
    header = layout.header
    lines = ["first priority %d" % header.priority]
    usual = usual_header(layout, header.priority)
    for name in ("count", "offset", "fourth"):
        number = getattr(header, name)
        if number != getattr(usual, name):
            lines.append("%s %d" % (name, number))
    return lines


def usual_header(layout, priority):
    """The header that fits the records; without any, all bytes go before."""
    before = len(layout.before)
    if not layout.records:
        before += len(layout.after)
    return scripts.Header(len(layout.records), scripts.HEADER_BYTES + before,
                          priority, 0)


def text_of(script):
    """Any bytes as text from which the same bytes can be made."""
    layout = scripts.taken_apart(script)
    why = scripts.refusal(script)
    lines = ["# the kernel refuses this script: " + why] if why else []
    if layout.header is None:
        lines += ["header none"] + bytes_lines(layout.after)
    else:
        lines += header_lines(layout) + bytes_lines(layout.before)
        lines += [call_words(record) for record in layout.records]
        lines += bytes_lines(layout.after)
    return "\n".join(lines) + "\n"
