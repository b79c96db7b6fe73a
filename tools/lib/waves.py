"""The run as a VCD file for a wave viewer: the signals of the picture.

Time is counted in records: the values at time n hold after record n. Viewers
show the last part of a signal's path, so each name says whose it is:
task65_state, or with a label task66_parity_state. A slot that holds several
objects in turn has signals of its own, task_slot1_state, and one that says
which object it is. A save file for GTKWave sets them in order.
"""

import math
import re

from lib import tables
from lib.rows import SMALL_POOL

NONE = "-"
# How GTKWave shows a signal: as a bit, a word or a signed decimal number.
BIT, WORD, NUMBER = 0x28, 0x20, 0x420
HEADING = 0x200
PIXELS_A_FRAME, PIXELS = 200, 820


class Waves:
    """Variables in scopes, and their changes by time."""

    def __init__(self):
        self.lines, self.changes, self.count = [], {}, 0
        self.path, self.shown = [], []       # for the save file

    def code(self):
        """The next short name, of printable characters as VCD asks."""
        number, letters = self.count, ""
        self.count += 1
        while True:
            letters += chr(33 + number % 94)
            number //= 94
            if number == 0:
                return letters

    def scope(self, name):
        self.path.append(name)
        self.lines.append("$scope module %s $end" % name)
        self.shown.append((HEADING, name))

    def leave(self):
        self.path.pop()
        self.lines.append("$upscope $end")

    def variable(self, look, name):
        kind, width = {BIT: ("wire", 1), WORD: ("string", 1),
                       NUMBER: ("integer", 32)}[look]
        code = self.code()
        self.lines.append("$var %s %d %s %s $end" % (kind, width, code, name))
        self.shown.append((look, ".".join(self.path + [name])))
        return code

    def set(self, time, code, value):
        """One value a variable and time: the last said stands."""
        self.changes.setdefault(time, {})[code] = value

    def text(self):
        parts = ["$comment a run, told in records; 1 ns is a record $end",
                 "$timescale 1 ns $end"] + self.lines
        parts.append("$enddefinitions $end")
        for time in sorted(self.changes):
            parts.append("#%d" % time)
            if time == 0:
                parts.append("$dumpvars")
            parts += [value + code for code, value
                      in self.changes[time].items()]
            if time == 0:
                parts.append("$end")
        return "\n".join(parts) + "\n"

    def save_file(self, dump, last):
        """The signals in order, each as it is to be read, zoomed to fit."""
        frame = max(1.0, (last + 1) * PIXELS_A_FRAME / PIXELS)
        lines = ['[dumpfile] "%s"' % dump, "[timestart] 0",
                 "[size] 1400 900", "[pos] -1 -1",
                 "*%.6f 0%s" % (-math.log2(frame), " -1" * 26),
                 "[sst_width] 180", "[signals_width] 330", "[sst_expanded] 0"]
        for look, name in self.shown:
            lines.append("@%x" % look)
            lines.append("-" + name if look == HEADING else name)
        return "\n".join(lines) + "\n"


def number(value):
    """A number as binary figures; none is z, so that it draws as no wave."""
    if value is None:
        return "bz "
    return "b%s " % format(value % 2 ** 32, "b")


def word(value):
    return "s%s " % (value or NONE).replace(" ", "_")


def one_bit(value):
    return "1" if value else "0"


def state_word(view, _run):
    suspended = view.waits_on and view.suspended
    return view.state + (" suspended" if suspended else "")


def awaited(view, run):
    return run.labels.short(*view.waits_on) if view.waits_on else None


def holder(view, run):
    return run.labels.short("task", view.holder) if view.holder else None


# For each kind: the signals of a slot, how each is shown, what it shows.
SIGNALS = {
    "task": (("state", WORD, state_word),
             ("priority", NUMBER, lambda view, run: view.priority),
             ("waits_on", WORD, awaited)),
    "semaphore": (("count", NUMBER, lambda view, run: view.count),
                  ("holder", WORD, holder)),
    "pool": (("out", NUMBER, lambda view, run: view.out),
             ("buffers", NUMBER, lambda view, run: view.buffers)),
    "queue": (("held", NUMBER, lambda view, run: view.held),
              ("waiting", NUMBER, lambda view, run: view.waiting)),
}


def value_of(look, shows, view, run):
    shown = None if view is None else shows(view, run)
    return number(shown) if look == NUMBER else word(shown)


def signal_name(run, kind, identifier):
    """task65, or with its label task66_parity."""
    label = run.labels.label(kind, identifier)
    words = "%s%d" % (kind, identifier) + ("_" + label if label else "")
    return re.sub(r"\W", "_", words)


def slot_name(run, kind, slot):
    known = identifiers(run, kind, slot)
    if len(known) == 1:
        return signal_name(run, kind, known[0])
    return "%s_slot%d" % (kind, slot)


def identifiers(run, kind, slot):
    return sorted({span.view.identifier for span in run.spans[kind][slot]})


def slot_signals(run, kind, slot):
    """The signals of a slot: one more where its objects take turns."""
    if len(identifiers(run, kind, slot)) == 1:
        return SIGNALS[kind]
    return (("is", WORD, lambda view, run: run.labels.short(
        kind, view.identifier)),) + SIGNALS[kind]


def slot_waves(waves, run, kind, slot):
    name, signals = slot_name(run, kind, slot), slot_signals(run, kind, slot)
    codes = [waves.variable(look, "%s_%s" % (name, field))
             for field, look, _ in signals]
    moments = {0: None}              # what holds from a time on
    for span in run.spans[kind][slot]:
        moments[span.first] = span.view
        if span.last < run.last:
            moments[span.last + 1] = None
    for code, (_, look, shows) in zip(codes, signals):
        before = None
        for time, view in sorted(moments.items(), key=lambda item: item[0]):
            value = value_of(look, shows, view, run)
            if value != before:
                waves.set(time, code, value)
            before = value
    if kind == "pool":
        buffer_waves(waves, run, slot, name)


def buffer_waves(waves, run, slot, name):
    """Who has each buffer of a small pool."""
    small = {span.view.identifier for span in run.spans["pool"][slot]
             if span.view.buffers <= SMALL_POOL}
    places = {}
    for held in sorted(run.held):
        if held.pool in small:
            places.setdefault(held.place, []).append(held)
    for place in sorted(places):
        code = waves.variable(WORD, "%s_buffer%d_holder" % (name, place))
        waves.set(0, code, word(None))
        for held in places[place]:
            waves.set(held.first, code,
                      word(run.labels.short("task", held.holder)))
            if held.last < run.last:
                waves.set(held.last + 1, code, word(None))


def caller_word(event, run):
    if event.record.mark == tables.BY_INTERRUPT:
        return "interrupt"
    if event.record.mark != tables.BY_TASK:
        return "mark %d" % event.record.mark
    return run.labels.short("task", event.caller) if event.caller else None


def wakes_word(event, run):
    return ",".join("%s:%s%s" % (
        run.labels.short("task", wake.task),
        tables.STATUSES[wake.status].name,
        "" if wake.length is None else ":%d" % wake.length)
        for wake in event.wakes)


def call_word(event, _run):
    row = tables.call_of(event.record.call)
    return row.name if row else "unknown"


def running_word(event, run):
    return (run.labels.short("task", event.answer.running)
            if event.answer.running else None)


# What each record shows by itself.
RECORD_SIGNALS = (
    ("tick", BIT, lambda event, run: event.tick is not None),
    ("refused", BIT, lambda event, run: tables.is_refusal(
        event.answer.status)),
    ("caller", WORD, caller_word), ("call", WORD, call_word),
    ("status", WORD, lambda event, run: tables.STATUSES[
        event.answer.status].name),
    ("wakes", WORD, wakes_word), ("running", WORD, running_word))


def call_waves(waves, run):
    """Ticks, calls, callers, refusals and wakes, for each record."""
    for name, look, shows in RECORD_SIGNALS:
        code = waves.variable(look, name)
        form = one_bit if look == BIT else word
        waves.set(0, code, form(run.labels.short("task", tables.FIRST_TASK)
                                if name == "running" else None))
        for event in run.events:
            waves.set(event.number, code, form(shows(event, run)))
        if look == BIT:
            waves.set(run.last + 1, code, one_bit(False))


def waves_of(run):
    waves = Waves()
    waves.scope("run")
    call_waves(waves, run)
    for kind in tables.TABLES:
        if run.spans[kind]:
            waves.scope(kind + "s")
            for slot in sorted(run.spans[kind]):
                slot_waves(waves, run, kind, slot)
            waves.leave()
    waves.leave()
    return waves
