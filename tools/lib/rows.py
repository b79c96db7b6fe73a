"""The rows of the picture: a task, a semaphore, a pool, or a lane for calls
that no task makes. A row is a slot: its objects follow one another. Under a
lock and under a small pool stand lanes that show who holds what."""

import math

from lib import messages
from lib import run as runs
from lib import svg, tables

LEFT = 196                 # where the plot begins, right of the labels
LETTER = 6.1               # of the 10 pixel letters in bars, on the wide side
TINY_LETTER = 5.7          # of the 9 pixel figures above steps
MARK_COLUMN = 6.0          # narrower columns mark refusals by a scratch
ROOMY, SNUG = 10, 20       # up to how many rows of a kind are high
NAME_LETTERS = 22          # of a name left of the plot
SMALL_POOL = 8             # buffers that have a lane each
WAKE_LOOKS = {tables.GRANTED: "granted", tables.TIMED_OUT: "timed",
              tables.SEMAPHORE_GONE: "gone", tables.QUEUE_GONE: "gone"}


def first_fitting(choices, width, letter=LETTER):
    """The first of the choices that has room, or None."""
    return next((words for words in choices
                 if len(words) * letter + 5 <= width), None)


def widest_gap(left, right, marks, size):
    """The widest part of a bar that no mark covers."""
    places = [x for x in sorted(marks) if left - size < x < right + size]
    starts = [left] + [x + size for x in places]
    ends = [x - size for x in places] + [right]
    return max(zip(starts, ends), key=lambda gap: gap[1] - gap[0])


def joined(spans):
    """Spans of a task without the cuts that only its priority makes."""
    result = []
    for span in spans:
        last = result[-1] if result else None
        if (last and last.last + 1 == span.first
                and last.view._replace(priority=0)
                == span.view._replace(priority=0)):
            result[-1] = runs.Span(last.first, span.last, span.view)
        else:
            result.append(span)
    return result


def record_words(span):
    if span.first == span.last:
        return "after record %d" % span.first
    return "records %d to %d" % (span.first, span.last)


def height_of(heights, rows):
    """High rows where there are few, so that many still fit."""
    return heights[(rows > ROOMY) + (rows > SNUG)]


class Row:
    kind, heights = None, (0, 0, 0)
    is_lane = False

    def __init__(self, run, slot, spans):
        self.run, self.slot, self.spans = run, slot, spans

    def height(self, rows):
        return height_of(self.heights, rows)

    def known(self, band):
        """The identifiers of the slot's objects in a band."""
        return sorted({span.view.identifier for span, _, _
                       in band.cut(self.spans)})

    def label(self, band, y, height):
        """The object's label or identifier and its name, or the several."""
        known = self.known(band)
        if len(known) == 1:
            words = cut_short(self.run.labels.thing(self.kind, known[0]))
            more = "name %d" % self.run.names[self.kind, known[0]]
            if self.run.labels.label(self.kind, known[0]):
                more = "%d, %s" % (known[0], more)
        else:
            words = "%s slot %d" % (self.kind, self.slot)
            more = "%d in turn" % len(known)
        middle = y + height / 2
        if height >= 24:
            places = ((words, "name", middle - 1), (more, "tiny", middle + 11))
        else:
            places = ((words, "name", middle + 4),)
        return [svg.text(30, at, text, look) for text, look, at in places]


def cut_short(words, most=NAME_LETTERS):
    """Words for the room left of the plot."""
    return words if len(words) <= most else words[:most - 1] + "\u2026"


class TaskRow(Row):
    kind, heights = "task", (33, 22, 17)

    def parts(self, band, y, height):
        bar = (y + 13, 16) if height >= 30 else (y + 3, height - 6)
        cuts = list(band.cut(self.spans))
        several = len({span.view.identifier for span, _, _ in cuts}) > 1
        # Where marks stand that a word in a bar would run into.
        marks = [band.x(event.number)
                 for event, wake in band.marks.get(self.slot, ())
                 if wake or band.column >= MARK_COLUMN]
        parts = []
        for span, left, right in band.cut(joined(self.spans)):
            parts += self.bar(span, left, right, bar)
            gap = widest_gap(left, right, marks, 6)
            parts += self.inside(span.view, gap, bar, several)
        if height >= 30:
            parts += self.priorities(cuts, y)
        return parts + self.marks(band, bar)

    def bar(self, span, left, right, bar):
        view, (y, high) = span.view, bar
        title = "%s %s; %s; priority %d" % (
            self.run.labels.whole("task", view.identifier),
            state_words(view, self.run.labels), record_words(span),
            view.priority)
        if view.state == runs.WAITING:
            kind, identifier = view.waits_on
            look = {"class_": "wait", "fill": svg.colour_of(
                kind, tables.slot_of(identifier))}
        else:
            look = {"class_": {runs.RUNNING: "run", runs.READY: "ready",
                               runs.SUSPENDED: "stopped",
                               runs.NOT_STARTED: "unborn"}[view.state]}
        if view.state == runs.READY:
            y, high = y + high * .22, high * .56
        parts = [svg.box(left, y, right - left, high, title, **look)]
        if view.state == runs.WAITING and view.suspended:
            parts.append(svg.box(left, y, right - left, high, title,
                                 class_="veil"))
        return parts

    def inside(self, view, gap, bar, several):
        """A word in a bar that has room for it; hatched bars have none."""
        (left, right), (y, high) = gap, bar
        if high < 11 or view.suspended or view.state == runs.READY:
            return []
        choices = {runs.RUNNING: ("runs",), runs.NOT_STARTED: ("not started",)}
        if view.state == runs.WAITING:
            choices[view.state] = waiting_words(view, self.run.labels)
        words = choices[view.state]
        if several:
            who = self.run.labels.short("task", view.identifier)
            words = ("%s %s" % (who, words[0]),) + words
        words = first_fitting(words, right - left)
        if not words:
            return []
        look = "inrun" if view.state == runs.RUNNING else "in"
        return [svg.text((left + right) / 2, y + high / 2 + 3.6, words, look,
                         text_anchor="middle")]

    def priorities(self, cuts, y):
        """The priority where a task appears or changes it."""
        parts, before, free = [], None, 0
        for span, left, _ in cuts:
            now = (span.view.identifier, span.view.priority)
            words = "priority %d" % span.view.priority
            if now != before and left >= free:
                parts.append(svg.text(left + 1, y + 9.5, words, "tiny"))
                free = left + len(words) * TINY_LETTER
            before = now
        return parts

    def marks(self, band, bar):
        """Refusals to this task, and the ends of its waits."""
        middle = bar[0] + bar[1] / 2
        size = max(2.6, min(4.5, bar[1] / 3, band.column * .9))
        parts = []
        for event, wake in band.marks.get(self.slot, ()):
            if wake is None:
                parts += refusal_mark(event, band, middle, bar[1])
                continue
            title = "record %d: %s woken with %s%s" % (
                event.number, self.run.labels.whole("task", wake.task),
                tables.STATUSES[wake.status].name, handed_words(event, wake))
            parts.append(svg.dot(band.x(event.number), middle, size,
                                 WAKE_LOOKS.get(wake.status, "gone"), title))
        return parts


def task_marks(events):
    """By task slot, what is marked on its row: refusals (no wake), wakes."""
    marks = {}
    for event in events:
        if event.caller and tables.is_refusal(event.answer.status):
            slot = tables.slot_of(event.caller)
            marks.setdefault(slot, []).append((event, None))
        for wake in event.wakes:
            slot = tables.slot_of(wake.task)
            marks.setdefault(slot, []).append((event, wake))
    return marks


def handed_words(event, wake):
    """What a delivery brings, behind the words of the wake."""
    if wake.length is None:
        return ""
    return ", handed " + messages.in_words(messages.sent(event.record))


def waiting_words(view, labels):
    kind, identifier = view.waits_on
    short = labels.short(kind, identifier)
    return ("waits for " + labels.thing(kind, identifier),
            "waits for " + short, short)


def state_words(view, labels):
    words = view.state
    if view.state == runs.WAITING:
        words = waiting_words(view, labels)[0]
        words += ", suspended" if view.suspended else ""
    return words


def refusal_mark(event, band, middle, high):
    """A cross, or where columns are narrow a scratch under the bar."""
    if not tables.is_refusal(event.answer.status):
        return []
    call = tables.call_of(event.record.call)
    title = "record %d: %s refused, %s" % (
        event.number, call.name if call else "call %d" % event.record.call,
        tables.STATUSES[event.answer.status].name)
    x = band.x(event.number)
    if band.column < MARK_COLUMN:
        low = high / 2 - 2 if event.caller else -4
        return [svg.box(x, middle + low, min(2, band.column * .7),
                        4 if event.caller else 9, title, class_="scratch")]
    return [svg.cross(x, middle, min(3.6, high / 4 + .4), title)]


class StepRow(Row):
    """A number that moves in steps, with the number where there is room."""
    heights = (46, 34, 26)

    def label(self, band, y, height):
        """With a sample of the colour that waiting tasks take."""
        sample = svg.box(18, y + height / 2 - 6, 7, 12, fill=self.colour())
        return [sample] + super().label(band, y, height)

    def parts(self, band, y, height):
        cuts = list(band.cut(self.spans))
        low = min([0] + [self.value(span.view) for span, _, _ in cuts])
        high = max([1] + [self.top(span.view) for span, _, _ in cuts])
        text_room = 15 if height >= 40 else 3
        scale = Scale(low, high, y + height - 4, y + text_room)
        foot = "log %d" % low if scale.wide else str(low)
        parts = [svg.text(LEFT - 4, at, words, "tiny", text_anchor="end")
                 for words, at in ((str(high), scale.y(high) + 6),
                                   (foot, scale.y(low) + 1))]
        for span, left, right in cuts:
            parts += self.step(span, left, right, scale)
            if height >= 40:
                parts += self.figure(span, left, right, y + 10)
        return parts + self.outline(cuts, scale)

    def step(self, span, left, right, scale):
        value = self.value(span.view)
        zero, at = scale.y(0), scale.y(value)
        title = "%s: %s; %s" % (
            self.run.labels.whole(self.kind, span.view.identifier),
            self.words(span.view), record_words(span))
        strong = .85 if value < 0 or self.kind == "pool" else .35
        strong = .6 if self.kind == "queue" and value > 0 else strong
        return [svg.box(left, min(zero, at), right - left, abs(zero - at),
                        title, fill=self.colour(), fill_opacity=strong)]

    def figure(self, span, left, right, y):
        words = first_fitting((self.words(span.view),
                               str(self.value(span.view))), right - left,
                              TINY_LETTER)
        return [svg.text(left + 2, y, words, "tiny")] if words else []

    def outline(self, cuts, scale):
        """The steps as one line for each object that lives in the slot."""
        path, last = [], None
        for span, left, right in cuts:
            at = svg.figure(scale.y(self.value(span.view)))
            begin = "L" if last == span.view.identifier else "M"
            path.append("%s%s %sH%s" % (begin, svg.figure(left), at,
                                        svg.figure(right)))
            last = span.view.identifier
        return [svg.element("path", d="".join(path), fill="none",
                            stroke=self.colour(), stroke_width="1.6")]


class Scale:
    """Numbers to heights; wide ranges by logarithm, so that ones show."""

    def __init__(self, low, high, bottom, top):
        self.wide = high - low > 80
        self.low, self.high = self.bent(low), self.bent(high)
        self.bottom, self.top = bottom, top

    def bent(self, number):
        if not self.wide:
            return number
        return math.copysign(math.log2(1 + abs(number)), number)

    def y(self, number):
        part = (self.bent(number) - self.low) / (self.high - self.low)
        return self.bottom - part * (self.bottom - self.top)


class SemaphoreRow(StepRow):
    kind = "semaphore"

    def value(self, view):
        return view.count

    top = value

    def words(self, view):
        return str(view.count)

    def colour(self):
        return svg.colour_of(self.kind, self.slot)


class PoolRow(StepRow):
    kind = "pool"

    def value(self, view):
        return view.out

    def top(self, view):
        return view.buffers

    def words(self, view):
        return "%d of %d" % (view.out, view.buffers)

    def colour(self):
        return svg.POOL_COLOUR


class QueueRow(StepRow):
    """Messages held above 0, tasks waiting below: never both at once."""
    kind = "queue"

    def value(self, view):
        return view.held - view.waiting

    def top(self, view):
        return max(1, view.held)

    def words(self, view):
        if view.waiting:
            return "%d waiting" % view.waiting
        return "%d of %d held" % (view.held, view.most)

    def figure(self, span, left, right, y):
        words = first_fitting((str(self.value(span.view)),), right - left,
                              TINY_LETTER)
        return [svg.text(left + 2, y, words, "tiny")] if words else []

    def colour(self):
        return svg.colour_of(self.kind, self.slot)

    def parts(self, band, y, height):
        """With a mark for each message that went to a task at once."""
        size = max(2.2, min(3.6, band.column * .8))
        return super().parts(band, y, height) + [
            svg.dot(band.x(each.number), y + height - 6, size, "handed",
                    "record %d: %s to %s" % (
                        each.number, messages.in_words(each.message),
                        self.run.labels.whole("task", each.task)))
            for each in self.run.deliveries
            if tables.slot_of(each.queue) == self.slot
            and band.first <= each.number <= band.last]


class HeldLane:
    """Who holds one thing, as bars with the holders' names."""
    heights = (17, 14, 11)
    is_lane = True

    def __init__(self, run, name, colour, holds):
        self.run, self.name, self.colour = run, name, colour
        self.holds = holds           # spans whose view is (holder, title)

    def height(self, rows):
        return height_of(self.heights, rows)

    def label(self, _band, y, height):
        return [svg.text(LEFT - 10, y + height / 2 + 3.4,
                         cut_short(self.name), "tiny", text_anchor="end")]

    def parts(self, band, y, height):
        parts = []
        for span, left, right in band.cut(self.holds):
            holder, title = span.view
            parts.append(svg.box(left, y + 2, right - left, height - 4,
                                 "%s; %s" % (title, record_words(span)),
                                 class_="held", fill=self.colour,
                                 stroke=self.colour))
            words = first_fitting((
                self.run.labels.thing("task", holder),
                self.run.labels.short("task", holder)), right - left)
            if words and height >= 14:
                parts.append(svg.text((left + right) / 2, y + height / 2 + 3.5,
                                      words, "in", text_anchor="middle"))
        return parts


def lock_lanes(run, row, band):
    """A lane for a semaphore of initial count 1: who has its one."""
    holds = []
    for span, _, _ in band.cut(runs.holds_of(row.spans)):
        semaphore, holder = span.view
        title = "%s is held by %s" % (run.labels.whole("semaphore", semaphore),
                                      run.labels.whole("task", holder))
        holds.append(span._replace(view=(holder, title)))
    return [HeldLane(run, "held by", row.colour(), holds)] if holds else []


def buffer_lanes(run, row, band):
    """A lane for each buffer of a small pool, by its address; where several
    take turns in the slot, for each that is out, by its place."""
    small = [identifier for identifier in row.known(band)
             if run.pools[identifier].buffers <= SMALL_POOL]
    alone = len(small) == 1
    holds = {place: [] for place in range(
        run.pools[small[0]].buffers if alone else 0)}
    for held in run.held:
        if held.pool in small:
            title = "%s of %s is held by %s" % (
                run.labels.address(held.pool, held.address),
                run.labels.whole("pool", held.pool),
                run.labels.whole("task", held.holder))
            holds.setdefault(held.place, []).append(
                runs.Span(held.first, held.last, (held.holder, title)))
    return [HeldLane(run, lane_name(run, small, place), row.colour(), spans)
            for place, spans in sorted(holds.items())
            if alone or any(True for _ in band.cut(spans))]


def lane_name(run, pools, place):
    if len(pools) > 1:
        return "buffer %d" % place
    pool = run.pools[pools[0]]
    return run.labels.address(pool.identifier,
                              pool.address + place * pool.size)


class Lane:
    """Calls that no task makes: by interrupts, by nobody, by other marks."""
    is_lane = False

    def __init__(self, name, chosen, idle):
        self.name, self.chosen, self.idle = name, chosen, idle

    @classmethod
    def of(cls, band):
        """The lanes that this band needs."""
        plain = [event for event in band.events if event.caller is None
                 and event.tick is None]
        by_interrupt = [event for event in plain
                        if event.record.mark == tables.BY_INTERRUPT]
        other = [event for event in plain
                 if event.record.mark != tables.BY_INTERRUPT]
        nobody = [event for event in band.events if event.caller == 0]
        idle = list(band.cut(band.run.idle))
        lanes = [cls("interrupt", by_interrupt, []),
                 cls("other mark", other, []),
                 cls("nothing runs", nobody, idle)]
        return [lane for lane in lanes if lane.chosen or lane.idle]

    def height(self, _rows):
        return 18

    def label(self, _band, y, height):
        return [svg.text(30, y + height / 2 + 4, self.name, "name")]

    def parts(self, band, y, height):
        middle = y + height / 2
        parts = [svg.box(left, y + 4, right - left, height - 8,
                         "nothing runs; " + record_words(span), class_="idle")
                 for span, left, right in self.idle]
        size = max(2.4, min(4, band.column * .9))
        for event in self.chosen:
            x = band.x(event.number)
            call = tables.call_of(event.record.call)
            parts += refusal_mark(event, band, middle, height - 4) or [
                svg.dot(x, middle, size, "irq", "record %d: %s" % (
                    event.number, call.name if call else "unknown call"))]
        return parts
