"""The picture of a run: rows for tasks, semaphores and pools over records.

A record's call happens on a line; the column right of the line shows what
holds after it. A long run is cut into bands that lie one below the other, so
that labels stay legible and the page scrolls down, not sideways.
"""

import math

from lib import messages, svg, tables
from lib.rows import (LEFT, Lane, PoolRow, QueueRow, SemaphoreRow, TaskRow,
                      buffer_lanes, lock_lanes, task_marks)

PLOT, RIGHT, EDGE, TOP = 1120, 24, 18, 66
NARROWEST, WIDEST = 2.0, 92.0
LABEL_COLUMN = 11.5        # narrower columns carry no call labels
SLANT_COLUMN = 27.0        # wider columns carry them on a slant
SLANT = 50
TALL = 700                 # more than a screen shows at once
LETTER = 5.9               # of the 10 pixel letters, on the wide side
STEPS = [step * 10 ** power for power in range(5) for step in (1, 2, 5)]


class Band:
    """Records first to last, side by side, and the place of each."""

    def __init__(self, run, first, last, column):
        self.run, self.first, self.last = run, first, last
        self.column = column
        self.events = run.events[first - 1:last]
        self.marks = task_marks(self.events)
        self.right = self.x(last + 1)

    def x(self, number):
        """Where record `number` happens; one column stands before all."""
        # Rounded once, so that neighbours meet without a seam.
        return round(LEFT + self.column * (number - self.first + 1), 1)

    def cut(self, spans):
        """The spans seen in this band with their left and right sides."""
        for span in spans:
            if span.last >= self.first - 1 and span.first <= self.last:
                yield (span, max(LEFT, self.x(span.first)),
                       min(self.right, self.x(span.last + 1)))

    def slots(self, kind):
        """The slots of a table that hold an object in this band."""
        return [slot for slot, spans in sorted(self.run.spans[kind].items())
                if any(True for _ in self.cut(spans))]


def bands_of(run, first, last):
    """As few bands as keep a column visible, of about equal length."""
    columns = last - first + 2
    number = max(1, math.ceil(columns * NARROWEST / PLOT))
    each = max(1, math.ceil((last - first + 1) / number))
    column = min(WIDEST, PLOT / (each + 1))
    begin = first
    while True:
        end = min(last, begin + each - 1)
        yield Band(run, begin, end, column)
        begin = end + 1
        if begin > last:
            return


def call_label(run, event, whole):
    """The call with its first argument, or with the whole of them."""
    record = event.record
    call = tables.call_of(record.call)
    if call is None:
        words = "call %d" % record.call
    else:
        places = messages.places_of(record)
        words = " ".join([call.name] + [
            run.labels.argument(event.number, record, place)
            for place in (places if whole else places[:1])])
    if record.mark == tables.BY_INTERRUPT and event.tick is None:
        words = "interrupt: " + words
    return words


def refused_label(event):
    if not tables.is_refusal(event.answer.status):
        return ""
    return "\u00d7 " + tables.STATUSES[event.answer.status].name


def label_lines(run, event, slant):
    """The lines of a call's label: narrow columns have room for one."""
    lines = [call_label(run, event, slant == SLANT), refused_label(event)]
    return lines if slant == SLANT else [" ".join(lines).strip()]


def slant_of(band):
    """How the call labels stand: 0 where there is no room for any."""
    if band.column < LABEL_COLUMN or not band.events:
        return 0
    return SLANT if band.column >= SLANT_COLUMN else 90


def head_room(band):
    """The length of the longest call label."""
    slant = slant_of(band)
    return max([len(line) for event in band.events if slant
                for line in label_lines(band.run, event, slant)],
               default=0) * LETTER


def label_parts(band, base):
    """The calls by name, each rising from its record's line."""
    slant, parts = slant_of(band), []
    for event in band.events if slant else ():
        x = band.x(event.number) + (4 if slant == 90 else 2)
        turn = "rotate(-%d %s %s)" % (slant, svg.figure(x), svg.figure(base))
        refused = tables.is_refusal(event.answer.status)
        for place, line in enumerate(label_lines(band.run, event, slant)):
            if line:
                parts.append(svg.text(
                    x + 9 * place, base + 13 * place, line,
                    "refused" if refused else "call", transform=turn))
    return parts


def head_parts(band, top):
    """Call labels and record numbers above the rows; the y they end at."""
    rise = head_room(band) * math.sin(math.radians(slant_of(band)))
    base = top + rise + (8 if rise else 0)
    parts = label_parts(band, base)
    parts.append(svg.text(LEFT - 10, base + 15, "record", "small",
                          text_anchor="end"))
    every = sparse(band.column)
    for number in range(band.first, band.last + 1):
        if number % every == 0:
            parts.append(svg.text(band.x(number), base + 15, str(number),
                                  "small", text_anchor="middle"))
    return parts, base + 22


def sparse(column):
    """Every how many columns a record number may stand."""
    if column >= 20:
        return 1
    return next(step for step in STEPS if step * column >= 34)


def rows_of(band):
    """The rows of a band, top to bottom, under their headings."""
    run = band.run
    tasks = [TaskRow(run, slot, run.spans["task"][slot])
             for slot in band.slots("task")]
    rows = [("tasks", tasks + Lane.of(band))]
    for heading, kind, look, lanes in (
            ("semaphores: count", "semaphore", SemaphoreRow, lock_lanes),
            ("queues: messages held, or below 0 tasks waiting", "queue",
             QueueRow, lambda *_: []),
            ("pools: buffers out", "pool", PoolRow, buffer_lanes)):
        part = []
        for slot in band.slots(kind):
            row = look(run, slot, run.spans[kind][slot])
            part += [row] + lanes(run, row, band)
        rows.append((heading, part))
    return [(heading, part) for heading, part in rows if part]


def band_parts(band, top):
    """One band and the y of its end."""
    behind, parts = [], []
    head, y = head_parts(band, top)
    begin = y
    for heading, rows in rows_of(band):
        if heading != "tasks":
            y += 24
            parts.append(svg.text(EDGE, y - 6, heading, "head"))
        dense, place = sum(not row.is_lane for row in rows), 0
        for row in rows:
            height = row.height(dense)
            place += not row.is_lane     # a lane belongs to the row above
            if place % 2 == 1:
                behind.append(svg.box(EDGE, y, band.right - EDGE, height,
                                      class_="stripe"))
            parts += row.label(band, y, height)
            parts += row.parts(band, y, height)
            y += height
    ticks, end = tick_parts(band, begin, y)
    edge = svg.line(LEFT, begin, LEFT, y, "rule")
    return head + behind + ticks + [edge] + parts, end


def tick_parts(band, top, bottom):
    """Ticks along the bottom, and a fine line up from those that fit."""
    parts = [svg.line(LEFT, bottom, band.right, bottom, "rule"),
             svg.text(LEFT - 10, bottom + 15, "tick", "small",
                      text_anchor="end")]
    free = 0
    for event in band.events:
        if event.tick is None:
            continue
        x = band.x(event.number)
        parts.append(svg.line(x, bottom, x, bottom + 4, "rule"))
        if band.column >= 6:
            parts.append(svg.line(x, top, x, bottom, "tick"))
        wide = len(str(event.tick)) * LETTER
        if x - wide / 2 >= free:
            parts.append(svg.text(x, bottom + 15, str(event.tick), "small",
                                  text_anchor="middle"))
            free = x + wide / 2 + 3
    return parts, bottom + 22


def title_parts(run, name, first, last):
    kinds = [(len(run.events), "record"), (run.ticks, "tick"),
             (len(run.refusals()), "refusal")]
    kinds += [(sum(1 for known, _ in run.names if known == kind), kind)
              for kind in tables.TABLES]
    words = ", ".join("%d %s%s" % (number, word, "" if number == 1 else "s")
                      for number, word in kinds)
    words += "; first priority %d" % run.priority
    if (first, last) != (1, run.last):
        words += "; here records %d to %d" % (first, last)
    return [svg.text(EDGE, 30, name, "title"), svg.text(EDGE, 49, words,
                                                        "note")]


LEGEND = (
    ("run", "running"), ("ready", "ready"),
    ("wait", "waiting, in the colour of what for"),
    ("veil", "waiting and suspended"), ("stopped", "suspended"),
    ("unborn", "not started"), ("held", "held, by the task named"),
    ("idle", "nothing runs"),
    ("cross", "call refused"), ("scratch", "call refused"),
    ("granted", "woken: granted or handed a message"),
    ("timed", "woken: time-out"), ("gone", "woken: object deleted"),
    ("handed", "message to a waiting task"), ("irq", "interrupt's call"),
)


def swatch(kind, x, y):
    """The small sample before a word of the legend."""
    if kind == "cross":
        return svg.cross(x + 11, y, 3.5, None)
    if kind == "scratch":
        return svg.box(x + 10, y - 5, 2, 9, class_="scratch")
    if kind in ("granted", "timed", "gone", "handed", "irq"):
        return svg.dot(x + 11, y, 4, kind, None)
    if kind == "held":
        return svg.box(x, y - 6, 22, 12, class_="held", fill=svg.POOL_COLOUR,
                       stroke=svg.POOL_COLOUR)
    if kind in ("wait", "veil"):
        under = svg.box(x, y - 6, 22, 12, fill=svg.WAIT_COLOURS[0])
        return under + (svg.box(x, y - 6, 22, 12, class_="veil")
                        if kind == "veil" else "")
    return svg.box(x, y - 6, 22, 12, class_=kind)


def legend_parts(top, width, body):
    """What the picture shows, and only that."""
    parts, x, y = [], EDGE, top
    for kind, words in LEGEND:
        if 'class="%s"' % kind not in body:
            continue
        wide = 30 + len(words) * 5.8 + 18
        if x + wide > width:
            x, y = EDGE, y + 22
        parts += [swatch(kind, x, y), svg.text(x + 30, y + 4, words, "small")]
        x += wide
    return parts, y + 18


def width_of(bands):
    """Room for the widest band and for slanted labels past its end."""
    right = max(band.right for band in bands)
    for band in bands:
        if slant_of(band) == SLANT:
            right = max([right] + [
                band.x(event.number) + 18 + math.cos(math.radians(SLANT))
                * LETTER * max(map(len, label_lines(band.run, event, SLANT)))
                for event in band.events])
    return max(760, right + RIGHT)


def bands_parts(bands, top, width):
    """The bands one below the other, and the y of their end."""
    parts, y = [], top
    for band in bands:
        if len(bands) > 1:
            parts += [svg.line(EDGE, y + 4, width - RIGHT, y + 4, "rule"),
                      svg.text(EDGE, y + 23, "records %d to %d" % (
                          band.first, band.last), "head")]
            y += 24
        more, y = band_parts(band, y)
        parts += more
    return parts, y


def picture(run, name, first=None, last=None):
    """The SVG text of records first to last of a run."""
    first, last = first or 1, run.last if last is None else last
    bands = list(bands_of(run, first, last))
    width = math.ceil(width_of(bands))
    parts, y = bands_parts(bands, TOP, width)
    body = "".join(parts)
    if len(bands) > 1 or y > TALL:
        # A long run is read from the top: its legend stands there.
        legend, y = legend_parts(TOP + 8, width - RIGHT, body)
        parts, y = bands_parts(bands, y, width)
    else:
        legend, y = legend_parts(y + 22, width - RIGHT, body)
    return svg.page(width, math.ceil(y), title_parts(run, name, first, last)
                    + parts + legend, "A run of " + name)
