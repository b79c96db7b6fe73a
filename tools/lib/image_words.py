"""An image in words: who runs, who waits where, what is out and held; and its
fields, a line each."""

from lib import image, messages, tables

PLACES = 64                          # a seat is queue x 64 + place
FIRST_SEMAPHORE, FIRST_QUEUE, FIRST_READY = 1, 17, 32
OPTIONS = {"fifo": "FIFO", "forced_delete": "FORCED_DELETE"}
HEADS = ("kind", "slot", "field", "name", "value", "")


class Told:
    """The records of an image by kind and slot, and words for them."""

    def __init__(self, data):
        self.records = {
            kind: [image.record(data, kind, slot)
                   for slot in range(room.room)]
            for kind, room in tables.TABLES.items()}
        self.ready = image.record(data, "ready", 0)["ready"]

    def live(self, kind):
        return [slot for slot, record in enumerate(self.records[kind])
                if record["live"]]

    def identifier(self, kind, slot):
        """An object's number, or its slot's where nothing lives."""
        records = self.records[kind]
        if slot < len(records) and records[slot]["live"]:
            return str(records[slot]["serial"] * tables.SLOTS + slot)
        return "slot %d without a %s" % (slot, kind)

    def head(self, kind, slot):
        record = self.records[kind][slot]
        options = [word for name, word in OPTIONS.items() if record.get(name)]
        return "%s %s (%s)" % (kind, self.identifier(kind, slot), ", ".join(
            ["name %d" % record["name"]] + options))

    def waiters(self, queue):
        """The tasks seated in a queue, the first one first."""
        seats = [(task["seat"], slot) for slot, task
                 in enumerate(self.records["task"])
                 if task["seat"] // PLACES == queue]
        return [slot for _, slot in sorted(seats)]

    def waiting(self, queue):
        """Who waits in a queue and how long, as the end of a sentence."""
        words = []
        for slot in self.waiters(queue):
            task = self.records["task"][slot]
            words.append("%s %s%s" % (
                self.identifier("task", slot), time_words(task["time_out"]),
                ", suspended" if task["suspended"] else ""))
        return "; waiting: " + "; ".join(words) if words else ""

    def seat(self, seat):
        """Where a seat is, in words."""
        queue, place = divmod(seat, PLACES)
        if FIRST_READY <= queue <= FIRST_READY + tables.MOST_PRIORITY:
            return "place %d of the ready tasks of priority %d" % (
                place, queue - FIRST_READY)
        for kind, first in (("semaphore", FIRST_SEMAPHORE),
                            ("queue", FIRST_QUEUE)):
            slot = queue - first
            if 0 <= slot < tables.TABLES[kind].room:
                return "place %d at %s %s" % (place, kind,
                                              self.identifier(kind, slot))
        return "of no queue"


def counted(number, word):
    return "%d %s%s" % (number, word, "" if number == 1 else "s")


def time_words(ticks):
    if ticks == tables.FOREVER:
        return "FOREVER"
    return "for " + counted(ticks, "tick")


def running(told):
    ready = [told.identifier("task", number - 1)
             for number in told.ready if number]
    if not ready:
        return "nothing runs"
    return "task %s runs; ready behind it: %s" % (
        ready[0], ", ".join(ready[1:]) or "none")


def set_apart(told):
    """The tasks that are kept from running, other than by waiting."""
    tasks = [(told.identifier("task", slot), told.records["task"][slot])
             for slot in told.live("task")]
    for what, whom in (
            ("not started", [word for word, task in tasks
                             if not task["started"]]),
            ("suspended", [word for word, task in tasks
                           if task["suspended"]])):
        if whom:
            yield "%s: %s" % (what, ", ".join(whom))


def semaphore(told, slot):
    queue = FIRST_SEMAPHORE + slot
    count = told.records["semaphore"][slot]["units"] - len(told.waiters(queue))
    return "%s: count %d%s" % (told.head("semaphore", slot), count,
                               told.waiting(queue))


def pool(told, slot):
    record = told.records["pool"][slot]
    size, address = record["size"], record["address"]
    number = record["length"] // size if size else 0
    out = [address + size * buffer for buffer in range(64)
           if record["marks"] >> buffer & 1]
    places = sorted((place, buffer) for buffer, place
                    in enumerate(record["free_place"]) if place)
    free = [address + size * buffer for _, buffer in places]
    words = "%s: %s of %s from %d; %d out%s" % (
        told.head("pool", slot), counted(number, "buffer"),
        counted(size, "byte"), address, len(out), listed(out))
    return words + ("; free, the longest first" + listed(free) if free
                    else "; none free")


def listed(addresses):
    return ": " + ", ".join(map(str, addresses)) if addresses else ""


def queue(told, slot):
    record = told.records["queue"][slot]
    held = []
    for cell in range(min(record["held"], len(record["cells"]) // image.CELL)):
        length, *data = record["cells"][image.CELL * cell:
                                        image.CELL * (cell + 1)]
        held.append(messages.in_words(bytes(data[:length])))
    return "%s: %d of %s held, each at most %s%s%s" % (
        told.head("queue", slot), record["held"],
        counted(record["most"], "message"), counted(record["longest"], "byte"),
        ": " + "; ".join(held) if held else "",
        told.waiting(FIRST_QUEUE + slot))


def summary(data):
    told = Told(data)
    past = len(data) - image.LENGTH
    yield "image of edition %d, %d bytes%s" % (
        image.EDITION, image.LENGTH, ", and %d past it" % past if past else "")
    yield "live: " + ", ".join(counted(len(told.live(kind)), kind)
                               for kind in tables.TABLES)
    yield running(told)
    yield from set_apart(told)
    for kind, words in (("semaphore", semaphore), ("pool", pool),
                        ("queue", queue)):
        for slot in told.live(kind):
            yield words(told, slot)


def note(told, value):
    """What a number means, where a reader would have to work it out."""
    if value.value == 0:
        return ""
    if value.kind == "ready":
        return "task " + told.identifier("task", value.value - 1)
    if value.name == "seat":
        return told.seat(value.value)
    if value.name == "time_out" and value.value == tables.FOREVER:
        return "FOREVER"
    if value.name == "marks":
        return "out: " + ", ".join(str(buffer) for buffer in range(64)
                                   if value.value >> buffer & 1)
    return ""


def fields(data, whole):
    """A line for each field, or for each that is not zero."""
    told = Told(data)
    rows = [HEADS] + [
        (value.kind, str(value.slot), str(value.number), value.name,
         str(value.value), note(told, value))
        for value in image.values(data) if whole or value.value]
    widths = [max(len(row[place]) for row in rows) for place in range(5)]
    for kind, slot, number, name, value, words in rows:
        yield "  ".join((kind.ljust(widths[0]), slot.rjust(widths[1]),
                         number.rjust(widths[2]), name.ljust(widths[3]),
                         value.rjust(widths[4]), words)).rstrip()
