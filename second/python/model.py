"""A naive model of the kernel, written from the paper alone.

Lists and dictionaries, and no number kept that can be counted anew. The
generator aims with it, and compare.py sets the second program against it.
"""

import struct

from scripts import CALLS, header_of, records_of

FOREVER = 4294967295
TASKS, SEMAPHORES, POOLS, QUEUES = 32, 16, 8, 8
LENT = 64  # bytes of a message that a script's record lends


class Refused(Exception):
    """A refusal; its first argument is the status."""


def unless(holds, status):
    if not holds:
        raise Refused(status)


class Table:
    """Objects by slot: "An identifier is serial × 64 + slot." """

    def __init__(self, size):
        self.serials = [0] * size
        self.objects = [None] * size

    def free_slot(self):
        for slot, serial in enumerate(self.serials):
            if self.objects[slot] is None and serial < 65535:
                return slot
        raise Refused(7)

    def create(self, thing):
        slot = self.free_slot()
        self.serials[slot] += 1
        self.objects[slot] = thing
        thing["slot"] = slot
        thing["id"] = self.serials[slot] * 64 + slot
        return thing["id"]

    def named(self, identifier):
        serial, slot = divmod(identifier, 64)
        unless(slot < len(self.serials), 4)
        unless(1 <= serial <= self.serials[slot], 4)
        thing = self.objects[slot]
        unless(thing is not None and thing["id"] == identifier, 5)
        return thing

    def live(self):
        return [thing for thing in self.objects if thing is not None]

    def ident(self, name):
        for thing in self.live():
            if thing["name"] == name:
                return thing["id"]
        raise Refused(8)

    def delete(self, thing):
        self.objects[thing["slot"]] = None


class Model:
    def __init__(self, priority):
        self.tasks = Table(TASKS)
        self.semaphores = Table(SEMAPHORES)
        self.pools = Table(POOLS)
        self.queues = Table(QUEUES)
        self.order = []
        self.wakes = []
        self.shown = None  # the message shown by the last step, as bytes
        self.tasks.create(new_task(0, priority))
        self.call_4([64])

    def running(self):
        return self.order[0]["id"] if self.order else 0

    def step(self, call, mark, args):
        """The answer: status, values, running, wakes."""
        self.wakes = []
        self.shown = None
        try:
            self.caller_tests(call, mark)
            result = getattr(self, "call_%d" % call)(args) or {}
        except Refused as refusal:
            result = {"status": refusal.args[0]}
        values = list(result.get("values", [])) + [0, 0, 0, 0]
        return (result.get("status", 0), values[:4], self.running(),
                self.wakes)

    def caller_tests(self, call, mark):
        unless(call < len(CALLS) and mark <= 1 and (call, mark) != (0, 0), 25)
        unless(mark == 1 or self.order, 24)
        unless(mark == 0 or call in (0, 12, 23, 24), 2)

    # Who runs.

    def make_ready(self, task):
        at = 0
        while at < len(self.order) and \
                self.order[at]["priority"] >= task["priority"]:
            at += 1
        self.order.insert(at, task)

    def make_ready_if_it_is(self, task):
        if task["started"] and not task["suspended"] \
                and task["waits_on"] is None:
            self.make_ready(task)

    def leave_order(self, task):
        self.order = [other for other in self.order if other is not task]

    def task(self, identifier):
        return self.order[0] if identifier == 0 else \
            self.tasks.named(identifier)

    # Ticks and tasks.

    def call_0(self, args):
        for task in self.tasks.live():
            if task["waits_on"] is None or task["time_out"] == FOREVER:
                continue
            task["time_out"] -= 1
            if task["time_out"] == 0:
                self.leave_ungranted(task)
                self.wake(task, 13)

    def call_1(self, args):
        unless(args[1] <= 15, 19)
        return one_value(self.tasks.create(new_task(args[0], args[1])))

    def call_2(self, args):
        task = self.task(args[0])
        if task["waits_on"] is not None:
            self.leave_ungranted(task)
        self.leave_order(task)
        self.tasks.delete(task)

    def call_3(self, args):
        return one_value(self.tasks.ident(args[0]))

    def call_4(self, args):
        task = self.task(args[0])
        unless(not task["started"], 20)
        task["started"] = True
        self.make_ready(task)

    def call_5(self, args):
        task = self.task(args[0])
        unless(task["started"], 21)
        unless(not task["suspended"], 22)
        task["suspended"] = True
        self.leave_order(task)

    def call_6(self, args):
        task = self.task(args[0])
        unless(task["started"], 21)
        unless(task["suspended"], 23)
        task["suspended"] = False
        self.make_ready_if_it_is(task)

    def call_7(self, args):
        task = self.task(args[0])
        unless(args[1] <= 15, 19)
        earlier = task["priority"]
        was_ready = any(other is task for other in self.order)
        self.leave_order(task)
        task["priority"] = args[1]
        if was_ready:
            self.make_ready(task)
        return one_value(earlier)

    # Semaphores.

    def call_8(self, args):
        unless(args[1] <= 32767, 9)
        unless(args[2] in (0, 1), 6)
        return one_value(self.semaphores.create(
            {"name": args[0], "count": args[1], "options": args[2],
             "queue": []}))

    def call_9(self, args):
        semaphore = self.semaphores.named(args[0])
        for task in semaphore["queue"]:
            task["waits_on"] = None
            self.wake(task, 11)
        self.semaphores.delete(semaphore)

    def call_10(self, args):
        return one_value(self.semaphores.ident(args[0]))

    def call_11(self, args):
        semaphore = self.semaphores.named(args[0])
        unless(args[1] in (0, 1), 6)
        if args[1] == 0:
            unless(1 <= args[2] <= 65535 or args[2] == FOREVER, 3)
        else:
            unless(semaphore["count"] > 0, 10)
        semaphore["count"] -= 1
        if semaphore["count"] >= 0:
            return None
        self.join(self.order[0], semaphore, args[2])
        return {"status": 1}

    def join(self, task, thing, time_out):
        """Into the wait queue of a semaphore or of a message queue."""
        self.leave_order(task)
        task.update(waits_on=thing, time_out=time_out,
                    joined_at=task["priority"])
        thing["queue"].append(task)
        if thing["options"] == 0:
            thing["queue"].sort(key=lambda other: -other["joined_at"])

    def call_12(self, args):
        semaphore = self.semaphores.named(args[0])
        unless(semaphore["count"] < 32767, 12)
        semaphore["count"] += 1
        if semaphore["queue"]:
            self.wake(self.first_waiter(semaphore), 0)

    def first_waiter(self, thing):
        task = thing["queue"].pop(0)
        task["waits_on"] = None
        return task

    def call_13(self, args):
        semaphore = self.semaphores.named(args[0])
        return {"values": [semaphore["options"], semaphore["count"],
                           len(semaphore["queue"])]}

    def leave_ungranted(self, task):
        thing = task["waits_on"]
        thing["queue"] = [other for other in thing["queue"]
                          if other is not task]
        if "count" in thing:  # a semaphore, which gets its one back
            thing["count"] += 1
        task["waits_on"] = None

    def wake(self, task, *told):
        self.wakes.append((task["id"],) + told)
        self.make_ready_if_it_is(task)

    # Pools.

    def call_14(self, args):
        name, address, length, size, options = args
        unless(length >= 1 and address + length <= 2 ** 32, 3)
        unless(size >= 1 and 1 <= length // size <= 64, 14)
        unless(options in (0, 1), 6)
        self.pools.free_slot()
        for other in self.pools.live():
            low = max(address, other["address"])
            high = min(address + length, other["address"] + other["length"])
            unless(low >= high, 15)
        return one_value(self.pools.create(
            {"name": name, "address": address, "length": length,
             "size": size, "options": options, "out": set(),
             "free": list(range(address, address + length // size * size,
                                size))}))

    def call_15(self, args):
        pool = self.pools.named(args[0])
        unless(not pool["out"] or pool["options"] == 1, 16)
        self.pools.delete(pool)

    def call_16(self, args):
        return one_value(self.pools.ident(args[0]))

    def call_17(self, args):
        pool = self.pools.named(args[0])
        unless(pool["free"], 17)
        address = pool["free"].pop(0)  # the one that has been free longest
        pool["out"].add(address)
        return one_value(address)

    def call_18(self, args):
        pool = self.pools.named(args[0])
        unless(args[1] in pool["out"], 18)
        pool["out"].remove(args[1])
        pool["free"].append(args[1])

    def call_19(self, args):
        pool = self.pools.named(args[0])
        buffers = len(buffer_addresses(pool))
        return {"values": [buffers, buffers - len(pool["out"]),
                           pool["size"], pool["options"]]}

    # Message queues.

    def call_20(self, args):
        name, most, longest, options = args[:4]
        unless(1 <= most <= 16 and 1 <= longest <= 64, 3)
        unless(options in (0, 1), 6)
        return one_value(self.queues.create(
            {"name": name, "most": most, "longest": longest,
             "options": options, "held": [], "queue": []}))

    def call_21(self, args):
        queue = self.queues.named(args[0])
        while queue["queue"]:
            self.wake(self.first_waiter(queue), 30)
        self.queues.delete(queue)

    def call_22(self, args):
        return one_value(self.queues.ident(args[0]))

    def call_23(self, args):
        self.put(args, lambda held, message: held + [message])

    def call_24(self, args):
        self.put(args, lambda held, message: [message] + held)

    def put(self, args, placed):
        """To the first waiter, or else where `placed` says."""
        queue = self.queues.named(args[0])
        unless(args[1] <= min(queue["longest"], LENT), 27)
        message = message_of(args)[:args[1]]
        if queue["queue"]:
            self.wake(self.first_waiter(queue), 0, len(message))
            self.shown = message
            return
        unless(len(queue["held"]) < queue["most"], 28)
        queue["held"] = placed(queue["held"], message)

    def call_25(self, args):
        queue = self.queues.named(args[0])
        unless(args[1] in (0, 1), 6)
        unless(args[1] == 1 or 1 <= args[2] <= 65535 or args[2] == FOREVER,
               3)
        if queue["held"]:
            self.shown = queue["held"].pop(0)
            return one_value(len(self.shown))
        unless(args[1] == 0, 29)
        self.join(self.order[0], queue, args[2])
        return {"status": 1}

    def call_26(self, args):
        queue = self.queues.named(args[0])
        return {"values": [queue["options"], len(queue["held"]),
                           len(queue["queue"])]}


def new_task(name, priority):
    return {"name": name, "priority": priority, "started": False,
            "suspended": False, "waits_on": None, "time_out": 0,
            "joined_at": 0}


def one_value(value):
    return {"values": [value]}


def message_of(args):
    """What a record lends: "the three arguments left are the first 12
    bytes, the rest zeros"."""
    return struct.pack("<3I", *args[2:5]).ljust(LENT, b"\0")


def buffer_addresses(pool):
    number = pool["length"] // pool["size"]
    return range(pool["address"], pool["address"] + number * pool["size"],
                 pool["size"])


def line_of(record, answer):
    """The listing's line of one record."""
    status, values, running, wakes = answer
    fields = [record, status] + values + [running]
    fields += [":".join(map(str, wake)) for wake in wakes]
    return " ".join(str(field) for field in fields) + "\n"


def played(script):
    """The listing of a script given as bytes, and the messages it shows: a
    line for each, of its record, its length and its bytes."""
    if header_of(script) is None:
        return "script refused\n", "script refused\n"
    model = Model(header_of(script).priority)
    lines, shown = [], []
    for number, (call, mark, args) in enumerate(records_of(script), 1):
        lines.append(line_of(number, model.step(call, mark, args)))
        if model.shown is not None:
            shown.append("%d %d %s\n" % (
                number, len(model.shown),
                model.shown.ljust(LENT, b"\0").hex()))
    return "".join(lines), "".join(shown)


def listing_of(script):
    return played(script)[0]
