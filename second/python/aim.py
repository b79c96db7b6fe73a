"""Aimed calls: one method for each call, with arguments worth trying.

The naive model runs along, so that a call finds an object in the state that
its rule speaks of. Among the good arguments stand those of either side of
each edge, and now and then wild ones.
"""

import random

from model import FOREVER, Model
from scripts import CALLS

TOP = 2 ** 32 - 1
NAMES = [0, 1, 2, 3, 7, 9, TOP]


class Aim:
    def __init__(self, seed, priority, wild=0.05, anchor=True,
                 may_stop=False):
        self.rng = random.Random(seed)
        self.priority = priority
        self.model = Model(priority)
        self.records = []
        self.wild = wild
        self.anchor = anchor  # the first task never stops: something runs
        self.may_stop = may_stop  # the last ready task may suspend itself

    def do(self, call, *args, mark=None):
        """Adds one record, and steps the model."""
        rng = self.rng
        if mark is None:
            mark = 1 if call == 0 else 0
            if rng.random() < self.wild / 4:
                mark = rng.choice([0, 1, 1, 2, 3, 256, TOP])
        five = list(args)
        while len(five) < 5:
            five.append(rng.choice([0, 0, 1, TOP]))
        self.records.append((call, mark, five))
        return self.model.step(call, mark, five)

    def would_stop(self, identifier):
        """Whether it names the only task left to run."""
        return not self.may_stop and len(self.model.order) == 1 \
            and identifier in (0, self.model.running())

    def now_wild(self):
        return self.rng.random() < self.wild

    def wild_id(self, table):
        rng = self.rng
        slot = rng.randrange(len(table.serials))
        serial = table.serials[slot]
        size = len(table.serials)
        return rng.choice([
            0, 1, 63, 64, 65, 64 + size, 64 + size - 1, slot,
            serial * 64 + slot, (serial + 1) * 64 + slot,
            max(serial - 1, 0) * 64 + slot, serial * 64 + 63,
            rng.randrange(1, serial + 2) * 64 + slot,
            65535 * 64 + slot, 65536 * 64 + slot, TOP, TOP - 63 + slot,
            rng.randrange(TOP)])

    def some(self, table, things):
        """The identifier of one of the things, or a wild one."""
        if self.now_wild() or not things:
            return self.wild_id(table)
        return self.rng.choice(things)["id"]

    def task_id(self, wanted=lambda task: True):
        tasks = [t for t in self.model.tasks.live() if wanted(t)]
        if self.anchor:
            tasks = [t for t in tasks if t["id"] != 64]
        if self.rng.random() < 0.1 and not self.anchor_runs():
            return 0
        found = self.some(self.model.tasks, tasks)
        return 1 if self.anchor and found in (0, 64) else found

    def anchor_runs(self):
        return self.anchor and self.model.running() == 64

    def semaphore_id(self, wanted=lambda semaphore: True):
        live = self.model.semaphores.live()
        return self.some(self.model.semaphores,
                         [s for s in live if wanted(s)] or live)

    def queue_id(self, wanted=lambda queue: True):
        live = self.model.queues.live()
        return self.some(self.model.queues,
                         [q for q in live if wanted(q)] or live)

    def pool_id(self):
        return self.some(self.model.pools, self.model.pools.live())

    def number(self, good, edges):
        return self.rng.choice(edges if self.now_wild() else good)

    def options(self):
        return self.number([0, 1], [2, 3, 4, 2 ** 31, TOP, TOP - 1])

    def a_priority(self, low=0, high=15):
        return self.number(list(range(low, high + 1)), [15, 16, 17, 255, TOP])

    def time_out(self):
        return self.number([1, 1, 2, 2, 3, 4, 6, FOREVER],
                           [0, 1, 65535, 65536, TOP - 1, 2 ** 31])

    # Tasks.

    def tick(self):
        self.do(0)

    def task_create(self, low=0):
        self.do(1, self.rng.choice(NAMES), self.a_priority(low))

    def task_delete(self):
        task = self.task_id()
        self.do(2, 1 if self.would_stop(task) else task)

    def task_ident(self):
        self.do(3, self.rng.choice(NAMES + [11]))

    def task_start(self):
        fresh = lambda task: not task["started"] or self.rng.random() < .1
        self.do(4, self.task_id(fresh))

    def task_suspend(self):
        others = lambda task: not task["suspended"] or self.rng.random() < .1
        task = self.task_id(others)
        self.do(5, 1 if self.would_stop(task) else task)

    def task_resume(self):
        asleep = lambda task: task["suspended"] or self.rng.random() < .1
        self.do(6, self.task_id(asleep))

    def task_set_priority(self, low=0):
        self.do(7, self.task_id(), self.a_priority(low))

    # Semaphores.

    def sem_create(self):
        count = self.number([0, 0, 0, 1, 1, 2, 3, 32766, 32767],
                            [32767, 32768, 65536, 2 ** 31 - 1, 2 ** 31, TOP])
        self.do(8, self.rng.choice(NAMES), count, self.options())

    def sem_delete(self):
        self.do(9, self.semaphore_id())

    def sem_ident(self):
        self.do(10, self.rng.choice(NAMES + [11]))

    def sem_claim(self):
        options = 0 if self.rng.random() < .8 else self.options()
        semaphore = self.semaphore_id(lambda s: s["count"] < 9)
        if self.anchor_runs():
            options = 1
        self.do(11, semaphore, options, self.time_out())

    def sem_release(self):
        mark = 1 if self.rng.random() < .2 else None
        waited = lambda s: s["queue"] or self.rng.random() < .2
        self.do(12, self.semaphore_id(waited), mark=mark)

    def sem_info(self):
        self.do(13, self.semaphore_id())

    # Pools.

    def pool_create(self):
        size = self.number([1, 2, 3, 16, 32, 64, 1000, 2 ** 26],
                           [0, 1, 2 ** 31, TOP])
        buffers = self.number([1, 2, 3, 5, 63, 64], [0, 65, 66, 128])
        tail = self.rng.choice([0, 0, 1, size - 1 if size else 0])
        length = min(size * buffers + tail, TOP)
        length = self.number([length], [0, 1, TOP, length])
        self.do(14, self.rng.choice(NAMES), self.address(length), length,
                size, self.options())

    def address(self, length):
        """Free ground, either end of the ground, or a live pool's edge."""
        rng = self.rng
        end = 2 ** 32 - min(length, TOP)
        places = [rng.randrange(TOP), 4096 * rng.randrange(64), 0, end]
        for pool in self.model.pools.live():
            after = pool["address"] + pool["length"]
            places += [after, max(pool["address"] - length, 0)]
            if self.now_wild():
                places += [after - 1, max(pool["address"] - length + 1, 0),
                           pool["address"], end + 1]
        return rng.choice(places) & TOP

    def pool_delete(self):
        self.do(15, self.pool_id())

    def pool_ident(self):
        self.do(16, self.rng.choice(NAMES + [11]))

    def pool_get_buff(self):
        self.do(17, self.pool_id())

    def pool_ret_buff(self):
        rng = self.rng
        identifier = self.pool_id()
        places = [0, TOP, rng.randrange(TOP)]
        for pool in self.model.pools.live():
            if pool["id"] == identifier and not self.now_wild():
                places = sorted(pool["out"]) or [pool["address"]]
            elif pool["id"] == identifier:
                past = pool["address"] + pool["length"]
                places += [past, past - 1, pool["address"],
                           pool["address"] + pool["size"],
                           pool["address"] + 1, pool["address"] - 1]
        self.do(18, identifier, rng.choice(places) & TOP)

    def pool_info(self):
        self.do(19, self.pool_id())

    # Message queues.

    def queue_create(self):
        most = self.number([1, 1, 2, 3, 4, 16], [0, 1, 16, 17, 256, TOP])
        longest = self.number([1, 2, 8, 12, 13, 63, 64],
                              [0, 1, 64, 65, 256, 257, TOP])
        self.do(20, self.rng.choice(NAMES), most, longest, self.options())

    def queue_delete(self):
        self.do(21, self.queue_id())

    def queue_ident(self):
        self.do(22, self.rng.choice(NAMES + [11]))

    def queue_send(self):
        self.send(23)

    def queue_jump(self):
        self.send(24)

    def send(self, call):
        """Often to a queue with waiters or to a full one; the length is the
        queue's longest, one more, or any."""
        rng = self.rng
        wish = rng.random()
        queue = self.queue_id(
            (lambda q: q["queue"]) if wish < .5 else
            (lambda q: len(q["held"]) >= q["most"] - 1) if wish < .7 else
            lambda q: True)
        longest = [q["longest"] for q in self.model.queues.live()
                   if q["id"] == queue] or [64]
        length = self.number(
            [0, 1, rng.randrange(longest[0] + 1), longest[0]],
            [longest[0] + 1, 64, 65, 255, 256, 256 + longest[0], TOP])
        mark = 1 if rng.random() < .2 else None
        self.do(call, queue, length, rng.randrange(TOP + 1),
                rng.choice([0, TOP, rng.randrange(TOP + 1)]),
                rng.randrange(TOP + 1), mark=mark)

    def queue_receive(self):
        options = 0 if self.rng.random() < .8 else self.options()
        empty = self.rng.random() < .6
        queue = self.queue_id(lambda q: (not q["held"]) == empty)
        if self.anchor_runs():
            options = 1
        self.do(25, queue, options, self.time_out())

    def queue_info(self):
        self.do(26, self.queue_id())

    # Calls that no row knows.

    def unknown_call(self):
        self.do(self.rng.choice([len(CALLS), len(CALLS) + 1, 31, 255, 256, TOP]),
                self.rng.randrange(TOP))
