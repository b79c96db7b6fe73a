#!/usr/bin/env python3
"""The books of semaphores, queues and pools, kept from the answers alone.

books.py SCRIPT LISTING [SCRIPT LISTING ...]
books.py --program build/second --seeds FIRST LAST [--records M]

While a semaphore lives, its count is the initial count, plus releases
answered OK, less claims granted, less tasks waiting. Tasks wait only when
the count is negative, and then its size is their number. A release answered
OK that finds waiters grants exactly one, whom none precedes. Who waits in a
FIFO queue has as many ahead as it found, less releases there since, less
those ahead that left ungranted; release p + 1 - d grants it. While a queue
lives, messages accepted are those delivered plus those held; each comes in
its turn, and tasks wait only when none is held. While a pool lives, buffers
out are gets less returns, and no two of live pools share a byte.
"""

import argparse
import bisect
import os
import subprocess
import sys

from scripts import MOST_RECORDS, answers_of, header_of, records_of

SECOND = os.path.dirname(os.path.dirname(os.path.abspath(__file__)))
SELF, OK, PENDING = 0, 0, 1


class Wrong(Exception):
    """An answer that the books refuse."""


def must(holds, words):
    if not holds:
        raise Wrong(words)


class Place:
    """A waiter's: tasks found ahead, releases since, those ahead that left."""

    def __init__(self, found):
        self.found, self.since, self.departed = found, 0, 0

    def ahead(self):
        return self.found - self.since - self.departed


class Semaphore:
    def __init__(self, initial, options):
        self.initial, self.options = initial, options
        self.released = self.granted = 0
        self.queue = []  # (task, joining priority) by arrival
        self.places = {}

    def count(self):
        return (self.initial + self.released - self.granted
                - len(self.queue))

    def balance(self):
        """Tasks wait only when the count is negative."""
        must(len(self.queue) == max(0, -self.count()),
             "count %d with %d waiting" % (self.count(), len(self.queue)))
        if self.options == 1:
            for ahead, (task, _) in enumerate(self.queue):
                must(self.places[task].ahead() == ahead,
                     "%d has %d ahead" % (task, ahead))

    def by_the_rule(self):
        """FIFO by arrival; else by joining priority, equals by arrival."""
        if self.options == 1:
            return [task for task, _ in self.queue]
        # sorted() keeps equals as they came
        return [task for task, _ in
                sorted(self.queue, key=lambda waiter: -waiter[1])]

    def first(self):
        if self.options == 1:
            return self.queue[0][0]
        # max() gives the earliest of equals
        return max(self.queue, key=lambda waiter: waiter[1])[0]

    def join(self, task, priority):
        self.places[task] = Place(len(self.queue))
        self.queue.append((task, priority))

    def leave(self, task):
        self.queue = [waiter for waiter in self.queue if waiter[0] != task]
        return self.places.pop(task)

    def leave_ungranted(self, task):
        names = [waiter[0] for waiter in self.queue]
        for behind in names[names.index(task) + 1:]:
            self.places[behind].departed += 1
        self.leave(task)

    def release(self):
        self.released += 1
        for place in self.places.values():
            place.since += 1

    def grant(self, task):
        """The release is already counted: it is number p + 1 - d."""
        place = self.leave(task)
        must(self.options != 1
             or place.since == place.found + 1 - place.departed,
             "%d is granted by another release than its own" % task)
        self.granted += 1


class Queue:
    """Messages are known by their lengths: no listing tells more."""

    def __init__(self, args):
        _, self.most, self.longest, self.options = args[:4]
        self.accepted = self.delivered = 0
        self.held = []
        self.queue = []  # (task, joining priority) by arrival

    by_the_rule = Semaphore.by_the_rule

    def leave(self, task):
        self.queue = [waiter for waiter in self.queue if waiter[0] != task]

    leave_ungranted = leave

    def join(self, task, priority):
        self.queue.append((task, priority))

    def balance(self):
        must(self.accepted == self.delivered + len(self.held),
             "%d accepted, %d delivered, %d held" % (
                 self.accepted, self.delivered, len(self.held)))
        must(not (self.held and self.queue), "tasks wait beside messages")
        must(len(self.held) <= self.most, "more are held than the most")


class Pool:
    def __init__(self, args):
        _, self.address, self.length, self.size, self.options = args
        self.gets = self.returns = 0
        self.out = set()
        self.returned = {}  # address of a buffer not out: its latest return

    def longest_free(self):
        """Of the buffers not out, the one whose latest return lies furthest
        back; one never returned before all others, those by address."""
        buffers = self.length // self.size
        starts = range(self.address, self.address + buffers * self.size, self.size)
        return min((start for start in starts if start not in self.out),
                   key=lambda start: (self.returned.get(start, 0), start))


class Books:
    def __init__(self, priority):
        self.running = 64
        self.priorities = {64: priority}
        self.semaphores = {}
        self.queues = {}
        self.waits_on = {}  # task to the semaphore or queue
        self.pools = {}
        self.starts = []  # of the buffers out of live pools, ascending
        self.ends = {}

    def enter(self, call, mark, args, answer):
        """Books one record and its answer."""
        must(answer.status != 26, "26 in a script")
        if answer.status > PENDING:
            self.refusal(answer)
            return
        must(answer.status == OK or call in (11, 25),
             "only a claim or a receive is pending")
        if call not in (0, 9, 12, 21, 23, 24):
            must(not answer.wakes, "this call wakes nobody")
        booking = getattr(self, "call_%d" % call, None)
        if booking:
            booking(args, answer)
        must(answer.running not in self.waits_on, "a waiting task runs")
        self.running = answer.running

    def refusal(self, answer):
        must(answer.values == [0, 0, 0, 0], "a refusal with a value")
        must(not answer.wakes, "a refusal that wakes")
        must(answer.running == self.running, "a refusal changes who runs")

    def task(self, identifier):
        return self.running if identifier == SELF else identifier

    def live(self, table, identifier):
        must(identifier in table, "%d is not live" % identifier)
        return table[identifier]

    def leave_ungranted(self, task):
        thing = self.waits_on.pop(task)
        thing.leave_ungranted(task)
        thing.balance()

    # Tasks and ticks.

    def call_0(self, args, answer):
        slots = [task % 64 for task, _ in answer.wakes]
        must(slots == sorted(slots), "time-outs not in slot order")
        for task, status in answer.wakes:
            must(status == 13, "a tick wakes with 13")
            must(task in self.waits_on, "%d did not wait" % task)
            self.leave_ungranted(task)

    def call_1(self, args, answer):
        must(answer.values[0] not in self.priorities, "identifier in use")
        self.priorities[answer.values[0]] = args[1]

    def call_2(self, args, answer):
        task = self.task(args[0])
        self.live(self.priorities, task)
        if task in self.waits_on:
            self.leave_ungranted(task)
        del self.priorities[task]

    def call_7(self, args, answer):
        task = self.task(args[0])
        earlier = self.live(self.priorities, task)
        must(answer.values[0] == earlier, "not the earlier priority")
        self.priorities[task] = args[1]

    # Semaphores.

    def call_8(self, args, answer):
        must(answer.values[0] not in self.semaphores, "identifier in use")
        self.semaphores[answer.values[0]] = Semaphore(args[1], args[2])

    def call_9(self, args, answer):
        semaphore = self.live(self.semaphores, args[0])
        waiters = semaphore.by_the_rule()
        must(answer.wakes == [(task, 11) for task in waiters],
             "delete wakes all waiters in queue order with 11")
        for task in waiters:
            del self.waits_on[task]
        del self.semaphores[args[0]]

    def call_11(self, args, answer):
        semaphore = self.live(self.semaphores, args[0])
        if answer.status == OK:
            semaphore.granted += 1
        else:
            must(args[1] == 0, "NOWAIT never waits")
            semaphore.join(self.running, self.priorities[self.running])
            self.waits_on[self.running] = semaphore
        semaphore.balance()

    def call_12(self, args, answer):
        semaphore = self.live(self.semaphores, args[0])
        semaphore.release()
        if semaphore.queue:
            first = semaphore.first()
            must(answer.wakes == [(first, 0)], "%d is first" % first)
            semaphore.grant(first)
            del self.waits_on[first]
        else:
            must(not answer.wakes, "nobody waits")
        semaphore.balance()

    def call_13(self, args, answer):
        semaphore = self.live(self.semaphores, args[0])
        must(answer.values == [semaphore.options, semaphore.count(),
                               len(semaphore.queue), 0],
             "the books say count %d" % semaphore.count())

    # Message queues.

    def call_20(self, args, answer):
        must(answer.values[0] not in self.queues, "identifier in use")
        self.queues[answer.values[0]] = Queue(args)

    def call_21(self, args, answer):
        queue = self.live(self.queues, args[0])
        waiters = queue.by_the_rule()
        must(answer.wakes == [(task, 30) for task in waiters],
             "delete wakes all waiters in order with 30")
        for task in waiters:
            del self.waits_on[task]
        del self.queues[args[0]]

    def call_23(self, args, answer):
        self.accepted(args, answer, lambda held: held + [args[1]])

    def call_24(self, args, answer):
        self.accepted(args, answer, lambda held: [args[1]] + held)

    def accepted(self, args, answer, placed):
        queue = self.live(self.queues, args[0])
        must(args[1] <= queue.longest, "a message that is too long")
        queue.accepted += 1
        if queue.queue:
            first = queue.by_the_rule()[0]
            must(answer.wakes == [(first, 0, args[1])], "%d is first" % first)
            queue.delivered += 1
            queue.leave(first)
            del self.waits_on[first]
        else:
            must(not answer.wakes, "nobody waits")
            queue.held = placed(queue.held)
        queue.balance()

    def call_25(self, args, answer):
        queue = self.live(self.queues, args[0])
        if answer.status == OK:
            must(queue.held[:1] == [answer.values[0]],
                 "another message is first")
            queue.held.pop(0)
            queue.delivered += 1
        else:
            must(args[1] == 0, "NOWAIT never waits")
            queue.join(self.running, self.priorities[self.running])
            self.waits_on[self.running] = queue
        queue.balance()

    def call_26(self, args, answer):
        queue = self.live(self.queues, args[0])
        must(answer.values == [queue.options,
                               queue.accepted - queue.delivered,
                               len(queue.queue), 0],
             "the books say %d held" % len(queue.held))

    # Pools.

    def call_14(self, args, answer):
        must(answer.values[0] not in self.pools, "identifier in use")
        self.pools[answer.values[0]] = Pool(args)

    def call_15(self, args, answer):
        pool = self.live(self.pools, args[0])
        must(not pool.out or pool.options == 1, "buffers are out")
        for start in pool.out:
            self.forget(start)
        del self.pools[args[0]]

    def call_17(self, args, answer):
        pool = self.live(self.pools, args[0])
        start = answer.values[0]
        must(pool.address <= start
             and start + pool.size <= pool.address + pool.length,
             "buffer not in its pool")
        self.put_out(start, start + pool.size)
        must(start == pool.longest_free(), "another has been free longer")
        pool.out.add(start)
        pool.gets += 1

    def put_out(self, start, end):
        at = bisect.bisect_left(self.starts, start)
        if at > 0:
            must(self.ends[self.starts[at - 1]] <= start, "buffers share")
        if at < len(self.starts):
            must(end <= self.starts[at], "buffers share a byte")
        self.starts.insert(at, start)
        self.ends[start] = end

    def forget(self, start):
        del self.starts[bisect.bisect_left(self.starts, start)]
        del self.ends[start]

    def call_18(self, args, answer):
        pool = self.live(self.pools, args[0])
        must(args[1] in pool.out, "buffer was not out")
        pool.out.remove(args[1])
        self.forget(args[1])
        pool.returns += 1
        pool.returned[args[1]] = pool.returns

    def call_19(self, args, answer):
        pool = self.live(self.pools, args[0])
        buffers = pool.length // pool.size
        out = pool.gets - pool.returns
        must(answer.values == [buffers, buffers - out, pool.size,
                               pool.options],
             "the books say %d out of %d" % (out, buffers))


def keep(script, listing):
    """Books a whole listing; gives the number of its records."""
    header = header_of(script)
    if header is None:
        must(listing == "script refused\n", "to be refused")
        return 0
    answers = answers_of(listing)
    must(len(answers) == header.count, "a line for each record")
    books = Books(header.priority)
    for number, (record, answer) in enumerate(
            zip(records_of(script), answers), 1):
        try:
            books.enter(*record, answer)
        except Wrong as wrong:
            raise Wrong("record %d: %s" % (number, wrong))
    return header.count


def pairs_of_files(names):
    for at in range(0, len(names), 2):
        with open(names[at], "rb") as script, open(names[at + 1]) as listing:
            yield names[at], script.read(), listing.read()


def pairs_of_seeds(program, seeds, records):
    import generate
    for seed in range(seeds[0], seeds[1] + 1):
        for profile in generate.PROFILES:
            script = generate.script(profile, seed, records)
            listing = subprocess.run([program], input=script, check=True,
                                     stdout=subprocess.PIPE).stdout.decode()
            yield "%s seed %d" % (profile, seed), script, listing


def main():
    parser = argparse.ArgumentParser(
        description=__doc__,
        formatter_class=argparse.RawDescriptionHelpFormatter)
    parser.add_argument("files", nargs="*")
    parser.add_argument("--program",
                        default=os.path.join(SECOND, "build", "second"))
    parser.add_argument("--seeds", type=int, nargs=2)
    parser.add_argument("--records", type=int, default=MOST_RECORDS)
    options = parser.parse_args()
    if len(options.files) % 2 or not (options.files or options.seeds):
        parser.error("a listing for each script, or --seeds")
    pairs = pairs_of_files(options.files)
    if options.seeds:
        pairs = pairs_of_seeds(options.program, options.seeds,
                               min(options.records, MOST_RECORDS))
    records = 0
    for name, script, listing in pairs:
        try:
            records += keep(script, listing)
        except (Wrong, ValueError) as wrong:
            sys.exit("%s: %s" % (name, wrong))
    print("the books of %d records balance" % records)


if __name__ == "__main__":
    main()
