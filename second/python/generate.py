#!/usr/bin/env python3
"""Seeded scripts: generate.py --profile P --seed N --records M -o FILE

A profile is a table of calls and weights, with a first part where the tables
must be filled. Together the profiles reach every status of every call row.
A slot that is used up needs 65,535 creations; one script holds 2,340 records,
so no script can show it.
"""

import argparse
import random
import struct
import sys

from aim import Aim, TOP
from scripts import MOST_BYTES, MOST_RECORDS, script_of

ALL = {name: 2 for name in """tick task_create task_delete task_ident
    task_start task_suspend task_resume task_set_priority sem_create
    sem_delete sem_ident sem_claim sem_release sem_info pool_create
    pool_delete pool_ident pool_get_buff pool_ret_buff pool_info
    queue_create queue_delete queue_ident queue_send queue_jump
    queue_receive queue_info unknown_call""".split()}

INFO = {"sem_info": 4, "tick": 3}


def weights(only=None, **more):
    table = dict(ALL if only is None else only)
    table.update(more)
    return table


def play(aim, table, records):
    """Adds calls by weight until there are so many records."""
    names, numbers = list(table), list(table.values())
    while len(aim.records) < records:
        revive(aim)
        getattr(aim, aim.rng.choices(names, numbers)[0])()


def revive(aim):
    """With nothing running only a tick or an interrupt's release, send or
    jump helps."""
    if aim.model.order or aim.rng.random() < .5:
        return
    waited = [(12, s) for s in aim.model.semaphores.live() if s["queue"]]
    waited += [(call, q) for q in aim.model.queues.live() if q["queue"]
               for call in (23, 24)]
    if waited and aim.rng.random() < .7:
        call, thing = aim.rng.choice(waited)
        aim.do(call, thing["id"], 0, mark=1)
    else:
        aim.do(0, mark=1)


def mixed(seed, records):
    aim = Aim(seed, seed % 16, wild=.1, anchor=seed % 2 == 0)
    play(aim, weights(task_create=4, task_start=5, task_resume=3,
                      sem_claim=6, sem_release=4), records)
    return aim


def tasks(seed, records):
    aim = Aim(seed, seed % 16)
    play(aim, weights({}, task_create=6, task_delete=3, task_ident=2,
                      task_start=6, task_suspend=6, task_resume=6,
                      task_set_priority=8, tick=1), records)
    return aim


def semaphores(seed, records):
    aim = Aim(seed, 0)
    play(aim, weights(INFO, task_create=4, task_start=6, task_delete=1,
                      sem_create=2, sem_delete=1, sem_ident=1, sem_claim=20,
                      sem_release=10, task_set_priority=2), records)
    return aim


def first_tasks(aim, number):
    """Started tasks above the first one, of all priorities."""
    for _ in range(number):
        aim.do(1, 5, aim.rng.randrange(1, 16), mark=0)
        aim.do(4, aim.model.tasks.live()[-1]["id"], mark=0)


def all_wait(aim, semaphore):
    """Whoever runs claims, until only the first task is left."""
    while aim.model.running() not in (64, 0):
        aim.do(11, semaphore, 0, aim.rng.choice([9, 30, TOP]), mark=0)


def long_queues(seed, records):
    aim = Aim(seed, 0, wild=.02)
    aim.do(8, 1, 0, seed % 2, mark=0)
    first_tasks(aim, 31)
    all_wait(aim, 64)
    while len(aim.records) < records:
        count = len(aim.records) + aim.rng.randrange(20, 60)
        play(aim, weights(INFO, task_suspend=4, task_resume=4, sem_release=3,
                          task_set_priority=5, task_delete=.3, tick=4,
                          task_create=1, task_start=1), min(count, records))
        if len(aim.records) < records:
            all_wait(aim, 64)
    return aim


def time_outs(seed, records):
    aim = Aim(seed, 0, wild=.02)
    aim.do(8, 1, 0, seed % 2, mark=0)
    aim.do(8, 2, 1, 1 - seed % 2, mark=0)
    first_tasks(aim, 12)
    play(aim, weights(INFO, sem_claim=24, tick=14, task_suspend=4,
                      task_resume=5, sem_release=2, task_create=1,
                      task_start=2, task_delete=.5), records)
    return aim


def priorities(seed, records):
    aim = Aim(seed, 0, wild=.02)
    aim.do(8, 1, 0, 0, mark=0)
    first_tasks(aim, 20)
    play(aim, weights(INFO, sem_claim=20, sem_release=6,
                      task_set_priority=14, tick=3, task_suspend=1,
                      task_resume=2, sem_create=.2), records)
    return aim


def full_tables(seed, records):
    aim = Aim(seed, 8, wild=.04)
    for _ in range(40):
        aim.task_create()
        aim.sem_create()
        aim.pool_create()
        aim.queue_create()
    play(aim, weights(task_create=8, sem_create=8, pool_create=8,
                      queue_create=8, task_ident=4, sem_ident=4,
                      pool_ident=4, queue_ident=4), records)
    return aim


def serials(seed, records):
    aim = Aim(seed, 3, wild=.25)
    play(aim, weights(ALL, task_create=9, task_delete=9, sem_create=9,
                      sem_delete=9, pool_create=9, pool_delete=9,
                      queue_create=9, queue_delete=9), records)
    return aim


QUEUE_CALLS = dict(queue_create=3, queue_delete=1, queue_ident=1,
                   queue_send=12, queue_jump=5, queue_receive=20,
                   queue_info=4)


def queues(seed, records):
    """Queues and semaphores of the same identifiers, and waiters in both."""
    aim = Aim(seed, 0, wild=.06, anchor=seed % 4 != 0)
    aim.do(8, 1, 0, seed % 2, mark=0)
    aim.do(8, 2, 1, 1 - seed % 2, mark=0)
    aim.do(20, 1, 2, 12, seed % 2, mark=0)
    aim.do(20, 2, 16, 64, 1 - seed % 2, mark=0)
    first_tasks(aim, 12)
    while len(aim.records) < records:
        count = len(aim.records) + aim.rng.randrange(30, 90)
        play(aim, weights(QUEUE_CALLS, tick=5, task_create=1, task_start=2,
                          task_delete=.5, task_suspend=3, task_resume=4,
                          task_set_priority=3, sem_claim=3, sem_release=2,
                          sem_info=2), min(count, records))
        if len(aim.records) < records:
            fill_and_drain(aim)
    return aim


def fill_and_drain(aim):
    """Sends and jumps until a queue is full and more, then receives until it
    is empty and more: each message comes when it must."""
    live = aim.model.queues.live()
    if not live or not aim.model.order:
        return
    queue = aim.rng.choice(live)
    for _ in range(queue["most"] + 2 + len(queue["queue"])):
        length = aim.rng.randrange(queue["longest"] + 1)
        aim.do(aim.rng.choice([23, 23, 24]), queue["id"], length,
               aim.rng.randrange(TOP + 1), aim.rng.randrange(TOP + 1),
               aim.rng.randrange(TOP + 1), mark=aim.rng.choice([0, 1]))
    for _ in range(aim.rng.choice([0, 3, queue["most"] + 1])):
        aim.do(25, queue["id"], 1, 0, mark=0)


POOL_CALLS = dict(pool_create=6, pool_delete=3, pool_ident=1,
                  pool_get_buff=16, pool_ret_buff=10, pool_info=5)


def pools(seed, records):
    aim = Aim(seed, 1, wild=.04)
    play(aim, weights(POOL_CALLS), records)
    return aim


def pool_edges(seed, records):
    aim = Aim(seed, 1, wild=.4)
    play(aim, weights(POOL_CALLS, pool_create=14, pool_delete=6), records)
    return aim


def nothing_runs(seed, records):
    """Ends with no task that could ever run; before, most runs come back."""
    aim = Aim(seed, seed % 16, wild=.04, anchor=False, may_stop=True)
    aim.do(8, 1, 0, seed % 2, mark=0)
    first_tasks(aim, aim.rng.choice([3, 31]))
    while aim.model.order:
        aim.do(11, 64, 0, aim.rng.choice([2, 5, TOP]), mark=0)
    play(aim, weights(INFO, sem_claim=24, task_delete=.1, task_suspend=.2,
                      task_resume=4, sem_release=2, task_ident=1),
         records * 3 // 4)
    while aim.model.order and len(aim.records) < records:
        aim.do(aim.rng.choice([2, 5]), 0, mark=0)
    play(aim, weights(), records)
    return aim


def identifiers(seed, records):
    aim = Aim(seed, 15, wild=.6)
    play(aim, weights(unknown_call=0, task_create=4, sem_create=4,
                      pool_create=4, queue_create=4), records)
    return aim


def refusals(seed, records):
    aim = Aim(seed, 4, wild=.5, anchor=False)
    play(aim, weights(unknown_call=6, task_suspend=1, task_delete=.2),
         records)
    return aim


def chaos(seed, records):
    """Numbers at random, small ones more often."""
    aim = Aim(seed, seed % 16, may_stop=seed % 4 == 0)
    first_tasks(aim, 6)
    draw = lambda: aim.rng.choice([
        aim.rng.randrange(4), aim.rng.randrange(64, 72),
        aim.rng.randrange(256), aim.rng.randrange(TOP + 1)])
    while len(aim.records) < records:
        revive(aim)
        call, five = aim.rng.randrange(28), [draw() for _ in range(5)]
        if call in (2, 5) and aim.would_stop(five[0]):
            call = 4
        aim.do(call, *five, mark=aim.rng.choice([0, 0, 0, 0, 1, draw()]))
    return aim


AIMED = {each.__name__: each for each in [
    mixed, tasks, semaphores, queues, long_queues, time_outs, priorities,
    full_tables, serials, pools, pool_edges, nothing_runs, identifiers,
    refusals, chaos]}


def layout(seed, records):
    """Bytes before and after the records, at any offset."""
    rng = random.Random("layout %d" % seed)
    before = rng.randbytes(rng.choice([1, 2, 3, 4, 5, 28, 1000]))
    after = rng.randbytes(rng.choice([0, 1, 2, 3, 27, 28, 29]))
    room = MOST_RECORDS - (len(before) + len(after)) // 28 - 1
    aim = mixed(seed, min(records, room))
    return script_of(aim.priority, aim.records, before, after)


def patched(script, at, number):
    return script[:at] + struct.pack("<I", number) + script[at + 4:]


def damaged(seed, records):
    """A good script with one thing wrong, or bytes at random."""
    rng = random.Random("damaged %d" % seed)
    aim = mixed(seed, min(records, 50))
    good = script_of(aim.priority, aim.records)
    count = len(aim.records)
    return rng.choice([
        lambda: good[:rng.randrange(16)],
        lambda: good[:rng.randrange(16, len(good))],
        lambda: good[:-1],
        lambda: patched(good, 0, count + 1),
        lambda: patched(good, 0, TOP),
        lambda: patched(good, 0, rng.choice([2 ** 32 // 28 + 1, 2 ** 30])),
        lambda: patched(good, 4, rng.randrange(16)),
        lambda: patched(good, 4, rng.choice([17, 20, len(good), TOP - 27])),
        lambda: patched(good, 8, rng.choice([16, 17, TOP])),
        lambda: patched(good, 12, rng.choice([1, 2 ** 31, TOP])),
        lambda: rng.randbytes(rng.randrange(200)),
        lambda: good + bytes(MOST_BYTES + 1 - len(good)),
    ])()


def script(profile, seed, records):
    """The bytes of the script of that profile and seed."""
    if profile in ("layout", "damaged"):
        return globals()[profile](seed, records)
    aim = AIMED[profile](seed, records)
    return script_of(aim.priority, aim.records[:records])


PROFILES = list(AIMED) + ["layout", "damaged"]


def main():
    parser = argparse.ArgumentParser(description=__doc__)
    parser.add_argument("--profile", choices=PROFILES, required=True)
    parser.add_argument("--seed", type=int, default=1)
    parser.add_argument("--records", type=int, default=500)
    parser.add_argument("-o", "--output")
    options = parser.parse_args()
    records = min(options.records, MOST_RECORDS)
    made = script(options.profile, options.seed, records)
    if options.output:
        with open(options.output, "wb") as out:
            out.write(made)
    else:
        sys.stdout.buffer.write(made)


if __name__ == "__main__":
    main()
