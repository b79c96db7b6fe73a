"""The run as a Chrome trace, the JSON that Perfetto and chrome://tracing open.

Tasks are tracks and their states slices, waits by the name of what is waited
for; counts of semaphores, buffers out and what a queue holds are counters; a
lock's holder and a small pool's buffers have tracks too. Calls stand in a track of their own.
One record takes one millisecond.
"""

import json

from lib import tables
from lib import run as runs
from lib.rows import SMALL_POOL, handed_words, joined, state_words
from lib.words import call_words

A_RECORD = 1000                      # microseconds, the format's unit
CALLS, TASKS, COUNTS, HOLDS = 1, 2, 3, 4
GROUPS = {CALLS: "calls", TASKS: "tasks", COUNTS: "counts", HOLDS: "held"}
# Names of colours that both viewers know.
COLOURS = {runs.RUNNING: "thread_state_running",
           runs.READY: "thread_state_runnable",
           runs.WAITING: "thread_state_iowait",
           runs.SUSPENDED: "thread_state_sleeping",
           runs.NOT_STARTED: "white"}


class Trace:
    def __init__(self):
        self.events, self.tracks = [], {}
        for group, name in GROUPS.items():
            self.describe("process_name", group, 0, name=name)
            self.describe("process_sort_index", group, 0, sort_index=group)

    def describe(self, what, group, track, **arguments):
        self.events.append({"ph": "M", "name": what, "pid": group,
                            "tid": track, "args": arguments})

    def track(self, group, name):
        """The number of a track, which is described when it is new."""
        if (group, name) not in self.tracks:
            number = self.tracks[group, name] = len(self.tracks) + 1
            self.describe("thread_name", group, number, name=name)
            self.describe("thread_sort_index", group, number,
                          sort_index=number)
        return self.tracks[group, name]

    def slice(self, group, name, first, last, words, **more):
        """What holds after records first to last."""
        self.events.append({
            "ph": "X", "name": words, "pid": group,
            "tid": self.track(group, name), "ts": first * A_RECORD,
            "dur": (last - first + 1) * A_RECORD, **more})

    def instant(self, group, name, number, words, **arguments):
        self.events.append({
            "ph": "i", "s": "t", "name": words, "pid": group,
            "tid": self.track(group, name), "ts": number * A_RECORD,
            "args": arguments})

    def counter(self, name, number, **values):
        self.events.append({"ph": "C", "name": name, "pid": COUNTS, "tid": 0,
                            "ts": number * A_RECORD, "args": values})

    def text(self, name):
        """One event a line."""
        events = ",\n".join(map(json.dumps, self.events))
        about = json.dumps({"run of": name, "time": "1 ms is a record"})
        return ('{"displayTimeUnit": "ms",\n"otherData": %s,\n'
                '"traceEvents": [\n%s\n]}\n' % (about, events))


def call_parts(trace, run):
    for event in run.events:
        refused = tables.is_refusal(event.answer.status)
        trace.slice(
            CALLS, "calls", event.number, event.number,
            call_words(event.number, event.record, run.labels),
            cname="terrible" if refused else "good",
            args={"record": event.number,
                  "status": tables.STATUSES[event.answer.status].name,
                  "values": list(event.answer.values)})


def task_parts(trace, run):
    for slot in sorted(run.spans["task"]):
        for span in joined(run.spans["task"][slot]):
            trace.slice(
                TASKS, run.labels.whole("task", span.view.identifier),
                span.first, span.last, state_words(span.view, run.labels),
                cname=COLOURS[span.view.state],
                args={"priority": span.view.priority})
    for event in run.events:
        for wake in event.wakes:
            trace.instant(TASKS, run.labels.whole("task", wake.task),
                          event.number, "woken: "
                          + tables.STATUSES[wake.status].name
                          + handed_words(event, wake), record=event.number)


def count_parts(trace, run):
    for kind, *values in (("semaphore", "count"), ("pool", "out"),
                          ("queue", "held", "waiting")):
        for slot in sorted(run.spans[kind]):
            for span in run.spans[kind][slot]:
                name = "%s: %s" % (run.labels.whole(
                    kind, span.view.identifier), " and ".join(values))
                trace.counter(name, span.first, **{
                    value: getattr(span.view, value) for value in values})


def held_parts(trace, run):
    for slot in sorted(run.spans["semaphore"]):
        for span in runs.holds_of(run.spans["semaphore"][slot]):
            semaphore, holder = span.view
            trace.slice(HOLDS, run.labels.whole("semaphore", semaphore),
                        span.first, span.last,
                        run.labels.thing("task", holder))
    small = {span.view.identifier for spans in run.spans["pool"].values()
             for span in spans if span.view.buffers <= SMALL_POOL}
    for held in sorted(run.held, key=lambda held: (held.pool, held.place)):
        if held.pool in small:
            trace.slice(HOLDS, "%s of %s" % (
                run.labels.address(held.pool, held.address),
                run.labels.whole("pool", held.pool)), held.first, held.last,
                run.labels.thing("task", held.holder))


def trace_of(run, name):
    trace = Trace()
    for part in (call_parts, task_parts, count_parts, held_parts):
        part(trace, run)
    return trace.text(name)
