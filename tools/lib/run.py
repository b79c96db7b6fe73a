"""What happened in a run, from the script's calls and the listing's answers.

Nothing is decided here: a call changes what the answer says it changed. Where
the answers contradict one another (a task runs that waits, sem_info counts
otherwise) the run keeps a doubt for its reader and goes on.
"""

from collections import namedtuple

from lib import messages, reader, tables
from lib.names import Names

# What a row of the picture shows of an object between two records.
TaskView = namedtuple("TaskView", "identifier state waits_on suspended "
                                  "priority")
SemaphoreView = namedtuple("SemaphoreView", "identifier count holder")
PoolView = namedtuple("PoolView", "identifier out buffers")
QueueView = namedtuple("QueueView", "identifier held waiting most")

# A view that holds after records first to last; 0 is before the first.
Span = namedtuple("Span", "first last view")
# A buffer of a pool that is out after records first to last, and who got it.
Held = namedtuple("Held", "first last pool place address holder")
# A message that a record handed to a task that waited for it.
Delivery = namedtuple("Delivery", "number queue task message")
Event = namedtuple("Event", "number record answer caller wakes tick")
Doubt = namedtuple("Doubt", "number words")

RUNNING, READY, WAITING = "running", "ready", "waiting"
SUSPENDED, NOT_STARTED = "suspended", "not started"


class Task:
    def __init__(self, identifier, name, priority):
        self.identifier, self.name, self.priority = identifier, name, priority
        self.started = self.suspended = False
        self.waits_on = None         # (kind, identifier)

    def view(self, running):
        if self.identifier == running:
            state = RUNNING
        elif not self.started:
            state = NOT_STARTED
        elif self.waits_on:
            state = WAITING
        else:
            state = SUSPENDED if self.suspended else READY
        return TaskView(self.identifier, state, self.waits_on,
                        self.suspended, self.priority)


class Semaphore:
    def __init__(self, identifier, name, count):
        self.identifier, self.name, self.count = identifier, name, count
        self.is_lock = count == 1    # until it counts higher
        self.holders = []

    def release(self, caller):
        """Its caller's one comes back, or the one that is out longest."""
        self.count += 1
        self.is_lock = self.is_lock and self.count <= 1
        if caller in self.holders:
            self.holders.remove(caller)
        elif self.holders:
            self.holders.pop(0)

    def view(self, _running):
        holder = self.holders[0] if self.is_lock and self.holders else None
        return SemaphoreView(self.identifier, self.count, holder)


class Pool:
    def __init__(self, identifier, name, address, length, size):
        self.identifier, self.name = identifier, name
        self.address, self.size = address, size
        self.buffers = length // size if size else 0
        self.held = {}               # address to the Held that is open
        self.free = [address + size * k for k in range(self.buffers)]  # longest free first

    @property
    def out(self):
        return len(self.held)

    def view(self, _running):
        return PoolView(self.identifier, self.out, self.buffers)


class Queue:
    def __init__(self, identifier, name, most):
        self.identifier, self.name, self.most = identifier, name, most
        self.held, self.waiting = [], 0      # messages, tasks

    def view(self, _running):
        return QueueView(self.identifier, len(self.held), self.waiting,
                         self.most)


class State:
    """The live objects as the answers tell of them."""

    def __init__(self, priority):
        self.objects = {kind: {} for kind in tables.TABLES}
        self.running = tables.FIRST_TASK
        self.number = 0              # of the record that is taken in
        self.names, self.pools, self.held = {}, {}, []
        self.deliveries = []
        first = Task(tables.FIRST_TASK, 0, priority)
        first.started = True
        self.add("task", first)

    def find(self, kind, identifier):
        if kind == "task" and identifier == tables.SELF:
            identifier = self.running
        return self.objects[kind].get(identifier)

    def add(self, kind, thing):
        self.objects[kind][thing.identifier] = thing
        self.names[kind, thing.identifier] = thing.name

    def end(self, kind, thing):
        del self.objects[kind][thing.identifier]

    def give_back(self, task):
        """A waiter that leaves a semaphore ungranted "gives its one back";
        one that leaves a queue waits there no more."""
        where = self.find(*task.waits_on) if task.waits_on else None
        if isinstance(where, Semaphore):
            where.count += 1
        elif isinstance(where, Queue):
            where.waiting -= 1

    def wake(self, task, status):
        where = self.find(*task.waits_on) if task.waits_on else None
        if status == tables.TIMED_OUT or isinstance(where, Queue):
            self.give_back(task)
        elif status == tables.GRANTED and isinstance(where, Semaphore):
            where.holders.append(task.identifier)
        task.waits_on = None

    def let_go(self, pool, address):
        """A buffer that was out until this record."""
        held = pool.held.pop(address, None)
        if held:
            pool.free.append(address)
            self.held.append(held._replace(last=self.number - 1))


# One function for each call that changes something: the state, the object of
# the first argument (None for creates and ticks), the record, the answer.

def task_create(state, _thing, record, answer):
    state.add("task", Task(answer.values[0], *record.arguments[:2]))


def task_delete(state, task, _record, _answer):
    state.give_back(task)
    state.end("task", task)


def task_start(_state, task, _record, _answer):
    task.started = True


def task_suspend(_state, task, _record, _answer):
    task.suspended = True


def task_resume(_state, task, _record, _answer):
    task.suspended = False


def task_set_priority(_state, task, record, _answer):
    task.priority = record.arguments[1]


def sem_create(state, _thing, record, answer):
    state.add("semaphore", Semaphore(answer.values[0], *record.arguments[:2]))


def sem_delete(state, semaphore, _record, _answer):
    state.end("semaphore", semaphore)


def sem_claim(state, semaphore, _record, answer):
    semaphore.count -= 1
    caller = state.find("task", tables.SELF)
    if answer.status == tables.PENDING and caller:
        caller.waits_on = ("semaphore", semaphore.identifier)
    elif answer.status == tables.OK:
        semaphore.holders.append(state.running)


def sem_release(state, semaphore, record, _answer):
    semaphore.release(state.running if record.mark == tables.BY_TASK
                      else None)


def sem_info(_state, semaphore, _record, answer):
    if answer.values[1] != semaphore.count:
        return ("sem_info answers count %d where the calls before make %d"
                % (answer.values[1], semaphore.count))


def pool_create(state, _thing, record, answer):
    pool = Pool(answer.values[0], *record.arguments[:4])
    state.add("pool", pool)
    state.pools[pool.identifier] = pool


def pool_delete(state, pool, _record, _answer):
    for address in list(pool.held):
        state.let_go(pool, address)
    state.end("pool", pool)


def pool_get_buff(state, pool, _record, answer):
    address = answer.values[0]
    place = (address - pool.address) // pool.size if pool.size else 0
    doubt = None
    if address in pool.held:
        doubt = "address %d is handed out twice" % address
    elif pool.free[:1] != [address]:
        longest = "%d has been free longer" % pool.free[0] if pool.free else "none is free"
        doubt = "address %d is handed out, but %s" % (address, longest)
    if address in pool.free:
        pool.free.remove(address)
    pool.held[address] = Held(state.number, None, pool.identifier, place,
                              address, state.running)
    return doubt


def pool_ret_buff(state, pool, record, _answer):
    if record.arguments[1] not in pool.held:
        return "address %d comes back, but was not out" % record.arguments[1]
    state.let_go(pool, record.arguments[1])


def pool_info(_state, pool, _record, answer):
    if answer.values[1] != pool.buffers - pool.out:
        return ("pool_info answers %d free where the calls before leave %d"
                % (answer.values[1], pool.buffers - pool.out))


def queue_create(state, _thing, record, answer):
    state.add("queue", Queue(answer.values[0], *record.arguments[:2]))


def queue_delete(state, queue, _record, _answer):
    state.end("queue", queue)


def queue_send(state, queue, record, answer):
    return accepted(state, queue, record, answer, len(queue.held))


def queue_jump(state, queue, record, answer):
    return accepted(state, queue, record, answer, 0)


def accepted(state, queue, record, answer, place):
    """A message goes to a waiter, or else to its place among those held."""
    message = messages.sent(record)
    for wake in answer.wakes:
        state.deliveries.append(Delivery(state.number, queue.identifier,
                                         wake.task, message))
        if wake.length != len(message):
            return "task %d is handed %d bytes where %d were sent" % (
                wake.task, wake.length, len(message))
    if answer.wakes:
        return None
    queue.held.insert(place, message)
    if queue.waiting:
        return "queue %d holds a message while tasks wait" % queue.identifier


def queue_receive(state, queue, _record, answer):
    caller = state.find("task", tables.SELF)
    if answer.status == tables.PENDING:
        queue.waiting += 1
        if caller:
            caller.waits_on = ("queue", queue.identifier)
        if queue.held:
            return "task %d waits, but queue %d holds a message" % (
                state.running, queue.identifier)
        return None
    message = queue.held.pop(0) if queue.held else b""
    if len(message) != answer.values[0]:
        return ("queue_receive answers %d bytes where the first message held "
                "has %d" % (answer.values[0], len(message)))


def queue_info(_state, queue, _record, answer):
    if answer.values[1:3] != (len(queue.held), queue.waiting):
        return ("queue_info answers %d held and %d waiting where the calls "
                "before make %d and %d" % (*answer.values[1:3],
                                           len(queue.held), queue.waiting))


EFFECTS = {effect.__name__: effect for effect in (
    task_create, task_delete, task_start, task_suspend, task_resume,
    task_set_priority, sem_create, sem_delete, sem_claim, sem_release,
    sem_info, pool_create, pool_delete, pool_get_buff, pool_ret_buff,
    pool_info, queue_create, queue_delete, queue_send, queue_jump,
    queue_receive, queue_info)}


def change(state, record, answer):
    """Takes one answer in; gives a doubt in words, or None."""
    call = tables.call_of(record.call)
    if call is None:
        return "an unknown call was answered %s" % (
            tables.STATUSES[answer.status].name)
    effect = EFFECTS.get(call.name)
    if effect is None:
        return None
    thing = None
    if not call.makes:
        kind = call.arguments[0].kind
        thing = state.find(kind, record.arguments[0])
        if thing is None:
            return "%s was answered %s, but no %s %d is known" % (
                call.name, tables.STATUSES[answer.status].name, kind,
                record.arguments[0])
    return effect(state, thing, record, answer)


def woken(state, answer):
    """Takes the wake list in; gives the doubts in words."""
    for wake in answer.wakes:
        task = state.find("task", wake.task)
        if task is None or task.waits_on is None:
            yield "task %d is woken, but does not wait" % wake.task
        if task:
            state.wake(task, wake.status)


def run_doubt(state):
    """Whether the task said to run can, as far as the answers tell."""
    if state.running == 0:
        return None
    task = state.objects["task"].get(state.running)
    if task is None:
        return "task %d runs, but no such task is known" % state.running
    if not task.started or task.suspended or task.waits_on:
        return "task %d runs, but is %s" % (
            task.identifier, task.view(None).state)
    return None


def holds_of(spans):
    """The spans in which a semaphore of initial count 1 is held: the view is
    the semaphore and its holder, whatever the count does meanwhile."""
    result = []
    for span in spans:
        now = (span.view.identifier, span.view.holder)
        last = result[-1] if result else None
        if last and last.view == now and last.last + 1 == span.first:
            result[-1] = last._replace(last=span.last)
        elif span.view.holder is not None:
            result.append(Span(span.first, span.last, now))
    return result


class Run:
    """Spans for each slot of each table, events, and doubts."""

    def __init__(self, records, answers, priority, notes=None):
        self.labels = Names(notes or reader.Notes(), records, answers)
        self.priority, self.last = priority, len(records)
        self.spans = {kind: {} for kind in tables.TABLES}
        self.events, self.doubts = [], []
        self.idle = []               # spans in which nothing runs
        self.ticks = 0
        self.open = {}
        state = State(priority)
        self.names = state.names     # (kind, identifier) to name
        self.pools = state.pools     # identifier to pool, gone ones too
        self.held = state.held       # buffers that were out, and for how long
        self.deliveries = state.deliveries
        self.look(0, state)
        for number, (record, answer) in enumerate(zip(records, answers), 1):
            before = state.running
            self.take(number, state, record, answer)
            if before != state.running or not tables.is_refusal(answer.status):
                self.look(number, state)
        self.close_all()
        for pool in state.objects["pool"].values():
            self.held += [held._replace(last=self.last)
                          for held in pool.held.values()]

    def take(self, number, state, record, answer):
        state.number = number
        caller = state.running if record.mark == tables.BY_TASK else None
        doubts = []
        if not tables.is_refusal(answer.status):
            doubts.append(change(state, record, answer))
            doubts += woken(state, answer)
        state.running = answer.running
        doubts.append(run_doubt(state))
        self.doubts += [Doubt(number, words) for words in doubts if words]
        tick = None
        if record.call == tables.NUMBER_OF["tick"] and answer.status == 0:
            self.ticks += 1
            tick = self.ticks
        self.events.append(Event(number, record, answer, caller,
                                 answer.wakes, tick))

    def look(self, number, state):
        """Notes what each slot shows after this record."""
        seen = {("idle", 0): True} if state.running == 0 else {}
        for kind, objects in state.objects.items():
            for thing in objects.values():
                slot = tables.slot_of(thing.identifier)
                seen[kind, slot] = thing.view(state.running)
        for place in [place for place, (_, view) in self.open.items()
                      if seen.get(place) != view]:
            self.close(place, number)
        for place, view in seen.items():
            if place not in self.open:
                self.open[place] = (number, view)

    def close(self, place, number):
        if place not in self.open:
            return
        first, view = self.open.pop(place)
        kind, slot = place
        spans = (self.idle if kind == "idle"
                 else self.spans[kind].setdefault(slot, []))
        spans.append(Span(first, number - 1, view))

    def close_all(self):
        for place in list(self.open):
            self.close(place, self.last + 1)

    def refusals(self):
        return [event for event in self.events
                if tables.is_refusal(event.answer.status)]
