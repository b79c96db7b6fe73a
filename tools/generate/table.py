# The tables of the state: a column is one line here.
# letter, struct, field of State, columns (name, width of an element in bytes, 0 for bool), length
TABLES = [
    ('L', 'Line', 'line', 32, [('left', 4), ('seat', 2), ('joined', 1), ('rings', 2)]),
    ('K', 'Tasks', 'tasks', 32, [('name', 4), ('serial', 2), ('live', 0), ('started', 0), ('suspended', 0), ('priority', 1)]),
    ('Q', 'Semaphores', 'semaphores', 16, [('name', 4), ('serial', 2), ('units', 2), ('live', 0), ('fifo', 0)]),
    ('P', 'Pools', 'pools', 8, [('out', 8), ('name', 4), ('address', 4), ('length', 4), ('size', 4), ('serial', 2), ('live', 0), ('forced', 0), ('place', 1)]),
    ('U', 'Queues', 'queues', 8, [('name', 4), ('serial', 2), ('live', 0), ('fifo', 0), ('limits', 1), ('held', 1), ('cells', 1)]),
]
# A table's name among its definitions, and what stands for it there.
FROM = {'L': 'line', 'K': 'tasks', 'Q': 'sems', 'P': 'pools', 'U': 'queues'}
VAR = {'L': 'l', 'K': 'k', 'Q': 'm', 'P': 'p', 'U': 'u'}
# A column that does not have one place for each slot: table, column, length.
LENGTHS = {('L', 'rings'): 1, ('P', 'place'): 512, ('U', 'limits'): 16, ('U', 'cells'): 8320}
# The image (docs/IMAGE.md): a header, then these tables, whose fields are these columns in order, then the ready order.
IMAGE = [
    ('tasks', [('K', None), ('L', ['left', 'seat', 'joined'])]),
    ('semaphores', [('Q', None)]),
    ('pools', [('P', None)]),
    ('queues', [('U', None)]),
]
IMAGE_HEADER, ORDER = 40, 32


def table(g):
    return next(t for t in TABLES if t[0] == g)

# how many places a column has
def long(g, c):
    return LENGTHS.get((g, c), table(g)[3])


# a table of the image: its slots, and its fields (column, bytes of a number, 0 for a yes or no, how many numbers a slot, its own table)
def image_fields(segs):
    n = table(segs[0][0])[3]
    return n, [(c, w, long(g, c) // n, g) for g, sub in segs for c, w in table(g)[4] if sub is None or c in sub]


def stride(fields):
    return sum(max(w, 1) * many for _, w, many, *_ in fields)


# each table of the image with the place of its first record and the bytes of one
def image_tables():
    at = IMAGE_HEADER
    for name, segs in IMAGE:
        n, fields = image_fields(segs)
        yield name, n, [f[:3] for f in fields], at, stride(fields)
        at += n * stride(fields)


# where each ends, and the bytes of all
ENDS = {name: at + n * each for name, n, _, at, each in image_tables()}
ORDER_AT = ENDS[IMAGE[-1][0]]
SIZE = ORDER_AT + ORDER
