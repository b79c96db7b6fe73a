# What is said of the image's tables in definitions and lemmas: their names there, and their fields in words of the language.
from table import IMAGE, image_fields, image_tables


def list_type(w):
    return 'List ℕ' if w else 'List Bool'

# each table: its slots, its fields, the place of its first record, and the bytes of one
PLACED = {name: (n, image_fields(dict(IMAGE)[name])[1], at, S) for name, n, _, at, S in image_tables()}
ONE = {'tasks': 'task', 'semaphores': 'sem', 'pools': 'pool', 'queues': 'queue'}


# names with their types, those of one type together
def groups(fields, first=(), last=()):
    runs = []
    typed = [(x, 'List ℕ') for x in first] + [(c, list_type(w)) for c, w, _, _ in fields] + [(x, 'List ℕ') for x in last]
    for name, ty in typed:
        if runs and runs[-1][1] == ty:
            runs[-1][0].append(name)
        else:
            runs.append(([name], ty))
    return [f'{" ".join(names)} : {ty}' for names, ty in runs]


def arrows(runs):
    return ' → '.join(f'({run})' for run in runs)


def all_of(fields):
    return ' '.join(c for c, *_ in fields)


# each field with its place in the record
def places(fields):
    at = 0
    for c, w, many, g in fields:
        yield c, w, many, g, at
        at += max(w, 1) * many


# where a column stands in the image: its table, bytes of a number, how many numbers a slot, place in the record
def where():
    return {(g, c): (name, w, many, p) for name, (_, fields, _, _) in PLACED.items() for c, w, many, g, p in places(fields)}


def wide(name):
    return any(many > 1 for _, _, many, _ in PLACED[name][1])


# the tables of the state whose columns a table of the image has, the line first
def tables_of(name):
    return sorted(dict.fromkeys(g for *_, g in PLACED[name][1]), key=lambda g: g != 'L')


# the table of the state that it is named for
def own(name):
    return PLACED[name][1][0][3]


# a column as it stands in the bytes `b`, read by the table's reader
def column(name, w, many, at):
    return f'of_{ONE[name]} {max(w, 1)} {f"{many} " if wide(name) else ""}b {at}'


# each place of a yes or no: its table and its place in the record
def flag_places():
    return [(name, p) for name, (_, fields, _, _) in PLACED.items() for c, w, many, g, p in places(fields) if not w]
