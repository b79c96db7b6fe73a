# Prints parts of files that are otherwise written by hand: what differs only in the columns of the state stands there between two marks,
#   -- ( Printed by tools/generate/run: NAME
#   -- )
# (`//` for `--` in a source, `<!--` and `-->` in a page, `/*` and `*/` in C), and NAME is printed by BLOCKS[NAME].
import re

from fields import ONE, PLACED, all_of, arrows, column, flag_places, groups, own, places, tables_of, where, wide
from lines import read, rows
from table import FROM, ORDER_AT, SIZE, TABLES, VAR, long, table

NOTE = {'pools': "-- a pool's 64 places\n", 'queues': "-- a queue's most messages and longest message, and its 16 cells of 65 bytes\n"}


# ---- image/specs/Image.antt
def columns():
    o = []
    for name, (n, fields, at, S) in PLACED.items():
        one = lambda c, w, many: f'bytes {many} {c}' if many > 1 else f'each {w} {c}' if w else f'flags {c}'
        o.append(f'{NOTE.get(name, "")}abbrev pub {ONE[name]}_columns : {arrows(groups(fields))} → List Field\n{ONE[name]}_columns {all_of(fields)} =\n    '
                 + ''.join(f'{one(c, w, many)}\n    ∷ ' for c, w, many, _ in fields) + '[]\n')
    for name, (n, fields, at, S) in PLACED.items():
        gs = tables_of(name)
        head = f'{ONE[name]}_fields {" ".join(VAR[g] for g in gs)} ='
        line = f'{ONE[name]}_columns ' + ' '.join(f'{VAR[g]}.{c}' for c, _, _, g in fields)
        space = ' ' if len(head) + len(line) < 90 else '\n    '
        o.append(f'abbrev pub {ONE[name]}_fields : {" → ".join(table(g)[1] for g in gs)} → List Field\n{head}{space}{line}\n')
    return '\n'.join(o)


def header():
    return [1, SIZE] + [x for n, _, at, _ in PLACED.values() for x in (n, at)]


def numbers():
    return f'''-- which is the same for every state
abbrev pub header_numbers : List ℕ
header_numbers = {" ∷ ".join(str(x) for x in header())} ∷ []

abbrev pub image_size : ℕ
image_size = {SIZE}

-- where the ready order stands, and the tables before it: their first places, and the bytes of a record
abbrev pub order_at : ℕ
order_at = {ORDER_AT}
''' + ''.join(f'\nabbrev pub {name}_at : ℕ\n{name}_at = {at}\n\nabbrev pub {ONE[name]}_bytes : ℕ\n{ONE[name]}_bytes = {S}\n' for name, (_, _, at, S) in PLACED.items())


# ---- image/specs/Reading.antt
def is_on(w, text):
    return text if w else f'map is_on ({text})'


# a table's columns as they are read
def columns_read():
    o = []
    for name, (n, fields, at, S) in PLACED.items():
        many = 'many' if wide(name) else ''
        o.append(f'abbrev pub of_{ONE[name]} : {"ℕ → " * (1 + bool(many))}List ℕ → ℕ → List ℕ\n'
                 f'of_{ONE[name]} w {many}{" " * bool(many)}b at = take_column w {many or 1} {S} {n} b ({at} + at)\n')
    return '\n'.join(o)


# a table's columns one below the other, each as `said` has it by its place in the image; the rings follow from the seats
def each_read(g, said, indent):
    at = where()
    for c, w in table(g)[4]:
        text = is_on(w, said(*at[g, c])) if (g, c) in at else f'ring_mask ({said(*at["L", "seat"])}) ∷ []'
        yield f'{" " * indent}{c} = {text};\n'


def taken():
    parts = []
    for g, S, f, n, cs in TABLES:
        note = '-- the mask of the rings is that of the seats\n' if g == 'L' else ''
        parts.append(f'{note}abbrev pub {FROM[g]}_from : List ℕ → {S}\n{FROM[g]}_from b =\n    record {{\n{"".join(each_read(g, column, 6))}    }}\n')
    return ("-- What stands in the bytes: a column of each table, the first slot's at the place that docs/IMAGE.md gives.\n" + columns_read()
            + '\n' + '\n'.join(parts))


# ---- image/specs/Tests.antt
def flags():
    return ('unfoldable pub flags_right : List ℕ → Bool\nflags_right b =\n    '
            + '\n    && '.join(f'only_flags ({column(name, 1, 1, p)})' for name, p in flag_places()) + '\n')


# ---- image/proofs/Front.antt
def front():
    o = ''
    for name, (n, fields, at, S) in PLACED.items():
        f, many, m = ONE[name], 'many ' if wide(name) else '', 'many' if wide(name) else '1'
        o += f'  {f} : (w {many}at : ℕ) → {at} + at + {n} * {S} + {m} * w ≤ image_size + {S} → of_{f} w {many}(take image_size b) at ≡ of_{f} w {many}b at\n'
        o += f'  {f} w {many}at = column_front b image_size w {m} {S} {n} ({at} + at)\n\n'
    o += '  pub state_front : state_from (take image_size b) ≡ state_from b\n  unfolding state_from\n  state_front = λ i.\n      state_with\n'
    same = lambda name, w, many, p: f'{ONE[name]} {max(w, 1)} {f"{many} " if wide(name) else ""}{p} (lit≤ tt) i'
    for g, *_ in TABLES:
        o += '      (record {\n' + ''.join(each_read(g, same, 8)) + '      })\n'
    return o


# ---- image/proofs/Back.antt
def back():
    o = []
    for k, (name, (n, fields, at, S)) in enumerate(PLACED.items()):
        g = own(name)
        told = lambda j: 't' + '.1' * j + '.0'
        parts = [told(j) if w else f'flags_back s.{table(g)[2]}.{c} {told(j)}' for j, (c, w, many, h) in enumerate(fields) if h == g]
        line = f'      rw ({", ".join(parts)})\n'
        if len(line) > 120:
            line = '      rw (\n' + ''.join(f'        {p},\n' for p in parts) + '      )\n'
        o.append(f'  {FROM[g]}_back : {FROM[g]}_from (image_of s ++ rest) ≡ s.{table(g)[2]}\n  {FROM[g]}_back =\n      let t = all_read.1{".1" * k}.0 in\n{line}')
    return '\n'.join(o)


# ---- image/proofs/Tests.antt
# the first two in brackets, these and the third in brackets, and so on
def leftward(parts, start='(', between=', '):
    text = parts[0]
    for part in parts[1:]:
        text = f'{start}{text}{between}{part})'
    return text


def kept():
    all_ = [f'b {PLACED[name][3]} {PLACED[name][0]} {PLACED[name][2] + p}' for name, p in flag_places()]
    tells = leftward([f'(kept_tells {x})' for x in all_], '(tells_both _ _ ', ' ')
    return f'''abbrev AllKept : List ℕ → Type 0
AllKept b =
    {leftward([f'Kept {x}' for x in all_], between=' × ')}

flags_tells : (b : List ℕ) → Tells (flags_right b) (AllKept b)
unfolding flags_right
flags_tells b =
    {tells[1:-1]}
'''


def fine():
    o = []
    for name, (n, fields, at, S) in PLACED.items():
        parts = [f'num {w} {many} {S} {n} {at + p}' if w else f'flag {S} {n} {at + p}' for c, w, many, g, p in places(fields)]
        froms = ' '.join(f'({FROM[g]}_from b)' for g in tables_of(name))
        lines = [' '.join(f'(more ({p})' for p in parts[k:k + 3]) for k in range(0, len(parts), 3)]
        text = '\n      '.join(lines)[1:] + ' tt' + ')' * (len(parts) - 1)
        f = FROM[own(name)] + '_fine'
        o.append(f'  {f} : Fine {n} ({ONE[name]}_fields {froms})\n  {f} =\n      let num = number_fits b q in\n'
                 f'      let flag = flag_fits b q in\n      {text}\n')
    return '\n'.join(o)


# a pair of the first and a pair of the next and so on, in one line, or a level deeper each
def pairs(parts):
    return ''.join(f'({x}, ' for x in parts) + 'tt' + ')' * len(parts)


def nested(parts, indent):
    if len(parts) == 1:
        return parts[0]
    space = ' ' * (indent + 2)
    return f'(\n{space}{parts[0]},\n{space}{nested(parts[1:], indent + 2)},\n{" " * indent})'


def right():
    n = len(flag_places())
    told = iter(['f' + '.0' * (n - 1 - max(j, 1)) + ('.1' if j else '.0') if n > 1 else 'f' for j in range(n)])
    tables, flag = [], []
    for k, (name, (_, fields, _, _)) in enumerate(PLACED.items()):
        tables.append(pairs(['refl' if w else next(told) for c, w, many, g in fields]))
        flag += [f'r.1{".1" * k}.0' + '.1' * j + '.0' for j, (c, w, *_) in enumerate(fields) if not w]
    read = nested(tables + ['((one_row 32 32 b order_at ∙ r.1.1, tt), tt)'], 8)
    return f'''  right_read : Right b → TablesRead b (tables (state_from b)) 0
  unfolding state_from
  right_read r =
      let f = r.1.0 in (
        (r.0, tt),
        {read},
      )

  read_right : TablesRead b (tables (state_from b)) 0 → Right b
  unfolding state_from
  read_right r =
      let flags : AllKept b =
      {leftward(flag)} in
      (r.0.0, (flags, sym (one_row 32 32 b order_at) ∙ r.1{'.1' * len(tables)}.0.0))
'''


# ---- the sizes of a state's arrays: histories/specs/Sound.antt, histories/proofs/Fresh.antt, replies/proofs/Images.antt
def plural(c):
    return {'address': 'addresses', 'priority': 'priorities', 'rings': 'rings'}.get(c, c + 's')


def sized():
    return '\n'.join(f'pub record {FROM[g].capitalize()}Sized ({VAR[g]} : {S}) : Type 0 where\n'
                     + ''.join(f'  pub {plural(c)} : length {VAR[g]}.{c} ≡ {long(g, c)}\n' for c, _ in cs) for g, S, f, n, cs in TABLES)


# a record of records, by what is said of a column
def sizes(said):
    o = '    record {\n'
    for g, S, f, n, cs in TABLES:
        o += f'      {f} =\n          record {{\n' + ''.join(f'            {plural(c)} = {said(g, c)};\n' for c, _ in cs) + '          };\n'
    return o + '    }\n'


def fresh_sized():
    return 'fresh_sized : (p : ℕ) → Sized (fresh_state p)\nunfolding fresh_state\nfresh_sized p =\n' + sizes(lambda g, c: 'refl')


def sized_from():
    placed = where()

    def said(g, c):
        if (g, c) not in placed:
            return 'refl'
        name, w, many, p = placed[g, c]
        n, _, at, S = PLACED[name]
        return f'column_length {w} {many} {S} {n} b {at + p}' if w else f'flags_length 1 {S} {n} b {at + p}'
    return 'sized_from : (b : List ℕ) → Sized (state_from b)\nunfolding state_from\nsized_from b =\n' + sizes(said)


# the fields of tables without an object fit: replies/proofs/Fitting.antt
def fine_fresh():
    o = []
    for name in list(PLACED)[1:]:
        n, fields, at, S = PLACED[name]
        f = f'fine_{FROM[own(name)]}'
        zeros = lambda k: f'length-replicate {{A = ℕ}} {k} 0, (λ (k : ℕ). zeros_fit {k} k (lit< tt))'
        parts = [zeros(n * many) if w else f'length-map (replicate {n} false) bit, bits_fit (replicate {n} false)' for c, w, many, _ in fields]
        o.append(f'  {f} : Fine {n} ({ONE[name]}_fields no_{name})\n  {f} = {pairs(parts)}\n')
    return '\n'.join(o)


# ---- broken: two states are the same
def each_column():
    return [(f's.{f}.{c}', f'r.{f}.{c}', w) for g, S, f, n, cs in TABLES for c, w in cs]


def same():
    lines = [f'{"same" if w else "same_marks"} {s} {r}' for s, r, w in each_column()] + ['eqb s.running r.running']
    return ('-- "the given state back"\nabbrev pub same_state : State → State → Bool\nsame_state s r =\n    '
            + '\n    && ('.join(lines) + ')' * (len(lines) - 1) + '\n')


def same_self():
    lines = [f'both _ _ ({"same" if w else "marks"}_self {s})' for s, r, w in each_column()] + ['eq-eqb s.running s.running refl']
    return 'state_self : (s : State) → same_state s s ≡ true\nstate_self s =\n    ' + '\n    ('.join(lines) + ')' * (len(lines) - 1) + '\n'


# the good tables with one number changed
def changed(g):
    _, S, f, n, cs = table(g)
    return '    (record {\n' + ''.join(f'      {c} = {"numbers meant i x" if w else "marks meant i b"} {k} good_{f}.{c};\n' for k, (c, w) in enumerate(cs)) + '    })\n'


# ---- fresh: tables without an object
def empty():
    return '\n'.join(f'fn no_{f}() -> {S}\n    ensures {{ result ≡ no_{f} }}\n{{\n    {S} {{\n'
                     + ''.join(f'        {c}: [{"0" if w else "false"}; {long(g, c)}],\n' for c, w in cs) + '    }\n}\n' for g, S, f, n, cs in TABLES[2:])


# ---- docs/IMAGE.md, by tools/fields.tsv
KINDS = [('header', 1), ('task', 32), ('semaphore', 16), ('pool', 8), ('queue', 8), ('ready', 1)]
PARTS = {'task': 'tasks', 'semaphore': 'semaphores', 'pool': 'pools', 'queue': 'queues', 'ready': 'ready order'}


def field_rows(kind):
    return [(int(n), int(at), int(w), int(many), means) for k, n, at, w, many, _, means in rows('fields') if k == kind]


def page_parts():
    o, at = f'An image of edition 1 is {SIZE:,} bytes long.\n\n| Part | From | Records | Bytes of a record | Bytes |\n|---|---|---|---|---|\n', 0
    for kind, n in KINDS:
        _, last, w, many, _ = field_rows(kind)[-1]
        S = last + w * many
        o += f'| {PARTS.get(kind, kind)} | {at:,} | {n} | {S:,} | {n * S:,} |\n'
        at += n * S
    return o


def page(kind):
    values = header() if kind == 'header' else []
    said = lambda first, many: str(first) if many == 1 else f'{first} to {first + many - 1}'
    o = '| Number | Place | Bytes | What it is |' + (' In edition 1 |' if values else '') + '\n|---|---|---|---|' + ('---|' if values else '') + '\n'
    for n, at, w, many, means in field_rows(kind):
        o += f'| {said(n, many)} | {said(at, many)} | {w}{" each" if many > 1 else ""} | {means} |' + (f' {values[n]:,} |' if values else '') + '\n'
    return o


# ---- rows/src/lib.rt, by tools/calls.tsv
def known():
    return f'pub const CALLS: usize = {len(rows("calls"))};\n'


def who():
    return ''.join(f'    {row[2].upper()}, // {row[0]} {row[1]}\n' for row in rows('calls'))


def may():
    return ''.join(f'    {sum(1 << int(s) for s in row[5].split()):#x}, // {row[0]} {row[1]}\n' for row in rows('calls'))


# ---- include/dryswennol.h
def c_size():
    return f'    DRYSWENNOL_IMAGE_BYTES = {SIZE}, /* of an image of edition 1 (docs/IMAGE.md) */\n'


BLOCKS = {f.__name__: f for f in (columns, numbers, taken, flags, front, back, kept, fine, right, sized, fresh_sized, sized_from, fine_fresh,
                                  known, who, may, same, same_self, empty, page_parts, c_size)}
BLOCKS |= {'changed_pools': lambda: changed('P')} | {f'page_{kind}': lambda kind=kind: page(kind) for kind, _ in KINDS}

# the files that have such parts, and which
FILES = {
    'crates/rows/src/lib.rt': 'known who may',
    'crates/image/specs/Image.antt': 'columns numbers',
    'crates/image/specs/Reading.antt': 'taken',
    'crates/image/specs/Tests.antt': 'flags',
    'crates/image/proofs/Front.antt': 'front',
    'crates/image/proofs/Back.antt': 'back',
    'crates/image/proofs/Tests.antt': 'kept fine right',
    'crates/histories/specs/Sound.antt': 'sized',
    'crates/histories/proofs/Fresh.antt': 'fresh_sized',
    'crates/replies/proofs/Images.antt': 'sized_from',
    'crates/replies/proofs/Fitting.antt': 'fine_fresh',
    'crates/broken/specs/Broken.antt': 'changed_pools same',
    'crates/broken/proofs/Broken.antt': 'same_self',
    'crates/fresh/src/lib.rt': 'empty',
    'docs/IMAGE.md': ' '.join(f'page_{part}' for part in ['parts'] + [kind for kind, _ in KINDS]),
    'include/dryswennol.h': 'c_size',
}
# those that stand within a declaration
WITHIN = ['changed_pools', 'front']
MARKED = re.compile(r'^( *(?:--|//|<!--|/\*)) \( Printed by tools/generate/run: (\w+)( -->| \*/)?\n.*?^\1 \)(?: -->| \*/)?\n', re.M | re.S)


# the layout of proofs has a blank line between a declaration and the mark behind it
def marked(m):
    end = m[3] or ''
    blank = '\n' if m[1].endswith('--') and m[2] not in WITHIN and not end else ''
    return f'{m[1]} ( Printed by tools/generate/run: {m[2]}{end}\n{BLOCKS[m[2]]()}{blank}{m[1]} ){end}\n'


# a file with its parts printed; one whose marks are gone is not passed over
def with_parts(path, names):
    text = read(path)
    found = [m[2] for m in MARKED.finditer(text)]
    if found != names.split():
        raise SystemExit(f'tools/generate: {path} must have the marks of {names}, and has those of {" ".join(found) or "none"}')
    return MARKED.sub(marked, text)


def files():
    return {path: with_parts(path, names) for path, names in FILES.items()}
