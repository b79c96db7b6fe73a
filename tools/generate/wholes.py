# Prints definitions and lemmas that have a file each: histories/proofs/Lengths.antt, writing/specs/Written.antt.
from blocks import header, plural
from fields import ONE, PLACED, all_of, arrows, groups, own
from table import FROM, ORDER, TABLES, VAR, table

LENGTHS = '''-- A table whose columns are as long as those of another is sized as that one is: said once for all its columns, so that a call which sets
-- some of them shows only that setting leaves a length. Printed by tools/generate/run.
-- Assumes nothing.
use Prim.Native.Nat.{ℕ}
use mathlib.Core.Path.{◌≡◌, ap, ◌∙◌}
use mathlib.Core.List.{List, [], ◌∷◌}
use lib.ListN.{length, get_or}
'''
WRITTEN = '''-- The tables of a state put into an image one after the other: the bytes after each. (image's specs/Image.antt.) Printed by tools/generate/run.
-- Assumes nothing.
use Rattle.std.specs.Prelude.{ℕ, Bool, List, [], ◌∷◌}
use Rattle.scope.specs.declared.State.{State}
use Rattle.fields.specs.Fields.{put_fields}
use Rattle.orders.specs.Places.{order_places}
'''
NOTE = {'tasks': '-- the header, and then the tasks\n', 'queues': '-- the queues, and then the ready order, which follows from the seats\n'}


def brought(module, names):
    return f'use Rattle.{module}.{{{", ".join(names)}}}\n'


def lengths():
    tables = TABLES[1:]
    o = LENGTHS + ''.join(brought(f'scope.specs.declared.{t[1]}', [t[1]]) for t in tables)
    o += brought('histories.specs.Sound', [f'{FROM[t[0]].capitalize()}Sized' for t in tables])
    for g, S, f, n, cs in tables:
        v, many, is_ = VAR[g], FROM[g], f'{FROM[g].capitalize()}Sized'
        o += (f'\nabbrev pub {many}_lengths : {S} → List ℕ\n{many}_lengths {v} =\n    ' + ''.join(f'length {v}.{c}\n    ∷ ' for c, _ in cs) + '[]\n'
              + f'\npub {many}_as_long : ({v} w : {S}) → {many}_lengths w ≡ {many}_lengths {v} → {is_} {v} → {is_} w\n'
              + f'{many}_as_long {v} w same sized =\n    record {{\n'
              + ''.join(f'      {plural(c)} = ap (λ (all : List ℕ). get_or all {k} 0) same ∙ sized.{plural(c)};\n' for k, (c, _) in enumerate(cs)) + '    }\n')
    return o


# the bytes after a table is put: the header is put before the first table, the ready order after the last
def part(name):
    n, fields, at, S = PLACED[name]
    more = ['seat', 'image'] if name == 'queues' else ['image']
    image = f'(put_fields 4 {len(header())} (each 4 header_numbers ∷ []) 0 image)' if name == 'tasks' else 'image'
    put = f'put_fields {ONE[name]}_bytes {n} ({ONE[name]}_columns {all_of(fields)}) {name}_at {image}'
    if name == 'queues':
        put = f'put_fields {ORDER} 1 (bytes {ORDER} (order_places seat) ∷ []) order_at ({put})'
    f = f'{FROM[own(name)]}_part'
    return f'\n{NOTE.get(name, "")}abbrev pub {f} : {arrows(groups(fields, last=more))} → List ℕ\n{f} {all_of(fields)} {" ".join(more)} =\n    {put}\n'


def written():
    o = WRITTEN + brought('image.specs.Image', ['each', 'bytes', 'header_numbers'] + [f'{one}_columns' for one in ONE.values()])
    o += brought('image.specs.Image', [f'{one}_bytes' for one in ONE.values()] + [f'{name}_at' for name in ONE] + ['order_at'])
    for name, (n, fields, at, S) in PLACED.items():
        f = FROM[own(name)]
        given = ' '.join(f's.{table(g)[2]}.{c}' for c, _, _, g in fields) + ' s.line.seat' * (name == 'queues')
        o += f'{part(name)}\nabbrev pub {f}_put : State → List ℕ → List ℕ\n{f}_put s image =\n    {f}_part {given} image\n'
    return o


def files():
    return {'crates/histories/proofs/Lengths.antt': lengths(), 'crates/writing/specs/Written.antt': written()}
