# Prints crate `taking`'s code: each table of a state that is lent is taken out of a lent image; and `take`, which has them taken one after the
# other.
from fields import tables_of
from lines import top
from table import ENDS, table

# a table: its function, what it is in words, what the state is then in specs/Taken.antt, and what is answered, who runs if nothing
TAKERS = [
    ('tasks', 'The tasks, where they stand, and who runs, which follows from the seats.', 'tasks', None),
    ('semaphores', 'The semaphores.', 'sems', ENDS['semaphores']),
    ('pools', 'The pools.', 'pools', ENDS['pools']),
    ('queues', 'The queues.', 'queues', ENDS['queues']),
]
RUNS = '''    s.line.rings = [seats::ring_mask(&s.line.seat)];
    s.running = seats::runner(&s.line);
    s.running
'''
TOP = '''// A state that is lent, taken out of an image where it lies: nothing of it is copied first. There is a function for each
// table, with the promise of its own columns. (specs/Taken.antt; docs/IMAGE.md.)
// Printed by tools/generate/run, from its table of columns.
'''


def taker(n, words, is_, after):
    parts = ', '.join(f'&mut s.{table(g)[2]}' for g in tables_of(n))
    return f'''
// {words}
pub fn take_{n}(s: &mut State, image: &[u8; image::SIZE]) -> usize
    ensures {{ (s.new ≡ {is_}_taken s.old image.now) × (result ≡ {after or 's.new.running'}) }}
{{
    image::take_{n}(image, {parts});
{f"    {after}{chr(10)}" if after else RUNS}}}
'''


def source():
    ghost = ['std.specs.Prelude.{◌≡◌}', 'image.specs.Reading.{state_from}',
             f'taking.specs.Taken.{{{", ".join(is_ + "_taken" for _, _, is_, _ in TAKERS)}}}']
    return top(TOP, [f'Rattle.{g}' for g in ghost], ['scope::State']) + ''.join(taker(*t) for t in TAKERS) + f'''
// The whole state.
pub fn take(s: &mut State, image: &[u8; image::SIZE]) -> usize
    ensures {{ (s.new ≡ state_from image.now) × (result ≡ {ENDS['queues']}) }}
{{
''' + ';\n'.join(f'    take_{n}(s, image)' for n, *_ in TAKERS) + '\n}\n'


def files():
    return {'crates/taking/src/lib.rt': source()}
