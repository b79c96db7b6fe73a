# Prints crate `writing`'s code: each table of a state that is lent shared is put into a lent image; and `put`, which has them put one after the
# other.
from fields import tables_of
from lines import top
from table import ENDS, SIZE, table

# a table: its function, what it is in words, what puts it in specs/Written.antt, and where the next table begins
WRITERS = [
    ('tasks', 'The header and the tasks.', 'tasks', ENDS['tasks']),
    ('semaphores', 'The semaphores.', 'sems', ENDS['semaphores']),
    ('pools', 'The pools.', 'pools', ENDS['pools']),
    ('queues', 'The queues, and the ready order behind them.', 'queues', SIZE),
]
# what a function does before its table and behind it
AROUND = {
    'tasks': ('    image::put_header(image);\n', ''),
    'queues': ('', '    image::put_order(image, &orders::ready_places(&s.line.seat));\n'),
}
TOP = '''// A state that is lent, put into a lent image where it lies: nothing of it is copied first. Each function answers where the next table begins;
// there is one for each table, with the promise of its own columns. (specs/Written.antt; docs/IMAGE.md.) Printed by tools/generate/run, from its table of columns.
'''


def writer(n, words, put, after):
    first, last = AROUND.get(n, ('', ''))
    parts = ', '.join(f'&s.{table(g)[2]}' for g in tables_of(n))
    return f'''
// {words}
pub fn put_{n}(s: &State, image: &mut [u8; image::SIZE]) -> u32
    ensures {{ (result ≡ {after}) × (image.new ≡ {put}_put s.now image.old) }}
{{
{first}    image::put_{n}(image, {parts});
{last}    {after}
}}
'''


def source():
    ghost = ['Rattle.std.specs.Prelude.{◌≡◌}', 'Rattle.image.specs.Image.{image_of}',
             f'Rattle.writing.specs.Written.{{{", ".join(f"{put}_put" for _, _, put, _ in WRITERS)}}}']
    return top(TOP, ghost, ['scope::State']) + ''.join(writer(*w) for w in WRITERS) + f'''
// The whole image.
pub fn put(s: &State, image: &mut [u8; image::SIZE]) -> u32
    ensures {{ (result ≡ {SIZE}) × (image.new ≡ image_of s.now) }}
{{
''' + ';\n'.join(f'    put_{n}(s, image)' for n, *_ in WRITERS) + '\n}\n'


def files():
    return {'crates/writing/src/lib.rt': source()}
