# Prints crate `image`'s code: each table of the state, put into an image, taken from it and tested, column by column.
from fields import ONE, own, tables_of
from lines import called, top
from table import FROM, IMAGE, ORDER, ORDER_AT, SIZE, image_fields, image_tables, table

TOP = '''// The tables of the state, put into an image, taken from it and tested, column by column. Printed by tools/generate/run.
// (specs/Image.antt, specs/Reading.antt, specs/Tests.antt; docs/IMAGE.md has the places.)
'''


# each field of a table of the image, with the table of the state that it is a column of and its place
def columns(name, at):
    for column, w, many, g in image_fields(dict(IMAGE)[name])[1]:
        yield f'{table(g)[2]}.{column}', w, many, at
        at += max(w, 1) * many


def put_promise(name, slots, at, S):
    given = ' '.join(f'{table(g)[2]}.now' for g in tables_of(name))
    return f'    ensures {{ image.new ≡ put_fields {S} {slots} ({ONE[name]}_fields {given}) {at} image.old }}\n'


# a table of the state of which the image has every column is the one that stands in the bytes; of the line it has all but the rings
def take_promise(name):
    def now(g):
        field, is_ = table(g)[2], f'{FROM[g]}_from image.now'
        return f'{field}.new ≡ ' + (is_ if g == own(name) else f'record ({is_}) {{ rings = {field}.old.rings }}')
    return ''.join(f'    ensures {table(g)[2]} {{ {now(g)} }}\n' if len(tables_of(name)) > 1 else f'    ensures {{ {now(g)} }}\n' for g in tables_of(name))


def function(verb, name, slots, fields, at, S):
    lent, kept = ('&mut ', '&') if verb == 'put' else ('&', '&mut ')
    params = [f'image: {lent}[u8; SIZE]'] + [f'{table(g)[2]}: {kept}{table(g)[1]}' for g in tables_of(name)]
    promise = put_promise(name, slots, at, S) if verb == 'put' else take_promise(name)
    o = f'\npub fn {verb}_{name}({", ".join(params)})\n{promise}{{\n'
    for column, w, many, place in columns(name, at):
        args = ['image', place, S] + [slots, many] * (many > 1) + [kept + column]
        o += '    ' + called(f'columns::{verb}_{"rows" if many > 1 else "column"}', [str(x) for x in args]) + ';\n'
    return o + '}\n'


# the header and the ready order, a call each
def lone():
    numbers = [1, SIZE] + [x for _, slots, _, at, _ in image_tables() for x in (slots, at)]
    return f'''
// The bytes of an image.
pub const SIZE: usize = {SIZE};

// Edition, length, then count and place of each table.
const HEADER: [u32; {len(numbers)}] = {numbers};

pub fn put_header(image: &mut [u8; SIZE])
    ensures {{ image.new ≡ put_fields 4 {len(numbers)} (each 4 header_numbers ∷ []) 0 image.old }}
{{
    columns::put_column(image, 0, 4, &HEADER);
}}

pub fn put_order(image: &mut [u8; SIZE], places: &[u8; {ORDER}])
    ensures {{ image.new ≡ put_fields {ORDER} 1 (bytes {ORDER} places.now ∷ []) {ORDER_AT} image.old }}
{{
    columns::put_rows(image, {ORDER_AT}, {ORDER}, 1, {ORDER}, places);
}}
'''


# the columns of yes and no: place, bytes of a record, slots
def flags():
    return [(place, S, slots) for name, slots, _, at, S in image_tables() for _, w, _, place in columns(name, at) if not w]


# the tests: the header, the columns of yes and no, the ready order
def tests():
    calls = '\n        & '.join(f'columns::flags_only(image, {place}, {S}, {slots})' for place, S, slots in flags())
    size = f'    requires {{ length image.now ≡ {SIZE} }}'
    return f'''
// Whether the header is that of the edition.
pub fn header_right(image: &[u8]) -> bool
{size}
    ensures {{ result ≡ header_right image.now }}
{{
    columns::is_column(image, 0, 4, &HEADER)
}}

// Whether each yes or no is 1 or 0.
#[tactic(auto, unfolding(crate::specs::Tests::flags_right))]
pub fn flags_right(image: &[u8]) -> bool
{size}
    ensures {{ result ≡ flags_right image.now }}
{{
    {calls}
}}

// Whether the ready order has these places.
pub fn order_is(image: &[u8], places: &[u8; {ORDER}]) -> bool
{size}
    ensures {{ result ≡ same_bytes (part {ORDER} {ORDER_AT} image.now) places.now }}
{{
    columns::is_column(image, {ORDER_AT}, 1, places)
}}
'''


def source():
    names = [t[0] for t in image_tables()]
    parts = [g for n in names for g in tables_of(n)]
    ghost = ['std.specs.Prelude.{◌≡◌, [], ◌∷◌, length}', 'fields.specs.Columns.{part}', 'fields.specs.Fields.{put_fields}',
             f'image.specs.Image.{{each, bytes, header_numbers, {", ".join(f"{ONE[n]}_fields" for n in names)}}}',
             f'image.specs.Reading.{{{", ".join(f"{FROM[g]}_from" for g in parts)}, same_bytes}}', 'image.specs.Tests.{header_right, flags_right}']
    functions = ''.join(function(verb, *t) for t in image_tables() for verb in ('put', 'take'))
    used = ', '.join(sorted(table(g)[1] for g in parts))
    return top(TOP, [f'Rattle.{g}' for g in ghost], [f'scope::{{{used}}}']) + lone() + functions + tests()


def files():
    return {'crates/image/src/lib.rt': source()}
