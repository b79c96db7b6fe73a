# What the printers share: the files of the tree, and where a long line is broken.
import os
from textwrap import fill

ROOT = os.path.dirname(os.path.dirname(os.path.dirname(os.path.abspath(__file__))))
# A call stands in one line as long as its arguments have this width together; else those that are short stand side by side, and others a
# line each. (So `rattle fmt` lays it out.)
TOGETHER, SHORT, WIDE = 60, 10, 99

def read(path):
    with open(os.path.join(ROOT, path), encoding='utf-8') as file:
        return file.read()


# the rows of a table of tools/
def rows(name):
    return [line.split('\t') for line in read(f'tools/{name}.tsv').split('\n')[1:] if line]


def called(path, args, indent=4):
    line, space = ', '.join(args), ' ' * (indent + 4)
    if len(line) <= TOGETHER:
        return f'{path}({line})'
    if all(len(arg) <= SHORT for arg in args):
        lines = fill(line + ',', WIDE, initial_indent=space, subsequent_indent=space)
    else:
        lines = '\n'.join(f'{space}{arg},' for arg in args)
    return f'{path}(\n{lines}\n{" " * indent})'


# the top of a source: what it is, the names that its contracts use, and those that its code uses
def top(what, ghost, code=()):
    parts = [f'{what}#![tactic(auto)]\n', ''.join(f'ghost use {x};\n' for x in ghost), ''.join(f'use {x};\n' for x in code)]
    return '\n'.join(part for part in parts if part)
