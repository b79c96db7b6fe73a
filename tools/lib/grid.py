"""The grant grid: what `./play --grid` writes, and its picture."""

import math
import re
from collections import namedtuple

from lib import files, svg

TASKS, SEMAPHORES, MOST = 32, 16, 65535
SLOTS = 64                           # an identifier is serial x 64 + slot
LINE = re.compile(r"([0-9]+) ([0-9]+) ([0-9]+)")

# The latest objects of two slots, by identifier, and the grants.
Cell = namedtuple("Cell", "task semaphore grants")

LEFT, TOP, SIDE, ROW = 84, 92, 30, 17
LIGHT, DARK = (222, 233, 245), (29, 53, 87)


def cells_of(data, name):
    """The lines of a grid, in the order of their slots."""
    text = data.decode("utf-8", "replace")
    if text == "script refused\n":
        raise files.Trouble("%s: no grid to draw, the kernel refuses the "
                            "script" % name)
    cells = []
    for number, line in enumerate(text.splitlines(), 1):
        found = LINE.fullmatch(line)
        cell = Cell(*map(int, found.groups())) if found else None
        if cell is None or not fits(cell):
            raise files.trouble_at(name, number, "expected a task, a "
                                   "semaphore and 1 to 65535 grants, found "
                                   "`%.60s`" % line)
        if cells and place(cells[-1]) >= place(cell):
            raise files.trouble_at(name, number, "expected the slots in "
                                   "ascending order, found `%s`" % line)
        cells.append(cell)
    return cells


def fits(cell):
    task, semaphore = place(cell)
    return (cell.task >= SLOTS and cell.semaphore >= SLOTS and task < TASKS
            and semaphore < SEMAPHORES and 1 <= cell.grants <= MOST)


def place(cell):
    return cell.task % SLOTS, cell.semaphore % SLOTS


def shade(grants, most):
    """From light to dark by the logarithm: one grant is seen beside many."""
    part = math.log(grants + 1) / math.log(most + 1)
    return "#" + "".join("%02x" % round(light + (dark - light) * part)
                         for light, dark in zip(LIGHT, DARK))


def heads(cells):
    """The identifiers beside the rows and above the columns that have any."""
    parts = []
    for task in sorted({cell.task for cell in cells}, key=lambda x: x % SLOTS):
        parts.append(svg.text(LEFT - 8, TOP + (task % SLOTS) * ROW + 13,
                              str(task), "name", text_anchor="end"))
    for semaphore in sorted({cell.semaphore for cell in cells},
                            key=lambda x: x % SLOTS):
        parts.append(svg.text(LEFT + (semaphore % SLOTS) * SIDE + SIDE / 2,
                              TOP - 8, str(semaphore), "tiny",
                              text_anchor="middle"))
    return parts


def drawn_cell(cell, most):
    task, semaphore = place(cell)
    x, y = LEFT + semaphore * SIDE, TOP + task * ROW
    told = "task %d, semaphore %d: %d grant%s" % (
        cell.task, cell.semaphore, cell.grants,
        "" if cell.grants == 1 else "s")
    dark = math.log(cell.grants + 1) > 0.5 * math.log(most + 1)
    return [svg.box(x, y, SIDE, ROW, told, fill=shade(cell.grants, most)),
            svg.text(x + SIDE / 2, y + 12, str(cell.grants),
                     "inrun" if dark else "in", text_anchor="middle")]


def picture(cells, title):
    width, height = LEFT + SEMAPHORES * SIDE + 24, TOP + TASKS * ROW + 24
    most = max([cell.grants for cell in cells], default=1)
    parts = ['<svg xmlns="http://www.w3.org/2000/svg" width="%d" height="%d" '
             'viewBox="0 0 %d %d">' % (width, height, width, height),
             "<style>%s</style>" % svg.STYLE,
             svg.box(0, 0, width, height, class_="sheet"),
             svg.text(24, 32, title, "title"),
             svg.text(24, 52, "grants to a task (row) from a semaphore "
                      "(column), by slot; latest objects", "note"),
             svg.text(LEFT - 8, TOP - 8, "task", "head", text_anchor="end"),
             svg.text(LEFT, TOP - 22, "semaphore", "head")]
    for task in range(TASKS):
        parts.append(svg.box(LEFT, TOP + task * ROW, SEMAPHORES * SIDE, ROW,
                             class_="stripe" if task % 2 else "sheet"))
    for cell in cells:
        parts += drawn_cell(cell, most)
    for line in range(SEMAPHORES + 1):
        x = LEFT + line * SIDE
        parts.append(svg.element("path", class_="rule", d="M%d %dV%d" % (
            x, TOP, TOP + TASKS * ROW)))
    for line in range(TASKS + 1):
        y = TOP + line * ROW
        parts.append(svg.element("path", class_="rule", d="M%d %dH%d" % (
            LEFT, y, LEFT + SEMAPHORES * SIDE)))
    return "\n".join(parts + heads(cells) + ["</svg>"]) + "\n"
