"""./play --grid and tools/grid: the grid as text and as a picture; and
./play --image, which the same program writes."""

import glob
import os
import subprocess
import xml.etree.ElementTree as tree

from lib import grid
from tests.bench import EXAMPLES, ROOT, STORED, is_built, read
from tests.examples import player

SVG = "{http://www.w3.org/2000/svg}"
EXAMPLE = os.path.join(EXAMPLES, "grant-grid")


def second(option, path):
    return subprocess.run([player(), option, path], check=True,
                          stdout=subprocess.PIPE).stdout


def test_example(bench):
    lines = read(EXAMPLE + ".grid")
    bench.equal("grant-grid.grid is the second program's",
                second("--grid", EXAMPLE + ".script"), lines)
    cells = grid.cells_of(lines, "G")
    bench.check("grant-grid.grid.svg is its picture", grid.picture(
        cells, "grant-grid.script") == read(EXAMPLE + ".grid.svg").decode())


def test_picture(bench):
    cells = grid.cells_of(b"64 64 1\n65 79 65535\n95 128 300\n", "G")
    root = tree.fromstring(grid.picture(cells, "T"))
    told = [title.text for title in root.iter(SVG + "title")]
    bench.equal("a cell is told", told, [
        "task 64, semaphore 64: 1 grant",
        "task 65, semaphore 79: 65535 grants",
        "task 95, semaphore 128: 300 grants"])
    fills = [box.get("fill") for box in root.iter(SVG + "rect")
             if box.get("fill")]
    bench.check("the darker the more grants", len(set(fills)) == 3
                and fills[0] > fills[2] > fills[1], str(fills))
    bench.equal("an empty grid has a picture", len(list(tree.fromstring(
        grid.picture([], "T")).iter(SVG + "title"))), 0)


def test_complaints(bench):
    for words, expected in (
            ("script refused\n", "no grid to draw"),
            ("64 64\n", ":1: expected a task"),
            ("64 64 0\n", ":1: expected a task"),
            ("64 64 65536\n", ":1: expected a task"),
            ("96 64 1\n", ":1: expected a task"),
            ("64 80 1\n", ":1: expected a task"),
            ("65 64 1\n64 64 1\n", ":2: expected the slots")):
        status, _, errors = bench.tool("grid", "-", "--svg", "-",
                                       stdin=words.encode())
        bench.equal("status of " + repr(words), status, 1)
        bench.holds("complaint of " + repr(words), errors, expected)


def real(bench):
    """The proved program, where it is built from this tree."""
    if not is_built(os.path.join(ROOT, "target", "watch.stamp")):
        bench.unbuilt("the proved grid and image", "their program is not "
                      "built from this tree; ./play --grid builds it")
        return None
    return lambda option, path: subprocess.run(
        ["./play", option, path], cwd=ROOT, stdin=subprocess.DEVNULL,
        stdout=subprocess.PIPE, stderr=subprocess.PIPE, timeout=20)


def test_real(bench):
    proved = real(bench)
    if not proved:
        return
    paths = sorted(glob.glob(os.path.join(STORED, "*", "*.script")))[::9]
    bench.check("some scripts", len(paths) >= 10, str(len(paths)))
    for path in paths + [EXAMPLE + ".script"]:
        name = os.path.basename(path)
        bench.check("the grids of %s agree" % name, proved(
            "--grid", path).stdout == second("--grid", path))
        done = proved("--image", path)
        if b"script refused" in done.stderr:
            bench.equal("no image of %s" % name, (
                done.returncode, done.stdout, second("--grid", path)),
                (1, b"", b"script refused\n"))
        else:
            bench.check("the images after %s agree" % name,
                        done.stdout == second("--image", path))
    for option in ("--grid", "--image"):
        done = proved(option, ROOT)
        bench.equal("%s of a directory" % option, (
            done.returncode, done.stdout), (1, b""))
        bench.holds("what is wrong with it", done.stderr.decode(),
                    "cannot be read: Is a directory")
