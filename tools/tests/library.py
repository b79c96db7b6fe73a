"""examples/listing.c, grid.c and simulator.c: C programs that link the proved
library; and the simulator over the second program, which can be had anywhere."""

import os
import platform
import re
import shutil
import subprocess

from lib import reference, tables
from tests.bench import ROOT, is_built, read, stored_names, stored_path
from tests.examples import player
from tests.grids import second

SOURCE = os.path.join(ROOT, "examples", "listing.c")
GRID = os.path.join(ROOT, "examples", "grid.c")
SIMULATOR = os.path.join(ROOT, "examples", "simulator.c")
LIBRARY = os.path.join(ROOT, "target", "staticlib", "libexports.a")
STACK = os.path.join(ROOT, "tools", "tests", "stack.c")
LINE = re.compile(r"gcc .* -o target/(?:listing|grid|simulator)$", re.M)
SCRIPTS = ("nine", "mixed-3", "script-offset-15")
# What stands in for the library: the second program's functions on images.
PARTS = ("script", "grid", "image", "exports", "step", "tick", "waits",
         "tasks", "semaphores", "pools", "queues", "rules", "message_rules")
EXPORTS = ("fresh", "step", "line", "listing")


def compile_line(source=SOURCE):
    return LINE.search(read(source).decode()).group(0)


def compiler_here(bench, what):
    """Whether a C program can be linked with the proved library here."""
    if not is_built(LIBRARY):
        bench.unbuilt(what, "target/staticlib/libexports.a is not built from "
                            "this tree; `tools/prove exports_c`")
    elif platform.machine() != "x86_64" or not shutil.which("gcc"):
        bench.skip(what, "no gcc for x86-64")
    else:
        return True
    return False


def compiled(bench, source):
    """How the C program is started, or None where it cannot be made here."""
    name = "examples/" + os.path.basename(source)
    if not compiler_here(bench, name):
        return None
    program = os.path.join(bench.scratch, os.path.basename(source)[:-2])
    line = compile_line(source).split()[1:-1] + [program]
    done = subprocess.run(["gcc", "-Wall", "-Wextra", "-Werror"] + line,
                          cwd=ROOT, stderr=subprocess.PIPE)
    bench.equal(name + " compiles", (
        done.returncode, done.stderr.decode()), (0, ""))
    return [program]


def played(program, name):
    with open(stored_path(name, "script"), "rb") as script:
        done = subprocess.run(program, stdin=script, stdout=subprocess.PIPE)
    return done.returncode, done.stdout


def compiled_over_second(bench, source):
    """A C program whose library is the second program, for this machine."""
    program = os.path.join(bench.scratch, "over-second")
    names = ["-Ddryswennol_%s=second_%s" % (name, name) for name in EXPORTS]
    parts = [os.path.join(ROOT, "second", part + ".c") for part in PARTS]
    done = subprocess.run(
        ["gcc", "-std=c11", "-O2", "-Wall", "-Wextra", "-Werror"] + names
        + ["-I", os.path.join(ROOT, "include"), "-I",
           os.path.join(ROOT, "second"), source] + parts + ["-o", program],
        stderr=subprocess.PIPE)
    bench.equal("examples/%s compiles over the second program"
                % os.path.basename(source),
                (done.returncode, done.stderr.decode()), (0, ""))
    return [program]


def check_simulator(bench, program, names, what):
    """The listing is the stored one, and the image the second program's."""
    for name in names:
        path = os.path.join(bench.scratch, "simulator.image")
        if os.path.exists(path):
            os.remove(path)
        bench.check("%s plays %s" % (what, name),
                    played(program + [path], name)
                    == (0, read(stored_path(name, "listing"))))
        image = subprocess.run(
            [player(), "--image", stored_path(name, "script")], check=True,
            stdout=subprocess.PIPE).stdout
        bench.check("%s leaves the image of %s" % (what, name),
                    read(path) == image if os.path.exists(path)
                    else image == b"script refused\n")


def test_simulator(bench):
    program = compiled(bench, SIMULATOR)
    if program:
        check_simulator(bench, program, SCRIPTS + ("queues-1",),
                        "examples/simulator.c")


def test_simulator_over_second(bench):
    check_simulator(bench, compiled_over_second(bench, SIMULATOR),
                    stored_names(), "the simulator over the second program")


def test_header(bench):
    """It is C and C++, and its statuses are those of docs/CALLS.md."""
    names = {status.name: number for number, status
             in enumerate(tables.STATUSES)}
    names.update((name, int(number)) for number, name in re.findall(
        r"\b(\d+) ([A-Z_]{3,})", reference.STATUSES))
    found = re.findall(r"^    DRYSWENNOL_([A-Z_]+) = (\d+)",
                       read(ROOT, "include", "dryswennol.h").decode(), re.M)
    bench.equal("statuses of include/dryswennol.h", [
        (name, int(number)) for name, number in found
        if not name.endswith("_BYTES")], [
        (name, names.get(name)) for name, _ in found
        if not name.endswith("_BYTES")])
    for compiler, language in (("gcc", ["-x", "c", "-std=c99"]),
                               ("g++", ["-x", "c++", "-std=c++11"])):
        if not shutil.which(compiler):
            bench.skip("include/dryswennol.h", "no " + compiler)
            continue
        done = subprocess.run(
            [compiler, "-Wall", "-Wextra", "-pedantic", "-Werror",
             "-fsyntax-only"] + language
            + [os.path.join(ROOT, "include", "dryswennol.h")],
            stderr=subprocess.PIPE)
        bench.equal("include/dryswennol.h is of " + compiler,
                    (done.returncode, done.stderr.decode()), (0, ""))


def test_needs(bench):
    """It has no data of its own, and needs what the header says."""
    if not compiler_here(bench, "needs of the library"):
        return
    names = [line.split()[-2:] for line in subprocess.run(
        ["nm", LIBRARY], check=True, stdout=subprocess.PIPE).stdout.decode()
        .splitlines() if len(line.split()) > 1]
    header = " ".join(read(ROOT, "include", "dryswennol.h").decode().split())
    said = re.search(r"needs nothing but ([^.]*)\.", header).group(1)
    bench.equal("what the library needs", sorted(
        name for kind, name in names if kind == "U"),
        sorted(re.findall(r"`(\w+)`", said)))
    bench.equal("data of the library that can change", [
        name for kind, name in names if kind in "bBdDcC"], [])


def test_stack(bench):
    """No function of it takes as much stack as the header promises."""
    if not compiler_here(bench, "stack of the library"):
        return
    program = os.path.join(bench.scratch, "stack")
    done = subprocess.run(
        ["gcc", "-O2", "-Wall", "-Wextra", "-Werror", "-I",
         os.path.join(ROOT, "include"), "-Wl,-z,now", STACK, LIBRARY, "-o",
         program],
        stderr=subprocess.PIPE)
    bench.equal("tools/tests/stack.c compiles",
                (done.returncode, done.stderr.decode()), (0, ""))
    header = read(ROOT, "include", "dryswennol.h").decode()
    most = 1024 * int(re.search(r"needs (\d+) KiB of stack", header).group(1))
    for name in stored_names():
        status, said = played([program], name)
        taken = dict(line.split() for line in said.decode().splitlines())
        bench.equal("what tells of the stack, " + name, (
            status, list(taken)), (0, list(EXPORTS) + ["grid"]))
        bench.equal("functions that take too much stack, " + name, {
            key: n for key, n in taken.items() if int(n) >= most}, {})


def test_c_program(bench):
    program = compiled(bench, SOURCE)
    for name in SCRIPTS if program else ():
        bench.check("examples/listing.c plays " + name, played(program, name)
                    == (0, read(stored_path(name, "listing"))))


def test_c_grid(bench):
    program = compiled(bench, GRID)
    for name in SCRIPTS if program else ():
        cells = second("--grid", stored_path(name, "script")).decode()
        bench.equal("examples/grid.c plays " + name, played(program, name),
                    (0, by_slot(cells).encode()))


def by_slot(lines):
    """The second program's grid, with slots for identifiers."""
    if lines.startswith("script"):
        return lines
    cells = [map(int, line.split()) for line in lines.splitlines()]
    return "".join("%d %d %d\n" % (task % 64, semaphore % 64, grants)
                   for task, semaphore, grants in cells)


def test_c_program_is_shown(bench):
    bench.holds("README.md has the compile line", read(
        ROOT, "README.md").decode(), compile_line())
    bench.holds("README.md has the simulator's", read(
        ROOT, "README.md").decode(), compile_line(SIMULATOR))
    bench.check("the C program is short", read(SOURCE).count(b"\n") <= 35)
    bench.check("so is the simulator", read(SIMULATOR).count(b"\n") <= 110)
