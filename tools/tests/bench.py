"""What the tests share: counting, the stored runs, running a tool."""

import glob
import os
import subprocess
import sys

from lib import listing, run, script

TOOLS = os.path.dirname(os.path.dirname(os.path.abspath(__file__)))
ROOT = os.path.dirname(TOOLS)
STORED = os.path.join(ROOT, "stored")
EXAMPLES = os.path.join(ROOT, "examples")


class Bench:
    def __init__(self, scratch, built=False):
        self.scratch = scratch       # a folder that goes away afterwards
        self.built = built           # whether what is proved is there
        self.passed, self.failures, self.skipped = 0, [], []
        self.told = {}

    def check(self, what, good, detail=""):
        if good:
            self.passed += 1
        else:
            self.failures.append("%s%s" % (what, ": " + detail if detail
                                           else ""))

    def skip(self, what, why):
        """What cannot be tried here is said once, and is no failure."""
        words = "%s: %s" % (what, why)
        if words not in self.skipped:
            self.skipped.append(words)

    def unbuilt(self, what, why):
        """What wants a proved program or library that is not built."""
        if self.built:
            self.check(what, False, why)
        else:
            self.skip(what, why)

    def equal(self, what, found, expected):
        self.check(what, found == expected,
                   "expected %.300r, found %.300r" % (expected, found))

    def holds(self, what, text, part):
        self.check(what, part in text, "expected `%s` in `%.300s`"
                   % (part, text))

    def file(self, name, data):
        path = os.path.join(self.scratch, name)
        with open(path, "wb") as file:
            file.write(data if isinstance(data, bytes) else data.encode())
        return path

    def tool(self, name, *words, stdin=b""):
        """Exit status, standard output as bytes, standard error as text."""
        done = subprocess.run(
            [sys.executable, os.path.join(TOOLS, name)] + list(words),
            input=stdin, stdout=subprocess.PIPE, stderr=subprocess.PIPE,
            cwd=self.scratch)
        return done.returncode, done.stdout, done.stderr.decode()

    def runs(self):
        """Name, script, records, answers and run of each stored script."""
        if not self.told:
            for name in stored_names():
                data, answers = stored(name)
                fitted = listing.fitted(answers, name, data, name)
                if fitted:
                    priority = script.taken_apart(data).header.priority
                    self.told[name] = (*fitted, run.Run(*fitted, priority))
        return self.told.items()

    def some_runs(self):
        """Every third and two by name: all of them would take too long."""
        return [(name, told) for place, (name, told)
                in enumerate(self.runs())
                if place % 3 == 0 or name in ("nine", "mixed-3")]


def is_built(path):
    """Whether it is there, and no file that rt reads changed since."""
    parts = [place for part in ("src", "specs", "proofs")
             for place in glob.glob(os.path.join(ROOT, "crates", "*", part))]
    return os.path.exists(path) and not subprocess.run(
        ["find", os.path.join(ROOT, "crates.txt"), *parts, "-newercm", path],
        check=True, stdout=subprocess.PIPE).stdout


def read(*path):
    with open(os.path.join(*path), "rb") as file:
        return file.read()


def stored_names():
    """A name stands once, in the folder of its kind."""
    return sorted(os.path.basename(path)[:-len(".script")]
                  for path in glob.glob(os.path.join(STORED, "*", "*.script")))


def stored_path(name, ending):
    return glob.glob(os.path.join(STORED, "*", "%s.%s" % (name, ending)))[0]


def stored(name):
    return tuple(read(stored_path(name, ending))
                 for ending in ("script", "listing"))
