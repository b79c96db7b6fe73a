"""README.md and the other pages: what they quote and name is there."""

import glob
import os
import re

from tests.bench import ROOT, read, stored

PAGES = ("README.md", "CONTRIBUTING.md", "docs/TOOLS.md", "docs/CALLS.md",
         "bench/README.md")
PLACES = "crates|tools|docs|examples|stored|second|bench|include|play|\\.ci"
PATH = re.compile(r"`(?:\./)?((?:%s)(?:/[\w.-]+)*/?)[` ]" % PLACES)
QUOTE = re.compile(r"^From `([^`]+)`[^\n]*:\n\n((?:    .*\n)+)", re.M)
PATTERN = re.compile(r"NAME|LABEL|landings")     # names for what is to come
EDIT = re.compile(r"`([a-z_]+)/([a-z0-9_]+)`")
DEFINITION = re.compile(r"`([A-Z]\w+)\.(?!antt`)([\w-]+)`(?! \(`crates/\w+/src)")


def page(name):
    return read(ROOT, name).decode()


def test_paths(bench):
    for name in PAGES:
        absent = [path for path in PATH.findall(page(name))
                  if not PATTERN.search(path)
                  and not os.path.exists(os.path.join(ROOT, path))]
        bench.equal("%s names what is there" % name, absent, [])


def test_quotes(bench):
    """A line that a page quotes from a file stands in that file."""
    quotes = [(name, *found) for name in PAGES
              for found in QUOTE.findall(page(name))]
    bench.check("README.md quotes a theorem", any(
        name == "README.md" for name, _, _ in quotes))
    for name, path, lines in quotes:
        known = {line.strip() for line in page(path).split("\n")}
        missing = [line.strip() for line in lines.split("\n")
                   if line.strip() not in known]
        bench.equal("what %s quotes from %s" % (name, path), missing, [])


def test_edit_texts(bench):
    """What an edit replaces stands once in its file, so that an edit that is tried seldom does not lose its text."""
    wrong = []
    for path in sorted(glob.glob(os.path.join(ROOT, "crates", "*", "must-fail", "*.edit"))):
        crate = os.path.dirname(os.path.dirname(path))
        name, text = os.path.relpath(path, ROOT), ""
        for line in open(path, encoding="utf-8").read().split("\n"):
            if line.startswith("file: "):
                text = open(os.path.join(crate, line[6:]), encoding="utf-8").read()
            elif line.startswith("old: ") and text.count(line[5:]) != 1:
                wrong.append("%s: %d times: %s" % (name, text.count(line[5:]), line[5:]))
    bench.equal("the texts that edits replace", wrong, [])


def test_edits(bench):
    """A must-fail edit that a page names is there."""
    for name in ("docs/PROVED.md", "docs/CHECKS.md", "docs/SENTENCES.md"):
        absent = [crate + "/" + label for crate, label in EDIT.findall(page(name))
                  if os.path.isdir(os.path.join(ROOT, "crates", crate))
                  and not os.path.exists(os.path.join(ROOT, "crates", crate, "must-fail", label + ".edit"))]
        bench.equal("%s names edits that are there" % name, absent, [])


def test_definitions(bench):
    """A definition that a sentence points to stands in the file named."""
    absent = []
    for file, name in DEFINITION.findall(page("docs/SENTENCES.md")):
        found = glob.glob(os.path.join(ROOT, "crates", "*", "specs", file + ".antt"))
        start = re.compile(r"^\s*(?:abbrev |unfoldable |pub |record )+%s\s" % re.escape(name), re.M)
        if not any(start.search(read(path).decode()) for path in found):
            absent.append(file + "." + name)
    bench.equal("docs/SENTENCES.md names what is there", absent, [])


def test_first_listing(bench):
    lines = stored("nine")[1].decode().splitlines(True)
    bench.holds("README.md has the nine's listing", page("README.md"),
                "".join("    " + line for line in lines))


def test_short_lines(bench):
    """A quoted line is as long as it is; a table's row too."""
    long = [line for line in page("README.md").split("\n")
            if len(line) > 125 and not line.startswith(("    ", "|"))]
    bench.equal("short lines in README.md", long, [])
