"""examples/: each text still makes its script, listing and picture."""

import os
import subprocess

from lib import listing, names as labels, picture, reader, run, script
from tests.bench import EXAMPLES, ROOT, read

SECOND = os.path.join(ROOT, "second")


def names():
    return sorted(name[:-4] for name in os.listdir(EXAMPLES)
                  if name.endswith(".txt"))


def player():
    """The second program, built where its own README builds it."""
    subprocess.run(["make", "-s", "-C", SECOND], check=True,
                   stdout=subprocess.DEVNULL)
    return os.path.join(SECOND, "build", "second")


def played(program, path):
    return subprocess.run([program, path], stdout=subprocess.PIPE,
                          check=True).stdout


def test_six(bench):
    bench.check("six examples or more", len(names()) >= 6)


def test_examples(bench):
    program = player()
    for name in names():
        path = os.path.join(EXAMPLES, name)
        words = read(path + ".txt").decode()
        data, answers = read(path + ".script"), read(path + ".listing")
        bench.check(name + ".txt begins with a sentence", words.startswith(
            "# ") and words.split("\n")[0].endswith("."))
        bench.check(name + ".txt makes its script", reader.script_of(
            words, name) == data)
        bench.check(name + ".listing is the second program's", played(
            program, path + ".script") == answers)
        told = run.Run(*listing.fitted(answers, name, data, name),
                       script.taken_apart(data).header.priority,
                       labels.notes_for(None, path + ".script", data))
        bench.equal(name + " has no doubts", told.doubts, [])
        bench.check(name + ".svg is its picture", picture.picture(
            told, name + ".script") == read(path + ".svg").decode())
