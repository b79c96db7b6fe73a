"""tools/image, and docs/IMAGE.md against the table of fields."""

import os
import random
import re
import subprocess

from lib import image, image_words, reader
from tests.bench import ROOT, TOOLS, read
from tests.examples import player

SECTIONS = {"Header": "header", "Task": "task", "Semaphore": "semaphore",
            "Pool": "pool", "Queue": "queue", "Ready order": "ready"}

TEXT = """first priority 5
sem_create 77 0 FIFO
sem_create 2 32767 0
task_create 17 9
task_start 65
sem_claim 64 0 3
task_create 18 8
task_start 66
sem_claim 64 0 FOREVER
queue_create 3 2 64 0
queue_create 4 16 1 FIFO
task_create 19 15
task_start 67
queue_receive 65 0 1
task_suspend 67
task_create 20 1
task_create 21 5
task_start 69
task_create 22 2
task_delete 70
pool_create 5 4096 100 32 FORCED_DELETE
pool_get_buff 64
pool_get_buff 64
pool_ret_buff 64 4096
queue_send 64 "page 7"
queue_jump 64 2
"""

SUMMARY = """image of edition 1, %d bytes, and 3 past it
live: 6 tasks, 2 semaphores, 1 pool, 2 queues
task 64 runs; ready behind it: 69
not started: 68
suspended: 67
semaphore 64 (name 77, FIFO): count -2; waiting: 65 for 3 ticks; 66 FOREVER
semaphore 65 (name 2): count 32767
pool 64 (name 5, FORCED_DELETE): 3 buffers of 32 bytes from 4096; 1 out: 4128; free, the longest first: 4160, 4096
queue 64 (name 3): 2 of 2 messages held, each at most 64 bytes: 2 zeros; "page 7"
queue 65 (name 4, FIFO): 0 of 16 messages held, each at most 1 byte; waiting: 67 for 1 tick, suspended
""" % image.LENGTH

LINES = (
    "header     0      0  edition             1",
    "task       1      7  seat               65  place 1 at semaphore 64",
    "task       2      6  time_out   4294967295  FOREVER",
    "task       3      7  seat             1153  place 1 at queue 65",
    "task       5      7  seat             2370  place 2 of the ready tasks of priority 5",
    "task       6      1  serial              1",
    "pool       0      0  marks               2  out: 1",
    "pool       0     10  free_place 2        1",
    "queue      0     72  message 1 length    6",
    "queue      0     73  message 1 byte 0  112",
    "ready      0      1  ready 1             6  task 69",
)


def made(text=TEXT):
    """The image of the state that a text's script leaves."""
    return subprocess.run(
        [player(), "--image"], input=reader.script_of(text, "T"), check=True,
        stdout=subprocess.PIPE).stdout


def page_rows(title):
    """The cells of the table under a title of docs/IMAGE.md."""
    page = read(ROOT, "docs", "IMAGE.md").decode()
    found = re.search(r"^%s\n(?:[^#|]*\n)?((?:\|.*\n)+)" % title, page, re.M)
    return [[cell.strip() for cell in line.strip("|").split("|")]
            for line in found.group(1).strip().split("\n")[2:]]


def spoken(first, many):
    return str(first) if many == 1 else "%d to %d" % (first, first + many - 1)


def test_page_fields(bench):
    """Numbers, places, widths and words of the page are the table's."""
    for title, kind in SECTIONS.items():
        bench.equal("fields of %s in docs/IMAGE.md" % title, [
            row[:4] for row in page_rows("## " + title)], [
            [spoken(field.number, field.many),
             spoken(field.place, field.many),
             str(field.bytes) + (" each" if field.many > 1 else ""),
             field.meaning] for field in image.FIELDS[kind]])
    bench.equal("the header's numbers in docs/IMAGE.md", [
        int(row[4].replace(",", "")) for row in page_rows("## Header")],
        image.header())


def test_page_parts(bench):
    parts = [[image.BEGINS[kind], image.records_of(kind),
              image.bytes_of(kind),
              image.records_of(kind) * image.bytes_of(kind)]
             for kind in image.FIELDS]
    rows = page_rows("# The state image, edition 1")
    bench.equal("parts in docs/IMAGE.md", [
        [int(cell.replace(",", "")) for cell in row[1:]] for row in rows],
        parts)
    bench.equal("where the parts begin, and the image's length",
                [part[0] for part in parts] + [image.LENGTH],
                [0, 40, 584, 744, 1480, 9888, 9920])
    bench.holds("its length in docs/IMAGE.md",
                read(ROOT, "docs", "IMAGE.md").decode(),
                "is {:,} bytes long".format(image.LENGTH))


def test_no_gaps(bench):
    """Each field begins where the one before it ends, and so its number."""
    bench.equal("kinds", list(image.FIELDS), list(SECTIONS.values()))
    for kind, fields in image.FIELDS.items():
        number = place = 0
        for field in fields:
            bench.equal("%s %s follows" % (kind, field.name),
                        (field.number, field.place), (number, place))
            number += field.many
            place += field.many * field.bytes
    lines = read(TOOLS, "fields.tsv").decode().split("\n")
    bench.check("fields.tsv has whole rows", lines.pop() == "" and all(
        line.count("\t") == lines[0].count("\t") for line in lines))


def test_seats(bench):
    """The queues of a seat are those that the page names."""
    told = " ".join(read(ROOT, "docs", "IMAGE.md").decode().split())
    bench.holds("queues of a seat in docs/IMAGE.md", told,
                "i + %d is the wait queue of semaphore i, i + %d that of "
                "message queue i, and %d + p holds the ready tasks" % (
                    image_words.FIRST_SEMAPHORE, image_words.FIRST_QUEUE,
                    image_words.FIRST_READY))


def test_words(bench):
    path = bench.file("made.image", made() + b"abc")
    status, out, errors = bench.tool("image", "show", path)
    summary, _, fields = out.decode().partition("\n\n")
    bench.equal("an image in words", (status, errors, summary + "\n"),
                (0, "", SUMMARY))
    for line in LINES:
        bench.holds("a field of it", squeezed(fields), squeezed(line))
    _, out, _ = bench.tool("image", "show", "-", stdin=made(
        "first priority 0\ntask_suspend SELF\n"))
    bench.holds("where nothing runs", out.decode(), "\nnothing runs\n")


# The second queue turns: what was sent first is received, and what jumps is in
# front of all; the third is full of the longest messages.
TURNED = """first priority 5
queue_create 1 16 64 FIFO
queue_create 2 3 12 0
queue_send 65 "one"
queue_send 65 "two"
queue_send 65 "three"
queue_receive 65 NOWAIT 0
queue_receive 65 NOWAIT 0
queue_send 65 12 "four"
queue_jump 65 "\\xff\\x00 zero"
queue_create 3 16 64 0
""" + "".join('queue_send 66 64 "page %d"\n' % page for page in range(16))


def test_messages(bench):
    """The messages a queue holds, the first one first."""
    data = made(TURNED)
    _, out, _ = bench.tool("image", "show", "-", stdin=data)
    told = out.decode()
    bench.holds("a queue that holds none", told,
                "\nqueue 64 (name 1, FIFO): 0 of 16 messages held, each at "
                "most 64 bytes\n")
    held = re.search(r"^queue 65 .*: 3 of 3 messages held, each at most 12 "
                     r"bytes: (.*)$", told, re.M)
    bench.check("a queue that turned", held and [
        word in part for word, part in zip(
            (" zero", "three", "four"), held.group(1).split("; "))]
        == [True] * 3, told[:600])
    full = re.search(r"^queue 66 .*: 16 of 16 messages held, .*?: (.*)$",
                     told, re.M)
    bench.check("a full queue", full and [
        "page %d" % page in part for page, part in enumerate(
            full.group(1).split("; "))] == [True] * 16, told[:600])
    cells = image.record(data, "queue", 1)["cells"]
    bench.equal("its cells, and zeros past them", (
        bytes(cells[:image.CELL * 3]), any(cells[image.CELL * 3:])), (
        b"".join(bytes([length]) + text.ljust(64, b"\0") for length, text in (
            (7, b"\xff\0 zero"), (5, b"three"), (12, b"four"))), False))


def squeezed(text):
    """With one space between words: columns are as wide as they need be."""
    return re.sub(" +", " ", text)


def test_fields(bench):
    """All fields together are the image, and those shown are not zero."""
    data = made()
    found = list(image.values(data))
    widths = [field.bytes for kind, fields in image.FIELDS.items()
              for _ in range(image.records_of(kind)) for field in fields
              for _ in range(field.many)]
    bench.check("the fields are all bytes", data == b"".join(
        value.value.to_bytes(width, "little")
        for value, width in zip(found, widths)))
    bench.equal("as many fields as widths", len(found), len(widths))
    bench.equal("a field stands once", len({value[:3] for value in found}),
                len(found))
    path = bench.file("made.image", data)
    for words, expected in ((["--all"], found), ([], [
            value for value in found if value.value])):
        _, out, _ = bench.tool("image", "show", path, *words)
        lines = out.decode().partition("\n\n")[2].splitlines()[1:]
        bench.equal("lines of show " + " ".join(words), len(lines),
                    len(expected))
        bench.check("they are the fields", all(
            line.split()[:3] == [value.kind, str(value.slot),
                                 str(value.number)]
            and str(value.value) in line.split()
            for line, value in zip(lines, expected)))


def test_any_bytes(bench):
    """Bytes behind a header that no state writes are told too."""
    dice = random.Random(4)
    head = made()[:image.bytes_of("header")]
    for most in (255, 40, 1):
        path = bench.file("any.image", head + bytes(
            dice.randint(0, most) for _ in range(image.LENGTH - len(head))))
        status, _, errors = bench.tool("image", "show", path)
        bench.equal("status of any bytes", (status, errors), (0, ""))


def test_complaints(bench):
    data = made()
    other = bytearray(data)
    other[0] = 2
    moved = bytearray(data)
    queues = image.BEGINS["queue"]
    moved[36:38] = (queues + 1).to_bytes(2, "little")
    for what, found, expected in (
            ("no bytes", b"", "0 bytes, an image of edition 1 has %d" % image.LENGTH),
            ("a cut image", data[:-1], "%d bytes, an image" % (image.LENGTH - 1)),
            ("another edition", bytes(other),
             "number 0 of its header (edition) is 2, not 1"),
            ("another place", bytes(moved),
             "number 9 of its header (queues_at) is %d, not %d" % (queues + 1, queues)),
            ("a refused script", made("first priority 5\ncount 9\n"), "its script was refused")):
        status, out, errors = bench.tool("image", "show", "-", stdin=found)
        bench.equal("status of " + what, (status, out), (1, b""))
        bench.holds("complaint of " + what, errors,
                    "standard input: no image of edition 1: " + expected)
    status, _, errors = bench.tool("image", "show", os.path.join(
        bench.scratch, "none.image"))
    bench.equal("status without a file", status, 1)
    bench.holds("complaint without a file", errors, "cannot be read")
