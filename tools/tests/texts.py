"""tools/script: the text form, both ways, and its complaints."""

import os
import random
import struct

from lib import reader, script, tables, text
from lib.files import Trouble
from lib.slots import fresh_slots
from tests.bench import stored, stored_names

FOREVER = tables.FOREVER
NINE = """
first priority 5
lock = sem_create 7 1 FIFO
sem_claim lock 0 FOREVER
late = task_create name=9 priority=8
task_start late
sem_claim id=lock options=0 time_out=0x2
tick
interrupt tick
sem_info lock            # a comment
sem_claim lock NOWAIT 0
"""
NINE_RECORDS = (
    (8, 0, 7, 1, 1), (11, 0, 64, 0, FOREVER), (1, 0, 9, 8), (4, 0, 65),
    (11, 0, 64, 0, 2), (0, 1), (0, 1), (13, 0, 64), (11, 0, 64, 1, 0))


def packed(header, records):
    rows = [struct.pack("<7I", *(list(row) + [0] * 7)[:7]) for row in records]
    return struct.pack("<4I", *header) + b"".join(rows)


def made(words, first="first priority 5\n"):
    return reader.script_of(first + words, "T")


def test_round_trip_of_stored(bench):
    for name in stored_names():
        data = stored(name)[0]
        again = reader.script_of(text.text_of(data), name)
        bench.check("round trip of stored/" + name, again == data)


def damaged(chance):
    """Random bytes, or a good script with a header, cut or bytes changed."""
    if chance.random() < .3:
        return chance.randbytes(chance.randrange(200))
    rows = [[chance.choice((0, 1, 8, 11, 14, 19, 20, 23, 24, 27,
                            chance.getrandbits(32))),
             chance.choice((0, 0, 1, 2, chance.getrandbits(32)))]
            + [chance.choice((0, 1, 4, 12, 64, FOREVER, 2 ** 31, 0x22415c23,
                              chance.getrandbits(32)))
               for _ in range(5)] for _ in range(chance.randrange(6))]
    header = [len(rows), 16, chance.randrange(16), 0]
    if chance.random() < .7:
        place = chance.randrange(4)
        header[place] = chance.choice((0, 1, 15, 17, 20, 44, 200,
                                       chance.getrandbits(32)))
    data = packed(header, rows) + chance.randbytes(chance.randrange(40))
    return data[:chance.randrange(len(data) + 1)] if (
        chance.random() < .3) else data


def test_round_trip_of_random_bytes(bench):
    chance = random.Random(21)
    bad = []
    for number in range(800):
        data = damaged(chance)
        words = text.text_of(data)
        if reader.script_of(words, "random") != data:
            bad.append(data.hex())
        elif text.text_of(reader.script_of(words, "random")) != words:
            bad.append(words)
    bench.check("round trip of 800 random scripts", not bad, str(bad[:1]))


def test_known_bytes(bench):
    bench.equal("the nine records", reader.script_of(NINE, "T"),
                packed((9, 16, 5, 0), NINE_RECORDS))
    bench.equal("odd header", made("count 7\noffset 15\nfourth 1\n"
                                   "bytes ff\ntick\nbytes 00 01\n"),
                struct.pack("<4I", 7, 15, 5, 1) + b"\xff"
                + struct.pack("<7I", 0, 1, 0, 0, 0, 0, 0) + b"\0\1")
    bench.equal("no header", reader.script_of("header none\nbytes 0a", "T"),
                b"\x0a")


def test_ways_to_write(bench):
    for one, other in (
            ("mark 1 tick", "tick"), ("call 0", "mark 0 tick"),
            ("interrupt call 0 1 2", "tick unused=1,2"),
            ("sem_claim time_out=3 options=NOWAIT id=64", "call 11 64 1 3"),
            ("sem_create 7 -1 0", "call 8 7 0xffffffff"),
            ("task_delete SELF", "task_delete id=0"),
            ("pool_create 1 4096 100 32 FORCED_DELETE",
             "call 14 1 0x1000 100 buffer 1".replace("buffer", "32")),
            ("mark 77 sem_release 64", "mark 0x4d call 12 64"),
            ('queue_send 64 "page"', "call 23 64 4 0x65676170"),
            ('queue_send 64 "page" # 5', 'queue_send id=64 message="page"'),
            ('queue_send 64 9 "page"', "call 23 64 9 0x65676170"),
            ('queue_send 64 message="a\\x00\\"#"', "call 23 64 4 0x23220061"),
            ('queue_jump 64 "a b=c\\\\"', "call 24 64 6 0x3d622061 0x5c63"),
            ('queue_jump message="" id=64', "queue_jump 64 0"),
            ('interrupt queue_send 64 "\u20ac"', "interrupt call 23 64 3 "
             "0xac82e2"),
            ("queue_send 64 64", "call 23 64 64"),
            ("queue_receive 64 NOWAIT 0", "call 25 64 1 0"),
            ("queue_create 7 16 64 FIFO", "call 20 7 16 64 1")):
        bench.equal("`%s` is `%s`" % (one, other), made(one), made(other))


def label_number(words):
    """The identifier that the last line's label stands for."""
    data = made(words + "\nsem_info 0\ncall 99 x")
    return script.taken_apart(data).records[-1].arguments[0]


def test_labels(bench):
    for words, expected in (
            ("x = task_create 1 1", 65), ("x = pool_create 1 1 1 1 0", 64),
            ("a = sem_create 1 1 0\nsem_delete a\nx = sem_create 1 1 0", 128),
            ("task_delete 64\nx = task_create 1 1", 128),
            ("refused sem_create 1 1 4\nx = sem_create 1 1 0", 64),
            ("interrupt sem_create 1 1 4\nx = sem_create 1 1 0", 64),
            ("a = sem_create 1 1 0\nx = queue_create 1 1 1 0", 64),
            ("x = sem_create 1 1 0\nx = 4097", 4097)):
        bench.equal("label after `%s`" % words.replace("\n", "; "),
                    label_number(words), expected)


def test_guess_against_stored(bench):
    """The slots, fed the calls that succeeded, give the answers' numbers."""
    for name, (records, answers, _) in bench.runs():
        slots, running, wrong = fresh_slots(), tables.FIRST_TASK, None
        for number, (record, answer) in enumerate(zip(records, answers), 1):
            call = tables.call_of(record.call)
            if call and answer.status == tables.OK and call.ends:
                slots[call.ends].delete(record.arguments[0] or running, 0)
            if call and answer.status == tables.OK and call.makes:
                if slots[call.makes].create() != answer.values[0]:
                    wrong = wrong or number
            running = answer.running
        bench.check("identifiers of stored/" + name, wrong is None,
                    "record %s" % wrong)


ERRORS = (
    ("sem_clam 64 0 1", "expected a call, found `sem_clam`; did you mean "
                        "`sem_claim`?"),
    ("sem_claim 64 0", "expected `sem_claim ID OPTIONS TIME_OUT`: time_out "
                       "is missing"),
    ("sem_claim 64 0 1 2", "found `2` after it"),
    ("sem_claim 64 FIFO 1", "expected a number or NOWAIT for options, found "
                            "`FIFO`"),
    ("sem_claim 64 0 FOR", "expected a number or FOREVER for time_out"),
    ("sem_claim stripe 0 1", "or a label made above for id, found `stripe`"),
    ("sem_claim 64 0 1 id=64", "expected id once"),
    ("sem_release size=1", "found `size=`"),
    ("sem_release 4294967296", "expected a number up to 4294967295"),
    ("sem_release -1", "expected a number"),
    ("sem_create 1 -2147483649 0", "expected a count of -2147483648"),
    ("t = task_create 1 1\nsem_release t", "expected a semaphore for id, "
                                           "found `t`, the task of line 2"),
    ("x = tick", "expected a create"), ("x =", "expected a number or a create"),
    ("FIFO = 3", "expected a label"), ("first priority 6", "found a second"),
    ("first 6", "expected `first priority NUMBER`"),
    ("count", "expected `count NUMBER`"), ("bytes 0", "two hexadecimal"),
    ("tick\nbytes 00\ntick", "records stand together"), ("mark", "after `mark`"),
    ("interrupt", "expected a call"), ("call", "expected a call number"),
    ("call 9 1 2 3 4 5 6", "at most five"), ("interrupt mark 1 tick", "second"),
    ("tick unused=1,2,3,4,5,6", "at most 5 unused"),
    ("header none\ntick", "expected only `bytes`"),
    ("task_delete SELF\nx = task_create 1 1", "line 2 deletes SELF"),
    ("task_create 1 1\n" * 31 + "x = task_create 1 1", "all 32 are taken"),
    ('queue_send 64 "thirteen page"', "expected a message of at most 12 "
     "bytes, all that a script's record has room for, found 13; longer ones "
     "have zeros behind: `length=13`"),
    ('queue_send 64 "page', 'expected a closing `"`'),
    ("queue_send 64 4 page", "expected a message in quotes"),
    ('queue_send 64 "\\n"', "expected a message in quotes"),
    ('queue_send 64 message=4', "expected a message in quotes"),
    ("queue_send 64", "expected `queue_send ID LENGTH MESSAGE`: length is "
     "missing"),
    ('queue_send 64 "a" "b"', "expected message once, found it twice"),
    ('queue_send 64 1 "a" unused=1', "expected at most 0 unused"),
    ('queue_receive 64 0 "a"', "expected a number or FOREVER for time_out"),
    ("s = sem_create 1 1 0\nqueue_send s 0", "expected a queue for id, found "
     "`s`, the semaphore of line 2"),
)


def test_complaints(bench):
    for words, expected in ERRORS:
        place = "T:%d: " % (words.count("\n") + 2)
        try:
            made(words)
            bench.check("a complaint on `%.40s`" % words, False, "none")
        except Trouble as trouble:
            found = str(trouble)
            bench.check("a complaint on `%.40s`" % words, found.startswith(
                place) and expected in found, "found `%s`" % found)


def test_command(bench):
    good, bad = bench.file("good.txt", NINE), bench.file("bad.txt", "tick 1")
    kept = bench.file("kept.script", "kept")
    status, _, words = bench.tool("script", "make", bad, "-o", kept)
    bench.equal("exit status on bad text", status, 1)
    bench.holds("file and line on bad text", words, "bad.txt:1: expected")
    with open(kept, "rb") as file:
        bench.equal("the old file stays", file.read(), b"kept")
    bench.equal("no file is left beside it", sorted(
        name for name in os.listdir(bench.scratch) if "kept" in name),
        ["kept.script"])
    status, _, words = bench.tool("script", "make", bench.file(
        "none.txt", "tick"))
    bench.holds("a header is asked for", words, "`first priority NUMBER`")
    status, out, _ = bench.tool("script", "make", good)
    bench.equal("a script to standard output", out,
                packed((9, 16, 5, 0), NINE_RECORDS))
    status, shown, _ = bench.tool("script", "show", "-", stdin=out)
    bench.equal("shown from standard input", (status, made(
        shown.decode(), "")), (0, out))
    status, _, words = bench.tool("script", "make", "-", "-o", kept,
                                  stdin=b"first priority 16")
    bench.holds("a note on a refused script", words, "16 is above 15")
    status, _, words = bench.tool("script", "show", "absent")
    bench.holds("a missing file", words, "absent: cannot be read")
