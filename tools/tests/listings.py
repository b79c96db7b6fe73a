"""tools/listing: the words, their colours, and listings that do not fit."""

import os
import pty
import subprocess
import sys

from lib import listing, messages, words
from lib.files import Trouble
from tests.bench import (EXAMPLES, STORED, TOOLS, read, stored, stored_names,
                         stored_path)

NINE_WORDS = """\
9 records; at first task 64, priority 5, runs.
record  caller      call                                        answer
     1  task 64     sem_create name=7 count=1 options=FIFO      OK, semaphore 64; task 64 runs on
     2  task 64     sem_claim id=64 options=0 time_out=FOREVER  OK; task 64 runs on
     3  task 64     task_create name=9 priority=8               OK, task 65; task 64 runs on
     4  task 64     task_start task=65                          OK; now task 65 runs
     5  task 65     sem_claim id=64 options=0 time_out=2        PENDING, task 65 waits; now task 64 runs
     6  interrupt   tick                                        OK; task 64 runs on
     7  interrupt   tick                                        OK; wakes task 65 with TIME_OUT; now task 65 runs
     8  task 65     sem_info id=64                              OK, options FIFO, count 0, waiting 0; task 65 runs on
     9  task 65     sem_claim id=64 options=NOWAIT time_out=0   SEMAPHORE_NOT_AVAILABLE (NOWAIT, count 0 or less); task 65 runs on
"""


def nine(ending):
    return stored_path("nine", ending)


def test_words_of_nine(bench):
    status, out, _ = bench.tool("listing", nine("script"), nine("listing"))
    bench.equal("the nine records in words", (status, out.decode()),
                (0, NINE_WORDS))


def test_words_of_messages(bench):
    path = os.path.join(EXAMPLES, "orders.")
    _, out, _ = bench.tool("listing", path + "script", path + "listing")
    for part in ('queue_send id=orders message="page 4"               OK; '
                 'wakes task parity with OK, handed "page 4"; now task parity',
                 'queue_send id=orders length=13 message="page 7"     '
                 "INVALID_LENGTH (",
                 'OK, length 9, "rebuild 2"; task parity runs on',
                 "OK, options FIFO, held 3, waiting 0;",
                 "wakes task parity with QUEUE_DELETED"):
        bench.holds("words of messages", out.decode(), part)
    for data, expected in (
            (b"", "no bytes"), (b"\0", "1 zero"), (b"a\0\0", '"a" and 2 zeros'),
            (b"\0a\xff", r'"\x00a\xff"')):
        bench.equal("a message in words", messages.in_words(data), expected)


def test_words_of_stored(bench):
    for name, (records, answers, told) in bench.some_runs():
        lines = [words.painted(line, False)
                 for line in words.story(records, answers, told.labels)]
        good = len(lines) == len(records) + 1 and not any(
            "\033" in line for line in lines)
        bench.check("words of stored/" + name, good)


def test_refused_scripts(bench):
    good = dict(bench.runs())
    for name in stored_names():
        data, answers = stored(name)
        bench.equal("refusal of stored/" + name, name not in good,
                    answers == b"script refused\n")
    status, out, _ = bench.tool("listing", *(
        stored_path("script-offset-15", ending)
        for ending in ("script", "listing")))
    bench.equal("a refused script in words", (status, out), (
        0, b"The kernel refuses this script: offset 15 is below 16.\n"))


MISFITS = (
    ("5 1 0 0 0 0 64\n", "", "L:5: expected record 5, found record 6"),
    ("9 10 0 0 0 0 65\n", "", "L:9: expected a line for record 9: S has 9 "
                              "records, the listing 8 lines"),
    ("9 10 0 0 0 0 65\n", "9 10 0 0 0 0 65\n10 0 0 0 0 0 0\n",
     "L:10: expected the end of the listing"),
    ("9 10 0 0 0 0 65\n", "9 10 0 0 0 0 65", "L:9: expected a newline"),
    ("\n4 0 0", "\n4 x 0", "L:4: expected a number without leading zeros, found "
                       "`x`"),
    ("\n4 0 0", "\n4 00 0", "L:4: expected a number without leading zeros"),
    ("4 0 0 0 0 0 65", "4 0 0", "L:4: expected record, status, four values"),
    ("65:13", "65-13", "L:7: expected a wake as task:status"),
    ("65:13", "65:99", "L:7: expected a status of the table, found 99"),
    ("9 10 0", "9 10 5", "L:9: expected zero values and no wakes with a "
                         "refusal (SEMAPHORE_NOT_AVAILABLE)"),
    ("3 0 65", "3 0 -65", "L:3: expected value 1 not negative"),
    ("\n4 0", "\n4  0", "L:4: expected a number without leading zeros"),
    ("\n4 0", "\n4 \u00b2", "L:4: expected figures"),
    ("\n4 0", "\n4 10", "L:4: expected a status that task_start can give (0 2 "
                       "4 5 20 24 25 26), found 10, SEMAPHORE_NOT_AVAILABLE"),
    ("\n6 0", "\n6 1", "L:6: expected a status that tick can give (0 25 26), "
                     "found 1, PENDING"),
    ("65:13", "65:11", "L:7: expected no task woken by tick with 11, "
                       "SEMAPHORE_DELETED"),
    ("\n2 0 0", "\n2 0 65", "L:2: expected 0 for value 1, which sem_claim "
                          "does not name, found 65"),
)


DELIVERIES = (
    ("65:0:6", "65:0", "L:7: expected task:0:length, for queue_send delivers, "
                       "found `65:0`"),
    ("65:13", "65:13:6", "L:10: expected task:status, for tick delivers "
                         "nothing, found `65:13:6`"),
    ("65:0:6", "65:0:06", "L:7: expected a wake as task:status or "
                          "task:0:length"),
    ("65:0:6", "65:1:6", "L:7: expected no task woken by queue_send with 1, "
                         "PENDING"),
)


def complaint(data, script):
    try:
        listing.fitted(data, "L", script, "S")
        return "none"
    except Trouble as trouble:
        return str(trouble)


def test_misfits(bench):
    script, answers = stored("nine")
    for old, new, expected in MISFITS:
        bad = answers.decode().replace(old, new, 1).encode()
        bench.holds("a listing with `%s` for `%s`" % (new, old),
                    complaint(bad, script), expected)
    orders, told = (read(EXAMPLES, "orders." + ending)
                    for ending in ("script", "listing"))
    for old, new, expected in DELIVERIES:
        bench.holds("a listing with `%s` for `%s`" % (new, old), complaint(
            told.replace(old.encode(), new.encode(), 1), orders), expected)
    bench.holds("refused, but the script is good", complaint(
        b"script refused\n", script), "L:1: found `script refused`, but S is")
    bench.holds("answers to a refused script", complaint(
        answers, script[:-1]), "L:1: expected the one line `script refused`")
    path = bench.file("short.listing", answers[:-16])
    status, out, said = bench.tool("listing", nine("script"), path)
    bench.equal("exit status of a misfit, and no words", (status, out),
                (1, b""))
    bench.holds("the misfit names its file", said, "short.listing:9: ")


def test_wrong_pairs(bench):
    """The listing of each longer script with the next: none fits."""
    names = [name for name, told in bench.runs() if len(told[0]) > 20]
    fits = [(one, other) for one, other in zip(names, names[1:] + names[:1])
            if stored(one)[1] != stored(other)[1]
            and complaint(stored(one)[1], stored(other)[0]) == "none"]
    bench.equal("listings of other scripts that fit", fits, [])
    script, _ = stored("nine")
    unknown = script[:16] + b"\x63" + script[17:]
    bench.holds("an unknown call", complaint(stored("nine")[1], unknown),
                "L:1: expected BAD_CALL for call 99, which no row has")


def shell(bench, words, **more):
    """A tool called by words of the shell; status, output, errors."""
    done = subprocess.run(["bash", "-c", words], cwd=TOOLS,
                          stdout=subprocess.PIPE, stderr=subprocess.PIPE,
                          stdin=subprocess.DEVNULL, timeout=20, **more)
    return done.returncode, done.stdout.decode(), done.stderr.decode()


def test_no_traceback(bench):
    pair = "%s %s" % (nine("script"), nine("listing"))
    full = "standard output: cannot be written: No space left on device\n"
    closed = "standard output: cannot be written: it is closed\n"
    for words, expected in (
            ("./listing %s > /dev/full" % pair, (1, "", full)),
            ("./listing %s >&-" % pair, (1, "", closed)),
            ("./script show %s > /dev/full" % nine("script"), (1, "", full)),
            ("./script show %s >&-" % nine("script"), (1, "", closed)),
            ("./script calls > /dev/full", (1, "", full)),
            ("./trace %s --svg - > /dev/full" % pair, (1, "", full)),
            ("./trace %s --svg - >&-" % pair, (1, "", closed)),
            ("env -u PYTHONUNBUFFERED ./trace --help > /dev/full", (
                1, "", full)),
            ("./listing absent absent 2>&-", (1, "", "")),
            ("./script show - <&-", (
                1, "", "standard input: cannot be read: it is closed\n"))):
        bench.equal("tools" + words[1:].replace(STORED, "stored"),
                    shell(bench, words), expected)
    status, out, said = shell(
        bench, "./script calls | head -c 1 > /dev/null; echo ${PIPESTATUS[0]}")
    bench.check("a reader that has seen enough", "Traceback" not in said
                and not said, said)


def test_hints(bench):
    words = bench.file("lock.txt", "first priority 5\ntick\n")
    hint = ("lock.txt looks like text: `tools/script make %s -o SCRIPT` makes "
            "a script of it" % words)
    refused = bench.file("refused.listing", "script refused\n")
    for tool, more in (("listing", [words, refused]),
                       ("listing", [words, nine("listing")]),
                       ("trace", [words, refused, "--svg", "-"]),
                       ("script", ["show", words])):
        _, out, said = bench.tool(tool, *more)
        more = [os.path.basename(word) for word in more]
        bench.holds("the hint of tools/%s %s" % (tool, " ".join(more)),
                    out.decode() + said, hint)
    _, out, said = bench.tool("script", "show", nine("script"))
    bench.equal("no hint for a script", said, "")
    _, _, said = bench.tool("listing", nine("listing"), nine("script"))
    bench.holds("script and listing in the wrong order", said,
                "nine.listing looks like a listing: the script comes first")
    status, _, said = bench.tool("script", "make", nine("script"))
    bench.equal("a script given for a text", status, 1)
    bench.holds("a script given for a text gets a hint", said,
                "`tools/script show` gives the text of one")


def on_terminal(environment):
    """What the tool writes when its output is a terminal."""
    ours, theirs = pty.openpty()
    plain = {key: value for key, value in os.environ.items()
             if key != "NO_COLOR"}
    subprocess.run([sys.executable, os.path.join(TOOLS, "listing"),
                    nine("script"), nine("listing")], stdout=theirs,
                   env={**plain, **environment}, check=True)
    os.close(theirs)
    text = os.read(ours, 65536).decode()
    os.close(ours)
    return text.replace("\r\n", "\n")


def test_colours(bench):
    bench.holds("colour on a terminal", on_terminal({}), "\033[31;1mSEMAPHORE")
    bench.equal("NO_COLOR on a terminal", on_terminal({"NO_COLOR": "1"}),
                NINE_WORDS)
