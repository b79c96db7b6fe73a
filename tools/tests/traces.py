"""tools/trace: what is derived, the SVG and the VCD."""

import os
import re
import xml.etree.ElementTree as tree

from lib import listing, picture, run, script, tables, waves
from tests.bench import EXAMPLES, read, stored, stored_path

SVG = "{http://www.w3.org/2000/svg}"
WIDTHS = {"tiny": 5.0, "small": 5.5, "in": 5.5, "inrun": 5.5, "name": 6.6}


def nine_run(old="", new=""):
    data, answers = stored("nine")
    answers = answers.decode().replace(old, new, 1).encode()
    return run.Run(*listing.fitted(answers, "L", data, "S"), 5)


def test_states_of_nine(bench):
    spans = nine_run().spans
    waits = ("semaphore", 64)
    bench.equal("states of task 65", [
        (span.first, span.last, span.view.state, span.view.waits_on)
        for span in spans["task"][1]],
        [(3, 3, "not started", None), (4, 4, "running", None),
         (5, 6, "waiting", waits), (7, 9, "running", None)])
    bench.equal("states of task 64", [
        (span.first, span.last, span.view.state) for span in spans["task"][0]],
        [(0, 3, "running"), (4, 4, "ready"), (5, 6, "running"),
         (7, 9, "ready")])
    bench.equal("counts of semaphore 64", [
        (span.first, span.last, span.view.count)
        for span in spans["semaphore"][0]],
        [(1, 1, 1), (2, 4, 0), (5, 6, -1), (7, 9, 0)])


def orders_run(old="", new=""):
    data, answers = (read(EXAMPLES, "orders." + ending)
                     for ending in ("script", "listing"))
    answers = answers.replace(old.encode(), new.encode(), 1)
    return run.Run(*listing.fitted(answers, "L", data, "S"), 3)


def test_queues(bench):
    told = orders_run()
    bench.equal("what the queue holds, and who waits", [
        (span.first, span.last, span.view.held, span.view.waiting)
        for span in told.spans["queue"][0]],
        [(1, 4, 0, 0), (5, 6, 0, 1), (7, 7, 0, 0), (8, 9, 0, 1),
         (10, 11, 0, 0), (12, 12, 1, 0), (13, 13, 2, 0), (14, 18, 3, 0),
         (19, 19, 2, 0), (20, 20, 1, 0), (21, 22, 0, 0), (23, 24, 0, 1),
         (25, 25, 0, 0), (26, 26, 0, 1)])
    bench.equal("messages that went to a waiting task", told.deliveries, [
        (7, 64, 65, b"page 4"), (25, 64, 65, b"sync")])
    for old, new, expected in (
            ("65:0:6", "65:0:7", "task 65 is handed 7 bytes where 6 were"),
            ("7 0 0 0 0 0 65 65:0:6", "7 0 0 0 0 0 65",
             "queue 64 holds a message while tasks wait"),
            ("17 0 1 3", "17 0 1 2", "queue_info answers 2 held and 0 waiting "
             "where the calls before make 3 and 0"),
            ("19 0 9", "19 0 6", "queue_receive answers 6 bytes where the "
             "first message held has 9"),
            ("20 0 6 0 0 0 65", "20 1 0 0 0 0 66",
             "task 65 waits, but queue 64 holds a message")):
        words = [doubt.words for doubt in orders_run(old, new).doubts]
        bench.holds("a doubt where `%s` is `%s`" % (old, new), str(words),
                    expected)


def test_no_doubts_in_stored(bench):
    for name, (_, _, told) in bench.runs():
        bench.check("no doubts in stored/" + name, not told.doubts,
                    str(told.doubts[:1]))


def test_doubts(bench):
    for old, new, expected in (
            ("8 0 1 0", "8 0 1 3", "sem_info answers count 3"),
            ("6 0 0 0 0 0 64", "6 0 0 0 0 0 65", "task 65 runs, but is wait"),
            ("6 0 0 0 0 0 64", "6 0 0 0 0 0 66", "no such task is known"),
            ("65:13", "64:13", "task 64 is woken, but does not wait"),
            ("\n4 0 0", "\n4 20 0", "task 65 runs, but is not started")):
        words = [doubt.words for doubt in nine_run(old, new).doubts]
        bench.holds("a doubt where `%s` is `%s`" % (old, new), str(words),
                    expected)


def texts_run_together(root):
    """Level texts of one height that overlap, by a careful width."""
    levels = {}
    for node in root.iter(SVG + "text"):
        wide = WIDTHS.get(node.get("class"))
        if wide and not node.get("transform"):
            x, long = float(node.get("x")), len(node.text) * wide
            x -= {"middle": long / 2, "end": long}.get(
                node.get("text-anchor"), 0)
            levels.setdefault(node.get("y"), []).append((x, x + long,
                                                         node.text))
    for row in levels.values():
        row.sort()
        for one, other in zip(row, row[1:]):
            if one[1] > other[0]:
                return "%s | %s" % (one[2], other[2])
    return None


def check_picture(bench, name, told):
    root = tree.fromstring(picture.picture(told, name))
    kinds = [node.get("class") for node in root.iter()]
    bench.equal("refusals drawn of " + name, kinds.count("cross")
                + kinds.count("scratch"),
                len(told.refusals()) + bool(told.refusals()))
    wide, high = float(root.get("width")), float(root.get("height"))
    outside = [node.text for node in root.iter(SVG + "text")
               if not (0 <= float(node.get("x")) <= wide
                       and 0 <= float(node.get("y")) <= high)]
    bench.equal("texts outside the picture of " + name, outside, [])
    bench.equal("texts over one another in " + name,
                texts_run_together(root), None)
    negative = [node for node in root.iter(SVG + "rect")
                if float(node.get("width")) < 0
                or float(node.get("height")) < 0]
    bench.equal("boxes turned over in " + name, negative, [])


def test_pictures(bench):
    for name, (_, _, told) in bench.some_runs():
        check_picture(bench, name, told)


def test_part_of_a_run(bench):
    told = dict(bench.runs())["mixed-3"][2]
    words = picture.picture(told, "part", 101, 160)
    bench.holds("a part says so", words, "here records 101 to 160")
    numbers = {node.text for node in tree.fromstring(words).iter(SVG + "text")}
    bench.check("a part has its records", "120" in numbers
                and "170" not in numbers)


def parsed(vcd):
    """Final value by path, or a complaint; the form is checked on the way."""
    head, body = vcd.split("$enddefinitions $end\n")
    scopes, names = [], {}
    for line in head.splitlines():
        words = line.split()
        if words[0] == "$scope":
            scopes.append(words[2])
        elif words[0] == "$upscope":
            scopes.pop()
        elif words[0] == "$var":
            assert words[3] not in names, "code twice: " + line
            names[words[3]] = "/".join(scopes + [words[4]])
    assert not scopes, "a scope is left open"
    time, last = -1, {}
    for line in body.splitlines():
        if line.startswith("#"):
            assert int(line[1:]) > time, "time goes back at " + line
            time = int(line[1:])
        elif not line.startswith("$"):
            found = re.fullmatch(r"(b[01z]+ |s\S+ |[01])(\S+)", line)
            assert found and found.group(2) in names, "bad line: " + line
            last[names[found.group(2)]] = found.group(1).strip()
    assert set(last) == set(names.values()), "a variable without a value"
    return last


def expected_finals(told):
    """What each slot shows at the end, as the VCD would say it."""
    finals = {}
    for kind, field, part in (("task", "state", 1), ("semaphore", "count", 1),
                              ("pool", "out", 1), ("queue", "held", 1)):
        for slot, spans in told.spans[kind].items():
            path = "run/%ss/%s_%s" % (kind, waves.slot_name(
                told, kind, slot), field)
            alive = spans[-1].last == told.last
            value = spans[-1].view[part] if alive else None
            if kind == "task":
                finals[path] = (value or "-").replace(" ", "_")
            else:
                finals[path] = value
    return finals


def read_value(text):
    if text.startswith("s"):
        return text[1:].replace("waiting_suspended", "waiting")
    if text == "bz":
        return None
    number = int(text[1:], 2)
    return number - 2 ** 32 if number >= 2 ** 31 else number


def test_waves(bench):
    for name, (_, _, told) in bench.some_runs():
        try:
            last = parsed(waves.waves_of(told).text())
        except AssertionError as wrong:
            bench.check("waves of " + name, False, str(wrong))
            continue
        expected = expected_finals(told)
        bench.equal("waves of " + name, {
            path: read_value(last[path]) for path in expected}, expected)


def test_command(bench):
    pair = [stored_path("nine", end) for end in ("script", "listing")]
    svg, vcd = (os.path.join(bench.scratch, "n." + end)
                for end in ("svg", "vcd"))
    status, _, said = bench.tool("trace", *pair, "--svg", svg, "--vcd", vcd)
    bench.equal("a trace of the nine", (status, said), (0, ""))
    words = read(svg).decode()
    bench.check("the picture stands alone", "href" not in words
                and "<script" not in words and words.count("http") == 1)
    bench.holds("the wait is named", words, "waits for semaphore 64")
    parsed(read(vcd).decode())
    refused = [stored_path("script-offset-15", end)
               for end in ("script", "listing")]
    absent = os.path.join(bench.scratch, "absent.svg")
    status, _, said = bench.tool("trace", *refused, "--svg", absent)
    bench.equal("nothing is drawn of a refused script",
                (status, os.path.exists(absent)), (1, False))
    bench.holds("and it says why", said, "offset 15 is below 16")
    status, _, said = bench.tool("trace", *pair, "--svg", absent,
                                 "--records", "5-10")
    bench.holds("records out of range", said, "within 1 to 9")
