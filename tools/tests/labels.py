"""Labels, hex and holders: what a text and the answers tell together."""

import json
import os
import re

from lib import listing, names, perfetto, picture, reader, run, script, waves
from tests.bench import EXAMPLES, read, stored


def example(name, notes=True):
    """The run of an example, with the labels of its text or without."""
    data = read(EXAMPLES, name + ".script")
    told = listing.fitted(read(EXAMPLES, name + ".listing"), name, data, name)
    path = os.path.join(EXAMPLES, name + ".script") if notes else "-"
    return run.Run(*told, script.taken_apart(data).header.priority,
                   names.notes_for(None, path, data))


def paths(name):
    return [os.path.join(EXAMPLES, "%s.%s" % (name, ending))
            for ending in ("script", "listing")]


def test_words_with_labels(bench):
    _, out, _ = bench.tool("listing", *paths("parity-pages"))
    for part in ("task main     pool_create name=7 address=0x8000 "
                 "length=0x3000 buffer_size=0x1000 options=0  OK, pool pages "
                 "(64)", "sem_claim id=stripe options=0 time_out=5",
                 "OK, address 0x9000; task rebuild runs on",
                 "wakes task rebuild with OK; now task rebuild runs",
                 "pool_ret_buff id=pages address=0x8000"):
        bench.holds("words with labels", out.decode(), part)


def test_text_given(bench):
    pair = paths("stripe-lock")
    text = os.path.join(EXAMPLES, "stripe-lock.txt")
    moved = [bench.file("moved." + ending, read(path)) for ending, path
             in zip(("script", "listing"), pair)]
    _, plain, _ = bench.tool("listing", *moved)
    bench.check("no labels without the text", b"stripe" not in plain)
    _, named, _ = bench.tool("listing", *moved, "--text", text)
    bench.holds("labels of the text given", named.decode(), "id=stripe")
    other = os.path.join(EXAMPLES, "nine.txt")
    for tool, more in (("listing", []), ("trace", ["--svg", "-"])):
        status, out, said = bench.tool(tool, *moved, "--text", other, *more)
        bench.equal("another text is refused by tools/" + tool,
                    (status, out), (1, b""))
        bench.holds("and tools/%s says so" % tool, said, "this one makes "
                                                         "another script")
    bench.file("moved.txt", "first priority 5\ntick\n")
    status, out, _ = bench.tool("listing", *moved)
    bench.equal("another text beside the script is left alone",
                (status, out), (0, plain))


def test_labels_are_no_guess(bench):
    """A label is that of the object its create made, if it made one."""
    words = ("first priority 5\nx = sem_create 1 99999 0\n"
             "x = sem_create 1 1 0\nx = sem_create 1 1 0\n"
             "t = 64\ntask_resume t\n")
    read_text = reader.Reader("T")
    read_text.read(words)
    answers = (b"1 9 0 0 0 0 64\n2 0 64 0 0 0 64\n3 0 65 0 0 0 64\n"
               b"4 23 0 0 0 0 64\n")
    told = listing.fitted(answers, "L", read_text.script(), "S")
    labels = names.Names(read_text.notes, *told)
    bench.equal("labels by their answers", labels.labels, {
        ("semaphore", 64): "x#64", ("semaphore", 65): "x#65",
        ("task", 64): "t"})


def test_holders(bench):
    told = example("parity-pages")
    bench.equal("who holds which page", sorted(
        (held.address, held.first, held.last, held.holder)
        for held in told.held),
        [(0x8000, 8, 12, 65), (0x9000, 11, 20, 66), (0xA000, 15, 21, 66)])
    bench.equal("who holds the stripe", [
        (span.first, span.last, span.view)
        for span in run.holds_of(told.spans["semaphore"][0])],
        [(7, 13, (64, 65)), (14, 19, (64, 66))])
    counts = run.Semaphore(64, 1, 1)
    counts.release(None)
    counts.holders.append(65)
    bench.equal("what counts to 2 is no lock", counts.view(0).holder, None)


def test_doubts_of_buffers(bench):
    data = read(EXAMPLES, "parity-pages.script")
    answers = read(EXAMPLES, "parity-pages.listing").decode()
    for old, new, expected in (
            ("11 0 36864", "11 0 32768", "address 32768 is handed out twice"),
            ("11 0 36864", "11 0 40960", "address 36864 comes back"),
            ("11 0 36864", "11 0 40960", "but 36864 has been free longer")):
        told = run.Run(*listing.fitted(answers.replace(old, new).encode(),
                                       "L", data, "S"), 3)
        bench.holds("a doubt where `%s` is `%s`" % (old, new), str(
            [doubt.words for doubt in told.doubts]), expected)


def test_picture_with_labels(bench):
    words = picture.picture(example("parity-pages"), "pages")
    for part in (">task rebuild<", ">64, name 7<", ">0x8000<", ">0xa000<",
                 ">held by<", "0x9000 of pool pages (64) is held by task "
                 "rebuild (66); records 11 to 20", ">stripe<",
                 ">held, by the task named<", "pool_get_buff pages"):
        bench.holds("the picture with labels", words, part)
    plain = picture.picture(example("parity-pages", False), "pages")
    bench.holds("the picture without", plain, ">task 66<")
    bench.holds("addresses without a text", plain, ">36864<")


def test_messages_with_labels(bench):
    told = example("orders")
    words = picture.picture(told, "orders")
    for part in (">queue orders<", 'queue_jump orders "rebuild 2"',
                 "task parity (65) waits for queue orders",
                 "queue orders (64): 3 of 3 held; records 14 to 18",
                 'woken with OK, handed "page 4"',
                 'record 25: "sync" to task parity (65)',
                 ">message to a waiting task<"):
        bench.holds("the picture of messages", words, part)
    vcd = waves.waves_of(told).text()
    for part in (" queue64_orders_held $end", " queue64_orders_waiting $end",
                 "sparity:OK:6 "):
        bench.holds("the waves of messages", vcd, part)
    tracks, counters = parsed_trace(perfetto.trace_of(told, "orders"))
    bench.holds("the wait for a message is a slice", str(
        tracks["task parity (65)"]), "'waits for queue orders'")
    bench.equal("held and waiting", counters[
        "queue orders (64): held and waiting"][:3],
        [(1000, 0, 0), (5000, 0, 1), (7000, 0, 0)])


def test_legend_of_long_runs(bench):
    def height(words, part):
        return float(re.search(r'y="([0-9.]+)"[^>]*>' + part, words).group(1))
    long = picture.picture(dict(bench.runs())["mixed-3"][2], "long")
    bench.check("a long run's legend stands above", height(long, "ready<")
                < height(long, "records 1 to"))
    short = picture.picture(example("nine"), "short")
    bench.check("a short run's legend stands below", height(short, "ready<")
                > height(short, "tick<"))


def test_wave_names(bench):
    made = waves.waves_of(example("stripe-lock"))
    vcd, saved = made.text(), made.save_file("lock.vcd", 20)
    for part in (" task66_parity_state $end", " task64_state $end",
                 " semaphore64_stripe_holder $end", " caller $end",
                 " wakes $end", "sparity:OK ", "sprogram ", "sinterrupt "):
        bench.holds("waves with whole names", vcd, part)
    code = re.search(r" (\S+) semaphore64_stripe_holder ", vcd).group(1)
    bench.equal("a value is said where it changes", re.findall(
        r"^s(\S+) %s$" % re.escape(code), vcd, re.M),
        ["-", "program", "parity", "program", "-"])
    declared = re.findall(r"\$var \w+ \d+ \S+ (\S+) ", vcd)
    shown = re.findall(r"^run\.(?:\w+\.)?(\w+)$", saved, re.M)
    bench.equal("the save file shows each signal once", sorted(shown),
                sorted(declared))
    bench.holds("the save file opens the waves", saved,
                '[dumpfile] "lock.vcd"')
    plain = waves.waves_of(example("nine", False)).text()
    bench.holds("a name without a label", plain, " task65_state $end")


def test_slots_in_turn(bench):
    told = dict(bench.runs())["mixed-3"][2]
    vcd = waves.waves_of(told).text()
    bench.holds("a slot of several", vcd, " task_slot0_is $end")
    bench.holds("identifiers in decimal", vcd, "\ns192 ")


# -- the format of a Chrome trace, as its own description has it

NEEDED = {"M": {"name": str, "pid": int, "tid": int, "args": dict},
          "X": {"name": str, "pid": int, "tid": int, "ts": int, "dur": int},
          "i": {"name": str, "pid": int, "tid": int, "ts": int, "s": str},
          "C": {"name": str, "pid": int, "ts": int, "args": dict}}


def parsed_trace(text):
    """Tracks by name with their slices, and counters; or a complaint."""
    whole = json.loads(text)
    assert whole["displayTimeUnit"] in ("ms", "ns")
    tracks, slices, counters = {}, {}, {}
    for event in whole["traceEvents"]:
        for key, kind in NEEDED[event["ph"]].items():
            assert isinstance(event[key], kind), event
        place = (event["pid"], event.get("tid"))
        if event["ph"] == "M" and event["name"] == "thread_name":
            assert place not in tracks, "described twice: %s" % event
            tracks[place] = event["args"]["name"]
        elif event["ph"] == "X":
            assert event["dur"] > 0 and event["ts"] >= 0, event
            slices.setdefault(place, []).append(
                (event["ts"], event["ts"] + event["dur"], event["name"]))
        elif event["ph"] == "C":
            assert all(isinstance(value, int) for value
                       in event["args"].values()), event
            counters.setdefault(event["name"], []).append(
                (event["ts"], *event["args"].values()))
    assert set(slices) <= set(tracks), "a slice on a track without a name"
    for row in slices.values():
        row.sort()
        assert all(one[1] <= other[0] for one, other in zip(row, row[1:]))
    return {tracks[place]: row for place, row in slices.items()}, counters


def test_perfetto(bench):
    for name, (_, _, told) in bench.some_runs():
        try:
            tracks, counters = parsed_trace(perfetto.trace_of(told, name))
        except (AssertionError, KeyError, ValueError) as wrong:
            bench.check("the Chrome trace of " + name, False, repr(wrong))
            continue
        waits = sum("waits for" in row[2] for rows in tracks.values()
                    for row in rows)
        bench.equal("waits in the Chrome trace of " + name, waits, sum(
            span.view.state == run.WAITING for spans
            in told.spans["task"].values() for span in joined_waits(spans)))
        bench.equal("records in the Chrome trace of " + name,
                    len(tracks.get("calls", ())), told.last)
        bench.equal("counters in the Chrome trace of " + name, len(counters),
                    sum(kind != "task" for kind, _ in told.names))


def joined_waits(spans):
    """Spans without the cuts that only a priority makes."""
    kept = []
    for span in spans:
        if (kept and kept[-1].last + 1 == span.first and kept[-1].view._replace(
                priority=0) == span.view._replace(priority=0)):
            span = span._replace(first=kept.pop().first)
        kept.append(span)
    return kept


def test_perfetto_with_labels(bench):
    out = os.path.join(bench.scratch, "pages.json")
    status, _, said = bench.tool("trace", *paths("parity-pages"),
                                 "--perfetto", out)
    bench.equal("tools/trace --perfetto", (status, said), (0, ""))
    tracks, counters = parsed_trace(read(out).decode())
    bench.holds("the wait is a slice", str(tracks["task rebuild (66)"]),
                "(12000, 14000, 'waits for semaphore stripe')")
    bench.equal("a page's holder", tracks["0x8000 of pool pages (64)"], [(8000, 13000, "task program")])
    bench.equal("the holder of the page that was free longest", tracks["0xa000 of pool pages (64)"], [(15000, 22000, "task rebuild")])
    bench.equal("the count", counters["semaphore stripe (64): count"],
                [(1000, 1), (7000, 0), (12000, -1), (14000, 0), (20000, 1)])
    data, answers = stored("nine")
    vcd = os.path.join(bench.scratch, "nine.vcd")
    bench.tool("trace", bench.file("n.script", data), bench.file(
        "n.listing", answers), "--vcd", vcd)
    bench.check("the save file lies beside the waves", os.path.exists(
        os.path.join(bench.scratch, "nine.gtkw")))
