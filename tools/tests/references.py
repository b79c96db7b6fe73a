"""docs/CALLS.md against the tables, and the tables against the proved rows."""

import os
import re

from lib import reference, tables
from tests.bench import ROOT, TOOLS, read

CALLERS = {"TASK": "task", "INTERRUPT": "interrupt", "EITHER": "either"}


def test_page(bench):
    page = read(ROOT, "docs", "CALLS.md").decode()
    bench.equal("docs/CALLS.md is made from the tables", page,
                reference.page())
    status, out, _ = bench.tool("script", "calls")
    bench.equal("tools/script calls", (status, out.decode()), (0, page))


def test_rows_have_their_numbers(bench):
    for name in ("calls.tsv", "statuses.tsv"):
        rows = tables.rows_of(name)
        bench.equal(name + " counts from 0", [row["number"] for row in rows],
                    [str(number) for number in range(len(rows))])
        first = read(TOOLS, name).decode().split("\n")[0]
        bench.check(name + " has whole rows", all(
            len(row) == first.count("\t") + 1 for row in rows))


def test_proved_rows(bench):
    """crates/rows: who may call, and a bit for each status."""
    words = read(ROOT, "crates", "rows", "src", "lib.rt").decode()
    who = re.findall(r"^    ([A-Z]+), // \d+ (\w+)$", words, re.M)
    may = re.findall(r"^    (0x[0-9a-f]+), // \d+ (\w+)$", words, re.M)
    bench.equal("callers of crates/rows", [
        (CALLERS[word], name) for word, name in who],
        [(call.caller, call.name) for call in tables.CALLS])
    bench.equal("statuses of crates/rows", [
        (int(bits, 16), name) for bits, name in may],
        [(sum(2 ** status for status in call.statuses), call.name)
         for call in tables.CALLS])


def test_defined_statuses(bench):
    """crates/scope: each status by its name and number."""
    words = read(ROOT, "crates", "scope", "specs", "Statuses.antt").decode()
    defined = re.findall(r"^([A-Z_-]+) = (\d+)$", words, re.M)
    bench.equal("statuses of crates/scope", sorted(
        (int(number), name.replace("-", "_")) for name, number in defined),
        [(number, status.name) for number, status
         in enumerate(tables.STATUSES)])


def test_statuses_seen(bench):
    """No stored listing has a status outside its call's row."""
    outside = [
        (name, number) for name, (records, answers, _) in bench.runs()
        for number, (record, answer) in enumerate(zip(records, answers), 1)
        if tables.call_of(record.call) and answer.status
        not in tables.call_of(record.call).statuses]
    bench.equal("statuses outside a row in stored/", outside, [])
    bench.check("the page names no unknown file", all(
        os.path.exists(os.path.join(ROOT, path)) for path in re.findall(
            r"`((?:tools|crates|docs)/[\w./]+)", reference.page())))
