"""tools/prove over a stand-in for `rt`: what it is given, and what is built;
tools/verdict over what `rt ci` says."""

import os
import shutil
import subprocess

from tests.bench import ROOT, read

# Stands in for `rt ci`: notes the files that it is given, fails for a crate
# that is marked so, and builds programs and libraries.
RT = """#!/bin/sh
[ "$1" != doc ] || { echo "$KIT/START-HERE.md"; exit; }
echo "$*: $(pwd | sed 's,.*/,,') $(find . -type f | sort | tr '\\n' ' ')" >> "$NOTES"
cat crates.txt >> "$NOTES"
for one in crates/*; do
    [ ! -e "$one/src/broken" ] || { echo "rt: ${one#*/} NOT PROVED"; exit 1; }
    mkdir -p "$one/out"
    [ ! -e "$one/src/main.rt" ] || echo "made of $(cat "$one/src/main.rt")" > "$one/out/${one#*/}"
done
[ -z "$MEANWHILE" ] || echo changed > "$MEANWHILE"
"""
# Stands in for the kit's compiler.
RATTLE = """#!/bin/sh
echo "$PWD" "$@" | sed 's,[^ =]*/repo/,,g; s,[^ =]*/kit/,KIT/,g' >> "$NOTES"
echo archive > out/libends.a
"""


def put(root, name, text, mode=0o644):
    path = os.path.join(root, name)
    os.makedirs(os.path.dirname(path), exist_ok=True)
    with open(path, "w") as file:
        file.write(text)
    os.chmod(path, mode)


def house(bench, name):
    root = os.path.join(bench.scratch, name)
    os.makedirs(os.path.join(root, "tools"))
    for tool in ("prove", "made_from", "verdict"):
        shutil.copy(os.path.join(ROOT, "tools", tool),
                    os.path.join(root, "tools", tool))
    put(root, "crates.txt", "# layers\nbelow:\nleft: below # words\nother:\n"
        "ends_c staticlib: left json\ntop: left io\n")
    for crate in ("below", "left", "other", "ends_c"):
        put(root, "crates/%s/src/lib.rt" % crate, crate)
    put(root, "crates/top/src/main.rt", "top")
    put(root, "crates/top/stdin", "")
    put(root, "crates/left/must-fail/one.edit", "file: src/lib.rt\n")
    put(root, "crates/left/out/old", "")
    put(root, "kit/bin/rt", RT, 0o755)
    put(root, "kit/bin/rattle", RATTLE, 0o755)
    return root


def prove(root, *names, **more):
    notes = os.path.join(root, "notes")
    open(notes, "w").close()
    scratch = os.path.join(root, "scratch")
    os.makedirs(scratch, exist_ok=True)
    done = subprocess.run(
        [os.path.join(root, "tools", "prove"), *names], stdout=subprocess.PIPE,
        stderr=subprocess.PIPE, env={
            **os.environ, "NOTES": notes, "TMPDIR": scratch, "MEANWHILE": "",
            "PATH": "%s/kit/bin:%s" % (root, os.environ["PATH"]),
            "KIT": root + "/kit", **more})
    with open(notes) as file:
        return (done.returncode, (done.stdout + done.stderr).decode(),
                file.read().split("\n")[:-1], os.listdir(scratch))


def test_program(bench):
    root = house(bench, "proving")
    bench.equal("tools/prove: a copy of what the program is made from, "
                "without edits and what was built, removed at the end",
                prove(root, "top"), (0, "", [
                    "ci: repo ./crates.txt ./crates/below/src/lib.rt "
                    "./crates/left/src/lib.rt ./crates/top/src/main.rt "
                    "./crates/top/stdin ",
                    "below:", "left: below # words", "top: left io"], []))
    bench.equal("tools/prove: the program is put where it belongs",
                read(root, "target", "bin", "top"), b"made of top\n")
    bench.equal("tools/prove: what is built is of the text that was copied", (
        prove(root, "top", MEANWHILE=root + "/crates/top/src/main.rt")[0],
        read(root, "target", "bin", "top"),
        prove(root, "top")[0], read(root, "target", "bin", "top")),
        (0, b"made of top\n", 0, b"made of changed\n"))
    put(root, "HANDLES", "Handles allowed: none.\n")
    bench.holds("tools/prove: HANDLES goes with the crates",
                prove(root, "top", "left")[2][0], "repo ./HANDLES ")


def test_library(bench):
    root = house(bench, "archive")
    status, said, notes, _ = prove(root, "ends_c")
    bench.equal("tools/prove: a static library over what rt ci left", (
        status, said, notes[-1].partition(" -L dependency=KIT/rlibs")[0]),
        (0, "", "crates/ends_c build --crate-name ends_c src/lib.rt --crate-type "
         "staticlib --extern std=KIT/rlibs/std.rlib --extern left=crates/left/"
         "out/rlib/left.rlib --extern json=KIT/rlibs/json.rlib -L dependency="
         "crates/below/out/rlib -L dependency=crates/left/out/rlib -L "
         "dependency=crates/ends_c/out/rlib"))
    bench.equal("tools/prove: the library is put where it belongs",
                read(root, "target", "staticlib", "libends.a"), b"archive\n")


def test_failure(bench):
    root = house(bench, "unproved")
    put(root, "crates/below/src/broken", "")
    status, said, _, left = prove(root, "top")
    bench.equal("tools/prove: a crate that is not proved is a failure",
                (status, said, left), (1, "rt: below NOT PROVED\n", []))
    bench.check("tools/prove: and nothing is built", not os.path.exists(
        os.path.join(root, "target")))
    for words in ((), ("none",), ("top", "none")):
        bench.equal("tools/prove %s is bad usage" % " ".join(words),
                    prove(root, *words)[:2],
                    (2, "usage: tools/prove NAME.., each a crate of "
                        "crates.txt\n"))


OK = ("rt: ok; handles allowed: none; must-fail edits: %s; every proof was "
      "done in this run\n7 passed, 0 failed\n")
ONLY = ("rt: must-fail left/one.edit: refused, as it must be (only %s\n" + OK
        % "1 refused")


def test_verdict(bench):
    root = house(bench, "judged")
    for said, expected in (
            (OK % "1 refused", (0, "")),
            (OK % "1 refused, 1 bad", (1, "must-fail edits that are bad")),
            (OK % "0 refused, 12 bad", (1, "must-fail edits that are bad")),
            (OK % "0 refused", (1, "1 must-fail edits, and 0 refused")),
            (OK.replace("must-fail edits: %s; ", ""),
             (1, "1 must-fail edits, and 0 refused")),
            (ONLY % "by a limit of the prover, ..", (1, "not because a statement became false")),
            (ONLY % "because a proof file names ..", (1, "left/one.edit")),
            ("rt: FAILED: left\n6 passed, 1 failed\n", (1, "did not pass")),
            ("7 passed, 0 failed (left and the crates below alone: not the "
             "gate)\n", (1, "did not pass")),
            ("7 passed, 0 failed\n", (1, "no 'rt: ok'")), ("", (1, "not pass"))):
        put(root, "said", said)
        done = subprocess.run([root + "/tools/verdict", root + "/said"],
                              stdout=subprocess.PIPE, stderr=subprocess.STDOUT)
        bench.check("tools/verdict of " + repr(said[-90:]), (
            done.returncode == expected[0]
            and expected[1] in done.stdout.decode()
            and bool(done.stdout) == bool(expected[1])),
            "%d, %s" % (done.returncode, done.stdout.decode()))
