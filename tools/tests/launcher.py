"""./play: the launcher over a stand-in for the kit, and the real player
where it is built."""

import glob
import os
import resource
import shlex
import shutil
import signal
import stat
import subprocess
import time
from concurrent.futures import ThreadPoolExecutor

from tests.bench import ROOT, STORED, is_built, read, stored

# Stands in for `rt ci`: notes each call, "proves" three crates, builds the
# program, all in the copy that tools/prove gives it.
RT = """#!/bin/sh
cut -d" " -f5 /proc/$$/stat > "$CALLS.group"
program=$(sed -n '$s/:.*//p' crates.txt)
echo "$* $program" >> "$CALLS"
[ ! -e "${CALLS%/*}/broken" ] || { echo "rt: one NOT PROVED"; exit 1; }
mkdir -p "crates/$program/out"
echo "rt: one is kept: an earlier run on this machine proved the same files"
sleep 0.1
echo "rt: two proved"
echo "rt: $program proved"
cp "${CALLS%/*}/player" "crates/$program/out/$program"
"""
# Stands in for the player: its listing of a script is the script itself. For
# the grid it is given no file, and reads standard input; for the image it is
# asked for one, and writes that word first. It opens no file whose name is not
# in UTF-8.
PLAYER = """#!/bin/sh
case $1 in
*crash* | *$(printf '\\351')* | *$(printf '\\364\\220')*) exit 3 ;;
report) printf %s "$2"; set -- - ;;
esac
cat -- "$1"
case $? in 0) echo done >&3 ;; 141) exit 141 ;; *) echo failed >&3 ;; esac
"""
USAGE = "usage: play [--grid | --image] [FILE]"


def write(path, text, mode=0o644):
    os.makedirs(os.path.dirname(path), exist_ok=True)
    with open(path, "w") as file:
        file.write(text)
    os.chmod(path, mode)


class House:
    """A small repository with a stand-in kit, and calls of its ./play."""

    def __init__(self, bench, name):
        self.root = os.path.join(bench.scratch, name)
        self.kit = os.path.join(self.root, "kit")
        self.calls = self.path("calls")
        os.makedirs(self.root)
        shutil.copy(os.path.join(ROOT, "play"), self.path("play"))
        os.makedirs(self.path("tools"))
        for tool in ("made_from", "prove"):
            shutil.copy(os.path.join(ROOT, "tools", tool),
                        self.path("tools", tool))
        write(self.path("crates.txt"), "one:\ntwo: one\nplay: two io\n"
                                       "watch: two io\n")
        for crate in ("one", "two"):
            write(self.path("crates", crate, "src", "lib.rt"), crate)
        for crate in ("play", "watch"):
            write(self.path("crates", crate, "src", "main.rt"), crate)
        write(self.path("crates/two/proofs/Laws.antt"), "law")
        os.makedirs(self.path("scratch"))
        write(self.path("player"), PLAYER, 0o755)
        write(self.path("good"), "1 0 0\n")
        write(self.calls, "")
        write(os.path.join(self.kit, "KIT-ID"), "kit 1\n")
        write(os.path.join(self.kit, "bin", "rt"), RT, 0o755)

    def path(self, *parts):
        return os.path.join(self.root, *parts)

    def play(self, words, path=None):
        """`./play` with words of the shell: status, output, errors."""
        done = subprocess.run(
            ["bash", "-c", "./play " + words], cwd=self.root,
            stdin=subprocess.DEVNULL, stdout=subprocess.PIPE,
            stderr=subprocess.PIPE, timeout=20, env=self.environment(path))
        return done.returncode, done.stdout.decode(), done.stderr.decode()

    def environment(self, path=None):
        return {**os.environ, "CALLS": self.calls,
                "TMPDIR": self.path("scratch"), "PATH": path or "%s/bin:%s" % (self.kit, os.environ["PATH"])}

    def builds(self):
        return read(self.calls).decode().count("ci play")


def test_descriptors(bench):
    house = House(bench, "descriptors")
    house.play("good")
    for ending in (b"\351", b"\364\220\200\200"):
        shutil.copy(house.path("good"), os.fsencode(house.path("caf")) + ending)
    for words, expected in (
            ("good", (0, "1 0 0\n", "")),
            ("- < good", (0, "1 0 0\n", "")), ("< good", (0, "1 0 0\n", "")),
            ("-- good", (0, "1 0 0\n", "")),
            ("$(printf 'caf\\351')", (0, "1 0 0\n", "")),
            ("$(printf 'caf\\364\\220\\200\\200')", (0, "1 0 0\n", "")),
            ("<&-", (1, "", "play: standard input: cannot be read: it is "
                            "closed\n")),
            ("good <&-", (0, "1 0 0\n", "")),
            ("good 2>&-", (0, "1 0 0\n", "")),
            ("good >&-", (1, "", "play: standard output: cannot be written: "
                                 "it is closed\n")),
            ("crash", (1, "", "play: the player broke off (status 3): what "
                              "it wrote is not whole\n"))):
        bench.equal("./play " + words, house.play(words), expected)
    write(house.path("big"), "1" * 999999)
    bench.equal("./play big | head -c 1", house.play(
        "big | head -c 1; echo ' '${PIPESTATUS[0]}"), (0, "1 141\n", ""))
    status, out, said = house.play("absent")
    bench.check("./play absent", (status, out) == (1, "")
                and "absent: No such file" in said, said)


def test_usage(bench):
    house = House(bench, "usage")
    for words, expected in (("one two", "one FILE at most, found 2"),
                            ("-- one two", "found 2"),
                            ("--wrong", "unknown option --wrong")):
        status, out, said = house.play(words)
        bench.equal("./play " + words, (status, out), (2, ""))
        bench.holds("what is wrong with ./play " + words, said, expected)
        bench.holds("usage after ./play " + words, said, USAGE)
    for word in ("--help", "-h"):
        status, out, said = house.play(word)
        bench.check("./play " + word, status == 0 and not said
                    and out.startswith(USAGE))
    bench.equal("nothing is built for usage", house.builds(), 0)
    status, out, said = house.play("good", path="/usr/bin:/bin")
    bench.equal("no rt", (status, out), (1, ""))
    bench.holds("what rt is", said, "no rt on PATH: it is the command of the "
                                    "Rattle kit")


def test_grid(bench):
    house = House(bench, "gridded")
    for words, expected in (
            ("--grid good", (0, "1 0 0\n")),
            ("--grid - < good", (0, "1 0 0\n")),
            ("--grid < good", (0, "1 0 0\n")),
            ("--image good", (0, "image1 0 0\n")),
            ("--image - < good", (0, "image1 0 0\n")),
            ("--grid absent", (1, ""))):
        status, out, said = house.play(words)
        bench.equal("./play " + words, (status, out), expected)
    bench.equal("an absent file", said, "play: absent: cannot be opened\n")
    bench.equal("the program of both is built once, the player not",
                read(house.calls).decode(), "ci watch\n")
    bench.equal("./play good", house.play("good")[:2], (0, "1 0 0\n"))


def test_image_on_terminal(bench):
    house = House(bench, "imaged")
    outer, inner = os.openpty()
    done = subprocess.run(
        ["./play", "--image", "good"], cwd=house.root, stdout=inner,
        stdin=subprocess.DEVNULL, stderr=subprocess.PIPE, timeout=20,
        env=house.environment())
    os.close(inner)
    os.close(outer)
    bench.equal("no image goes to a terminal", done.returncode, 2)
    bench.holds("why not", done.stderr.decode(), "an image is bytes")


def test_links(bench):
    house = House(bench, "links")
    os.makedirs(house.path("else/where"))
    os.symlink("../../play", house.path("else/where/first"))
    os.symlink("where/first", house.path("else/second"))
    house.play("good")
    done = subprocess.run(
        [house.path("else/second"), "../good"], cwd=house.path("else"),
        env=house.environment(), stdout=subprocess.PIPE)
    bench.equal("through two links", (done.returncode, done.stdout),
                (0, b"1 0 0\n"))
    bench.equal("through two links, one build", house.builds(), 1)


def changes(house):
    """Ways to change what the player is made from, each by its name."""
    old = house.path("crates/two/src/old.rt")

    def older_file():
        """Other words in place, and the time of before: as cp -p does."""
        before = os.stat(old)
        write(old, "other words")
        os.utime(old, ns=(before.st_atime_ns, before.st_mtime_ns))

    def append(*parts):
        with open(house.path(*parts), "a") as file:
            file.write("\n")

    return (
        ("a source", lambda: append("crates/one/src/lib.rt")),
        ("a proof", lambda: append("crates/two/proofs/Laws.antt")),
        ("crates.txt", lambda: append("crates.txt")),
        ("a new file", lambda: write(old, "words")),
        ("an old time", older_file), ("a file gone", lambda: os.remove(old)),
        ("a new folder", lambda: write(house.path(
            "crates/one/specs/Lib.antt"), "words")),
        ("a folder gone", lambda: shutil.rmtree(house.path(
            "crates/one/specs"))),
        ("the kit", lambda: append("kit/KIT-ID")
         or write(house.kit + "/KIT-ID", "kit 2\n")),
        ("no player", lambda: os.remove(house.path("target/bin/play"))))


def test_never_stale(bench):
    house = House(bench, "stale")
    status, out, said = house.play("good")
    bench.equal("the first start", (status, out), (0, "1 0 0\n"))
    bench.holds("progress, the second crate", said, "crate 2 of 3, two\n")
    bench.holds("progress, the third crate", said, "crate 3 of 3, play\n")
    bench.check("a crate that is kept is not told", "one" not in said)
    write(house.path("crates/one/out/incremental/words"), "rt's own")
    write(house.path("crates/one/must-fail/one.edit"), "an edit")
    bench.equal("not built for what the program is not made of",
                (house.play("good"), house.builds()), ((0, "1 0 0\n", ""), 1))
    for number, (name, change) in enumerate(changes(house), 2):
        time.sleep(0.02)
        change()
        house.play("good")
        bench.equal("built anew after a change: " + name, house.builds(),
                    number)
        bench.equal("not built twice: " + name,
                    (house.play("good"), house.builds()),
                    ((0, "1 0 0\n", ""), number))


def test_no_old_player(bench):
    house = House(bench, "old")
    house.play("good")
    write(house.path("broken"), "")
    write(house.path("crates/one/src/lib.rt"), "worse")
    for _ in range(2):
        status, out, said = house.play("good")
        bench.equal("no listing by an old player", (status, out), (1, ""))
        bench.holds("it says why", said, "the player could not be built")
    os.remove(house.path("broken"))
    bench.equal("mended", house.play("good")[:2], (0, "1 0 0\n"))


def test_two_at_once(bench):
    house = House(bench, "two")
    with ThreadPoolExecutor() as pool:
        both = list(pool.map(house.play, ["good", "good"]))
    bench.equal("two at once", [told[:2] for told in both],
                [(0, "1 0 0\n")] * 2)
    bench.equal("two at once, one build", house.builds(), 1)


def is_group(number):
    """Whether a process of this group is alive, and not only unburied."""
    for path in glob.glob("/proc/[0-9]*/stat"):
        try:
            state, _, group = read(path).rpartition(b")")[2].split()[:3]
        except OSError:
            continue                 # it has just ended
        if int(group) == number and state != b"Z":
            return True
    return False


def test_interrupted(bench):
    """What was begun is ended with the launcher, and begun anew."""
    house = House(bench, "interrupted")
    write(house.path("kit/bin/rt"), RT.replace("sleep 0.1", "sleep 60"), 0o755)
    going = subprocess.Popen(
        ["./play", "good"], cwd=house.root, stdout=subprocess.PIPE,
        stderr=subprocess.DEVNULL, env=house.environment())
    while not house.builds():
        time.sleep(0.02)
    group = int(read(house.calls + ".group"))
    going.send_signal(signal.SIGINT)
    bench.equal("the status of an interrupted build", going.wait(20), 130)
    time.sleep(0.1)
    bench.check("what it began has ended", not is_group(group))
    bench.equal("and its copy is gone", os.listdir(house.path("scratch")), [])
    write(house.path("kit/bin/rt"), RT, 0o755)
    bench.equal("begun anew", house.play("good")[:2], (0, "1 0 0\n"))


def test_progress_on_terminal(bench):
    if not shutil.which("script"):
        bench.skip("progress on a terminal", "no `script` command")
        return
    house = House(bench, "terminal")
    write(house.path("kit/bin/rt"), RT.replace("sleep 0.1", "sleep 0.6"),
          0o755)
    done = subprocess.run(
        ["script", "-qec", "./play good", "/dev/null"], cwd=house.root,
        env=house.environment(), stdin=subprocess.DEVNULL,
        stdout=subprocess.PIPE)
    bench.holds("a line that is rewritten", done.stdout.decode(),
                "\r\033[Kplay: 1 of 3 crates, ")


# -- the real player, where ./play has built it and nothing has changed since

def real(bench):
    if not shutil.which("rt") or not is_built(
            os.path.join(ROOT, "target", "play.stamp")):
        bench.unbuilt("the proved player", "it is not built from this tree; "
                                           "./play builds it")
        return None

    def play(words):
        done = subprocess.run(["bash", "-c", "./play " + words], cwd=ROOT,
                              stdin=subprocess.DEVNULL, stdout=subprocess.PIPE,
                              stderr=subprocess.PIPE, timeout=20)
        return done.returncode, done.stdout, done.stderr.decode()
    return play


def test_real_player(bench):
    play = real(bench)
    if not play:
        return
    nine = stored("nine")[1]
    folder = bench.scratch
    for words, expected in (
            ("stored/cases/nine.script", (0, nine, "")),
            ("- < stored/cases/nine.script", (0, nine, "")),
            ("< stored/cases/nine.script", (0, nine, "")),
            ("stored/cases/nine.script <&-", (0, nine, "")),
            ("README.md", (0, b"script refused\n", "play: note: README.md is "
                           "text, no script; tools/script make README.md -o "
                           "SCRIPT makes one of it\n")),
            ("/dev/null", (0, b"script refused\n", "")),
            ("no/such", (1, b"", "play: no/such: cannot be opened: No such "
                                 "file or directory\n")),
            ("''", (1, b"", "play: : cannot be opened: No such file or "
                            "directory\n")),
            (folder, (1, b"", "play: %s: cannot be read: Is a directory\n"
                      % folder)),
            ("< " + folder, (1, b"", "play: standard input: cannot be read: "
                                     "Is a directory\n")),
            ("stored/cases/nine.script > /dev/full", (
                1, b"", "play: standard output: cannot be written: No space "
                        "left on device\n")),
            ("/dev/null > /dev/full", (
                1, b"", "play: standard output: cannot be written: No space "
                        "left on device\n")),
            ("stored/cases/nine.script 1< README.md", (
                1, b"", "play: standard output: cannot be written: Bad file "
                        "descriptor\n"))):
        bench.equal("the proved player: ./play " + words, play(words),
                    expected)


def test_real_listings(bench):
    """Every stored script: what the proved player writes is what the second
    program wrote."""
    play = real(bench)
    if not play:
        return
    scripts = sorted(glob.glob(os.path.join(STORED, "*", "*.script")))
    with ThreadPoolExecutor(2) as pool:
        wrote = list(pool.map(play, map(shlex.quote, scripts)))
    bench.check("scripts are stored", len(scripts) > 100)
    for path, (status, listing, _) in zip(scripts, wrote):
        expected = read(path[:-len("script")] + "listing")
        bench.equal("the proved player: " + path, (status, listing),
                    (0, expected))


def test_real_start(bench):
    """Processor time, for a busy machine makes any start slow."""
    play = real(bench)
    if not play:
        return
    used = []
    for _ in range(3):
        before = resource.getrusage(resource.RUSAGE_CHILDREN)
        play("stored/cases/nine.script")
        after = resource.getrusage(resource.RUSAGE_CHILDREN)
        used.append(after.ru_utime + after.ru_stime
                    - before.ru_utime - before.ru_stime)
    bench.check("a start takes under 0.1 s", min(used) < 0.1, str(used))
    mode = os.stat(os.path.join(ROOT, "play")).st_mode
    bench.check("./play can be called", mode & stat.S_IXUSR)
