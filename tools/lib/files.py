"""Reading and writing files, and the one way in which the tools complain."""

import errno
import os
import sys


class Trouble(Exception):
    """What is wrong, in words for the reader; carries file and line."""


def trouble_at(name, line, what):
    return Trouble("%s:%d: %s" % (name, line, what))


def shown(name):
    return "standard input" if name == "-" else name


class Closed:
    """A stream that is closed, where Python has None."""

    def __init__(self):
        self.buffer = self

    def read(self, *_):
        raise OSError(errno.EBADF, "it is closed")

    write = read

    def flush(self):
        pass

    def isatty(self):
        return False


def read_bytes(name):
    try:
        if name == "-":
            return sys.stdin.buffer.read()
        with open(name, "rb") as file:
            return file.read()
    except OSError as error:
        raise Trouble("%s: cannot be read: %s" % (shown(name),
                                                  error.strerror))


def looks_like_text(data):
    """Text that was meant for `tools/script make`: no script is that."""
    return (len(data) > 0 and 0 not in data[:16]
            and all(byte >= 32 or byte in b"\t\n\r" for byte in data[:400]))


def text_hint(data, name):
    """What to do with a text that was given for a script, or nothing."""
    if not looks_like_text(data):
        return ""
    if data[:1].isdigit() or data.startswith(b"script refused"):
        return "; %s looks like a listing: the script comes first" % (
            shown(name))
    return ("; %s looks like text: `tools/script make %s -o SCRIPT` makes a "
            "script of it" % (shown(name), name))


def say(words):
    """A note or a complaint, on standard error."""
    try:
        sys.stderr.write(words + "\n")
        sys.stderr.flush()
    except OSError:
        pass             # then nobody can be told


def read_text(name):
    data = read_bytes(name)
    if 0 in data[:16]:
        raise Trouble("%s: expected text, found bytes as of a script; "
                      "`tools/script show` gives the text of one"
                      % shown(name))
    try:
        return data.decode("utf-8")
    except UnicodeDecodeError as error:
        line = data.count(b"\n", 0, error.start) + 1
        raise trouble_at(shown(name), line, "expected text, found the byte "
                         "0x%02x" % data[error.start])


def write_bytes(name, data):
    """Writes the whole or leaves the old file: a cut script plays too."""
    if name == "-":
        sys.stdout.buffer.write(data)
        sys.stdout.buffer.flush()
        return
    # A pipe or a device is written in place, to keep what it is.
    whole = not os.path.exists(name) or os.path.isfile(name)
    target = name + ".part" if whole else name
    try:
        with open(target, "wb") as file:
            file.write(data)
        if whole:
            os.replace(target, name)
    except OSError as error:
        if whole and os.path.exists(target):
            os.remove(target)
        raise Trouble("%s: cannot be written: %s" % (name, error.strerror))


def run_main(main):
    """Runs a tool: 0 done, 1 bad input in words on standard error."""
    for name in ("stdin", "stdout", "stderr"):
        if getattr(sys, name) is None:
            setattr(sys, name, Closed())
    try:
        status = ended(main)
        sys.stdout.flush()
        return status
    except Trouble as trouble:
        say(str(trouble))
    except BrokenPipeError:
        pass             # the reader has seen enough
    except OSError as error:
        say("standard output: cannot be written: %s" % error.strerror)
    # What is left unwritten must not be tried again at the end.
    sys.stdout = Closed()
    return 1


def ended(main):
    """The status of a main that returns or, as argparse does, exits."""
    try:
        main()
        return 0
    except SystemExit as end:
        return end.code
