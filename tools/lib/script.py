"""Scripts as bytes.

"A script is at most 65,536 bytes, of little-endian 32-bit numbers: count of
records, offset of the first, priority of the first task, zero; then records
of seven: call, caller mark, five arguments (unused ones ignored)."
"""

import struct
from collections import namedtuple

from lib.tables import MOST_PRIORITY

MOST_BYTES, HEADER_BYTES, RECORD_BYTES = 65536, 16, 28

Header = namedtuple("Header", "count offset priority fourth")
Record = namedtuple("Record", "call mark arguments")

# Any bytes at all, taken apart: the header (None when the bytes are fewer),
# bytes before the records, whole records, bytes after them.
Layout = namedtuple("Layout", "header before records after")


def taken_apart(script):
    """The layout of any bytes; put_together gives the same bytes back.

    Where the offset points outside the script the records are taken to
    follow the header at once: a reader of a damaged script wants to see them.
    """
    if len(script) < HEADER_BYTES:
        return Layout(None, b"", [], script)
    header = Header(*struct.unpack_from("<4I", script))
    begin = header.offset
    if not HEADER_BYTES <= begin <= len(script):
        begin = HEADER_BYTES
    count = min(header.count, (len(script) - begin) // RECORD_BYTES)
    end = begin + RECORD_BYTES * count
    records = [record_of(script, begin + RECORD_BYTES * number)
               for number in range(count)]
    return Layout(header, script[HEADER_BYTES:begin], records, script[end:])


def record_of(script, place):
    call, mark, *arguments = struct.unpack_from("<7I", script, place)
    return Record(call, mark, tuple(arguments))


def put_together(layout):
    if layout.header is None:
        return layout.after
    parts = [struct.pack("<4I", *layout.header), layout.before]
    for record in layout.records:
        parts.append(struct.pack("<7I", record.call, record.mark,
                                 *record.arguments))
    return b"".join(parts + [layout.after])


def refusal(script):
    """Why the kernel refuses the script, in words, or None."""
    length = len(script)
    if length > MOST_BYTES:
        return "%d bytes, the most is %d" % (length, MOST_BYTES)
    if length < HEADER_BYTES:
        return "%d bytes, the header alone has %d" % (length, HEADER_BYTES)
    header = Header(*struct.unpack_from("<4I", script))
    if header.offset < HEADER_BYTES:
        return "offset %d is below %d" % (header.offset, HEADER_BYTES)
    if header.offset + RECORD_BYTES * header.count > length:
        return ("%d records from offset %d do not fit in %d bytes"
                % (header.count, header.offset, length))
    if header.priority > MOST_PRIORITY:
        return "first priority %d is above 15" % header.priority
    if header.fourth != 0:
        return "the header's fourth number is %d, not 0" % header.fourth
    return None
