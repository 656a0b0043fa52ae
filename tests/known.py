"""What the tests of the program share: the program, fields with the answers that SCOPE gives them, and the text of a batch."""
import os
import shlex
import struct

os.chdir(os.path.join(os.path.dirname(os.path.abspath(__file__)), ".."))

# The program that is tried: JUDGE names another, with words before its own, as tests/caught does.
PROGRAM = shlex.split(os.environ.get("JUDGE", "target/bin/judge"))
# Seconds until a program that should write and does not is given up. Only a wrong one gets there.
PATIENCE = float(os.environ.get("PATIENCE", "120"))
HEADING = "offset kind answer place number\n"
# Kind, value; answer, place and number.
KNOWN = [
    (1, b"GB82 WEST 1234 5698 7654 32", (0, 0, 1)),
    (1, b"GB82WEST12345698765433", (5, 0, 28)),
    (2, b"7ZW8QJWVPR4P1S5PX088", (0, 0, 1)),
    (3, b"DEU1DEFF", (3, 3, 0)),
    (4, b"2024-02-30", (0, 0, 0)),
    (5, b"2024-01-01T12:00:60Z", (4, 17, 60)),
    (6, b"0.00000", (7, 0, 0)),
    (7, b"GB", (0, 0, 0)),
    (8, b"BIF", (6, 0, 0)),
    (9, b"184467440737095516.15", (0, 0, 18446744073709551615)),
    (10, b"1.+", (8, 3, 0)),
    (6, b"1.\xff", (1, 2, 0)),
    (0, b"", (12, 0, 0)),
    (65535, b"x", (12, 0, 65535)),
    (6, b"1" * 4095, (2, 0, 4095)),
    (6, b"1" * 4096, (2, 0, 4096)),
    (6, b"1" * 4095 + b"x", (3, 4095, 0)),
    (6, b"1" * 4097, (11, 0, 4097)),
    (6, b"1" * 8191, (11, 0, 8191)),
    (6, b"1" * 8192, (11, 0, 8192)),
]
SHORT = KNOWN[:12]


def record(kind, value):
    return struct.pack("<HH", len(value), kind) + value


def batch(entries):
    return b"".join(record(kind, value) for kind, value, _ in entries)


def rows(entries, offset=0):
    """A line for each record, the first at this stream offset."""
    lines = []
    for kind, value, answer in entries:
        lines.append("%d %d %d %d %d\n" % (offset, kind, *answer))
        offset += 4 + len(value)
    return lines


def last_line(stop, judged, read):
    return "stop %d judged %d read %d\n" % (stop, judged, read)


def text(entries, stop, offset=0):
    """All that the program writes for whole records and the last stop."""
    return HEADING + "".join(rows(entries, offset)) + last_line(stop, len(entries), len(batch(entries)))
