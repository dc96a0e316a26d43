#!/usr/bin/env python3
"""Writes crates/records_cases/stdin and stdout: tables read into lent fact records, with the answer that document 01 gives each, and
document 02 where a literal stands as a class or a property.

Every answer is written down here from the papers and none is computed. A case in stdin is a line of two fields (bytes of the table,
records lent), then those bytes. Its answer in stdout is number, place, count and a 1, which says that every record is as it must be:
the first count records hold the table's facts, line by line, and all others, lent or not, what they held before.
"""
import pathlib

CRATE = pathlib.Path(__file__).resolve().parents[2] / "crates" / "records_cases"
stdin, stdout = [], []


def line(*numbers):
    return "".join(f"{n:5d}" for n in numbers).encode() + b"\n"


def laid_out(rows):
    """The bytes of rows of numbers. Bytes stand for themselves."""
    return rows if isinstance(rows, bytes) else b"".join(line(*row) for row in rows)


def case(table, lent, *answer):
    table = laid_out(table)
    stdin.append(line(len(table), lent) + table)
    stdout.append(line(*answer, 1))


# Document 01's table, and the longest one: 1,024 sc facts.
T = [(10, 13, 20), (11, 1, 12), (13, 2, 14), (14, 3, 11)]
CHAIN = [(n, 1, n + 1) for n in range(100, 1124)]

# ---- accepted tables: as many records as facts, more, and (8) one too few

# The empty table is a table, and no record is too few for it.
for lent in (0, 1, 4, 1024):
    case([], lent, 0, 0, 0)
for lent in (1, 2, 1024):
    case(T[:1], lent, 0, 0, 1)
case(T[:1], 0, 8, 0, 0)
for lent in (4, 5, 1024):
    case(T, lent, 0, 0, 4)
for lent in (3, 1, 0):
    case(T, lent, 8, 0, 0)
for lent in (1024, 1025):
    case(CHAIN, lent, 0, 0, 1024)
case(CHAIN, 1023, 8, 0, 0)
case(CHAIN[:1023], 1023, 0, 0, 1023)
# The records of a long table are not there for the next.
case(T, 1024, 0, 0, 4)

# ---- the table's own refusals: no record is written, though the lines before the fault are sound

for table, *answer in (
        (laid_out(T)[:-1], 1, 0), (laid_out(T) + b"\n", 1, 0), (laid_out(CHAIN) + line(1124, 1, 1125), 1, 0),
        (laid_out(T)[:-1] + b" ", 2, 4), (laid_out(T).replace(b"   13    2", b"   13   02"), 2, 3),
        (T + [(15, 5, 65536)], 3, 5), (T + [(15, 0, 20)], 3, 5),
        (T[:3] + [(14, 3, 60000)], 4, 4), (T[:3] + [(65535, 3, 11)], 4, 4),
        (T[:3] + [(14, 40000, 20)], 5, 4), (T[:3] + [(14, 3, 5)], 5, 4), ([(5, 1, 10)] + T, 5, 1),
        (T[:3] + [(40000, 1, 5)], 5, 4), (T + [(15, 1, 5), (15, 1, 40000)], 5, 5),
        # 12: document 01's cases h and i, each predicate, and before 6 and what later lines earn
        ([(6, 7, 8), (7, 2, 40000), (40000, 2, 9)], 12, 2), ([(6, 7, 8), (7, 2, 40000), (40000, 3, 9)], 12, 2),
        (T + [(59999, 1, 12)], 12, 5), (T + [(40000, 2, 14)], 12, 5), (T + [(14, 3, 59999)], 12, 5), (T + [(15, 4, 40000)], 12, 5),
        (T + [(15, 5, 40000)], 12, 5), (T + [(14, 2, 40000)], 12, 5), (T[:1] + [(6, 1, 40000)] + T[1:], 12, 2),
        (T + [(15, 1, 40000), (16, 1, 5)], 12, 5), (T + [(15, 1, 40000), (16, 1, 0)], 12, 5),
        (T + T[3:], 6, 5), (T + [(14, 2, 12)], 6, 5), (T[1:] + T[:1], 6, 4)):
    case(table, 1024, *answer, 0)
    # They come before 8.
    case(table, 0, *answer, 0)

# ---- the last number of a kind that passes, and the first that does not

case([(10, 39999, 20)], 1, 0, 0, 1)
case([(10, 40000, 20)], 1, 5, 1, 0)
case([(10, 13, 59999)], 1, 0, 0, 1)
case([(10, 13, 60000)], 1, 4, 1, 0)
# A record has each number whole: the largest terms, and the order subject, predicate, object.
case([(6, 39999, 59999), (59999, 6, 40000)], 2, 0, 0, 2)
# Literals where they may stand; and where they may not, the last name, which passes, and the first literal.
case([(6, 7, 40000), (40000, 5, 6), (40001, 7, 59999)], 3, 0, 0, 3)
for predicate in (1, 2, 3, 4):
    case([(39999, predicate, 39999)], 1, 0, 0, 1)
    case([(40000, predicate, 39999)], 1, 12, 1, 0)
    case([(39999, predicate, 40000)], 1, 12, 1, 0)
case([(40000, 5, 39999)], 1, 0, 0, 1)
case([(39999, 5, 40000)], 1, 12, 1, 0)

(CRATE / "stdin").write_bytes(b"".join(stdin))
(CRATE / "stdout").write_bytes(b"".join(stdout))
