#!/usr/bin/env python3
"""Writes crates/check_cases/stdin and stdout: derivations put to the check, sound and damaged, with the answer to each.

Every answer is written down here from document 01, and from document 02 for gaps and for literals that stand as a class or a property,
and none is computed. A case in stdin is a line of five fields (bytes of the
table, bytes of the derivation, subject, predicate, object of the fact put), then those bytes. Its answer in stdout is number,
place, count.
"""
import pathlib

CRATE = pathlib.Path(__file__).resolve().parents[2] / "crates" / "check_cases"
stdin, stdout = [], []


def line(*numbers):
    return "".join(f"{n:5d}" for n in numbers).encode() + b"\n"


def laid_out(rows):
    """The bytes of rows of numbers. Bytes stand for themselves."""
    return rows if isinstance(rows, bytes) else b"".join(line(*row) for row in rows)


def case(table, put, derivation, *answer):
    table, derivation = laid_out(table), laid_out(derivation)
    stdin.append(line(len(table), len(derivation), *put) + table + derivation)
    stdout.append(line(*answer))


def given(*fact):
    """A table line of a derivation."""
    return (0, 0, 0, *fact)


def but(derivation, number, row):
    """The derivation with another line of that number, counted from 1."""
    return derivation[:number - 1] + [row] + derivation[number:]


def but_bytes(derivation, number, column, new):
    """The derivation's bytes with new ones on that line, from that column on, counted from 0."""
    b = laid_out(derivation)
    at = 31 * (number - 1) + column
    return b[:at] + new + b[at + len(new):]


# Document 01's table and the derivation that it prints.
T = [(10, 13, 20), (11, 1, 12), (13, 2, 14), (14, 3, 11)]
EXAMPLE = [
    given(13, 2, 14),
    given(10, 13, 20),
    (2, 1, 2, 10, 14, 20),
    given(14, 3, 11),
    (5, 4, 3, 10, 5, 11),
    given(11, 1, 12),
    (4, 6, 5, 10, 5, 12),
]
PUT = (10, 5, 12)

# ---- sound derivations

# Document 01's example.
case(T, PUT, EXAMPLE, 93, 0, 4)
# Any sound order: all table lines first.
case(T, PUT, [given(13, 2, 14), given(10, 13, 20), given(14, 3, 11), given(11, 1, 12),
              (2, 1, 2, 10, 14, 20), (5, 3, 5, 10, 5, 11), (4, 4, 6, 10, 5, 12)], 93, 0, 4)
# One table line; each of the table's facts, from the first to the last, is found.
for fact in T:
    case(T, fact, [given(*fact)], 93, 0, 1)
# A table of one fact.
case([(6, 1, 6)], (6, 1, 6), [given(6, 1, 6)], 93, 0, 1)
# A table line that nothing uses counts.
case(T, (14, 3, 11), [given(11, 1, 12), given(14, 3, 11)], 93, 0, 2)
# A rule line that nothing uses does not count, and its table lines do.
case(T, (11, 1, 12), EXAMPLE[:3] + [given(11, 1, 12)], 93, 0, 3)
# The same fact on two table lines counts twice.
case(T, (11, 1, 12), [given(11, 1, 12), given(11, 1, 12)], 93, 0, 2)
# Two equal lines as the premises of one step count twice.
case([(30, 2, 30)], (30, 2, 30), [given(30, 2, 30), given(30, 2, 30), (1, 1, 2, 30, 2, 30)], 93, 0, 2)
# A rule line may stand twice.
case(T, (10, 14, 20), EXAMPLE[:3] + [(2, 1, 2, 10, 14, 20)], 93, 0, 2)
# The fact put stands earlier too.
case(T, (11, 1, 12), [given(11, 1, 12), given(13, 2, 14), given(11, 1, 12)], 93, 0, 3)
# A derivation need not be the shortest: the table has the fact itself.
case([(6, 5, 10), (6, 7, 8), (7, 3, 10)], (6, 5, 10), [given(7, 3, 10), given(6, 7, 8), (5, 1, 2, 6, 5, 10)], 93, 0, 2)
# One line serves as both premises: (A sp A) by rule 1, (A sc A) by rule 3.
case([(30, 2, 30)], (30, 2, 30), [given(30, 2, 30), (1, 1, 1, 30, 2, 30)], 93, 0, 1)
case([(30, 1, 30)], (30, 1, 30), [given(30, 1, 30), (3, 1, 1, 30, 1, 30)], 93, 0, 1)
# A chain that comes back to its start (document 01, f).
case([(10, 1, 11), (11, 1, 10)], (10, 1, 10), [given(10, 1, 11), given(11, 1, 10), (3, 1, 2, 10, 1, 10)], 93, 0, 2)
# Literals at both ends of a fact that is lifted.
case([(7, 2, 9), (40000, 7, 59999)], (40000, 9, 59999), [given(7, 2, 9), given(40000, 7, 59999), (2, 1, 2, 40000, 9, 59999)], 93, 0, 2)
# Range types a literal, and so does domain; the class above is its type too.
case([(10, 14, 40000), (14, 4, 11)], (40000, 5, 11), [given(14, 4, 11), given(10, 14, 40000), (6, 1, 2, 40000, 5, 11)], 93, 0, 2)
case([(14, 3, 11), (59999, 14, 40000)], (59999, 5, 11), [given(14, 3, 11), given(59999, 14, 40000), (5, 1, 2, 59999, 5, 11)], 93, 0, 2)
case([(11, 1, 12), (40000, 5, 11)], (40000, 5, 12), [given(11, 1, 12), given(40000, 5, 11), (4, 1, 2, 40000, 5, 12)], 93, 0, 2)
# Rule 2 onto the last name.
case([(10, 14, 20), (14, 2, 39999)], (10, 39999, 20),
     [given(14, 2, 39999), given(10, 14, 20), (2, 1, 2, 10, 39999, 20)], 93, 0, 2)

# ---- the six rules

# For each rule its two premises, as document 01 writes them, and what it gives.
STEPS = {
    1: ((20, 2, 21), (21, 2, 22), (20, 2, 22)),
    2: ((13, 2, 14), (10, 13, 20), (10, 14, 20)),
    3: ((20, 1, 21), (21, 1, 22), (20, 1, 22)),
    4: ((11, 1, 12), (10, 5, 11), (10, 5, 12)),
    5: ((14, 3, 11), (10, 14, 20), (10, 5, 11)),
    6: ((14, 4, 11), (10, 14, 20), (20, 5, 11)),
}


def step(rule, p, q, r, *answer, premises=(1, 2)):
    """A step from two table lines, which are the whole table."""
    case(sorted({p, q}), r, [given(*p), given(*q), (rule, *premises, *r)], *answer)


for rule, (p, q, r) in STEPS.items():
    # Right.
    step(rule, p, q, r, 93, 0, 2)
    # The premises in the other order.
    step(rule, p, q, r, 10, 3, 0, premises=(2, 1))
    # One line for both premises.
    step(rule, p, q, r, 10, 3, 0, premises=(1, 1))
    step(rule, p, q, r, 10, 3, 0, premises=(2, 2))
    # Any other rule's number.
    for other in range(1, 8):
        if other != rule:
            step(other, p, q, r, 10, 3, 0)
    # Subject and object of the result turned.
    step(rule, p, q, r[::-1], 10, 3, 0)

# The premises do not meet.
step(1, (20, 2, 21), (22, 2, 23), (20, 2, 23), 10, 3, 0)
step(2, (13, 2, 14), (10, 15, 20), (10, 14, 20), 10, 3, 0)
step(3, (20, 1, 21), (22, 1, 23), (20, 1, 23), 10, 3, 0)
step(4, (11, 1, 12), (10, 5, 13), (10, 5, 12), 10, 3, 0)
step(5, (14, 3, 11), (10, 15, 20), (10, 5, 11), 10, 3, 0)
step(6, (14, 4, 11), (10, 15, 20), (20, 5, 11), 10, 3, 0)
# Down instead of up.
step(2, (13, 2, 14), (10, 14, 20), (10, 13, 20), 10, 3, 0)
step(4, (11, 1, 12), (10, 5, 12), (10, 5, 11), 10, 3, 0)
# Rule 4 goes by type only.
step(4, (11, 1, 12), (10, 13, 11), (10, 13, 12), 10, 3, 0)
# Domain types the subject, range the object, and not the other way round.
step(5, (14, 3, 11), (10, 14, 20), (20, 5, 11), 10, 3, 0)
step(6, (14, 4, 11), (10, 14, 20), (10, 5, 11), 10, 3, 0)
# Rule 5 is not for range facts, rule 6 not for domain facts.
step(5, (14, 4, 11), (10, 14, 20), (10, 5, 11), 10, 3, 0)
step(6, (14, 3, 11), (10, 14, 20), (20, 5, 11), 10, 3, 0)
# By no rule: a domain handed down to a subproperty (document 01, g), a class below itself (e), typing by a subproperty.
for rule in range(1, 7):
    step(rule, (13, 2, 14), (14, 3, 11), (13, 3, 11), 10, 3, 0)
    step(rule, (11, 1, 12), (11, 1, 12), (12, 1, 12), 10, 3, 0)
    step(rule, (13, 2, 14), (10, 13, 20), (10, 5, 14), 10, 3, 0)

# ---- 10: rule numbers and premises

# A rule number above 6; 65538 is not 2.
for rule in (7, 8, 10, 255, 65538, 99999):
    case(T, PUT, but(EXAMPLE, 3, (rule, 1, 2, 10, 14, 20)), 10, 3, 0)
# 65536 does not mark a table line.
case(T, (13, 2, 14), [(65536, 0, 0, 13, 2, 14)], 10, 1, 0)
# Premises 0, the own line, lines behind it, lines that are not there; 65537 is not 1; lines with other facts.
for premises in ((0, 2), (1, 0), (0, 0), (3, 2), (1, 3), (3, 3), (4, 2), (1, 4), (1, 7), (8, 2), (1, 8), (1, 2047), (2048, 2),
                 (65537, 2), (1, 65538), (99999, 2), (1, 99999), (99999, 99999)):
    case(T, PUT, but(EXAMPLE, 3, (2, *premises, 10, 14, 20)), 10, 3, 0)
for premises in ((1, 3), (4, 1), (4, 2), (2, 3)):
    case(T, PUT, but(EXAMPLE, 5, (5, *premises, 10, 5, 11)), 10, 5, 0)
# A line that rests on itself, on both sides or on one, where it would be right if it stood there before; two that rest on each other.
case([], (30, 2, 30), [(1, 1, 1, 30, 2, 30)], 10, 1, 0)
case([], (30, 1, 30), [(3, 1, 1, 30, 1, 30)], 10, 1, 0)
case([(30, 1, 30)], (10, 1, 30), [given(30, 1, 30), (3, 2, 1, 10, 1, 30)], 10, 2, 0)
case([(30, 1, 30)], (30, 1, 10), [given(30, 1, 30), (3, 1, 2, 30, 1, 10)], 10, 2, 0)
case([(30, 2, 30)], (10, 30, 20), [given(30, 2, 30), (2, 1, 2, 10, 30, 20)], 10, 2, 0)
case([(30, 1, 30)], (10, 5, 30), [given(30, 1, 30), (4, 1, 2, 10, 5, 30)], 10, 2, 0)
case([], (30, 1, 30), [(3, 2, 2, 30, 1, 30), (3, 1, 1, 30, 1, 30)], 10, 1, 0)
case([(30, 1, 30)], (10, 1, 30), [given(30, 1, 30), (3, 3, 1, 10, 1, 30), (3, 2, 1, 10, 1, 30)], 10, 2, 0)
# A result before its premises, or before one of them.
case(T, (10, 13, 20), [(2, 2, 3, 10, 14, 20), given(13, 2, 14), given(10, 13, 20)], 10, 1, 0)
case(T, (13, 2, 14), [given(10, 13, 20), (2, 3, 1, 10, 14, 20), given(13, 2, 14)], 10, 2, 0)
case(T, (10, 13, 20), [given(13, 2, 14), (2, 1, 3, 10, 14, 20), given(10, 13, 20)], 10, 2, 0)

# ---- 10: table lines

# Rule 0 with a premise that is not 0.
for premises in ((1, 0), (0, 1), (1, 1), (2, 0), (0, 99999), (65536, 0), (0, 65536)):
    case(T, PUT, but(EXAMPLE, 2, (0, *premises, 10, 13, 20)), 10, 2, 0)
# A table fact that is marked as a rule line.
case(T, (13, 2, 14), [(1, 0, 0, 13, 2, 14)], 10, 1, 0)
# What a rule gives is no table line.
case(T, PUT, but(EXAMPLE, 3, given(10, 14, 20)), 10, 3, 0)
# Facts that the table does not have: before its first, between, behind its last, and one term off.
for fact in ((6, 1, 7), (10, 13, 19), (10, 13, 21), (10, 12, 20), (10, 14, 20), (9, 13, 20), (11, 1, 11), (12, 1, 12), (13, 2, 13),
             (14, 3, 10), (14, 3, 12), (14, 4, 11), (15, 3, 11), (59999, 39999, 59999)):
    case(T, fact, [given(*fact)], 10, 1, 0)
# The empty table has no fact.
case([], (10, 1, 11), [given(10, 1, 11)], 10, 1, 0)
# Table lines that are not well-formed are 10 too; 65546 is not 10.
for fact in ((0, 0, 0), (10, 13, 0), (60000, 13, 20), (65546, 13, 20), (10, 65549, 20), (10, 13, 65556), (1, 13, 20), (10, 40000, 20),
             (99999, 99999, 99999)):
    case(T, PUT, but(EXAMPLE, 2, given(*fact)), 10, 2, 0)

# ---- 10: terms of a rule line (never 3, 4, 5 or 12)

for fact in ((0, 14, 20), (10, 0, 20), (10, 14, 0), (60000, 14, 20), (10, 65535, 20), (10, 14, 60000), (65536, 14, 20),
             (10, 65536, 20), (10, 14, 65536), (65546, 14, 20), (10, 65550, 20), (10, 14, 65556), (99999, 99999, 99999),
             (5, 14, 20), (10, 14, 1), (10, 40000, 20), (10, 59999, 20)):
    case(T, PUT, but(EXAMPLE, 3, (2, 1, 2, *fact)), 10, 3, 0)

# ---- 10: a literal as a class or a property (never 12), where the table is sound and so is the fact put (document 02, Point 2)

# Marked as a table line, in front of another and behind it.
BARRED = ((40000, 1, 12), (11, 1, 40000), (59999, 2, 14), (13, 2, 59999), (40000, 3, 11), (14, 3, 40000), (40000, 4, 11), (14, 4, 59999),
          (10, 5, 40000), (40000, 5, 40001), (40000, 1, 40000))
for fact in BARRED:
    case(T, T[0], [given(*fact), given(*T[0])], 10, 1, 0)
    case(T, T[0], [given(*T[0]), given(*fact)], 10, 2, 0)
# Marked as a rule line, with premises that are sound; and the same over a premise that is not, which is then the first false line.
for fact in BARRED:
    for rule in (1, 2):
        case(T, (10, 14, 20), EXAMPLE[:2] + [(rule, 1, 2, *fact)], 10, 3, 0)
for rule in (3, 4, 5, 6):
    case(T, PUT, but(EXAMPLE, 7, (rule, 6, 5, 10, 5, 40000)), 10, 7, 0)
case(T, (10, 13, 20), [given(13, 2, 40000), given(10, 13, 20), (2, 1, 2, 10, 40000, 20)], 10, 1, 0)
case(T, (10, 5, 12), [given(10, 5, 40000), given(40000, 1, 12), (4, 2, 1, 10, 5, 12)], 10, 1, 0)
case(T, (11, 1, 12), [given(11, 1, 12), given(12, 1, 40000), (3, 1, 2, 11, 1, 40000), given(11, 1, 12)], 10, 2, 0)
# The derivations of document 01's cases h and i, over the tables without their literals.
case([(6, 7, 8)], (6, 9, 8), [given(7, 2, 40000), given(40000, 2, 9), (1, 1, 2, 7, 2, 9), given(6, 7, 8), (2, 3, 4, 6, 9, 8)], 10, 1, 0)
case([(6, 7, 8)], (6, 5, 9), [given(6, 7, 8), given(7, 2, 40000), (2, 2, 1, 6, 40000, 8), given(40000, 3, 9), (5, 4, 3, 6, 5, 9)], 10, 2, 0)
# Layout comes first, the end behind.
case(T, PUT, but_bytes(but(EXAMPLE, 2, given(10, 5, 40000)), 7, 30, b" "), 9, 7, 0)
case(T, (10, 5, 13), but(EXAMPLE, 6, given(11, 1, 40000)), 10, 6, 0)

# ---- 10: which line

# The first of two false steps, and a false step before the wrong end.
case(T, PUT, but(but(EXAMPLE, 5, (6, 4, 3, 10, 5, 11)), 3, (2, 2, 1, 10, 14, 20)), 10, 3, 0)
case(T, (10, 5, 13), but(EXAMPLE, 5, (6, 4, 3, 10, 5, 11)), 10, 5, 0)
# The last line is tried too.
case(T, PUT, but(EXAMPLE, 7, (3, 6, 5, 10, 5, 12)), 10, 7, 0)

# ---- 11: the end

# Another fact is put; it stands on an earlier line, or nowhere, or one term is off.
for put in ((10, 5, 11), (13, 2, 14), (12, 1, 12), (11, 5, 12), (10, 6, 12), (10, 5, 13)):
    case(T, put, EXAMPLE, 11, 7, 0)
case(T, (11, 1, 12), [given(13, 2, 14)], 11, 1, 0)
case(T, (13, 2, 14), EXAMPLE[:2], 11, 2, 0)
# A line more behind the fact put.
case(T, PUT, EXAMPLE + [given(11, 1, 12)], 11, 8, 0)

# ---- 9: size (place 0)

for derivation in (b"", b"\n", line(0, 0, 0), laid_out(EXAMPLE)[:-1], laid_out(EXAMPLE) + b"\n", laid_out(EXAMPLE)[:30],
                   laid_out(EXAMPLE)[:32], laid_out(EXAMPLE)[1:]):
    case(T, PUT, derivation, 9, 0, 0)
case([], (10, 1, 11), b"", 9, 0, 0)

# ---- 9: layout (place: the line)

# Each field, badly written: a leading zero, no digit, not at the right, a sign, a space or another byte inside.
for column, field in ((0, b"   00"), (0, b"00000"), (0, b"0    "), (5, b"     "), (5, b"   0 "), (10, b"00000"), (10, b"   -0"),
                      (15, b"00013"), (15, b"13   "), (15, b"   +1"), (20, b"   02"), (20, b"\0\0\0\0\x32"), (20, b"   2\n"),
                      (25, b"  1 4"), (25, b"  0xe"), (25, b"\t  14"), (25, b"  14 "), (25, b"   14".replace(b"4", b"\xb4"))):
    case(T, PUT, but_bytes(EXAMPLE, 1, column, field), 9, 1, 0)
# The line end.
for end in (b" ", b"\r", b"\0", b"0"):
    case(T, PUT, but_bytes(EXAMPLE, 4, 30, end), 9, 4, 0)
# The last line; the first of two lines.
case(T, PUT, but_bytes(EXAMPLE, 7, 30, b" "), 9, 7, 0)
case(T, PUT, but_bytes(but_bytes(EXAMPLE, 6, 0, b"0"), 2, 0, b"0"), 9, 2, 0)
# A multiple of 31 bytes, one byte off; 31 table lines for 16 derivation lines.
case(T, PUT, b"\n" + laid_out(EXAMPLE)[:-1], 9, 1, 0)
case(T, PUT, [(n, 1, n + 1) for n in range(100, 131)], 9, 1, 0)
# Layout comes before steps and end: line 9 is badly laid out, and line 2 is a false step.
NINE = but(EXAMPLE, 2, given(10, 13, 21)) + [given(11, 1, 12), given(11, 1, 12)]
case(T, PUT, NINE, 10, 2, 0)
case(T, PUT, but_bytes(NINE, 9, 14, b" "), 9, 9, 0)
case(T, (10, 5, 13), but_bytes(EXAMPLE, 3, 0, b"0"), 9, 3, 0)

# ---- 3, 4, 5, 12 for the fact put (place 0), before 9

for put, number in (
        # 0, or above 65535
        ((0, 5, 12), 3), ((10, 0, 12), 3), ((10, 5, 0), 3), ((65536, 5, 12), 3), ((10, 65536, 12), 3), ((10, 5, 65536), 3),
        ((65546, 5, 12), 3), ((10, 5, 99999), 3),
        # blank nodes
        ((60000, 5, 12), 4), ((10, 60000, 12), 4), ((10, 5, 60000), 4), ((65535, 5, 12), 4), ((10, 65535, 12), 4), ((10, 5, 65535), 4),
        # vocabulary as subject or object, a literal as predicate
        ((5, 1, 10), 5), ((1, 5, 12), 5), ((10, 5, 1), 5), ((10, 5, 5), 5), ((10, 40000, 12), 5), ((10, 59999, 12), 5),
        # 3 over the whole width, then 4, then 5
        ((60000, 40000, 0), 3), ((5, 40000, 65536), 3), ((5, 40000, 60000), 4),
        # 12 behind each of them
        ((40000, 1, 0), 3), ((65536, 5, 40000), 3), ((40000, 1, 60000), 4), ((60000, 5, 40000), 4),
        ((40000, 1, 5), 5), ((1, 5, 40000), 5), ((40000, 40000, 40000), 5)):
    case(T, put, b"", number, 0, 0)
for put in BARRED:
    case(T, put, b"", 12, 0, 0)
    # Though a derivation ends in it, by a false step, or otherwise.
    case(T, put, EXAMPLE[:2] + [(2, 1, 2, *put)], 12, 0, 0)
    case(T, put, [given(*T[0])], 12, 0, 0)
# Also before a false step and before the wrong end.
case(T, (5, 1, 10), EXAMPLE, 5, 0, 0)
case(T, (10, 5, 60000), NINE, 4, 0, 0)
# A gap is for questions: the check takes the filled triple, and any blank gets 4, though the derivation fills it (document 02,
# Point 1).
case(T, PUT, EXAMPLE, 93, 0, 4)
for put in ((60000, 5, 12), (10, 5, 60000), (65535, 5, 12), (10, 5, 65535), (61234, 5, 12), (10, 60000, 12), (60000, 5, 60000),
            (60000, 5, 65535), (60000, 60000, 12), (60000, 60000, 60000)):
    case(T, put, EXAMPLE, 4, 0, 0)
case([(6, 7, 8), (7, 4, 9)], (8, 5, 9), [given(6, 7, 8), given(7, 4, 9), (6, 2, 1, 8, 5, 9)], 93, 0, 2)
case([(6, 7, 8), (7, 4, 9)], (60000, 5, 9), [given(6, 7, 8), given(7, 4, 9), (6, 2, 1, 8, 5, 9)], 4, 0, 0)
# 3 before it; 5 behind it, whatever the gap.
for put, number in (((60000, 0, 12), 3), ((0, 60000, 7), 3), ((10, 65536, 60000), 3), ((60000, 40000, 7), 4), ((3, 7, 60000), 4)):
    case(T, put, EXAMPLE, number, 0, 0)
# The derivation has the blank too: still 4 for the triple put, and 10 where the triple put is the filled one.
for blank in (60000, 65535):
    case(T, (blank, 5, 12), but(EXAMPLE, 7, (4, 6, 5, blank, 5, 12)), 4, 0, 0)
    case(T, PUT, but(EXAMPLE, 7, (4, 6, 5, blank, 5, 12)), 10, 7, 0)
    case(T, PUT, but(EXAMPLE, 5, (5, 4, 3, 10, 5, blank)), 10, 5, 0)
    case(T, PUT, but(EXAMPLE, 2, given(10, 13, blank)), 10, 2, 0)
    case(T, PUT, but(EXAMPLE, 6, given(11, blank, 12)), 10, 6, 0)
# The last and first of each kind that pass: then it is the derivation's turn.
for put in ((6, 39999, 59999), (39999, 6, 40000), (40000, 5, 6), (59999, 5, 39999), (40000, 6, 59999), (39999, 1, 39999),
            (39999, 4, 39999)):
    case(T, put, b"", 9, 0, 0)

# ---- the table's own refusals, before all others: the fact put has a fault and the derivation has no bytes

for table, *answer in (
        (laid_out(T)[:-1], 1, 0), (laid_out(T) + b"\n", 1, 0),
        (laid_out(T).replace(b"   11    1", b"   11   01"), 2, 2), (laid_out(T)[:-1] + b" ", 2, 4),
        ([(0, 13, 20)] + T[1:], 3, 1), (T + [(15, 5, 65536)], 3, 5),
        (T[:2] + [(13, 2, 60000)], 4, 3), (T + [(65535, 5, 11)], 4, 5),
        ([(5, 1, 10)] + T, 5, 1), ([(10, 40000, 20)] + T[1:], 5, 1), (T + [(15, 5, 5)], 5, 5),
        (T[:1] + T, 6, 2), (T + [(14, 3, 11)], 6, 5), (T + [(14, 2, 12)], 6, 5),
        # 12: document 01's cases h and i, behind 5, before 6, and on an earlier or a later line than others
        ([(6, 7, 8), (7, 2, 40000), (40000, 2, 9)], 12, 2), ([(6, 7, 8), (7, 2, 40000), (40000, 3, 9)], 12, 2),
        (T + [(40000, 1, 5)], 5, 5), (T + [(14, 1, 40000)], 12, 5), (T + [(15, 5, 40000)], 12, 5), (T + [(59999, 4, 11)], 12, 5),
        ([(6, 1, 40000)] + T[:1] + T, 12, 1), (T[:1] + T + [(40000, 1, 6)], 6, 2), ([(6, 3, 5)] + T + [(40000, 1, 6)], 5, 1)):
    case(table, (0, 0, 0), b"", *answer, 0)
# A right derivation does not help a table that is refused.
case(T + [(14, 3, 11)], PUT, EXAMPLE, 6, 5, 0)
case(T + [(15, 5, 40000)], PUT, EXAMPLE, 12, 5, 0)
# Nor those that document 01 had for its cases h and i.
case([(6, 7, 8), (7, 2, 40000), (40000, 2, 9)], (6, 9, 8),
     [given(7, 2, 40000), given(40000, 2, 9), (1, 1, 2, 7, 2, 9), given(6, 7, 8), (2, 3, 4, 6, 9, 8)], 12, 2, 0)
case([(6, 7, 8), (7, 2, 40000), (40000, 3, 9)], (6, 5, 9),
     [given(7, 2, 40000), given(6, 7, 8), (2, 1, 2, 6, 40000, 8), given(40000, 3, 9), (5, 4, 3, 6, 5, 9)], 12, 2, 0)

# ---- the most lines

# 1,024 sc facts as a chain, printed as an answer would be: 2,047 lines.
CHAIN = [(n, 1, n + 1) for n in range(100, 1124)]
PRINTED = [given(*CHAIN[0])]
for n, fact in enumerate(CHAIN[1:], 1):
    PRINTED += [given(*fact), (3, 2 * n - 1, 2 * n, 100, 1, fact[2])]
case(CHAIN, (100, 1, 1124), PRINTED, 93, 0, 1024)
# One fact on 2,047 lines counts 2,047 times.
ONE = [(11, 1, 12)]
case(ONE, (11, 1, 12), [given(11, 1, 12)] * 2047, 93, 0, 2047)
# The last of 2,047 lines rests on itself.
case([(11, 1, 11)], (11, 1, 12), [given(11, 1, 11)] * 2046 + [(3, 1, 2047, 11, 1, 12)], 10, 2047, 0)
# 2,048 lines are too many, whatever stands on them.
case(ONE, (11, 1, 12), [given(11, 1, 12)] * 2048, 9, 0, 0)
# The cases go on behind the long ones.
case(T, PUT, EXAMPLE, 93, 0, 4)

(CRATE / "stdin").write_bytes(b"".join(stdin))
(CRATE / "stdout").write_bytes(b"".join(stdout))
