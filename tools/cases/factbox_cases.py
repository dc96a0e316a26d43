#!/usr/bin/env python3
"""Writes crates/factbox_cases/stdin and stdout: whole inputs of the program, each with the output that document 01 gives it, and
document 02 where a question has a gap or a literal stands as a class or a property.

The outputs are written by hand, as numbers; no implementation computes them. Only the derivations of long chains are put together
here, line by line in document 01's order, from facts that are listed in that order. Where several shortest derivations exist, the
one is expected whose last fact on the path stands earliest in the table, then whose last but one, and so on back; a way by domain
comes before a way by range. With a gap this is said of the shortest derivations of all fillings together.

Run from anywhere: tools/cases/factbox_cases.py
"""
from pathlib import Path

CRATE = Path(__file__).resolve().parents[2] / "crates" / "factbox_cases"
stdin, stdout = [], []


def lines(text):
    """'10 13 20; 11 1 12' as lines of five-column fields."""
    return b"".join(b"".join(b"%5d" % int(n) for n in row.split()) + b"\n" for row in text.split(";") if row.strip())


def case(shows, data, output):
    """An input as bytes and its output. `shows` says what the case is for."""
    stdin.append(b"%5d\n" % len(data) + data)
    stdout.append(output)


ZERO = b"    0    0    0\n"
FORM = b"    9    0    0\n"


def asked(shows, table, *questions):
    """A table, and questions each with its reply."""
    case(shows, lines(table) + ZERO + b"".join(lines(q) for q, _ in questions), b"".join(lines(r) for _, r in questions))


# ---- document 01's example and its twelve questions

T = "10 13 20; 11 1 12; 13 2 14; 14 3 11"
T_LONG = "90 0 4; 0 0 0 13 2 14; 0 0 0 10 13 20; 2 1 2 10 14 20; 0 0 0 14 3 11; 5 4 3 10 5 11; 0 0 0 11 1 12; 4 6 5 10 5 12"

asked("a: the empty table", "", ("10 1 11 4", "91 0 0"))
asked(
    "b, c, d, e, g, l, and other facts, put to T", T,
    ("10 5 12 4", T_LONG),
    ("10 5 12 3", "92 0 4"),
    ("10 5 12 0", "92 0 4"),
    ("10 14 20 4", "90 0 2; 0 0 0 13 2 14; 0 0 0 10 13 20; 2 1 2 10 14 20"),
    ("12 1 12 4", "91 0 0"),
    ("13 3 11 4", "91 0 0"),
    ("5 1 10 4", "5 0 0"),
    ("10 5 11 4", "90 0 3; 0 0 0 13 2 14; 0 0 0 10 13 20; 2 1 2 10 14 20; 0 0 0 14 3 11; 5 4 3 10 5 11"),
    ("10 13 20 4", "90 0 1; 0 0 0 10 13 20"),
    ("14 3 11 4", "90 0 1; 0 0 0 14 3 11"),
    ("13 2 14 4", "90 0 1; 0 0 0 13 2 14"),
    ("20 5 11 4", "91 0 0"),
    ("20 14 10 4", "91 0 0"),
    ("10 5 14 4", "91 0 0"),
    ("11 1 11 4", "91 0 0"),
)
asked(
    "f: a cycle counts", "10 1 11; 11 1 10",
    ("10 1 10 4", "90 0 2; 0 0 0 10 1 11; 0 0 0 11 1 10; 3 1 2 10 1 10"),
    ("11 1 11 4", "90 0 2; 0 0 0 11 1 10; 0 0 0 10 1 11; 3 1 2 11 1 11"),
    ("10 1 12 4", "91 0 0"),
)
for name, table, question in (("h", "6 7 8; 7 2 40000; 40000 2 9", "6 9 8"), ("i", "6 7 8; 7 2 40000; 40000 3 9", "6 5 9")):
    asked(
        name + ": a literal as a property refuses the table, whatever the allowance and the question", table,
        (question + " 4", "12 2 0"), (question + " 0", "12 2 0"), (question + " 1024", "12 2 0"), (question + " 1025", "12 2 0"),
        ("6 7 8 4", "12 2 0"), ("0 0 0 0", "12 2 0"), ("60000 7 8 4", "12 2 0"), ("7 2 60000 4", "12 2 0"), ("7 2 40000 4", "12 2 0"),
    )
asked("j: the shorter derivation, not the first", "6 5 10; 6 7 8; 7 3 10", ("6 5 10 4", "90 0 1; 0 0 0 6 5 10"))
asked(
    "k: two equal lines; the table's refusal comes first, for each question", "10 1 11; 10 1 11",
    ("10 1 11 4", "6 2 0"), ("5 1 10 4", "6 2 0"), ("10 1 11 1025", "6 2 0"), ("0 0 0 0", "6 2 0"),
)

# ---- the jams that document 01 expects, further

asked("a literal as subject", "7 3 9; 40000 7 8", ("40000 5 9 4", "90 0 2; 0 0 0 40000 7 8; 0 0 0 7 3 9; 5 2 1 40000 5 9"))
asked("range types the object alone", "6 7 8; 7 4 9", ("6 5 9 4", "91 0 0"), ("8 5 9 4", "90 0 2; 0 0 0 6 7 8; 0 0 0 7 4 9; 6 2 1 8 5 9"))
asked("domain types the subject alone", "6 7 8; 7 3 9", ("8 5 9 4", "91 0 0"), ("6 5 9 4", "90 0 2; 0 0 0 6 7 8; 0 0 0 7 3 9; 5 2 1 6 5 9"))
asked(
    "range through a subproperty: rule 2 first, and never to the subject", "6 7 8; 7 2 10; 10 4 9",
    ("6 5 9 4", "91 0 0"),
    ("8 5 9 4", "90 0 3; 0 0 0 7 2 10; 0 0 0 6 7 8; 2 1 2 6 10 8; 0 0 0 10 4 9; 6 4 3 8 5 9"),
)
asked("ranges are not handed down", "7 2 8; 8 4 9", ("7 4 9 4", "91 0 0"))
asked("domains are not handed up, nor to a class above", "7 2 10; 7 3 9; 9 1 11", ("10 3 9 4", "91 0 0"), ("7 3 11 4", "91 0 0"))
asked("a class is no property: no sp fact follows from sc facts", "6 1 7; 7 2 8", ("6 2 8 4", "91 0 0"), ("6 1 8 4", "91 0 0"))
asked(
    "a long way that stands first in the table", "10 1 11; 10 1 20; 11 1 12; 12 1 30; 20 1 30",
    ("10 1 30 4", "90 0 2; 0 0 0 10 1 20; 0 0 0 20 1 30; 3 1 2 10 1 30"),
)
asked("by range, which is shorter", "6 7 6; 7 2 9; 7 4 10; 9 3 10", ("6 5 10 4", "90 0 2; 0 0 0 6 7 6; 0 0 0 7 4 10; 6 2 1 6 5 10"))
asked("by domain, which is shorter", "6 7 6; 7 2 9; 7 3 10; 9 4 10", ("6 5 10 4", "90 0 2; 0 0 0 6 7 6; 0 0 0 7 3 10; 5 2 1 6 5 10"))
asked("by domain, shorter than from a type", "6 5 20; 6 7 8; 7 3 10; 20 1 21; 21 1 10", ("6 5 10 4", "90 0 2; 0 0 0 6 7 8; 0 0 0 7 3 10; 5 2 1 6 5 10"))

# ---- cycles

asked("a fact that is its own cycle", "6 1 6", ("6 1 6 4", "90 0 1; 0 0 0 6 1 6"), ("7 1 7 4", "91 0 0"))
asked(
    "an sp cycle", "6 7 9; 7 2 8; 8 2 7",
    ("7 2 7 4", "90 0 2; 0 0 0 7 2 8; 0 0 0 8 2 7; 1 1 2 7 2 7"),
    ("6 8 9 4", "90 0 2; 0 0 0 7 2 8; 0 0 0 6 7 9; 2 1 2 6 8 9"),
    ("6 7 9 4", "90 0 1; 0 0 0 6 7 9"),
    ("6 10 9 4", "91 0 0"),
)
asked(
    "an sc cycle of three, and a way out of it", "6 1 7; 7 1 8; 8 1 6; 8 1 9",
    ("6 1 9 4", "90 0 3; 0 0 0 6 1 7; 0 0 0 7 1 8; 3 1 2 6 1 8; 0 0 0 8 1 9; 3 3 4 6 1 9"),
    ("8 1 8 4", "90 0 3; 0 0 0 8 1 6; 0 0 0 6 1 7; 3 1 2 8 1 7; 0 0 0 7 1 8; 3 3 4 8 1 8"),
    ("9 1 9 4", "91 0 0"),
    ("9 1 6 4", "91 0 0"),
)

# ---- ties

asked(
    "two ways: the last fact that stands earliest", "10 1 11; 10 1 12; 11 1 13; 12 1 13",
    ("10 1 13 4", "90 0 2; 0 0 0 10 1 11; 0 0 0 11 1 13; 3 1 2 10 1 13"),
)
asked(
    "the same, though its first fact stands later", "10 1 20; 10 1 21; 14 1 30; 15 1 30; 20 1 15; 21 1 14",
    ("10 1 30 4", "90 0 3; 0 0 0 10 1 21; 0 0 0 21 1 14; 3 1 2 10 1 14; 0 0 0 14 1 30; 3 3 4 10 1 30"),
)
asked(
    "one last fact: the one before it that stands earliest", "10 1 12; 10 1 13; 12 1 14; 13 1 14; 14 1 11",
    ("10 1 11 4", "90 0 3; 0 0 0 10 1 12; 0 0 0 12 1 14; 3 1 2 10 1 14; 0 0 0 14 1 11; 3 3 4 10 1 11"),
)
asked("domain before range", "6 7 6; 7 3 10; 7 4 10", ("6 5 10 4", "90 0 2; 0 0 0 6 7 6; 0 0 0 7 3 10; 5 2 1 6 5 10"))
asked("two data facts", "6 7 8; 6 7 9; 7 3 10", ("6 5 10 4", "90 0 2; 0 0 0 6 7 8; 0 0 0 7 3 10; 5 2 1 6 5 10"))
asked("two predicates", "6 7 9; 6 8 9; 7 2 10; 8 2 10", ("6 10 9 4", "90 0 2; 0 0 0 7 2 10; 0 0 0 6 7 9; 2 1 2 6 10 9"))

# ---- allowances, and the order of the question's refusals

asked(
    "f is 4: allowances 0, f - 1, f, f + 1, 1,024, 1,025 and the largest", T,
    ("10 5 12 0", "92 0 4"), ("10 5 12 3", "92 0 4"), ("10 5 12 4", T_LONG), ("10 5 12 5", T_LONG), ("10 5 12 1024", T_LONG),
    ("10 5 12 1025", "7 0 0"), ("10 5 12 99999", "7 0 0"),
    ("12 1 12 0", "91 0 0"), ("12 1 12 1024", "91 0 0"), ("12 1 12 1025", "7 0 0"),
    ("10 13 20 0", "92 0 1"), ("10 13 20 1", "90 0 1; 0 0 0 10 13 20"),
)
asked(
    "Run also, as questions: object 60000 is a gap", T,
    ("10 39999 20 4", "91 0 0"), ("10 40000 20 4", "5 0 0"),
    ("10 13 59999 4", "91 0 0"), ("10 13 60000 4", "90 0 1; 0 0 0 10 13 20"), ("10 13 65536 4", "3 0 0"),
)
for line, reply in (
    ("10 39999 20", "90 0 1; 0 0 0 10 39999 20"), ("10 40000 20", "5 1 0"),
    ("10 13 59999", "90 0 1; 0 0 0 10 13 59999"), ("10 13 60000", "4 1 0"), ("10 13 65536", "3 1 0"),
):
    asked("Run also, as table lines", line, (line + " 4", reply))
asked(
    "3, 4, 5, 7 in this order, over the whole triple", T,
    ("0 0 0 0", "3 0 0"), ("10 1 0 4", "3 0 0"), ("65536 1 10 4", "3 0 0"), ("10 99999 10 4", "3 0 0"),
    ("60000 0 10 4", "3 0 0"), ("60000 5 60000 4", "4 0 0"), ("10 60000 20 4", "4 0 0"), ("10 65535 20 4", "4 0 0"),
    ("5 60000 10 4", "4 0 0"), ("1 1 10 4", "5 0 0"), ("10 1 5 4", "5 0 0"), ("10 59999 20 4", "5 0 0"),
    ("0 1 10 1025", "3 0 0"), ("10 60000 10 1025", "4 0 0"), ("5 1 10 1025", "5 0 0"), ("10 1 11 1025", "7 0 0"),
)

# ---- gaps: one blank as subject or object (document 02, Point 1)

T_TWO = "90 0 2; 0 0 0 13 2 14; 0 0 0 10 13 20; 2 1 2 10 14 20"
T_THREE = "90 0 3; 0 0 0 13 2 14; 0 0 0 10 13 20; 2 1 2 10 14 20; 0 0 0 14 3 11; 5 4 3 10 5 11"
asked(
    "gaps put to T: the derivation ends in the filled triple", T,
    ("60000 5 12 4", T_LONG), ("60000 5 12 1024", T_LONG), ("60000 5 12 3", "92 0 4"), ("60000 5 12 0", "92 0 4"),
    ("10 5 60000 4", T_THREE), ("10 5 60000 3", T_THREE), ("10 5 60000 2", "92 0 3"),
    ("60000 14 20 2", T_TWO), ("10 14 60000 2", T_TWO), ("10 14 60000 1", "92 0 2"), ("60000 14 20 0", "92 0 2"),
    ("60000 13 20 1", "90 0 1; 0 0 0 10 13 20"), ("10 13 60000 0", "92 0 1"),
    ("60000 1 12 4", "90 0 1; 0 0 0 11 1 12"), ("11 1 60000 4", "90 0 1; 0 0 0 11 1 12"),
    ("60000 2 14 4", "90 0 1; 0 0 0 13 2 14"), ("13 2 60000 4", "90 0 1; 0 0 0 13 2 14"),
    ("60000 3 11 4", "90 0 1; 0 0 0 14 3 11"), ("14 3 60000 4", "90 0 1; 0 0 0 14 3 11"),
)
asked(
    "gaps that nothing fills, put to T", T,
    ("60000 1 11 4", "91 0 0"), ("12 1 60000 4", "91 0 0"), ("60000 2 13 0", "91 0 0"), ("13 3 60000 4", "91 0 0"),
    ("60000 4 11 4", "91 0 0"), ("14 4 60000 1024", "91 0 0"), ("20 5 60000 4", "91 0 0"), ("60000 5 20 4", "91 0 0"),
    ("60000 13 10 4", "91 0 0"), ("20 13 60000 4", "91 0 0"), ("60000 13 40000 4", "91 0 0"),
)
asked("gaps over the empty table", "", ("60000 1 11 4", "91 0 0"), ("10 7 60000 0", "91 0 0"), ("10 5 65535 1024", "91 0 0"))
asked(
    "the blank's number has no meaning; 59999 and 65536 are no gaps", T,
    ("65535 5 12 4", T_LONG), ("61234 5 12 4", T_LONG), ("10 14 65535 4", T_TWO), ("10 14 60001 4", T_TWO),
    ("59999 5 12 4", "91 0 0"), ("65536 5 12 4", "3 0 0"), ("10 14 59999 4", "91 0 0"), ("10 14 65536 4", "3 0 0"),
)
asked(
    "4 for two blanks, equal or not, and for a blank predicate", T,
    ("60000 5 60000 4", "4 0 0"), ("60000 5 65535 4", "4 0 0"), ("65535 13 65535 4", "4 0 0"), ("10 60000 20 4", "4 0 0"),
    ("60000 60000 20 4", "4 0 0"), ("10 60000 60000 4", "4 0 0"), ("60000 60000 60000 4", "4 0 0"),
)
asked(
    "3, 4, 5, 7 with blanks: 5 on the other terms", T,
    ("0 60000 7 4", "3 0 0"), ("0 7 60000 4", "3 0 0"), ("60000 7 65536 4", "3 0 0"), ("60000 0 60000 4", "3 0 0"),
    ("5 60000 60000 4", "4 0 0"), ("60000 40000 60000 4", "4 0 0"),
    ("60000 40000 7 4", "5 0 0"), ("7 59999 60000 4", "5 0 0"), ("3 7 60000 4", "5 0 0"), ("60000 7 5 4", "5 0 0"),
    ("60000 7 5 1025", "5 0 0"), ("60000 5 60000 1025", "4 0 0"), ("60000 5 12 1025", "7 0 0"), ("10 5 65535 99999", "7 0 0"),
)
asked(
    "a cycle: the class itself needs two facts, the other one", "10 1 11; 11 1 10",
    ("60000 1 10 4", "90 0 1; 0 0 0 11 1 10"), ("10 1 60000 4", "90 0 1; 0 0 0 10 1 11"),
)
asked(
    "the class itself where the table has it", "10 1 10; 10 1 11",
    ("60000 1 10 4", "90 0 1; 0 0 0 10 1 10"), ("60000 1 11 4", "90 0 1; 0 0 0 10 1 11"), ("11 1 60000 4", "91 0 0"),
)
asked("an sp cycle with a gap", "10 2 11; 11 2 10", ("60000 2 10 4", "90 0 1; 0 0 0 11 2 10"), ("11 2 60000 4", "90 0 1; 0 0 0 11 2 10"))
asked(
    "the triple's other end fills the gap", "10 5 11; 11 1 10",
    ("60000 5 10 4", "90 0 2; 0 0 0 10 5 11; 0 0 0 11 1 10; 4 2 1 10 5 10"), ("10 5 60000 4", "90 0 1; 0 0 0 10 5 11"),
)
asked(
    "range: the object fills the gap", "6 7 8; 7 4 9",
    ("60000 5 9 4", "90 0 2; 0 0 0 6 7 8; 0 0 0 7 4 9; 6 2 1 8 5 9"), ("8 5 60000 4", "90 0 2; 0 0 0 6 7 8; 0 0 0 7 4 9; 6 2 1 8 5 9"),
    ("6 5 60000 4", "91 0 0"),
)
asked(
    "domain: the subject fills the gap", "6 7 8; 7 3 9",
    ("60000 5 9 4", "90 0 2; 0 0 0 6 7 8; 0 0 0 7 3 9; 5 2 1 6 5 9"), ("6 5 60000 4", "90 0 2; 0 0 0 6 7 8; 0 0 0 7 3 9; 5 2 1 6 5 9"),
    ("8 5 60000 4", "91 0 0"),
)
asked(
    "the smallest count, not the first that fits", "6 5 10; 7 5 11; 10 1 11",
    ("60000 5 11 4", "90 0 1; 0 0 0 7 5 11"), ("60000 5 11 0", "92 0 1"), ("6 5 60000 4", "90 0 1; 0 0 0 6 5 10"),
)
asked(
    "the smallest count with a gap at the object", "6 8 9; 6 10 11; 8 2 10",
    ("6 10 60000 4", "90 0 1; 0 0 0 6 10 11"), ("60000 10 9 4", "90 0 2; 0 0 0 8 2 10; 0 0 0 6 8 9; 2 1 2 6 10 9"),
)
asked(
    "literals fill gaps", "6 7 40000; 7 4 9",
    ("60000 5 9 4", "90 0 2; 0 0 0 6 7 40000; 0 0 0 7 4 9; 6 2 1 40000 5 9"),
    ("40000 5 60000 4", "90 0 2; 0 0 0 6 7 40000; 0 0 0 7 4 9; 6 2 1 40000 5 9"),
    ("6 7 60000 4", "90 0 1; 0 0 0 6 7 40000"), ("60000 7 40000 4", "90 0 1; 0 0 0 6 7 40000"),
)
asked(
    "of two fillings the one whose last fact stands earliest", "6 9 7; 7 8 6; 8 3 30; 9 3 30",
    ("60000 5 30 4", "90 0 2; 0 0 0 7 8 6; 0 0 0 8 3 30; 5 2 1 7 5 30"),
)
asked(
    "one last fact: the fact before it that stands earliest", "6 7 8; 7 3 11; 9 7 10",
    ("60000 5 11 4", "90 0 2; 0 0 0 6 7 8; 0 0 0 7 3 11; 5 2 1 6 5 11"),
)
asked(
    "a filling by domain before one by range, whose last fact stands earlier", "6 7 8; 6 9 8; 7 4 10; 9 3 10",
    ("60000 5 10 4", "90 0 2; 0 0 0 6 9 8; 0 0 0 9 3 10; 5 2 1 6 5 10"),
)
asked(
    "a class by domain before one by range", "6 7 8; 7 4 13; 8 10 6; 8 11 6; 10 4 12; 11 3 9",
    ("8 5 60000 4", "90 0 2; 0 0 0 8 11 6; 0 0 0 11 3 9; 5 2 1 8 5 9"), ("6 5 60000 4", "90 0 2; 0 0 0 8 10 6; 0 0 0 10 4 12; 6 2 1 6 5 12"),
)
asked(
    "a filling by range, which is shorter", "6 7 8; 7 2 9; 7 4 10; 9 3 10",
    ("60000 5 10 4", "90 0 2; 0 0 0 6 7 8; 0 0 0 7 4 10; 6 2 1 8 5 10"),
    ("6 5 60000 4", "90 0 3; 0 0 0 7 2 9; 0 0 0 6 7 8; 2 1 2 6 9 8; 0 0 0 9 3 10; 5 4 3 6 5 10"),
)
asked("a type that the table has, before a class by domain", "6 5 10; 6 5 11; 6 7 8; 7 3 9", ("6 5 60000 4", "90 0 1; 0 0 0 6 5 10"))
asked("the table's refusal before the gap", "10 1 11; 10 1 11", ("60000 1 11 4", "6 2 0"), ("60000 1 60000 4", "6 2 0"))
asked("a blank in the table gets 4, and is no gap", "10 13 20; 65535 5 11", ("60000 5 11 4", "4 2 0"), ("10 13 60000 4", "4 2 0"))

# ---- literals: never subject or object of sc, sp, dom or range, nor object of type (document 02, Point 2)

for predicate in ("1", "2", "3", "4"):
    asked("a literal as subject", f"10 13 20; 40000 {predicate} 6", ("10 13 20 4", "12 2 0"), (f"60000 {predicate} 6 4", "12 2 0"))
    asked("a literal as object", f"6 {predicate} 59999", (f"6 {predicate} 60000 4", "12 1 0"), ("10 13 20 4", "12 1 0"))
    asked(
        "the last name as subject and object, and questions with literals", f"39999 {predicate} 39999",
        (f"39999 {predicate} 39999 4", f"90 0 1; 0 0 0 39999 {predicate} 39999"),
        (f"40000 {predicate} 39999 4", "12 0 0"), (f"39999 {predicate} 40000 4", "12 0 0"), (f"59999 {predicate} 59999 0", "12 0 0"),
        (f"60000 {predicate} 40000 4", "12 0 0"), (f"40000 {predicate} 60000 4", "12 0 0"), (f"65535 {predicate} 59999 0", "12 0 0"),
        (f"60000 {predicate} 39999 4", f"90 0 1; 0 0 0 39999 {predicate} 39999"),
    )
asked("a literal as object of type", "6 5 40000; 40000 7 8", ("6 5 60000 4", "12 1 0"), ("40000 7 8 4", "12 1 0"))
asked(
    "a literal as subject of type", "11 1 12; 40000 5 11",
    ("40000 5 11 4", "90 0 1; 0 0 0 40000 5 11"),
    ("40000 5 12 4", "90 0 2; 0 0 0 40000 5 11; 0 0 0 11 1 12; 4 2 1 40000 5 12"),
    ("60000 5 12 4", "90 0 2; 0 0 0 40000 5 11; 0 0 0 11 1 12; 4 2 1 40000 5 12"),
    ("40000 5 60000 1", "90 0 1; 0 0 0 40000 5 11"), ("40001 5 11 4", "91 0 0"), ("40001 5 60000 4", "91 0 0"),
    ("11 5 40000 4", "12 0 0"), ("40000 5 40000 4", "12 0 0"), ("60000 5 40000 4", "12 0 0"), ("60000 5 59999 0", "12 0 0"),
)
asked(
    "literals at both ends of a name", "7 2 8; 8 3 9; 8 4 10; 40000 7 59999",
    ("40000 8 59999 4", "90 0 2; 0 0 0 7 2 8; 0 0 0 40000 7 59999; 2 1 2 40000 8 59999"),
    ("60000 8 59999 4", "90 0 2; 0 0 0 7 2 8; 0 0 0 40000 7 59999; 2 1 2 40000 8 59999"),
    ("40000 8 60000 2", "90 0 2; 0 0 0 7 2 8; 0 0 0 40000 7 59999; 2 1 2 40000 8 59999"),
    ("40000 5 9 4", "90 0 3; 0 0 0 7 2 8; 0 0 0 40000 7 59999; 2 1 2 40000 8 59999; 0 0 0 8 3 9; 5 4 3 40000 5 9"),
    ("59999 5 10 4", "90 0 3; 0 0 0 7 2 8; 0 0 0 40000 7 59999; 2 1 2 40000 8 59999; 0 0 0 8 4 10; 6 4 3 59999 5 10"),
    ("60000 5 10 4", "90 0 3; 0 0 0 7 2 8; 0 0 0 40000 7 59999; 2 1 2 40000 8 59999; 0 0 0 8 4 10; 6 4 3 59999 5 10"),
    ("59999 5 9 4", "91 0 0"), ("40000 5 10 4", "91 0 0"), ("59999 8 40000 4", "91 0 0"),
)
asked(
    "3, 4, 5, 12, 7 in this order, over the whole triple", T,
    ("40000 1 0 4", "3 0 0"), ("65536 5 40000 4", "3 0 0"), ("60000 60000 40000 4", "4 0 0"), ("40000 60000 60000 4", "4 0 0"),
    ("40000 1 5 4", "5 0 0"), ("1 5 40000 4", "5 0 0"), ("40000 4 3 1025", "5 0 0"), ("60000 40000 40000 4", "5 0 0"),
    ("40000 1 12 1025", "12 0 0"), ("10 5 40000 99999", "12 0 0"), ("60000 1 40000 1025", "12 0 0"), ("40000 3 65535 1025", "12 0 0"),
    ("40000 5 12 1025", "7 0 0"), ("40000 13 40000 1025", "7 0 0"), ("40000 5 60000 1025", "7 0 0"),
)
for table, reply in (
    ("40000 1 0", "3 1 0"), ("40000 1 60000", "4 1 0"), ("40000 1 5", "5 1 0"), ("1 5 40000", "5 1 0"), ("6 40000 40000", "5 1 0"),
    ("10 1 11; 6 1 40000", "12 2 0"), ("40000 7 6; 40000 1 6", "12 2 0"), ("40000 1 6; 40000 1 6", "12 1 0"),
    ("6 1 40000; 6 1 7", "12 1 0"), ("6 1 40000; 7 1 5", "12 1 0"), ("6 5 40000; 7 1 0", "12 1 0"), ("6 4 40000; 7 1 60000", "12 1 0"),
    ("6 1 5; 6 1 40000", "5 1 0"), ("6 1 0; 6 1 40000", "3 1 0"), ("6 1 60000; 7 1 40000", "4 1 0"), ("6 1 7; 6 1 7; 6 1 40000", "6 2 0"),
):
    asked("12 behind 3, 4 and 5 of its line, before 6, and before what later lines earn", table, ("6 1 7 4", reply), ("40000 1 7 1025", reply))

# ---- tables that are refused

asked("a term on the second line", "10 13 20; 11 1 0", ("10 13 20 4", "3 2 0"), ("10 13 20 4", "3 2 0"))
asked("0 0 1 is no zero line", "0 0 1", ("10 13 20 4", "3 1 0"))
case("a leading zero", b"   10   13   20\n   11   01   12\n" + ZERO + lines("10 13 20 4"), lines("2 2 0"))
case("a refused table and no questions", lines("10 1 11; 10 1 11") + ZERO, b"")

# ---- the parts of an input

case("no questions", lines(T) + ZERO, b"")
case("the empty table and no questions", ZERO, b"")
case("the empty input", b"", FORM)
case("no zero line", lines(T), FORM)
case("no zero line, and a question", lines(T) + lines("10 5 12 4"), FORM)
case("a zero line without its end", lines(T) + ZERO[:-1], FORM)
case("a zero line that ends otherwise", lines(T) + ZERO[:-1] + b"\r" + lines("10 5 12 4"), FORM)
case("a zero line with a leading zero", lines(T) + b"    0    0   00\n" + lines("10 5 12 4"), FORM)
case("a zero line that does not stand at a multiple of 16", b" " + lines(T) + ZERO + lines("10 5 12 4"), FORM)
case("the first zero line ends the table: what follows is torn", lines("10 13 20") + ZERO + lines("11 1 12") + ZERO, FORM)
case("the first zero line ends the table: what follows is badly laid out", lines("10 13 20") + ZERO + lines("11 1 12") * 21, FORM)
case("a question of zeros behind the zero line", lines(T) + ZERO + lines("0 0 0 0"), lines("3 0 0"))
case("a torn question", lines(T) + ZERO + lines("10 5 12 4")[:-1], FORM)
case("a torn question behind a whole one", lines(T) + ZERO + lines("10 5 12 4") + b"   10", FORM)
case("one byte too many", lines(T) + ZERO + lines("10 5 12 4") + b"\n", FORM)
case("a bad question between two others", lines(T) + ZERO + lines("10 5 12 4") + b"   10    5   12   04\n" + lines("10 5 12 4"), FORM)
case("a bad question at the end", lines(T) + ZERO + lines("10 5 12 4") + b"   10    5   12     \n", FORM)
case("a question with a sign", lines(T) + ZERO + b"   10    5   12   +4\n", FORM)
case("a question without its end", lines(T) + ZERO + b"   10    5   12    4 ", FORM)
case("a refused table and a bad question", lines("10 1 11; 10 1 11") + ZERO + b"   10    5   12   04\n", FORM)
case("a refused table and a torn question", lines("10 1 11; 10 1 11") + ZERO + b"   10    5", FORM)

# ---- long inputs

TEN = "".join(f"10 1 {n};" for n in range(11, 21))
KINDS = (("10 1 11 1", "90 0 1; 0 0 0 10 1 11"), ("10 1 21 1", "91 0 0"), ("10 1 12 0", "92 0 1"), ("0 0 0 0", "3 0 0"))
MANY = [KINDS[i % 4] for i in range(1551)] + [("10 1 20 1024", "90 0 1; 0 0 0 10 1 20")]
FULL = lines(TEN) + ZERO + b"".join(lines(q) for q, _ in MANY)
assert len(FULL) == 32768
case("32,768 bytes", FULL, b"".join(lines(r) for _, r in MANY))
case("32,769 bytes", FULL + b"\n", FORM)
CHAIN = [(n, 1, n + 1) for n in range(6, 1031)]
ROWS = b"".join(b"%5d%5d%5d\n" % f for f in CHAIN)
case("a zero line behind 1,025 lines", ROWS + ZERO + lines("6 1 7 4; 0 0 0 0"), lines("1 0 0; 1 0 0"))
case("a zero line at the end of 32,768 bytes", b"x" * 16 * 2047 + ZERO, b"")
case("no zero line in 32,768 bytes", b"x" * 32768, FORM)

# ---- tables of 1,024 facts whose answer needs all of them


def derivation(facts):
    """The lines for facts in printed order, each from the second on followed by the rule line that joins it to the result so far."""
    out, (s, p, o) = [(0, 0, 0) + facts[0]], facts[0]
    for i, (x, q, y) in enumerate(facts[1:], 1):
        so_far, here = 2 * i - 1, 2 * i
        if q == 2:
            rule, s, p, o = (1, so_far, here), s, 2, y
        elif q == 3:
            rule, s, p, o = (5, here, so_far), s, 5, y
        elif q == 4:
            rule, s, p, o = (6, here, so_far), o, 5, y
        elif q == 1 and p == 1:
            rule, s, p, o = (3, so_far, here), s, 1, y
        elif q == 1:
            rule, s, p, o = (4, here, so_far), s, 5, y
        else:
            rule, s, p, o = (2, so_far, here), x, o, y
        out += [(0, 0, 0, x, q, y), rule + (s, p, o)]
    return b"".join(b"%5d%5d%5d%5d%5d%5d\n" % row for row in out)


def needs_all(shows, facts, fact):
    """Facts in printed order, and the fact that follows from them all, or has a gap, put with allowances 1,024, 1,023 and 0."""
    table = b"".join(b"%5d%5d%5d\n" % f for f in sorted(facts))
    ask = "; ".join("%d %d %d %d" % (*fact, limit) for limit in (1024, 1023, 0))
    assert len(facts) == 1024
    case(shows, table + ZERO + lines(ask), lines("90 0 1024") + derivation(facts) + lines("92 0 1024; 92 0 1024"))


def chain(predicate, nodes):
    return [(a, predicate, b) for a, b in zip(nodes, nodes[1:])]


CLASSES = [*range(10000, 10300), *range(20000, 20212)]
PROPERTIES = [*range(30000, 30200), *range(39000, 39310), 39999]
needs_all("an sc chain of 1,024 facts", chain(1, range(6, 1031)), (6, 1, 1030))
needs_all(
    "510 sp facts, a data fact, a dom fact and 512 sc facts",
    chain(2, PROPERTIES) + [(8, PROPERTIES[0], 9), (PROPERTIES[-1], 3, 7)] + chain(1, [7, *CLASSES]), (8, 5, CLASSES[-1]),
)
BY_RANGE = chain(2, PROPERTIES) + [(8, PROPERTIES[0], 59999), (PROPERTIES[-1], 4, 7)] + chain(1, [7, *reversed(CLASSES)])
needs_all("the same by range of a literal, the classes taken backwards", BY_RANGE, (59999, 5, CLASSES[0]))
needs_all("the same with a gap, which the literal fills", BY_RANGE, (65535, 5, CLASSES[0]))

(CRATE / "stdin").write_bytes(b"".join(stdin))
(CRATE / "stdout").write_bytes(b"".join(stdout))
