#!/usr/bin/env python3
"""Writes crates/table_cases/stdin and stdout: cases of reading and writing tables, each with the answer that document 01 gives it, and
document 02 where a literal stands as a class or a property.

The answers are written by hand, as number, place, count; no implementation computes them. What the program prints for a case is
these three and a 1, which says that memory is as it must be: what was read is written again to the same bytes (and the other way
round), and every number or byte past those written, or all of them after a refusal, is as before. Behind a row that was written its
table is printed, which for these cases is written here by hand as well.

Run from anywhere: tools/cases/table_cases.py
"""
from pathlib import Path

CRATE = Path(__file__).resolve().parents[2] / "crates" / "table_cases"
stdin, stdout = [], []


def case(kind, data, room, size, answer):
    stdin.append(b"%5d%5d%5d%5d\n" % (kind, len(data), room, size) + data)
    stdout.append(b"%5d%5d%5d%5d\n" % (*answer, 1))


def read(shows, table, answer, room=3072):
    """A table to read into a lent row of so many numbers. `shows` says what the case is for."""
    case(1, table, room, 0, answer)


def write(shows, row, answer, table=b"", room=16384, size=None):
    """A row to write into so many lent bytes, and the table that is then printed. Numbers of the row that are not given are 0."""
    lines = b"".join(b"%5d%5d\n" % divmod(n, 100000) for n in row)
    case(2, lines, room, len(row) if size is None else size, answer)
    stdout.append(table)


def lines(*texts):
    return b"".join(t + b"\n" for t in texts)


DONE, SIZE, COLUMN, TERM, BLANK, PART, ORDER, SHORT, CLASS = 0, 1, 2, 3, 4, 5, 6, 8, 12

# ---- the kinds of terms (document 01, "Terms and facts" and "Run also")

read("predicate 39999 passes", b"    639999    7\n", (DONE, 0, 1))
read("predicate 40000 gets 5", b"    640000    7\n", (PART, 1, 0))
read("object 59999 passes", b"    6    759999\n", (DONE, 0, 1))
read("object 60000 gets 4", b"    6    760000\n", (BLANK, 1, 0))
read("object 65536 gets 3", b"    6    765536\n", (TERM, 1, 0))
read("object 65535 is still a blank node", b"    6    765535\n", (BLANK, 1, 0))
read("object 40000, a literal", b"    6    740000\n", (DONE, 0, 1))
read("object 39999, a name", b"    6    739999\n", (DONE, 0, 1))
read("object 6, the first name", b"    6    7    6\n", (DONE, 0, 1))
read("object 5, vocabulary", b"    6    7    5\n", (PART, 1, 0))
read("object 1, vocabulary", b"    6    7    1\n", (PART, 1, 0))
read("object 0 is no term", b"    6    7    0\n", (TERM, 1, 0))
read("object 99999, the largest field", b"    6    799999\n", (TERM, 1, 0))
read("subject 0", b"    0    7    6\n", (TERM, 1, 0))
read("subject 1", b"    1    7    6\n", (PART, 1, 0))
read("subject 5", b"    5    7    6\n", (PART, 1, 0))
read("subject 6", b"    6    7    6\n", (DONE, 0, 1))
read("subject 39999", b"39999    7    6\n", (DONE, 0, 1))
read("subject 40000: literals may be subjects", b"40000    7    6\n", (DONE, 0, 1))
read("subject 59999", b"59999    7    6\n", (DONE, 0, 1))
read("subject 60000", b"60000    7    6\n", (BLANK, 1, 0))
read("subject 65535", b"65535    7    6\n", (BLANK, 1, 0))
read("subject 65536", b"65536    7    6\n", (TERM, 1, 0))
read("predicate 0", b"    6    0    7\n", (TERM, 1, 0))
read("predicate 1", b"    6    1    7\n", (DONE, 0, 1))
read("predicate 5", b"    6    5    7\n", (DONE, 0, 1))
read("predicate 6", b"    6    6    7\n", (DONE, 0, 1))
read("predicate 59999, the last literal", b"    659999    7\n", (PART, 1, 0))
read("predicate 60000", b"    660000    7\n", (BLANK, 1, 0))
read("predicate 65535", b"    665535    7\n", (BLANK, 1, 0))
read("predicate 65536", b"    665536    7\n", (TERM, 1, 0))

# ---- literals: never subject or object of sc, sp, dom or range, nor object of type (document 02, Point 2)

read("subject of sc", b"40000    1    6\n", (CLASS, 1, 0))
read("object of sc", b"    6    140000\n", (CLASS, 1, 0))
read("subject of sp", b"40000    2    6\n", (CLASS, 1, 0))
read("object of sp", b"    6    240000\n", (CLASS, 1, 0))
read("subject of dom", b"40000    3    6\n", (CLASS, 1, 0))
read("object of dom", b"    6    340000\n", (CLASS, 1, 0))
read("subject of range", b"40000    4    6\n", (CLASS, 1, 0))
read("object of range", b"    6    440000\n", (CLASS, 1, 0))
read("object of type", b"    6    540000\n", (CLASS, 1, 0))
read("subject and object of range", b"40000    440001\n", (CLASS, 1, 0))
read("object of type, the subject being one too", b"40000    540001\n", (CLASS, 1, 0))
read("the last literal as subject of sc", b"59999    1    6\n", (CLASS, 1, 0))
read("the last literal as object of range", b"    6    459999\n", (CLASS, 1, 0))
read("the last literal as object of type", b"    6    559999\n", (CLASS, 1, 0))
read("subject of type passes", b"40000    5    6\n", (DONE, 0, 1))
read("the last literal as subject of type", b"59999    5    6\n", (DONE, 0, 1))
read("subject and object of a name pass", b"40000    640000\n", (DONE, 0, 1))
read("subject and object of the last name", b"599993999959999\n", (DONE, 0, 1))
read("the last name is no literal: of sc", b"39999    139999\n", (DONE, 0, 1))
read("the last name is no literal: of sp", b"39999    239999\n", (DONE, 0, 1))
read("the last name is no literal: of dom", b"39999    339999\n", (DONE, 0, 1))
read("the last name is no literal: of range", b"39999    439999\n", (DONE, 0, 1))
read("the last name is no literal: of type", b"39999    539999\n", (DONE, 0, 1))

# ---- whole tables

T = lines(b"   10   13   20", b"   11    1   12", b"   13    2   14", b"   14    3   11")
read("the table of document 01's example", T, (DONE, 0, 4))
read("a literal as a property (case h)", lines(b"    6    7    8", b"    7    240000", b"40000    2    9"), (CLASS, 2, 0))
read("a literal as a property (case i)", lines(b"    6    7    8", b"    7    240000", b"40000    3    9"), (CLASS, 2, 0))
read("literals of a type and about a name",
     lines(b"    6    740000", b"    7    4    8", b"40000    5    8", b"40000    7    6"), (DONE, 0, 4))
read("two equal lines (case k)", lines(b"   10    1   11", b"   10    1   11"), (ORDER, 2, 0))
read("the empty table is a table", b"", (DONE, 0, 0))
read("the zero line is no fact", b"    0    0    0\n", (TERM, 1, 0))

# ---- each refusal of a line, at the first, a middle and the last of five lines

FIVE = [b"   10    1   11", b"   10    1   12", b"   10    2    6", b"   11    5   13", b"   12   20   30"]


def put(k, text):
    return lines(*FIVE[:k - 1], text, *FIVE[k:])


read("five lines", lines(*FIVE), (DONE, 0, 5))
read("2 on the first line", put(1, b"   10    1  011"), (COLUMN, 1, 0))
read("2 on a middle line", put(3, b"   10   2     6"), (COLUMN, 3, 0))
read("2 on the last line", put(5, b"  12    20   30"), (COLUMN, 5, 0))
read("3 on the first line", put(1, b"   10    065536"), (TERM, 1, 0))
read("3 on a middle line", put(3, b"   1065536    6"), (TERM, 3, 0))
read("3 on the last line", put(5, b"   12   20    0"), (TERM, 5, 0))
read("4 on the first line", put(1, b"   10    160000"), (BLANK, 1, 0))
read("4 on a middle line", put(3, b"   1065535    6"), (BLANK, 3, 0))
read("4 on the last line", put(5, b"60000   20   30"), (BLANK, 5, 0))
read("5 on the first line", put(1, b"    5    1   11"), (PART, 1, 0))
read("5 on a middle line", put(3, b"   1040000    6"), (PART, 3, 0))
read("5 on the last line", put(5, b"   12   20    5"), (PART, 5, 0))
read("12 on the first line", put(1, b"40000    1   11"), (CLASS, 1, 0))
read("12 on a middle line", put(3, b"   10    240000"), (CLASS, 3, 0))
read("12 on the last line", put(5, b"   12    540000"), (CLASS, 5, 0))
read("6 on the second line, the first that can earn it", put(2, b"   10    1   11"), (ORDER, 2, 0))
read("6 on a middle line", put(3, b"   10    1    6"), (ORDER, 3, 0))
read("6 on the last line", put(5, b"   11    5   12"), (ORDER, 5, 0))

# ---- order: by subject, then predicate, then object, strictly

read("a larger predicate with a smaller object", lines(b"   10    1   12", b"   10    2    6"), (DONE, 0, 2))
read("a larger subject with smaller others", lines(b"   10   20   30", b"   11    1    6"), (DONE, 0, 2))
read("a larger object", lines(b"   10    1   11", b"   10    1   12"), (DONE, 0, 2))
read("a smaller predicate with a larger object", lines(b"   10    2    6", b"   10    1   30"), (ORDER, 2, 0))
read("a smaller subject with larger others", lines(b"   11    1    6", b"   10   20   30"), (ORDER, 2, 0))
read("a smaller object", lines(b"   10    1   12", b"   10    1   11"), (ORDER, 2, 0))
read("9 comes before 10, though '9' does not come before '1'", lines(b"    9    1   11", b"   10    1   11"), (DONE, 0, 2))
read("only the line before counts: a fall, and then a rise", lines(b"   11    1   12", b"   10    1   11", b"   12    1   13"), (ORDER, 2, 0))

# ---- what comes first: size, then line by line 2, 3, 4, 5, 12, 6, each over the whole width, then 8

read("2 before 3 over the whole width: 0 first, a bad third field", b"    0    1  011\n", (COLUMN, 1, 0))
read("2 before 3: 0 first, a bad line end", b"    0    1   11 ", (COLUMN, 1, 0))
read("2 before 4, 5: blank and vocabulary, a bad third field", b"60000    1   5 \n", (COLUMN, 1, 0))
read("2 before 6: an equal line with a bad end", lines(b"   10    1   11") + b"   10    1   11\r", (COLUMN, 2, 0))
read("3 before 4 over the whole width: blank first, 0 last", b"60000    7    0\n", (TERM, 1, 0))
read("3 before 5: vocabulary first, 65536 last", b"    1    765536\n", (TERM, 1, 0))
read("4 before 5: vocabulary first, blank last", b"    1    760000\n", (BLANK, 1, 0))
read("3 before 4 before 5: all three on a line", b"    160000    0\n", (TERM, 1, 0))
read("3 before 6", lines(b"   10    1   11", b"    9    1    0"), (TERM, 2, 0))
read("4 before 6", lines(b"   10    1   11", b"    9    160000"), (BLANK, 2, 0))
read("5 before 6", lines(b"   10    1   11", b"    9    1    5"), (PART, 2, 0))
read("a 3 on line 1 before a 2 on line 2", lines(b"    0    1   11", b"   10    1  011"), (TERM, 1, 0))
read("a 4 on line 1 before a 2 on line 2", lines(b"60000    1   11", b"   10    1  011"), (BLANK, 1, 0))
read("a 5 on line 1 before a 3 on line 2", lines(b"    5    1   11", b"   10    1    0"), (PART, 1, 0))
read("a 6 on line 2 before a 2 on line 3", lines(b"   10    1   11", b"   10    1   11", b"   10    1  012"), (ORDER, 2, 0))
read("2 before 12", b"40000    1   11 ", (COLUMN, 1, 0))
read("3 before 12 over the whole width: a literal first, 0 last", b"40000    1    0\n", (TERM, 1, 0))
read("3 before 12: 65536 first, a literal last", b"65536    540000\n", (TERM, 1, 0))
read("4 before 12: a literal first, a blank last", b"40000    160000\n", (BLANK, 1, 0))
read("4 before 12: a blank first, a literal last", b"60000    540000\n", (BLANK, 1, 0))
read("5 before 12 over the whole width: a literal first, vocabulary last", b"40000    1    5\n", (PART, 1, 0))
read("5 before 12: vocabulary first, a literal last", b"    1    540000\n", (PART, 1, 0))
read("5 before 12, by range", b"40000    4    1\n", (PART, 1, 0))
read("5 alone: between literals a literal", b"400004000040000\n", (PART, 1, 0))
read("12 before 6: below the line before", lines(b"   10    1   11", b"    9    140000"), (CLASS, 2, 0))
read("12 before 6: a predicate below the one before", lines(b"    6    759999", b"    6    540000"), (CLASS, 2, 0))
read("12 before 6: the same of a literal subject", lines(b"40000    7    6", b"40000    2    6"), (CLASS, 2, 0))
read("12 on the first of two equal lines", lines(b"40000    1    6", b"40000    1    6"), (CLASS, 1, 0))
read("5 before 12 before 6: all three on a line", lines(b"50000    7    6", b"40000    1    5"), (PART, 2, 0))
read("a 12 on line 1 before a 2 on line 2", lines(b"    6    140000", b"   10    1  011"), (CLASS, 1, 0))
read("a 12 on line 1 before a 3 on line 2", lines(b"    6    140000", b"   10    1    0"), (CLASS, 1, 0))
read("a 12 on line 1 before a 4 on line 2", lines(b"    6    340000", b"   10    160000"), (CLASS, 1, 0))
read("a 12 on line 1 before a 5 on line 2", lines(b"    6    540000", b"   10    1    5"), (CLASS, 1, 0))
read("a 12 on line 1 before a 6 on line 2", lines(b"    6    440000", b"    6    1    7"), (CLASS, 1, 0))
read("a 2 on line 1 before a 12 on line 2", lines(b"    6    1   07", b"    6    140000"), (COLUMN, 1, 0))
read("a 3 on line 1 before a 12 on line 2", lines(b"    6    1    0", b"    6    140000"), (TERM, 1, 0))
read("a 4 on line 1 before a 12 on line 2", lines(b"    6    160000", b"    7    440000"), (BLANK, 1, 0))
read("a 5 on line 1 before a 12 on line 2", lines(b"    6    1    5", b"    6    140000"), (PART, 1, 0))
read("a 6 on line 2 before a 12 on line 3", lines(b"   10    1   11", b"   10    1   11", b"40000    1    6"), (ORDER, 2, 0))
read("1 before 12: 17 bytes that begin with a barred literal", b"40000    1    6\n ", (SIZE, 0, 0))
read("1 before all: 17 bytes that begin with a bad line", b"    0    1  011\n ", (SIZE, 0, 0))
read("1 before 8: 17 bytes, no room", b"   10    1   11\n ", (SIZE, 0, 0), room=0)
read("2 before 8", b"   10    1  011\n", (COLUMN, 1, 0), room=0)
read("3 before 8", b"   10    1    0\n", (TERM, 1, 0), room=0)
read("12 before 8", b"   10    140000\n", (CLASS, 1, 0), room=0)
read("12 on the last line before 8", lines(b"   10    1   11", b"40000    3   11"), (CLASS, 2, 0), room=5)
read("6 on the last line before 8", lines(b"   10    1   11", b"   10    1   11"), (ORDER, 2, 0), room=0)

# ---- fields: spaces, then digits, no leading zero (document 01, "Table layout")

read("'    0' is a field, and 0 no term", b"   10    1    0\n", (TERM, 1, 0))
read("a leading zero", b"   10    1   06\n", (COLUMN, 1, 0))
read("leading zeros to the full width", b"   10    100006\n", (COLUMN, 1, 0))
read("two zeros", b"   10    1   00\n", (COLUMN, 1, 0))
read("five zeros", b"00000    1   11\n", (COLUMN, 1, 0))
read("zeros inside and at the end are digits", b"10000    7 1010\n", (DONE, 0, 1))
read("an inner space", b"   10    1  1 1\n", (COLUMN, 1, 0))
read("inner spaces", b"1   0    1   11\n", (COLUMN, 1, 0))
read("digits followed by a space", b"   10    1  11 \n", (COLUMN, 1, 0))
read("digits followed by spaces", b"10       1   11\n", (COLUMN, 1, 0))
read("no digit", b"   10        11\n", (COLUMN, 1, 0))
read("a tab before the number", b"   10    1\t  11\n", (COLUMN, 1, 0))
read("a plus sign", b"   10    1  +11\n", (COLUMN, 1, 0))
read("a minus sign", b"  -10    1   11\n", (COLUMN, 1, 0))
read("a point", b"   10   .1   11\n", (COLUMN, 1, 0))
read("a letter, whose low bits are those of a digit", b"   10    1   A1\n", (COLUMN, 1, 0))
read("the byte below '0'", b"   10    /   11\n", (COLUMN, 1, 0))
read("the byte above '9'", b"   10    :   11\n", (COLUMN, 1, 0))
read("byte 0 for a space", b"   10    1\x00  11\n", (COLUMN, 1, 0))
read("byte 0 for a digit", b"   1\x00    1   11\n", (COLUMN, 1, 0))
read("a digit with its top bit set", b"   10    1   1\xb1\n", (COLUMN, 1, 0))
read("a space with its top bit set", b"   10    1\xa0  11\n", (COLUMN, 1, 0))
read("byte 10 inside a field", b"   10    1   1\n\n", (COLUMN, 1, 0))
read("the first field bad", b"  1 0    1   11\n", (COLUMN, 1, 0))
read("the second field bad", b"   10   01   11\n", (COLUMN, 1, 0))
read("a space for the line end", b"   10    1   11 ", (COLUMN, 1, 0))
read("byte 13 for the line end", b"   10    1   11\r", (COLUMN, 1, 0))
read("a digit for the line end", b"   10    1   110", (COLUMN, 1, 0))
read("a bad line end on a middle line", b"   10    1   11\n   10    1   12    10    2    6\n", (COLUMN, 2, 0))
read("a bad line end on the last line", lines(b"   10    1   11") + b"   10    1   12\0", (COLUMN, 2, 0))

# ---- sizes: a multiple of 16, at most 16,384

read("no byte 10 at the end", b"   10    1   11", (SIZE, 0, 0))
read("no byte 10 at the end of a second line", b"   10    1   11\n   10    1   12", (SIZE, 0, 0))
read("a line end of two bytes", b"   10    1   11\r\n", (SIZE, 0, 0))
read("one byte", b"\n", (SIZE, 0, 0))
read("a byte more in a middle line", b"   10    1   11\n   10    1    12\n   10    2    6\n", (SIZE, 0, 0))
read("a byte less in a middle line", b"   10    1   11\n   10    1  12\n   10    2    6\n", (SIZE, 0, 0))
read("half a line behind the last", b"   10    1   11\n   10    1", (SIZE, 0, 0))
MANY = [b"%5d    1    6" % s for s in range(6, 1031)]  # 1,025 facts with the subjects 6 to 1030
read("1,024 lines", lines(*MANY[:1024]), (DONE, 0, 1024))
read("1,025 lines", lines(*MANY), (SIZE, 0, 0))
read("1,024 lines, the last like the one before", lines(*MANY[:1023], MANY[1022]), (ORDER, 1024, 0))

# ---- the lent row: three numbers a fact, longer memory keeps its rest

read("T and just enough room", T, (DONE, 0, 4), room=12)
read("T and a number too few", T, (SHORT, 0, 0), room=11)
read("T and room for one fact", T, (SHORT, 0, 0), room=3)
read("T and no room", T, (SHORT, 0, 0), room=0)
read("T and a number more than enough", T, (DONE, 0, 4), room=13)
read("one fact in two numbers", b"   10    1   11\n", (SHORT, 0, 0), room=2)
read("the empty table needs no room", b"", (DONE, 0, 0), room=0)

# ---- rows to write: size, then fact by fact 3, 4, 5, 12, 6, then 8; place is the fact's number

ROW_T = [10, 13, 20, 11, 1, 12, 13, 2, 14, 14, 3, 11]
write("T", ROW_T, (DONE, 0, 4), T)
write("the empty row", [], (DONE, 0, 0))
write("numbers of each length", [6, 7, 10, 99, 100, 999, 1000, 9999, 10000], (DONE, 0, 3),
      lines(b"    6    7   10", b"   99  100  999", b" 1000 999910000"))
write("the largest terms that pass", [59999, 39999, 59999], (DONE, 0, 1), lines(b"599993999959999"))
write("one number", [10], (SIZE, 0, 0))
write("two numbers", [10, 1], (SIZE, 0, 0))
write("a number behind a fact", [10, 1, 11, 12], (SIZE, 0, 0))
write("two numbers behind a fact", [10, 1, 11, 12, 13], (SIZE, 0, 0))
write("3,072 numbers may be written: all 0, so 3 on the first fact", [], (TERM, 1, 0), size=3072)
write("3,073 numbers", [10, 1, 11], (SIZE, 0, 0), size=3073)
write("3,075 numbers, a multiple of 3", [10, 1, 11], (SIZE, 0, 0), size=3075)
write("predicate 40000", [6, 40000, 7], (PART, 1, 0))
write("predicate 39999", [6, 39999, 7], (DONE, 0, 1), lines(b"    639999    7"))
write("object 59999", [6, 7, 59999], (DONE, 0, 1), lines(b"    6    759999"))
write("object 60000", [6, 7, 60000], (BLANK, 1, 0))
write("object 65535", [6, 7, 65535], (BLANK, 1, 0))
write("object 65536", [6, 7, 65536], (TERM, 1, 0))
write("object 65546, which is 10 in 16 bits", [6, 7, 65546], (TERM, 1, 0))
write("subject 100000, which has six digits", [100000, 7, 6], (TERM, 1, 0))
write("object 4294967295, the largest number of 32 bits", [6, 7, 4294967295], (TERM, 1, 0))
write("predicate 4294967295", [6, 4294967295, 7], (TERM, 1, 0))
write("3 on the first fact", [0, 1, 11, 10, 1, 12, 11, 1, 12], (TERM, 1, 0))
write("3 on a middle fact", [10, 1, 11, 10, 65536, 12, 11, 1, 12], (TERM, 2, 0))
write("3 on the last fact", [10, 1, 11, 10, 1, 12, 11, 1, 4294967295], (TERM, 3, 0))
write("4 on the first fact", [60000, 1, 11, 10, 1, 12, 11, 1, 12], (BLANK, 1, 0))
write("4 on a middle fact", [10, 1, 11, 10, 65535, 12, 11, 1, 12], (BLANK, 2, 0))
write("4 on the last fact", [10, 1, 11, 10, 1, 12, 11, 1, 60000], (BLANK, 3, 0))
write("5 on the first fact", [5, 1, 11, 10, 1, 12, 11, 1, 12], (PART, 1, 0))
write("5 on a middle fact", [10, 1, 11, 10, 59999, 12, 11, 1, 12], (PART, 2, 0))
write("5 on the last fact", [10, 1, 11, 10, 1, 12, 11, 1, 1], (PART, 3, 0))
write("12 on the first fact", [40000, 1, 11, 10, 1, 12, 11, 1, 12], (CLASS, 1, 0))
write("12 on a middle fact", [10, 1, 11, 10, 5, 59999, 11, 1, 12], (CLASS, 2, 0))
write("12 on the last fact", [10, 1, 11, 10, 1, 12, 11, 1, 40000], (CLASS, 3, 0))
for predicate in (1, 2, 3, 4):
    write("12 for the subject", [59999, predicate, 6], (CLASS, 1, 0))
    write("12 for the object", [6, predicate, 59999], (CLASS, 1, 0))
write("12 for the object of type", [6, 5, 40000], (CLASS, 1, 0))
write("a literal of a type", [40000, 5, 6], (DONE, 0, 1), lines(b"40000    5    6"))
write("literals about a name", [40000, 6, 40001], (DONE, 0, 1), lines(b"40000    640001"))
write("the last name as class and property", [39999, 1, 39999, 39999, 2, 39999, 39999, 5, 39999], (DONE, 0, 3),
      lines(b"39999    139999", b"39999    239999", b"39999    539999"))
write("6 on the second fact: two equal facts", [10, 1, 11, 10, 1, 11, 11, 1, 12], (ORDER, 2, 0))
write("6 on the last fact", [10, 1, 11, 10, 2, 12, 10, 2, 11], (ORDER, 3, 0))
write("3 before 4 before 5: all three in a fact", [1, 60000, 0], (TERM, 1, 0))
write("4 before 5", [1, 7, 60000], (BLANK, 1, 0))
write("3 before 6", [10, 1, 11, 9, 1, 0], (TERM, 2, 0))
write("4 before 6", [10, 1, 11, 9, 1, 60000], (BLANK, 2, 0))
write("5 before 6", [10, 1, 11, 9, 1, 5], (PART, 2, 0))
write("3 before 12", [40000, 1, 65536], (TERM, 1, 0))
write("3 before 12: 32 bits that are a literal in 16", [105536, 1, 6], (TERM, 1, 0))
write("4 before 12", [40000, 1, 60000], (BLANK, 1, 0))
write("5 before 12", [40000, 1, 5], (PART, 1, 0))
write("5 before 12: vocabulary first", [2, 4, 40000], (PART, 1, 0))
write("12 before 6", [10, 1, 11, 9, 1, 40000], (CLASS, 2, 0))
write("12 before 6: subjects equal", [40000, 5, 6, 40000, 3, 6], (CLASS, 2, 0))
write("a 12 on fact 1 before a 3 on fact 2", [6, 1, 40000, 10, 1, 0], (CLASS, 1, 0))
write("a 12 on fact 1 before a 5 on fact 2", [6, 1, 40000, 10, 1, 5], (CLASS, 1, 0))
write("a 5 on fact 1 before a 12 on fact 2", [6, 1, 5, 10, 1, 40000], (PART, 1, 0))
write("a 6 on fact 2 before a 12 on fact 3", [10, 1, 11, 10, 1, 11, 40000, 1, 6], (ORDER, 2, 0))
write("1 before 12", [40000, 1, 6, 7], (SIZE, 0, 0))
write("12 before 8", [40000, 1, 6], (CLASS, 1, 0), room=0)
write("a 5 on fact 1 before a 3 on fact 2", [5, 1, 11, 10, 1, 0], (PART, 1, 0))
write("1 before 3", [0, 0, 0, 0], (SIZE, 0, 0))
write("3 before 8", [10, 1, 0], (TERM, 1, 0), room=0)
write("6 before 8", [10, 1, 11, 10, 1, 11], (ORDER, 2, 0), room=0)
write("one fact in 16 bytes", [10, 1, 11], (DONE, 0, 1), lines(b"   10    1   11"), room=16)
write("one fact in 15 bytes", [10, 1, 11], (SHORT, 0, 0), room=15)
write("T and just enough room", ROW_T, (DONE, 0, 4), T, room=64)
write("T and a byte too few", ROW_T, (SHORT, 0, 0), room=63)
write("T and room for one line", ROW_T, (SHORT, 0, 0), room=16)
write("T and no room", ROW_T, (SHORT, 0, 0), room=0)
write("T and a byte more than enough", ROW_T, (DONE, 0, 4), T, room=65)
write("the empty row needs no room", [], (DONE, 0, 0), room=0)

(CRATE / "stdin").write_bytes(b"".join(stdin))
(CRATE / "stdout").write_bytes(b"".join(stdout))
print(f"{len(stdin)} cases, {sum(map(len, stdin))} bytes of input")
