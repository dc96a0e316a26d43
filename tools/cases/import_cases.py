#!/usr/bin/env python3
"""Writes crates/import_cases/stdin and stdout: texts in N-Triples to import, each with the answer and the table that document 02, Point 3,
gives it. tests/ puts the same cases to the static library.

A case in stdin is a line of four fields in five columns each (a byte's number, how many such bytes the text begins with, how many more
bytes of the text follow, size of the lent memory), then those bytes. So a long text is short to write: most cases begin with none. What is
printed for a case is a line of four fields (number, place, count, and a 1, which says that lent memory is as it must be) and behind it the
table, if one was written. Memory is as it must be when every byte past the table, or each after a refusal, is as before, and when reading
accepts the table with the same count. The program needs memory for MOST_INPUT bytes of stdin and for texts of 65,537 bytes.

Answers and facts are written by hand. `imported`, W3C's grammar as one regular expression, tries them all: where it has another answer
the script stops. Whatever is done is put three times, with memory of just the length needed, of a byte less (8) and of some more.

Run from anywhere: tools/cases/import_cases.py
"""
import re
from pathlib import Path

CRATE = Path(__file__).resolve().parents[2] / "crates" / "import_cases"
MOST_INPUT = 163840
stdin, stdout = [], []

RDFS, RDF = b"<http://www.w3.org/2000/01/rdf-schema#", b"<http://www.w3.org/1999/02/22-rdf-syntax-ns#"
SC, SP, DOM, RANGE, TYPE = RDFS + b"subClassOf>", RDFS + b"subPropertyOf>", RDFS + b"domain>", RDFS + b"range>", RDF + b"type>"
PART, SHORT, CLASS, STATEMENT, NODE, CROWD = 5, 8, 12, 13, 14, 15

# ---- what an import gives, by the grammar of RDF 1.1 N-Triples without its escapes

IRI = rb'<[^\x00-\x20<>"{}|^`\\]*>'
LITERAL = rb'"[^"\\\r\n]*"(?:@[a-zA-Z]+(?:-[a-zA-Z0-9]+)*|\^\^' + IRI + rb')?'
LABEL = rb'[A-Za-z0-9_:\x80-\xff](?:[A-Za-z0-9_:\x80-\xff.-]*[A-Za-z0-9_:\x80-\xff-])?'
LINE = re.compile(rb'[ \t]*(?:(%s|_:%s)[ \t]*(%s)[ \t]*(%s|_:%s|%s)[ \t]*\.[ \t]*)?(?:#[^\r\n]*)?'
                  % (IRI, LABEL, IRI, IRI, LABEL, LITERAL))


def fault(s, p, o):
    """5 for vocabulary as subject or object, 12 for a literal as object of vocabulary."""
    return PART if s < 6 or o < 6 else CLASS if p < 6 and o >= 40000 else 0


def imported(text, room):
    """Number, place and facts."""
    if len(text) > 65536:
        return STATEMENT, 0, []
    names, literals, facts = {}, {}, []

    def term(token):
        if token in (SC, SP, DOM, RANGE, TYPE):
            return (SC, SP, DOM, RANGE, TYPE).index(token) + 1
        known, first = (literals, 40000) if token[:1] == b'"' else (names, 6)
        return known.setdefault(token, first + len(known))

    for place, line in enumerate(text.split(b"\n"), 1):
        read = LINE.fullmatch(line)
        if not read:
            return STATEMENT, place, []
        if read[1]:
            if b"_" in (read[1][:1], read[3][:1]):
                return NODE, place, []
            facts.append((place, tuple(map(term, read.groups()))))
    for place, fact in facts:
        if fault(*fact):
            return fault(*fact), place, []
    table = sorted({fact for _, fact in facts})
    number = CROWD if len(table) > 1024 else SHORT if room < 16 * len(table) else 0
    return number, 0, [] if number else table


# ---- how a case is written

def case(shows, text, room, number, place=0, facts=(), fill=b"\0", times=0):
    """A text of so many bytes `fill`, then `text`. `shows` says what the case is for."""
    assert imported(fill * times + text, room) == (number, place, list(facts)), (shows, imported(fill * times + text, room))
    stdin.append(b"%5d%5d%5d%5d\n" % (fill[0], times, len(text), room) + text)
    stdout.append(b"%5d%5d%5d%5d\n" % (number, place, len(facts), 1))
    stdout.extend(b"%5d%5d%5d\n" % fact for fact in facts)


def done(shows, text, *facts, **filled):
    """A text that becomes a table, which is written down as it stands there."""
    need = 16 * len(facts)
    case(shows, text, need, 0, 0, facts, **filled)
    case(shows, text, need + 5, 0, 0, facts, **filled)
    if facts:
        case(shows, text, need - 1, SHORT, **filled)


def refused(shows, text, number, place=1, room=40, **filled):
    """A text that is refused."""
    case(shows, text, room, number, place, **filled)


def lines(*texts):
    return b"".join(text + b"\n" for text in texts)


def of(*tokens):
    """A statement."""
    return b" ".join(tokens) + b" .\n"


# ---- "The office exports N-Triples (W3C RDF 1.1). An import of up to 65,536 bytes turns that into our table."

done("one statement", b"<a> <b> <c> .\n", (6, 7, 8))
done("no bytes: the empty table", b"")
done("two statements", b"<a> <b> <c> .\n<d> <b> <c> .\n", (6, 7, 8), (9, 7, 8))
done("a literal", b'<a> <b> "c" .\n', (6, 7, 40000))
done("what the office might send", lines(
    b"# plan of hall 3", b"", b"<http://plan.example/parcel> " + TYPE + b" <http://plan.example/Fragile> .",
    b"<http://plan.example/Fragile> " + SC + b" <http://plan.example/Slow> .",
    b'<http://plan.example/parcel> <http://plan.example/label> "Gl\xc3\xa4ser"@de .'),
    (6, 5, 7), (6, 9, 40000), (7, 1, 8))
refused("no statement", b"plan\n", STATEMENT)
refused("a subject alone", b"<a>\n", STATEMENT)
refused("a subject and a predicate", b"<a> <b>\n", STATEMENT)
refused("no object", b"<a> <b> .\n", STATEMENT)
refused("no full stop", b"<a> <b> <c>\n", STATEMENT)
refused("two full stops", b"<a> <b> <c> ..\n", STATEMENT)
refused("two full stops, a space between", b"<a> <b> <c> . .\n", STATEMENT)
refused("a full stop alone", b".\n", STATEMENT)
refused("four terms, as in N-Quads", b"<a> <b> <c> <d> .\n", STATEMENT)
refused("two statements on a line", b"<a> <b> <c> . <a> <b> <d> .\n", STATEMENT)
refused("a statement over two lines", b"<a> <b>\n<c> .\n", STATEMENT)
refused("a full stop on a line of its own", b"<a> <b> <c>\n.\n", STATEMENT)
refused("a comma, as in Turtle", b"<a> <b> <c>, <d> .\n", STATEMENT)
refused("a prefixed name, as in Turtle", b"<a> <b> x:c .\n", STATEMENT)
refused("the word a, as in Turtle", b"<a> a <c> .\n", STATEMENT)
refused("a number, as in Turtle", b"<a> <b> 1 .\n", STATEMENT)
refused("a literal as subject", b'"a" <b> <c> .\n', STATEMENT)
refused("a literal as predicate", b'<a> "b" <c> .\n', STATEMENT)
refused("an IRI that doesn't end", b"<a <b> <c> .\n", STATEMENT)
refused("an IRI that doesn't begin", b"a> <b> <c> .\n", STATEMENT)
refused("a literal that doesn't end", b'<a> <b> "c .\n', STATEMENT)
refused("a literal with single quotes", b"<a> <b> 'c' .\n", STATEMENT)

# ---- white space: any number of spaces and tabs, also none, about the tokens and the full stop

done("none", b"<a><b><c>.\n", (6, 7, 8))
done("none, a literal", b'<a><b>"c".\n', (6, 7, 40000))
done("none behind a tag: the full stop ends it", b'<a><b>"c"@en.\n', (6, 7, 40000))
done("none behind a datatype", b'<a><b>"c"^^<d>.\n', (6, 7, 40000))
done("spaces and tabs everywhere", b" \t <a>\t\t<b>  \t<c> \t.\t \n", (6, 7, 8))
done("a space before the full stop alone", b"<a><b><c> .\n", (6, 7, 8))
done("a space behind the full stop", b"<a> <b> <c> . \n", (6, 7, 8))
done("a tab in front", b"\t<a> <b> <c> .\n", (6, 7, 8))
refused("byte 11 is no white space", b"<a>\x0b<b> <c> .\n", STATEMENT)
refused("byte 12 is none", b"<a> <b>\x0c<c> .\n", STATEMENT)
refused("byte 0 is none", b"<a> <b> <c>\0.\n", STATEMENT)
refused("byte 160 is none", b"<a> <b>\xa0<c> .\n", STATEMENT)
refused("byte 127 is none", b"\x7f<a> <b> <c> .\n", STATEMENT)

# ---- "Comments, also after a full stop, and lines of nothing but spaces and tabs are skipped."

done("a comment", b"# plan\n")
done("an empty comment", b"#\n")
done("a comment behind white space", b" \t# plan\n")
done("a comment behind a full stop", b"<a> <b> <c> . # plan\n", (6, 7, 8))
done("right behind it", b"<a> <b> <c> .# plan\n", (6, 7, 8))
done("nothing but tokens and a comment", b"<a><b><c>.#x", (6, 7, 8))
done("an empty comment right behind it", b"<a> <b> <c> .#\n", (6, 7, 8))
done("a comment in a comment", b"## # plan\n")
done("a statement in a comment", b"# <a> <b> <c> .\n")
done("an empty line", b"\n")
done("empty lines", b"\n\n\n")
done("a line of spaces", b"   \n")
done("a line of tabs", b"\t\t\n")
done("a last line of spaces without byte 10", b"<a> <b> <c> .\n  ", (6, 7, 8))
done("lines that say nothing between statements", b"\n<a> <b> <c> .\n# x\n \t\n<c> <b> <a> .\n#", (6, 7, 8), (8, 7, 6))
refused("a comment before the full stop", b"<a> <b> <c> # .\n", STATEMENT)
refused("a comment between tokens", b"<a> # <b> <c> .\n", STATEMENT)
refused("a comment for a full stop", b"<a> <b> <c>#\n", STATEMENT)
refused("a comment ends with its line", b"# one\ntwo\n", STATEMENT, 2)
done("a backslash in a comment", b"# \\u00 \\\n")
done("quotes and brackets in a comment", b'# "x < y\n')
done("bytes 0, 1, 31 and 127 in a comment", b"# \x00\x01\x1f\x7f\n")
done("byte 11 in a comment behind a full stop", b"<a> <b> <c> . #\x0b\x0c\n", (6, 7, 8))

# ---- "The five IRIs of the vocabulary become 1 to 5."

done("subClassOf is 1", of(b"<a>", SC, b"<b>"), (6, 1, 7))
done("subPropertyOf is 2", of(b"<a>", SP, b"<b>"), (6, 2, 7))
done("domain is 3", of(b"<a>", DOM, b"<b>"), (6, 3, 7))
done("range is 4", of(b"<a>", RANGE, b"<b>"), (6, 4, 7))
done("type is 5", of(b"<a>", TYPE, b"<b>"), (6, 5, 7))
done("they take no number of the others", of(b"<a>", TYPE, b"<b>") + of(b"<c>", b"<d>", b"<a>"), (6, 5, 7), (8, 9, 6))
done("another case is another IRI", of(b"<a>", RDFS + b"subclassOf>", b"<b>"), (6, 7, 8))
done("the last part alone", b"<a> <subClassOf> <b> .\n", (6, 7, 8))
done("the name space alone", of(b"<a>", RDFS + b">", b"<b>"), (6, 7, 8))
done("type in the other name space", of(b"<a>", RDFS + b"type>", b'"b"'), (6, 7, 40000))
done("domain in the other name space", of(b"<a>", RDF + b"domain>", b'"b"'), (6, 7, 40000))
done("a byte more", of(b"<a>", RDFS + b"ranges>", b'"b"'), (6, 7, 40000))
done("a byte less", of(b"<a>", RDFS + b"rang>", b'"b"'), (6, 7, 40000))
done("https", b'<a> <https://www.w3.org/2000/01/rdf-schema#range> "b" .\n', (6, 7, 40000))
done("a percent sign", b'<a> <http://www.w3.org/2000/01/rdf-schema%23range> "b" .\n', (6, 7, 40000))

# ---- "Other IRIs get numbers from 6, and literals from 40000, in order of first appearance."

done("subject, predicate, object", b"<c> <b> <a> .\n", (6, 7, 8))
done("the same IRI in all three parts", b"<a> <a> <a> .\n", (6, 6, 6))
done("subject and object alike", b"<a> <b> <a> .\n", (6, 7, 6))
done("line by line", b"<c> <b> <a> .\n<a> <z> <y> .\n", (6, 7, 8), (8, 9, 10))
done("literals apart from IRIs", b'<a> <b> "c" .\n<d> <b> "e" .\n', (6, 7, 40000), (8, 7, 40001))
done("a literal and an IRI of the same letters", b'<a> <b> "a" .\n<a> <b> <b> .\n', (6, 7, 7), (6, 7, 40000))
done("numbers by appearance, though the table is sorted", b"<z> <b> <y> .\n<a> <b> <z> .\n", (6, 7, 8), (9, 7, 6))
done("names of comments get none", b"# <x>\n<a> <b> <c> . # <y>\n<a> <b> <d> .\n", (6, 7, 8), (6, 7, 9))
done("a datatype gets none", b'<a> <b> "c"^^<d> .\n<a> <b> <e> .\n', (6, 7, 8), (6, 7, 40000))
done("a datatype that is an IRI later", b'<a> <b> "c"^^<d> .\n<e> <b> <d> .\n', (6, 7, 40000), (8, 7, 9))
done("a datatype of the vocabulary is no more than a part of its literal", of(b"<a>", b"<b>", b'"c"^^' + TYPE), (6, 7, 40000))
done("letters of another case", b"<a> <A> <a> .\n", (6, 7, 6))
done("a slash more", b"<a> <a/> <a> .\n", (6, 7, 6))
done("bytes that a standard would take for the same", b"<%41> <%61> <A> .\n", (6, 7, 8))

# ---- "A literal is its full token with language tag or datatype, compared byte by byte."

done("four literals", b'<a> <b> "c" .\n<a> <b> "c"@en .\n<a> <b> "c"@EN .\n'
     b'<a> <b> "c"^^<http://www.w3.org/2001/XMLSchema#string> .\n', (6, 7, 40000), (6, 7, 40001), (6, 7, 40002), (6, 7, 40003))
done("the same literal twice", b'<a> <b> "c"@en .\n<d> <b> "c"@en .\n', (6, 7, 40000), (8, 7, 40000))
done("two datatypes", b'<a> <b> "c"^^<d> .\n<a> <b> "c"^^<e> .\n', (6, 7, 40000), (6, 7, 40001))
done("two tags", b'<a> <b> "c"@en .\n<a> <b> "c"@en-GB .\n', (6, 7, 40000), (6, 7, 40001))
done("a space more", b'<a> <b> "c" .\n<a> <b> "c " .\n', (6, 7, 40000), (6, 7, 40001))
done("a byte 0 more", b'<a> <b> "" .\n<a> <b> "\0" .\n<a> <b> "\0\0" .\n', (6, 7, 40000), (6, 7, 40001), (6, 7, 40002))
done("numbers that are equal", b'<a> <b> "1"^^<d> .\n<a> <b> "01"^^<d> .\n', (6, 7, 40000), (6, 7, 40001))
done("the empty literal", b'<a> <b> "" .\n', (6, 7, 40000))
done("a tag with parts", b'<a> <b> "c"@de-CH-1996 .\n', (6, 7, 40000))
done("a tag of one letter", b'<a> <b> "c"@d .\n', (6, 7, 40000))
done("a long tag", b'<a> <b> "c"@abcdefghijk-0123456789 .\n', (6, 7, 40000))
done("an empty datatype IRI", b'<a> <b> "c"^^<> .\n', (6, 7, 40000))
done("what looks like tokens in quotes", b'<a> <b> "<x> . # _:y @en ^^" .\n', (6, 7, 40000))
done("a full stop in quotes, none between", b'<a><b>".".\n', (6, 7, 40000))
done("a single quote", b"<a> <b> \"it's\" .\n", (6, 7, 40000))
refused("an empty tag", b'<a> <b> "c"@ .\n', STATEMENT)
refused("a tag that begins with a digit", b'<a> <b> "c"@1 .\n', STATEMENT)
refused("a digit in a tag's first part", b'<a> <b> "c"@e1 .\n', STATEMENT)
refused("an empty part at the end of a tag", b'<a> <b> "c"@en- .\n', STATEMENT)
refused("an empty part within a tag", b'<a> <b> "c"@en--a .\n', STATEMENT)
refused("a tag that begins with a hyphen", b'<a> <b> "c"@-en .\n', STATEMENT)
refused("an underscore in a tag", b'<a> <b> "c"@en_GB .\n', STATEMENT)
refused("one caret", b'<a> <b> "c"^<d> .\n', STATEMENT)
refused("three carets", b'<a> <b> "c"^^^<d> .\n', STATEMENT)
refused("carets and nothing behind", b'<a> <b> "c"^^ .\n', STATEMENT)
refused("a prefixed datatype", b'<a> <b> "c"^^x:d .\n', STATEMENT)
refused("a literal as datatype", b'<a> <b> "c"^^"d" .\n', STATEMENT)
refused("tag and datatype", b'<a> <b> "c"@en^^<d> .\n', STATEMENT)
refused("datatype and tag", b'<a> <b> "c"^^<d>@en .\n', STATEMENT)
refused("a tag at an IRI", b"<a> <b> <c>@en .\n", STATEMENT)
refused("two literals", b'<a> <b> "c""d" .\n', STATEMENT)
refused("a long literal, as in Turtle", b'<a> <b> """c""" .\n', STATEMENT)

# ---- "No escapes are accepted."

refused("an escape in an IRI", b"<\\u0061> <b> <c> .\n", STATEMENT)
refused("a long one", b"<a> <\\U00000062> <c> .\n", STATEMENT)
refused("a backslash in an IRI", b"<a> <b> <c\\d> .\n", STATEMENT)
refused("an escaped quote", b'<a> <b> "c\\"d" .\n', STATEMENT)
refused("an escaped backslash", b'<a> <b> "c\\\\" .\n', STATEMENT)
refused("an escaped line end", b'<a> <b> "c\\nd" .\n', STATEMENT)
refused("an escaped letter", b'<a> <b> "\\u0063" .\n', STATEMENT)
refused("an escape in a datatype", b'<a> <b> "c"^^<\\u0064> .\n', STATEMENT)
refused("a backslash before a closing quote", b'<a> <b> "c\\" .\n', STATEMENT)

# ---- "Lines end with byte 10, which the last may lack; byte 13 gets 13."

done("the last line lacks it", b"<a> <b> <c> .", (6, 7, 8))
done("the last of two lacks it", b"<a> <b> <c> .\n<a> <b> <d> .", (6, 7, 8), (6, 7, 9))
done("a comment that lacks it", b"<a> <b> <c> .\n# end", (6, 7, 8))
done("two at the end", b"<a> <b> <c> .\n\n", (6, 7, 8))
refused("a last line that lacks it and its full stop", b"<a> <b> <c> .\n<a> <b> <c>", STATEMENT, 2)
refused("byte 10 in quotes", b'<a> <b> "c\nd" .\n', STATEMENT)
refused("byte 10 in an IRI", b"<a> <b> <c\nd> .\n", STATEMENT)
refused("13 before 10", b"<a> <b> <c> .\r\n", STATEMENT)
refused("13 alone", b"\r", STATEMENT)
refused("13 for 10", b"<a> <b> <c> .\r<a> <b> <d> .\n", STATEMENT)
refused("13 behind 10", b"<a> <b> <c> .\n\r<a> <b> <d> .\n", STATEMENT, 2)
refused("13 in a comment", b"# plan\r\n", STATEMENT)
refused("13 in a comment behind a full stop", b"<a> <b> <c> . # plan\r", STATEMENT)
refused("13 in quotes", b'<a> <b> "c\rd" .\n', STATEMENT)
refused("13 in an IRI", b"<a\r> <b> <c> .\n", STATEMENT)
refused("13 between tokens", b"<a>\r<b> <c> .\n", STATEMENT)
refused("13 in a label", b"<a> <b> _:c\r .\n", STATEMENT)
refused("13 on a line of spaces", b"<a> <b> <c> .\n  \r\n", STATEMENT, 2)

# ---- "Relative IRIs pass, bytes above 127 pass unread inside IRIs, a literal's quotes, blank labels and comments and nowhere else,
# ---- and no space or tab stands between a literal's parts."

done("the empty IRI", b"<> <> <> .\n", (6, 6, 6))
done("a path", b"</a/b> <../c> <?d#e> .\n", (6, 7, 8))
done("a fragment", b"<#a> <#> <a#> .\n", (6, 7, 8))
done("stops, commas, carets' neighbours", b"<a.b> <;,> <!$&'()*+-/=?@[]_~%> .\n", (6, 7, 8))
done("byte 127 in an IRI", b"<\x7f> <b> <c> .\n", (6, 7, 8))
for byte in b'<"{}|^`\\ \t\x00\x01\x1f':
    refused("barred in an IRI", b"<a%cb> <b> <c> .\n" % byte, STATEMENT)
done("letters of UTF-8", b"<\xc3\xa9> <b> <\xe2\x82\xac> .\n", (6, 7, 8))
done("bytes that are no UTF-8 in an IRI", b"<\xff> <\x80> <\xc3> .\n", (6, 7, 8))
done("the same in quotes", b'<a> <b> "\xff\x80\xc0\xaf" .\n', (6, 7, 40000))
done("the same in a comment", b"# \xff\x80\n<a> <b> <c> .#\xfe\n", (6, 7, 8))
done("bytes 128 and 255 differ", b"<\x80> <b> <\xff> .\n", (6, 7, 8))
done("control bytes in quotes", b'<a> <b> "\x00\x01\t\x0b\x0c\x1f\x7f" .\n', (6, 7, 40000))
refused("the same in a label are a blank node", b"_:\xff\x80 <b> <c> .\n", NODE)
refused("a byte order mark", b"\xef\xbb\xbf<a> <b> <c> .\n", STATEMENT)
refused("a byte order mark before nothing", b"\xef\xbb\xbf", STATEMENT)
refused("above 127 between tokens", b"<a> \xc3\xa9 <b> <c> .\n", STATEMENT)
refused("above 127 behind the full stop", b"<a> <b> <c> .\xff\n", STATEMENT)
refused("above 127 in a tag", b'<a> <b> "c"@\xc3\xa9 .\n', STATEMENT)
refused("above 127 at a tag's end", b'<a> <b> "c"@en\xff .\n', STATEMENT)
refused("above 127 between quote and tag", b'<a> <b> "c"\xff@en .\n', STATEMENT)
refused("above 127 on a line of spaces", b"  \x80\n", STATEMENT)
refused("a space before a tag", b'<a> <b> "c" @en .\n', STATEMENT)
refused("a tab before a tag", b'<a> <b> "c"\t@en .\n', STATEMENT)
refused("a space behind the at sign", b'<a> <b> "c"@ en .\n', STATEMENT)
refused("a space within a tag", b'<a> <b> "c"@en -GB .\n', STATEMENT)
refused("a space before the carets", b'<a> <b> "c" ^^<d> .\n', STATEMENT)
refused("a space behind the carets", b'<a> <b> "c"^^ <d> .\n', STATEMENT)
refused("a tab behind the carets", b'<a> <b> "c"^^\t<d> .\n', STATEMENT)
refused("a space between the carets", b'<a> <b> "c"^ ^<d> .\n', STATEMENT)

# ---- "Equal facts become one, and the result is sorted."

done("twice the same", b"<a> <b> <c> .\n<a> <b> <c> .\n", (6, 7, 8))
done("the same with other white space and a comment", b"<a> <b> <c> .\n <a><b>\t<c>. # again", (6, 7, 8))
done("the same far apart", b"<a> <b> <c> .\n<c> <b> <a> .\n<a> <b> <c> .\n", (6, 7, 8), (8, 7, 6))
done("three times", b'<a> <b> "c" .\n' * 3, (6, 7, 40000))
done("by subject, then predicate, then object",
     b"<a> <b> <c> .\n<d> <a> <a> .\n<c> <b> <a> .\n<a> <b> <a> .\n<a> <a> <d> .\n<b> <b> <b> .\n",
     (6, 6, 9), (6, 7, 6), (6, 7, 8), (7, 7, 7), (8, 7, 6), (9, 6, 6))
done("literals behind names", b'<a> <b> "x" .\n<a> <b> <c> .\n', (6, 7, 8), (6, 7, 40000))
done("vocabulary before names", of(b"<a>", b"<b>", b"<c>") + of(b"<a>", TYPE, b"<c>") + of(b"<a>", SC, b"<c>"),
     (6, 1, 8), (6, 5, 8), (6, 7, 8))
done("by number and not by digits", b"".join(b"<s> <p> <%d> .\n" % n for n in (1, 2, 3, 1)), (6, 7, 8), (6, 7, 9), (6, 7, 10))

# ---- "After the lines are read, the facts are tried for 5 and 12, place being the input line."

for word in (SC, SP, DOM, RANGE, TYPE):
    refused("vocabulary as subject", of(word, b"<b>", b"<c>"), PART)
    refused("vocabulary as object", of(b"<a>", b"<b>", word), PART)
    refused("a literal as object of vocabulary", of(b"<a>", word, b'"c"'), CLASS)
refused("vocabulary as object of vocabulary", of(b"<a>", TYPE, TYPE), PART)
refused("5 before 12 on a line", of(TYPE, SC, b'"c"'), PART)
refused("the line, with those that say nothing", b"\n# x\n" + of(b"<a>", b"<b>", TYPE), PART, 3)
refused("the line, with lines that are equal", b"<a> <b> <c> .\n" * 3 + of(b"<a>", TYPE, b'"c"'), CLASS, 4)
refused("5 on line 2 before 12 on line 3", of(b"<a>", b"<b>", b"<c>") + of(b"<a>", b"<b>", SC) + of(b"<a>", SC, b'"c"'), PART, 2)
refused("12 on line 1 before 5 on line 2", of(b"<a>", SC, b'"c"') + of(b"<a>", b"<b>", SC), CLASS, 1)
refused("of two the first", of(b"<a>", b"<b>", TYPE) + of(TYPE, b"<b>", b"<a>"), PART, 1)
refused("in the order of lines, not of the table", of(b"<a>", b"<b>", b"<c>") + of(b"<c>", b"<b>", TYPE) + of(b"<a>", b"<b>", TYPE), PART, 2)
refused("13 on line 2 before 5 on line 1", of(b"<a>", b"<b>", TYPE) + b"x\n", STATEMENT, 2)
refused("13 on line 3 before 12 on line 1", of(b"<a>", TYPE, b'"c"') + b"\n<a> <b> <c>", STATEMENT, 3)
refused("14 on line 2 before 5 on line 1", of(b"<a>", b"<b>", TYPE) + b"_:x <b> <c> .\n", NODE, 2)
refused("14 on line 2 before 12 on line 1", of(b"<a>", TYPE, b'"c"') + b"<a> <b> _:x .\n", NODE, 2)
refused("13 and 5 on a line", of(TYPE, b"<b>", b"<c> <d>"), STATEMENT)
refused("14 and 5 on a line", of(b"_:x", b"<b>", TYPE), NODE)
refused("5 before 8", of(b"<a>", b"<b>", TYPE), PART, room=0)
refused("12 before 8", of(b"<a>", TYPE, b'"c"'), CLASS, room=0)
done("a vocabulary word in quotes", of(b"<a>", b"<b>", b'"' + TYPE + b'"'), (6, 7, 40000))

# ---- "13 ... for a line outside this subset (place the line)"

refused("the second line", b"<a> <b> <c> .\nx\n", STATEMENT, 2)
refused("the last line", b"<a> <b> <c> .\n\n\nx", STATEMENT, 4)
refused("of two the first", b"\nx\n\ny\n", STATEMENT, 2)
refused("place 1,000", b"x", STATEMENT, 1000, fill=b"\n", times=999)
refused("13 before 8", b"x", STATEMENT, 1, room=0)

# ---- "14 ... for a blank node as subject or object of a line otherwise sound, tried after 13 on each line, which is its place"

refused("a blank subject", b"_:a <b> <c> .\n", NODE)
refused("a blank object", b"<a> <b> _:c .\n", NODE)
refused("both", b"_:a <b> _:a .\n", NODE)
refused("on line 3", b"<a> <b> <c> .\n# _:x\n<a> <b> _:c .\n", NODE, 3)
refused("of two the first", b"<a> <b> <c> .\n_:a <b> <c> .\n_:a <b> <d> .\n", NODE, 2)
refused("without white space", b"_:a<b>_:c.\n", NODE)
refused("with a comment", b"_:a <b> <c> .# x\n", NODE)
refused("14 on line 1 before 13 on line 2", b"_:a <b> <c> .\nx\n", NODE, 1)
refused("13 on line 1 before 14 on line 2", b"x\n_:a <b> <c> .\n", STATEMENT, 1)
refused("13 on the same line: no full stop", b"_:a <b> <c>\n", STATEMENT)
refused("13 on the same line: byte 13", b"_:a <b> <c> .\r\n", STATEMENT)
refused("13 on the same line: an escape", b'_:a <b> "\\n" .\n', STATEMENT)
refused("13 on the same line: no predicate", b"_:a <c> .\n", STATEMENT)
refused("a blank predicate", b"<a> _:b <c> .\n", STATEMENT)
refused("a blank predicate between blank nodes", b"_:a _:b _:c .\n", STATEMENT)
refused("a blank datatype", b'<a> <b> "c"^^_:d .\n', STATEMENT)
refused("14 before 8", b"_:a <b> <c> .\n", NODE, 1, room=0)
done("an IRI that looks like one", b"<_:a> <b> <_:c> .\n", (6, 7, 8))
done("quotes that look like one", b'<a> <b> "_:c" .\n', (6, 7, 40000))
for label in (b"a", b"Z", b"0", b"9a", b"_", b":", b"\x80", b"\xff", b"a-b", b"a-", b"a.b", b"a..b", b"a.-", b"_:_", b"a:b", b"a\xc3", b"a.\xff", b"1.:"):
    refused("a label as object", b"<a> <b> _:" + label + b" .\n", NODE)
    refused("a label as subject", b"_:" + label + b"<b> <c>.\n", NODE)
for label in (b"", b"-", b"-a", b".", b".a", b" a", b"'", b"a'", b"a~", b"a,", b"<", b"#", b"a\x7f", b"a\\", b"\0", b"a/b", b"@"):
    refused("no label", b"<a> <b> _:" + label + b" .\n", STATEMENT)
refused("a label's full stop is the statement's", b"<a> <b> _:c.\n", NODE)
refused("with a comment behind", b"<a> <b> _:c.# x\n", NODE)
refused("of two full stops one is too many", b"<a> <b> _:c..\n", STATEMENT)
refused("a full stop within a label is none of the statement's", b"<a> <b> _:c.d\n", STATEMENT)
refused("a full stop within a label and one behind", b"<a> <b> _:c.d.\n", NODE)
refused("a label that ends in a full stop, as subject", b"_:a. <b> <c> .\n", STATEMENT)
refused("no colon", b"<a> <b> _c .\n", STATEMENT)
refused("two colons: a label with one", b"<a> <b> _::c .\n", NODE)
refused("a space in front of the label", b"<a> <b> _ :c .\n", STATEMENT)

# ---- W3C's suite for N-Triples, rebuilt: what is done

X = b"<http://example/s> <http://example/p> "
A = b"<http://a.example/s> <http://a.example/p> "
done("nt-syntax-file-01", b"")
done("nt-syntax-file-02", b"#Empty file.\n")
done("nt-syntax-file-03", b"#One comment, one blank line.\n\n")
done("nt-syntax-uri-01", X + b"<http://example/o> .\n", (6, 7, 8))
done("nt-syntax-uri-04", b"# IRI with all chars in it.\n" + X + b"<scheme:!$%25&'()*+,-./0123456789:/@ABCDEFGHIJKLMNOPQRSTUVWXYZ"
     b"_abcdefghijklmnopqrstuvwxyz~?#> .\n", (6, 7, 8))
done("nt-syntax-string-01", X + b'"string" .\n', (6, 7, 40000))
done("nt-syntax-string-02", X + b'"string"@en .\n', (6, 7, 40000))
done("nt-syntax-string-03", X + b'"string"@en-uk .\n', (6, 7, 40000))
done("nt-syntax-datatypes-01", X + b'"123"^^<http://www.w3.org/2001/XMLSchema#byte> .\n', (6, 7, 40000))
done("nt-syntax-datatypes-02", X + b'"123"^^<http://www.w3.org/2001/XMLSchema#string> .\n', (6, 7, 40000))
done("literal", A + b'"x" .\n', (6, 7, 40000))
done("literal_ascii_boundaries", A + b'"\x00\t\x0b\x0c\x0e&([]\x7f" .\n', (6, 7, 40000))
done("literal_with_UTF8_boundaries", A + b'"\xc2\x80\xdf\xbf\xe0\xa0\x80\xe0\xbf\xbf\xe1\x80\x80\xec\xbf\xbf\xed\x80\x80\xed\x9f\xbf\xee\x80\x80'
     b'\xef\xbf\xbd\xf0\x90\x80\x80\xf0\xbf\xbf\xbd\xf1\x80\x80\x80\xf3\xbf\xbf\xbd\xf4\x80\x80\x80\xf4\x8f\xbf\xbd" .\n', (6, 7, 40000))
done("literal_with_squote", A + b'"x\'y" .\n', (6, 7, 40000))
done("literal_with_2_squotes", A + b"\"x''y\" .\n", (6, 7, 40000))
done("langtagged_string", A + b'"chat"@en .\n', (6, 7, 40000))
done("lantag_with_subtag", b'<http://example.org/ex#a> <http://example.org/ex#b> "Cheers"@en-UK .\n', (6, 7, 40000))
done("minimal_whitespace, without its blank nodes", b"<http://example/s><http://example/p><http://example/o>.\n"
     b'<http://example/s><http://example/p>"Alice".\n', (6, 7, 8), (6, 7, 40000))
done("comment_following_triple, without its blank node", X + b"<http://example/o> . # comment\n" + X + b'"o" . # comment\n'
     + X + b'"o"^^<http://example/dt> . # comment\n' + X + b'"o"@en . # comment\n',
     (6, 7, 8), (6, 7, 40000), (6, 7, 40001), (6, 7, 40002))

# What is sound there and outside this subset: escapes, and blank nodes.

refused("nt-syntax-uri-02", b"# x53 is capital S\n<http://example/\\u0053> <http://example/p> <http://example/o> .\n", STATEMENT, 2)
refused("nt-syntax-uri-03", b"# x53 is capital S\n<http://example/\\U00000053> <http://example/p> <http://example/o> .\n", STATEMENT, 2)
for text in (b"a\\n", b"a\\u0020b", b"a\\U00000020b"):
    refused("nt-syntax-str-esc-01 to -03", X + b'"' + text + b'" .\n', STATEMENT)
for text in (b"\\t", b"\\b", b"\\n", b"\\r", b"\\f", b"\\\\", b"test-\\\\", b'x\\"y', b'x\\"\\"y', b"\\u006F", b"\\U0000006F",
             b"\\u0000\\u0001\\u0002\\u001F", b' !\\"#$%&():;<=>?@[]^_`{|}~'):
    refused("literal_with_ and an escape", A + b'"' + text + b'" .\n', STATEMENT)
done("literal_all_punctuation, without its quote", A + b'" !#$%&():;<=>?@[]^_`{|}~" .\n', (6, 7, 40000))
refused("nt-syntax-bnode-01", b"_:a  <http://example/p> <http://example/o> .\n", NODE)
refused("nt-syntax-bnode-02", X + b"_:a .\n_:a  <http://example/p> <http://example/o> .\n", NODE)
refused("nt-syntax-bnode-03", X + b"_:1a .\n_:1a  <http://example/p> <http://example/o> .\n", NODE)
refused("comment_following_triple", X + b"<http://example/o> . # comment\n" + X + b"_:o . # comment\n", NODE, 2)
refused("minimal_whitespace", b"<http://example/s><http://example/p><http://example/o>.\n<http://example/s><http://example/p>\"Alice\".\n"
        b"<http://example/s><http://example/p>_:o.\n_:s<http://example/p><http://example/o>.\n", NODE, 3)
refused("nt-syntax-subm-01, its beginning", b"# comment lines\n\t  \t   # comment line after whitespace\n"
        b"# empty blank line, then one with spaces and tabs\n\n         \t\n"
        b"<http://example.org/resource1> <http://example.org/property> <http://example.org/resource2> .\n"
        b"_:anon <http://example.org/property> <http://example.org/resource2> .\n", NODE, 7)

# What is no N-Triples there.

for uri in (b" space", b"\\u00ZZ11", b"\\U00ZZ1111", b"\\n", b"\\/"):
    refused("nt-syntax-bad-uri-01 to -05", b"# Bad IRI\n<http://example/%s> <http://example/p> <http://example/o> .\n" % uri, STATEMENT, 2)
done("nt-syntax-bad-uri-06: relative IRIs pass", b"<s> <http://example/p> <http://example/o> .\n", (6, 7, 8))
done("nt-syntax-bad-uri-07", b"<http://example/s> <p> <http://example/o> .\n", (6, 7, 8))
done("nt-syntax-bad-uri-08", X + b"<o> .\n", (6, 7, 8))
done("nt-syntax-bad-uri-09", X + b'"foo"^^<dt> .\n', (6, 7, 40000))
refused("nt-syntax-bad-prefix-01", b"@prefix : <http://example/> .\n", STATEMENT)
refused("nt-syntax-bad-base-01", b"@base <http://example/> .\n", STATEMENT)
refused("nt-syntax-bad-bnode-01: RDF 1.1 has a colon in labels", b"_::a  <http://example/p> <http://example/o> .\n", NODE)
refused("nt-syntax-bad-bnode-02", b"_:abc:def  <http://example/p> <http://example/o> .\n", NODE)
refused("nt-syntax-bad-struct-01", X + b"<http://example/o>, <http://example/o2> .\n", STATEMENT)
refused("nt-syntax-bad-struct-02", X + b"<http://example/o>; <http://example/p2>, <http://example/o2> .\n", STATEMENT)
refused("nt-syntax-bad-lang-01", X + b'"string"@1 .\n', STATEMENT)
for text in (b"a\\zb", b"\\uWXYZ", b"\\U0000WXYZ"):
    refused("nt-syntax-bad-esc-01 to -03", X + b'"' + text + b'" .\n', STATEMENT)
for text in (b"\"abc'", b"'abc\"", b"'abc'", b'"""abc"""', b"'''abc'''", b'"abc', b'abc"'):
    refused("nt-syntax-bad-string-01 to -07", X + text + b" .\n", STATEMENT)
for text in (b"1", b"1.0", b"1.0e0"):
    refused("nt-syntax-bad-num-01 to -03", X + text + b" .\n", STATEMENT)

# ---- "or input too large (place 0, first of all)"

done("65,536 bytes: a comment", b"", fill=b"#", times=65536)
done("65,535 bytes: spaces", b"", fill=b" ", times=65535)
done("65,536 bytes: tabs", b"", fill=b"\t", times=65536)
done("65,536 bytes: empty lines", b"", fill=b"\n", times=65536)
done("65,536 bytes: a comment and a statement", b"\n<a><b><c>.", (6, 7, 8), fill=b"#", times=65525)
done("65,536 bytes: white space and a statement", b"<a><b><c>.", (6, 7, 8), fill=b" ", times=65526)
done("65,535 bytes: empty lines and a statement", b"<a><b><c>.", (6, 7, 8), fill=b"\n", times=65525)
refused("65,537 bytes: a comment", b"", STATEMENT, 0, fill=b"#", times=65537)
refused("65,537 bytes: empty lines", b"", STATEMENT, 0, fill=b"\n", times=65537)
refused("65,537 bytes: a statement at the end", b"\n<a><b><c>.", STATEMENT, 0, fill=b"#", times=65526)
refused("65,537 bytes: before 13 with a place", b"", STATEMENT, 0, fill=b"\r", times=65537)
refused("65,537 bytes: before 14", b"\n_:a<b><c>.\n", STATEMENT, 0, fill=b"#", times=65525)
refused("65,537 bytes: before 5", b"\n" + of(b"<a>", b"<b>", TYPE), STATEMENT, 0, fill=b"#", times=65476)
refused("65,537 bytes: before 8", b"\n<a><b><c>.", STATEMENT, 0, room=0, fill=b"#", times=65526)
refused("65,536 bytes of byte 13", b"", STATEMENT, 1, fill=b"\r", times=65536)
refused("65,536 bytes: 13 on the last line", b"x", STATEMENT, 65536, fill=b"\n", times=65535)
refused("65,536 bytes: 14 on the last line", b"_:a<b><c>.", NODE, 65527, fill=b"\n", times=65526)
refused("65,536 bytes: 5 on the last line", b"<a><b>" + TYPE + b".", PART, 65480, fill=b"\n", times=65479)

# ---- "15 ... for more than 1,024 different facts, place 0, after every line and fact has passed; short memory comes last as 8."

# The bytes of names of one letter, a to z, A to Z; the first 1,024 and 1,025 facts over 33 of them, each line of ten bytes.
LETTERS = [b"%c" % byte for byte in b"abcdefghijklmnopqrstuvwxyzABCDEFG"]
CROWDED = [b"<%s><><%s>.\n" % (s, o) for s in LETTERS for o in LETTERS]
FULL, OVER = b"".join(CROWDED[:1024]), b"".join(CROWDED[:1025])
# <a> is 6 and the empty IRI 7, which both stand on the first line; the others follow as objects of <a>.
TERMS = [6] + list(range(8, 40))
FACTS = [(s, 7, o) for s in TERMS for o in TERMS][:1024]
case("1,024 facts", FULL, 16384, 0, 0, FACTS)
case("1,024 facts and a byte too few", FULL, 16383, SHORT)
case("1,025 statements with 1,024 facts", FULL + CROWDED[0], 16384, 0, 0, FACTS)
refused("1,025 facts", OVER, CROWD, 0, room=16400)
refused("15 before 8", OVER, CROWD, 0, room=0)
refused("13 behind the 1,025th fact", OVER + b"x", STATEMENT, 1026)
refused("14 behind the 1,025th fact", OVER + b"_:a<b><c>.", NODE, 1026)
refused("5 behind the 1,025th fact", OVER + b"\n" + of(b"<a>", b"<b>", SC), PART, 1027)
refused("12 behind the 1,025th fact", OVER + of(b"<a>", SC, b'"c"'), CLASS, 1026)

# ---- "Done is 0, with the written table's facts as count", and lent memory

for room in (0, 15, 16, 31, 47):
    refused("too short for three facts", b'<a> <b> <c> .\n<a> <b> "c" .\n<c> <b> <a> .\n', SHORT, 0, room=room)
case("memory for a thousand more", b"<a> <b> <c> .\n", 16384, 0, 0, [(6, 7, 8)])
case("no bytes and memory", b"", 100, 0)

size = sum(map(len, stdin))
assert size <= MOST_INPUT, size
(CRATE / "stdin").write_bytes(b"".join(stdin))
(CRATE / "stdout").write_bytes(b"".join(stdout))
print(f"{len(stdin)} cases, {size} bytes of input")
