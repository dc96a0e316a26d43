#!/usr/bin/env python3
"""Sets the import beside other readers of N-Triples: rapper, serdi, rdflib, and W3C's grammar as grammar.py has it.

peers.py IMPORT [TEXTS [SEED]]: IMPORT is the program client/import. Hand cases, the texts of crates/import_cases and TEXTS random ones
are put to all. It holds that

- what the import takes and the grammar takes is the same triples for all of them, but for what is listed below of a single reader;
- what the import takes and the grammar does not, it takes by a sentence of document 02, Point 3;
- what it refuses and the grammar takes, it refuses by a sentence of the Point, with the number and the line that this sentence asks for.

Prints how many texts came under each, and ends with status 1 where one came under none.
"""
import io
import logging
import os
import random
import re
import subprocess
import sys
import tempfile
from collections import Counter
from pathlib import Path

import rdflib
from rdflib.plugins.parsers.ntriples import W3CNTriplesParser

from grammar import WIDE, Reading, same, with_comments

ROOT = Path(__file__).resolve().parents[2]
CASES = ROOT / "crates" / "import_cases" / "stdin"
rdflib.NORMALIZE_LITERALS = False
logging.disable(logging.CRITICAL)

RDFS, RDF = "http://www.w3.org/2000/01/rdf-schema#", "http://www.w3.org/1999/02/22-rdf-syntax-ns#"
VOCABULARY = [RDFS + "subClassOf", RDFS + "subPropertyOf", RDFS + "domain", RDFS + "range", RDF + "type"]

# What the import takes beyond the grammar, and the Point's sentence.
WIDER = {
    "relative IRI": "Relative IRIs pass",
    "no UTF-8": "bytes above 127 pass unread inside IRIs, a literal's quotes, blank labels and comments",
}
# What it refuses of what the grammar takes, with its number, and the Point's sentence. Of one line the first that holds is its refusal.
NARROWER = {
    "byte 13": (13, "byte 13 gets 13"),
    "escape": (13, "No escapes are accepted."),
    "parts apart": (13, "no space or tab stands between a literal's parts"),
    "blank node": (14, "14 \"unknown node\" for a blank node as subject or object of a line otherwise sound"),
}
TOO_LARGE, CROWD = "An import of up to 65,536 bytes", "15 \"crowd\" for more than 1,024 different facts"
OUTSIDE = "13 \"statement\" for a line outside this subset"
OF_FACTS = "After the lines are read, the facts are tried for 5 and 12, place being the input line."


# ---- the import

def imported(program, data, folder):
    """Number, line and triples of a text, by the import and its names."""
    text, table, names = (Path(folder) / name for name in ("text", "table", "names"))
    text.write_bytes(data)
    run = subprocess.run([program, "-o", table, "--names", names, text], capture_output=True)
    if run.returncode == 0:
        return 0, 0, turned_back(table.read_bytes(), names.read_bytes())
    found = re.match(rb".*?/text(?::(\d+))?: (\d+) ", run.stderr)
    if run.returncode != 1 or not found:
        sys.exit(f"peers.py: the import ends with {run.returncode} on {data!r}: {run.stderr!r}")
    return int(found[2]), int(found[1] or 0), None


def turned_back(table, names):
    """The triples that a table and its names stand for."""
    tokens = dict(line.split(b" ", 1) for line in names.split(b"\n")[:-2])
    triples = []
    for line in table.decode().splitlines():
        parts = [tokens[line[at:at + 5].strip().encode()] for at in (0, 5, 10)]
        triples += Reading(b" ".join(parts) + b" .", WIDE).triples
    return triples


# ---- the other readers: None where they refuse

def of_program(command, data, folder):
    path = Path(folder) / "put"
    path.write_bytes(data)
    run = subprocess.run([*command, path], capture_output=True, timeout=60)
    reading = Reading(run.stdout, WIDE)
    return reading.triples if run.returncode == 0 and reading.taken else None


def by_rapper(data, folder):
    return of_program(["rapper", "-q", "-i", "ntriples", "-o", "ntriples"], data, folder)


def by_serdi(data, folder):
    return of_program(["serdi", "-i", "ntriples", "-o", "ntriples"], data, folder)


def by_rdflib(data, folder):
    triples = []

    def term(t):
        if isinstance(t, rdflib.Literal):
            return ("literal", str(t), t.language, None if t.datatype is None else str(t.datatype))
        return ("iri" if isinstance(t, rdflib.URIRef) else "blank", str(t))

    class Sink:
        def triple(self, s, p, o):
            triples.append((term(s), term(p), term(o)))
    try:
        W3CNTriplesParser(Sink()).parse(io.BytesIO(data))
    except Exception:
        return None
    return triples


READERS = {"rapper": by_rapper, "serdi": by_serdi, "rdflib": by_rdflib}


def spaced(data):
    """A text with a space behind subject and predicate."""
    return re.sub(rb"(?m)^([ \t]*<[^>\n]*>)[ \t]*(<[^>\n]*>)[ \t]*", rb"\1 \2 ", data)


def without_zeros(triples):
    """The triples with x for byte 0."""
    return [tuple(tuple(part and part.replace("\0", "x") for part in term) for term in triple) for triple in triples]


# What a reader alone makes of a text that the grammar and the import take, and the same triples in a text that it does read; for byte 0 in
# a literal the triples change with the text.
PECULIAR = [
    ("rapper", "takes a quote in a comment for the begin of a text, and leaves out the lines behind it without a word",
     lambda data: with_comments(data, lambda comment: comment.translate({34: "x", 39: "x"})), list),
    ("rapper", "takes a backslash at the end of a comment to join the next line to it, which it leaves out without a word",
     lambda data: with_comments(data, lambda comment: comment.translate({34: "x", 39: "x", 92: "x"})), list),
    ("rapper", "ends a literal's text at byte 0", lambda data: data.replace(b"\0", b"x"), without_zeros),
    ("serdi", "refuses byte 0 in a comment", lambda data: with_comments(data, lambda comment: comment.replace("\0", "x")), list),
    ("rdflib", "wants white space between subject, predicate and object", spaced, list),
]


# ---- what the Point asks

def asked(data):
    """Number, line and the Point's sentence for a text. Where it is 0, the facts are sound and no more than a table has."""
    if len(data) > 65536:
        return 13, 0, TOO_LARGE
    lines = [Reading(line, WIDE) for line in data.split(b"\n")]
    for place, line in enumerate(lines, 1):
        for mark, (number, sentence) in NARROWER.items():
            if mark in line.marks and line.taken:
                return number, place, sentence
        if not line.taken:
            return 13, place, OUTSIDE
    for place, line in enumerate(lines, 1):
        for s, p, o in line.triples:
            if s[1] in VOCABULARY or (o[0] == "iri" and o[1] in VOCABULARY):
                return 5, place, OF_FACTS
            if p[1] in VOCABULARY and o[0] == "literal":
                return 12, place, OF_FACTS
    if len({triple for line in lines for triple in line.triples}) > 1024:
        return 15, 0, CROWD
    return 0, 0, ""


def table_of(data):
    """The table of a text that is taken: numbers by first appearance, facts sorted, each once."""
    names, literals, facts = {}, {}, set()

    def number(t):
        if t[0] == "iri" and t[1] in VOCABULARY:
            return VOCABULARY.index(t[1]) + 1
        known, first = (literals, 40000) if t[0] == "literal" else (names, 6)
        return known.setdefault(t, first + len(known))
    for triple in Reading(data, WIDE).triples:
        facts.add(tuple(map(number, triple)))
    return b"".join(b"%5d%5d%5d\n" % fact for fact in sorted(facts))


# ---- texts

def hand_cases():
    """Texts for every sentence; <x:..> is the shortest absolute IRI."""
    a, b, c = b"<x:a>", b"<x:b>", b"<x:c>"
    statement = b"%s %s %s ." % (a, b, c)
    types = [b"<%s>" % iri.encode() for iri in VOCABULARY]
    objects = [c, b"<>", b"<c>", b"<//c/d?e#f>", b"<x:%20>", b"<x:\x7f>", "<x:äß€😀>".encode(), b"<x:\xff>", b"<x:\\u0041>", b"<x:\\U0001F600>", b"<x:\\uD800>",
               b"<x:\\n>", b"<x: >", b"<x:{>", b"<x:|>", b"<x:^>", b"<x:`>", b"<x:\">", b"<x:a", b"x:a>", b"x:a", b"_:c", b"_:c.d", b"_:c-d", b"_:0", b"_:-c",
               b"_:.c", b"_:c:d", b"_::", "_:ä".encode(), b"_:\xff", "_:c·".encode(), "_:·c".encode(), b"_:", b"_c", b'""', b'"c"', b'"c d"', b'"c"@en', b'"c"@EN-gb',
               b'"c"@en-1a-b2', b'"c"@1', b'"c"@', b'"c"@en-', b'"c"@en_GB', b'"c" @en', b'"c"@ en', b'"c"^^<x:t>', b'"c"^^<t>', b'"c" ^^<x:t>', b'"c"^^ <x:t>',
               b'"c"^^_:t', b'"c"^<x:t>', b'"c"^^x:t', b'"c"@en^^<x:t>', b'"c"^^<http://www.w3.org/2001/XMLSchema#string>', b'"01"^^<http://www.w3.org/2001/XMLSchema#integer>',
               b'"\\n"', b'"\\""', b'"\\\\"', b'"\\u0041"', b'"\\U0001F600"', b'"\\x"', b'"\\uD800"', b'"\t\x01\x0b\x7f"', b'"\x00"', b'"\r"', "\"ä€😀\"".encode(), b'"\xff"',
               b'"\xc3"', b'"\xed\xa0\x80"', b"'c'", b'"c', b'c"', b'"""c"""', b'"c"d', b"1", b"true", b"[]", b"()", *types]
    texts = [b"%s %s %s .\n" % (a, b, o) for o in objects]
    texts += [b"%s %s %s .\n" % (s, b, c) for s in (b"<>", b"<a>", b"_:a", b"_:a.", b'"a"', b"a", *types)]
    texts += [b"%s %s %s .\n" % (a, p, o) for p in (*types, b"_:b", b'"b"', b"a", b"<>") for o in (c, b'"c"', b'"c"@en')]
    texts += [b"", b"\n", b"\n\n", b" \t", b"#", b"# c\n", b" # c\n\t\n", b"\r", b"\r\n", b"#\r#", b"#\x00\x7f\n", b"#\xff", "# ä\n".encode(), b"\xef\xbb\xbf", b"\x0c"]
    texts += [statement, statement + b"\n", statement + b"\r\n", statement + b"\r" + statement, statement + b" # c", statement + b"#c", b"\xef\xbb\xbf" + statement,
              statement + b" " + statement, statement + b".", statement[:-1], statement + b"\n\n" + statement, statement + b"\x0c", b"\t " + statement + b"\t ",
              a + b + c + b".", a + b + b'"c".', a + b + b'"c"@en.', a + b + b'"c"^^<x:t>.', b"_:a" + b + b"_:c.", a + b" " + b, a, b".", a + b"\n" + b + c + b".",
              a + b" " + b + b" " + c + b" , " + a + b" .", a + b" " + b + b" " + c + b" ; " + b + b" " + c + b" .", b"@prefix x: <x:> .", b"PREFIX x: <x:>"]
    texts += [b"_:a %s %s .\nx\n" % (b, c), b"x\n_:a %s %s .\n" % (b, c), b"%s %s %s .\n%s %s \"c\" .\n_:a %s %s ." % (types[0], b, c, a, types[0], b, c),
              b"%s %s \"c\" .\n%s %s %s .\n" % (a, types[4], types[0], b, c), b"%s\n%s\n%s" % (statement, statement, b"<x:c> <x:b> <x:a> .")]
    for count in (1024, 1025):
        texts.append(b"".join(b"<x:%d> <x:b> \"%d\" .\n" % (i, i % 7) for i in range(count)))
    return texts + [statement + b"#" * (size - len(statement)) for size in (65536, 65537)]


def shared_cases():
    """The texts of crates/import_cases: a line of four fields (a byte, how often the text begins with it, more bytes, room), then those bytes. And
    the same with absolute IRIs for relative ones, which the other readers do not take."""
    data, at, texts = CASES.read_bytes(), 0, []
    while at < len(data):
        fill, times, more, _ = (int(data[at + 5 * i:at + 5 * i + 5]) for i in range(4))
        texts.append(bytes([fill]) * times + data[at + 21:at + 21 + more])
        at += 21 + more
    return list(dict.fromkeys(texts + [re.sub(rb"<(?!http)", b"<x:", text) for text in texts]))


def random_text(chance):
    """A few lines of statements and comments, then perhaps some small changes."""
    pick = chance.choice
    iris = [b"<x:a>", b"<x:b>", b"<http://depot.example/plan#c>", "<x:ä>".encode(), b"<x:a.b>", b"<urn:x:1>", b"<mailto:a@b.c>"]
    literals = [b'"a"', b'""', b'"a b"@en', b'"a"@de-CH', b'"1"^^<x:t>', "\"ä€\"".encode(), b'"a # . <b>"', b"\"'\t\""]
    vocabulary = [b"<%s>" % iri.encode() for iri in VOCABULARY]
    changes = [b"<", b">", b'"', b"\\", b"\\n", b"\\u0041", b"@en", b"^^", b"^^<x:t>", b".", b"#", b" ", b"\t", b"\n", b"\r", b"_:", b"_:a", b"-", b"\x00", b"\x7f",
               b"\xff", "ä".encode(), b"{", b"'", b"a", b"1", b",", b";", b"<a>", b'"x"', pick(vocabulary)]
    white = lambda: pick([b"", b" ", b" ", b" ", b"\t", b"  "])
    lines = []
    for _ in range(chance.randint(1, 4)):
        subject, predicate = pick(iris * 5 + [b"_:a", b"_:b.c"]), pick(iris * 2 + vocabulary)
        object = pick(iris * 2 + literals * (predicate not in vocabulary) + [b"_:a"] * (chance.random() < 0.2))
        line = white() + subject + white() + predicate + white() + object + white() + b"." + white() + pick([b"", b"", b"# c", b"#"])
        lines.append(pick([line, line, line, line, white(), b"# c"]))
    text = b"\n".join(lines) + pick([b"", b"\n", b"\n"])
    for _ in range(pick([0, 0, 0, 1, 1, 2])):
        at, cut = chance.randint(0, len(text)), pick([0, 0, 1, 1, 2])
        text = text[:at] + pick(changes + [b""]) + text[at + cut:]
    return text


# ---- side by side

class Comparison:
    def __init__(self, program, folder):
        self.program, self.folder = program, folder
        self.counts, self.faults, self.examples, self.takers = Counter(), [], {}, {}

    def note(self, heading, data, ask=False):
        """Counts a text under a heading; where it is asked, also which readers take it."""
        self.counts[heading] += 1
        self.examples.setdefault(heading, data)
        if ask:
            taken = self.takers.setdefault(heading, Counter())
            taken.update(name for name, read in READERS.items() if read(data, self.folder) is not None)

    def readers(self, data, triples):
        """All readers have the import's triples. One that has not is known for what it makes of such a text, and has them for another
        text of the same triples."""
        for name, read in READERS.items():
            found = read(data, self.folder)
            if found is not None and same(found) == same(triples):
                continue
            for who, how, change, of in PECULIAR:
                changed = change(data)
                if who == name and changed != data and same(read(changed, self.folder) or []) == same(of(triples)):
                    self.note(f"{name} alone: {how}", data)
                    break
            else:
                self.faults.append(f"{name} reads another thing: {data!r}: {found}")

    def put(self, data):
        strict = Reading(data)
        w3c = strict.taken and "relative IRI" not in strict.marks
        number, place, triples = imported(self.program, data, self.folder)
        wanted, wanted_place, sentence = asked(data)
        if (number, place) != (wanted, wanted_place):
            self.faults.append(f"the import gives {number}, line {place}, the Point {wanted}, line {wanted_place}: {data!r}")
        elif number == 0 and (Path(self.folder) / "table").read_bytes() != table_of(data):
            self.faults.append(f"the table is another one: {data!r}")
        elif number == 0 and w3c:
            self.note("taken by the import and the grammar", data)
            self.readers(data, triples)
        elif number == 0:
            marks = Reading(data, WIDE).marks & set(WIDER)
            for mark in marks:
                self.note(f"beyond the standard: {mark}: \"{WIDER[mark]}\"", data, ask=True)
            if not marks:
                self.faults.append(f"taken by no sentence: {data!r}")
        elif w3c and sentence != OUTSIDE:
            self.note(f"refused, though the standard takes it: {number}: \"{sentence}\"", data, ask=number == 13)
        elif w3c:
            self.faults.append(f"refused by no sentence: {data!r}")
        else:
            self.note("refused by the import and the grammar", data)

    def report(self):
        for heading, count in sorted(self.counts.items()):
            print(f"{count:6}  {heading}\n        as {self.examples[heading][:70]!r}")
            if heading in self.takers:
                print("        taken by " + ", ".join(f"{name} {self.takers[heading][name]}" for name in READERS))
        for fault in self.faults[:40]:
            print(f"peers.py: {fault[:400]}")
        print(f"{sum(self.counts.values())} findings, {len(self.faults)} faults")
        return 1 if self.faults else 0


def main(program, texts=2000, seed=1):
    chance = random.Random(int(seed))
    hand, shared = hand_cases(), shared_cases()
    print(f"{len(hand)} hand cases, {len(shared)} texts of crates/import_cases, {texts} random ones, seed {seed}", flush=True)
    with tempfile.TemporaryDirectory() as folder:
        comparison = Comparison(os.path.abspath(program), folder)
        for data in hand + shared + [random_text(chance) for _ in range(int(texts))]:
            comparison.put(data)
        return comparison.report()


if __name__ == "__main__":
    if not 2 <= len(sys.argv) <= 4:
        sys.exit(__doc__)
    sys.exit(main(*sys.argv[1:]))
