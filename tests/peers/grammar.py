"""N-Triples by W3C's grammar (RDF 1.1 N-Triples, sections 2 and 7), and what of a text goes beyond it or is more than the import takes.

A term is ("iri", IRI), ("blank", label) or ("literal", text, language or None, datatype or None), all without escapes.
"""
import re

BASE = ("A-Za-z\u00c0-\u00d6\u00d8-\u00f6\u00f8-\u02ff\u0370-\u037d\u037f-\u1fff\u200c-\u200d\u2070-\u218f\u2c00-\u2fef\u3001-\ud7ff"
        "\uf900-\ufdcf\ufdf0-\ufffd\U00010000-\U000effff")
LABEL_U = BASE + "_:"
LABEL = LABEL_U + "0-9\u00b7\u0300-\u036f\u203f-\u2040-"
UCHAR = r"\\u[0-9A-Fa-f]{4}|\\U[0-9A-Fa-f]{8}"
ECHAR = r"\\[tbnrf\"'\\]"
SIMPLE_ESCAPES = {"t": "\t", "b": "\b", "n": "\n", "r": "\r", "f": "\f", '"': '"', "'": "'", "\\": "\\"}

# Bytes that are no UTF-8 stand in a text as single surrogates, U+DC80 to U+DCFF. `HIGH` are all that stands for a byte above 127.
HIGH = "\u0080-\U0010ffff"


def line_pattern(label_u, label):
    """A line: white space, perhaps a statement, perhaps a comment. White space may stand between all terminals, by the grammar's words
    also between the parts of a literal."""
    iri = rf'<((?:[^\x00-\x20<>"{{}}|^`\\]|{UCHAR})*)>'
    blank = rf"_:([{label_u}0-9](?:[{label}.]*[{label}])?)"
    text = rf'"((?:[^"\\\n\r]|{ECHAR}|{UCHAR})*)"'
    suffix = rf"(?:(?P<apart>[ \t]*)(?:\^\^(?P<inside>[ \t]*){iri}|@([a-zA-Z]+(?:-[a-zA-Z0-9]+)*)))?"
    statement = rf"(?:{iri}|{blank})[ \t]*{iri}[ \t]*(?:{iri}|{blank}|{text}{suffix})[ \t]*\.[ \t]*"
    return re.compile(rf"[ \t]*(?:{statement})?(?P<comment>#[^\n\r]*)?")


STRICT = line_pattern(LABEL_U, LABEL)
WIDE = line_pattern(LABEL_U + HIGH, LABEL + HIGH)


def unescaped(text):
    def one(found):
        if found[0][1] in "uU":
            number = int(found[0][2:], 16)
            if number > 0x10ffff or 0xd800 <= number <= 0xdfff:
                raise ValueError
            return chr(number)
        return SIMPLE_ESCAPES[found[0][1]]
    return re.sub(rf"{UCHAR}|{ECHAR}", one, text)


def term(iri, blank, text=None, datatype=None, language=None):
    if iri is not None:
        return ("iri", unescaped(iri))
    if blank is not None:
        return ("blank", blank)
    return ("literal", unescaped(text), language, None if datatype is None else unescaped(datatype))


class Reading:
    """A text by the grammar: whether it takes the text (`taken`), its triples, and what the text has that not every reader takes."""

    def __init__(self, data, pattern=STRICT):
        text = data.decode("utf-8", "surrogateescape")
        self.triples, self.marks, self.taken = [], set(), True
        if re.search("[\udc80-\udcff]", text):
            self.marks.add("no UTF-8")
            self.taken = pattern is not STRICT
        if "\r" in text:
            self.marks.add("byte 13")
        for line in re.split("[\n\r]", text):
            found = pattern.fullmatch(line)
            if not found:
                self.taken = False
            elif found[1] is not None or found[2] is not None:
                try:
                    self.add(found)
                except ValueError:          # an escape of no character
                    self.taken = False

    def add(self, found):
        s_iri, s_blank, p_iri, o_iri, o_blank, text, apart, inside, datatype, language, _ = found.groups()
        self.triples.append((term(s_iri, s_blank), term(p_iri, None), term(o_iri, o_blank, text, datatype, language)))
        iris = [iri for iri in (s_iri, p_iri, o_iri, datatype) if iri is not None]
        if any("\\" in part for part in iris + [text or ""]):
            self.marks.add("escape")
        if s_blank is not None or o_blank is not None:
            self.marks.add("blank node")
        if apart or inside:
            self.marks.add("parts apart")
        if any(not re.match("[A-Za-z][A-Za-z0-9+.-]*:", unescaped(iri)) for iri in iris):
            self.marks.add("relative IRI")


def with_comments(data, change):
    """The text with its comments changed."""
    def line(text):
        found = WIDE.fullmatch(text)
        at = found.start("comment") if found and found["comment"] else len(text)
        return text[:at] + change(text[at:])
    lines = data.decode("utf-8", "surrogateescape").split("\n")
    return "\n".join(map(line, lines)).encode("utf-8", "surrogateescape")


def same(triples):
    """Triples as a set, as RDF 1.1 compares them: language tags in lower case, and a literal without tag and datatype is a string."""
    string = "http://www.w3.org/2001/XMLSchema#string"

    def plain(t):
        if t[0] != "literal":
            return t
        return ("literal", t[1], t[2] and t[2].lower(), None if t[3] == string else t[3])
    return {tuple(map(plain, triple)) for triple in triples}
