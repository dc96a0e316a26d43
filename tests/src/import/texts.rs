//! Random texts: ones in the subset, of which it is known what they say, and damaged ones.
use super::compare::Import;
use super::reader::{Placed, Plain, Reader, MOST_TEXT, VOCABULARY};
use crate::generate::{any_room, Random};
use crate::lines::TABLE_LINE;

/// A text in the subset, and what it says: each statement's tokens, with its line.
pub struct Written {
    pub text: Vec<u8>,
    pub statements: Vec<Placed<Tokens>>,
}

/// Subject, predicate, object.
pub type Tokens = [Vec<u8>; 3];

/// Bytes at which something changes.
pub const BYTES: &[u8] = b"<>\"_:.#@^\\-\n\r\t \0\x0b\x0c\x1f!{}|`'aZ09,;/\x7f\x80\xbf\xff";

const IRI_PARTS: &[&[u8]] = &[
    b"a", b"b", b"B", b"0", b"/", b"#", b".", b":", b"_:a", b"@en", b"'", b"-", b"%20", b"&", b"~", b"\x7f", b"\x80", b"\xff", b"http:",
    b"//",
];

const QUOTED_PARTS: &[&[u8]] = &[
    b"a", b"b", b"B", b" ", b"\t", b"#", b" . ", b"<a>", b"{", b"^^", b"@en", b"_:a", b"'", b"\0", b"\x0b", b"\x1f", b"\x7f", b"\x80",
    b"\xff",
];

const COMMENT_PARTS: &[&[u8]] =
    &[b"a", b" ", b"\t", b"#", b".", b"\"", b"\\", b"\\n", b"<a>", b" .", b"_:a", b"\0", b"\x0b", b"\x7f", b"\x80", b"\xff"];

const WHITE: &[&[u8]] = &[b" ", b" ", b" ", b"", b"", b"\t", b"  ", b" \t ", b"\t\t   "];

fn any_of(r: &mut Random, parts: &[&[u8]], most: usize) -> Vec<u8> {
    (0..r.below(most + 1)).flat_map(|_| r.pick(parts).to_vec()).collect()
}

fn white(r: &mut Random) -> Vec<u8> {
    r.pick(WHITE).to_vec()
}

// Tokens

fn any_iri(r: &mut Random) -> Vec<u8> {
    [b"<", &any_of(r, IRI_PARTS, 3)[..], b">"].concat()
}

/// A vocabulary word that is none, as a letter of another case or a byte more or less.
fn near_vocabulary(r: &mut Random) -> Vec<u8> {
    let mut word = r.pick(&VOCABULARY).to_vec();
    let at = 1 + r.below(word.len() - 2);
    match r.below(3) {
        0 => word[at] ^= if word[at].is_ascii_alphabetic() { 32 } else { 1 << 7 },
        1 => word.insert(at, b'a'),
        _ => drop(word.remove(at)),
    }
    word
}

fn any_letters(r: &mut Random, from: &[u8], most: usize) -> Vec<u8> {
    (0..1 + r.below(most)).map(|_| r.pick(from)).collect()
}

fn any_suffix(r: &mut Random) -> Vec<u8> {
    match r.below(8) {
        0 => b"@en".to_vec(),
        1 | 2 => {
            let mut tag = [b"@", &any_letters(r, b"aeEnz", 3)[..]].concat();
            for _ in 0..r.below(3) {
                tag.extend([b"-", &any_letters(r, b"aZ019", 3)[..]].concat());
            }
            tag
        }
        3 => [&b"^^"[..], r.pick(&VOCABULARY)].concat(),
        4 => [b"^^", &any_iri(r)[..]].concat(),
        _ => vec![],
    }
}

fn any_literal(r: &mut Random) -> Vec<u8> {
    [b"\"", &any_of(r, QUOTED_PARTS, 3)[..], b"\"", &any_suffix(r)].concat()
}

fn any_blank(r: &mut Random) -> Vec<u8> {
    let mut label = vec![r.pick(b"aZ09_:\x80\xff")];
    if r.one_in(2) {
        label.extend(any_letters(r, b"ab0_:-.\x80", 4));
        label.push(r.pick(b"aZ09_:-\x80\xff"));
    }
    [b"_:", &label[..]].concat()
}

// Texts

/// What a text is written from, and one statement in how many has a blank node, or a term where it is refused; 0 for none.
struct Words {
    names: Vec<Vec<u8>>,
    literals: Vec<Vec<u8>>,
    blank: usize,
    misplaced: usize,
}

impl Words {
    fn any(r: &mut Random) -> Words {
        let iri = |r: &mut Random| if r.one_in(6) { near_vocabulary(r) } else { any_iri(r) };
        let (names, literals) = (1 + r.below(8), 1 + r.below(5));
        Words {
            names: (0..names).map(|_| iri(r)).collect(),
            literals: (0..literals).map(|_| any_literal(r)).collect(),
            blank: r.pick(&[0, 0, 0, 0, 8]),
            misplaced: r.pick(&[0, 0, 4]),
        }
    }

    fn name(&self, r: &mut Random) -> Vec<u8> {
        self.names[r.below(self.names.len())].clone()
    }

    fn literal(&self, r: &mut Random) -> Vec<u8> {
        self.literals[r.below(self.literals.len())].clone()
    }

    fn statement(&self, r: &mut Random) -> Tokens {
        let in_vocabulary = r.one_in(2);
        let predicate = if in_vocabulary { r.pick(&VOCABULARY).to_vec() } else { self.name(r) };
        let object = if !in_vocabulary && r.one_in(2) { self.literal(r) } else { self.name(r) };
        let mut tokens = [self.name(r), predicate, object];
        if self.misplaced > 0 && r.one_in(self.misplaced) {
            match r.below(3) {
                0 => tokens[0] = r.pick(&VOCABULARY).to_vec(),
                1 => tokens[2] = r.pick(&VOCABULARY).to_vec(),
                _ => tokens = [self.name(r), r.pick(&VOCABULARY).to_vec(), self.literal(r)],
            }
        }
        if self.blank > 0 && r.one_in(self.blank) {
            tokens[r.pick(&[0, 2])] = any_blank(r);
        }
        tokens
    }
}

/// A statement with white space about its tokens. No byte of a label stands behind the full stop, so that one before it ends there.
fn laid_out(r: &mut Random, [s, p, o]: &Tokens) -> Vec<u8> {
    [&white(r)[..], s, &white(r), p, &white(r), o, &white(r), b".", &white(r)].concat()
}

pub fn written(r: &mut Random) -> Written {
    let words = Words::any(r);
    let lines = if r.one_in(400) { 100 + r.below(200) } else { r.pick(&[0, 1, 1, 2, 2, 3, 3, 4, 6, 8, 12]) };
    let (mut text, mut statements): (Vec<u8>, Vec<Placed<Tokens>>) = (vec![], vec![]);
    for place in 1..=lines as u32 {
        if r.one_in(5) {
            text.extend(white(r));
        } else {
            let again = !statements.is_empty() && r.one_in(4);
            let tokens = if again { statements[r.below(statements.len())].1.clone() } else { words.statement(r) };
            text.extend(laid_out(r, &tokens));
            statements.push((place, tokens));
        }
        if r.one_in(5) {
            text.extend([b"#", &any_of(r, COMMENT_PARTS, 4)[..]].concat());
        }
        text.push(b'\n');
    }
    if r.one_in(3) {
        text.pop();
    }
    Written { text, statements }
}

/// Pieces that change what a line is.
const PIECES: &[&[u8]] = &[
    b"^^", b"@", b"@en", b"-", b" .", b"..", b"_:", b"_:a", b"#", b" #", b"\r\n", b"\n", b"\n\n", b"\\n", b"\\\"", b"\\u0041", b"\"\"",
    b"<>", b"<a>", b"\xef", b"\t ",
];

/// Damages a text at some byte.
fn damage(r: &mut Random, text: &mut Vec<u8>) {
    let at = r.below(text.len() + 1);
    match r.below(10) {
        0 => text.insert(at, r.pick(BYTES)),
        1 => {
            text.splice(at..at, r.pick(PIECES).to_vec());
        }
        2 => text.truncate(at),
        _ if at == text.len() => text.push(r.pick(BYTES)),
        3 => drop(text.remove(at)),
        4 => text.insert(at, text[at]),
        5 => {
            let next = (at + 1).min(text.len() - 1);
            text.swap(at, next);
        }
        6 => {
            let to = (at + r.below(12)).min(text.len());
            let piece = text[at..to].to_vec();
            let into = r.below(text.len() + 1);
            text.splice(into..into, piece);
        }
        7 => drop(text.drain(at..(at + r.below(8)).min(text.len()))),
        8 => text[at] ^= 1 << r.below(8),
        _ => text[at] = r.pick(BYTES),
    }
}

/// The text, with lent memory of about the length that is needed.
fn with_room(r: &mut Random, text: Vec<u8>) -> Import {
    let need = Plain.table(&text).map_or(2, |facts| facts.len()) * TABLE_LINE;
    Import { room: any_room(r, need), text }
}

/// Random texts, most of them damaged.
pub fn imports(seed: u64, count: usize) -> impl Iterator<Item = Import> {
    let mut r = Random(seed);
    (0..count).map(move |_| {
        let mut text = written(&mut r).text;
        (0..r.pick(&[0, 0, 0, 1, 1, 1, 1, 2, 3])).for_each(|_| damage(&mut r, &mut text));
        with_room(&mut r, text)
    })
}

/// Random texts about as long as may be: statements over few tokens or over many, some damaged.
pub fn long_imports(seed: u64, count: usize) -> impl Iterator<Item = Import> {
    let mut r = Random(seed);
    (0..count).map(move |_| {
        let (tokens, length) = (r.pick(&[3, 8, 10, 11, 40, 400, 3000]), MOST_TEXT - r.below(40));
        let mut text = Vec::new();
        while text.len() < length - 40 {
            let [s, p, o] = [(); 3].map(|()| r.below(tokens));
            let object = if r.one_in(2) { format!("<{o}>") } else { format!("\"{o}\"") };
            text.extend(format!("<{s}><{p}>{object}.\n").into_bytes());
        }
        if r.one_in(4) {
            damage(&mut r, &mut text);
        }
        with_room(&mut r, text)
    })
}
