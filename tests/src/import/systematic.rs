//! All texts of some kinds: every byte at every place, every short string at every part of a line, damage at every byte of a text,
//! pairs of tokens, every order of refusals, sizes and crowds about the largest.
use super::compare::Import;
use super::reader::{Plain, Reader, MOST_TEXT, VOCABULARY};
use super::texts::BYTES;
use crate::lines::TABLE_LINE;
use crate::parts::MOST_FACTS;
use crate::systematic::replaced;

pub fn short() -> impl Iterator<Item = Import> {
    let lines = every_byte().chain(every_string()).chain(every_damage());
    lines.chain(every_pair()).chain(every_word()).chain(every_order()).chain(every_room())
}

pub fn long() -> impl Iterator<Item = Import> {
    sizes().chain(crowds()).chain(many_tokens())
}

/// The text, with the memory that its table needs; two lines where it is refused.
fn exact(text: Vec<u8>) -> Import {
    let room = Plain.table(&text).map_or(2, |facts| facts.len()) * TABLE_LINE;
    Import { text, room }
}

/// The text with the memory that it needs, a byte less, some bytes more, and none.
fn rooms(text: Vec<u8>) -> impl Iterator<Item = Import> {
    let room = exact(text.clone()).room;
    [room, room.saturating_sub(1), room + 7, 0].into_iter().map(move |room| Import { text: text.clone(), room })
}

// Lines

/// Where a byte is put: before and behind it.
const PLACES: &[(&[u8], &[u8])] = &[
    (b"", b""),
    (b"", b"<a> <b> <c> ."),
    (b"", b"# comment"),
    (b"# comment", b" here"),
    (b"# comment", b""),
    (b"<", b"> <b> <c> ."),
    (b"<a", b"c> <b> <c> ."),
    (b"<a>", b"<b> <c> ."),
    (b"<a> <", b"> <c> ."),
    (b"<a> <b>", b"<c> ."),
    (b"<a> <b> <c", b"> ."),
    (b"<a> <b> <c>", b"."),
    (b"<a> <b> <c> ", b""),
    (b"<a> <b> <c> .", b""),
    (b"<a> <b> <c> .", b" # comment"),
    (b"<a> <b> <c> . #", b""),
    (b"<a> <b> ", b"c\" ."),
    (b"<a> <b> \"", b"\" ."),
    (b"<a> <b> \"c", b"d\"@en ."),
    (b"<a> <b> \"c\"", b"."),
    (b"<a> <b> \"c\"", b"en ."),
    (b"<a> <b> \"c\"@", b" ."),
    (b"<a> <b> \"c\"@e", b"n ."),
    (b"<a> <b> \"c\"@en-", b" ."),
    (b"<a> <b> \"c\"@en-a", b" ."),
    (b"<a> <b> \"c\"@en-a", b"b ."),
    (b"<a> <b> \"c\"^", b"<d> ."),
    (b"<a> <b> \"c\"^^", b"<d> ."),
    (b"<a> <b> \"c\"^^<", b"> ."),
    (b"<a> <b> \"c\"^^<d>", b"."),
    (b"<a> <b> _", b"c ."),
    (b"<a> <b> _:", b" ."),
    (b"<a> <b> _:", b"d ."),
    (b"<a> <b> _:c", b"d ."),
    (b"<a> <b> _:c", b"."),
    (b"<a> <b> _:c", b" ."),
    (b"<a> <b> _:c.", b""),
    (b"_:", b" <b> <c> ."),
    (b"_:a", b"<b> <c> ."),
    (b"<a> <b> <c> .\n", b"<d> <b> <c> ."),
    (b"<a> <b> <c> .", b"\n<d> <b> <c> ."),
];

/// Every byte at every place, and every one twice.
fn every_byte() -> impl Iterator<Item = Import> {
    PLACES.iter().flat_map(|&(before, behind)| {
        let once = move |b: u8| [before, &[b], behind].concat();
        let twice = move |b: u8| [before, &[b, b], behind].concat();
        (0..=255).flat_map(move |b| [once(b), twice(b)]).map(exact)
    })
}

/// Where a string is put, and from which bytes.
const PARTS: &[(&[u8], &[u8], &[u8])] = &[
    (b"", b"", b" \t\n\r#.<>a"),
    (b"<a>", b"<c>.", b"<>\"_:. #a\\"),
    (b"<a><b>", b"", b"<>\"_:. #a\\"),
    (b"<a><b>\"x\"", b".", b"@^<>\"a1-. "),
    (b"<a><b>\"x\"@a", b".", b"aZ1-_.@^"),
    (b"<a><b>_:", b".", b"a1_:-.\x80 #"),
    (b"_:", b"<b><c>.", b"a1_:-.\x80 <"),
    (b"<a><b><c>", b"", b". \t#\n\ra<\\"),
];

/// Every string of up to four bytes at every part.
fn every_string() -> impl Iterator<Item = Import> {
    let strings = |bytes: &'static [u8], length: u32| {
        (0..bytes.len().pow(length)).map(move |code| (0..length).map(|i| bytes[code / bytes.len().pow(i) % bytes.len()]).collect())
    };
    PARTS.iter().flat_map(move |&(before, behind, bytes)| {
        let all = (0..=4).flat_map(move |length| strings(bytes, length));
        all.map(move |string: Vec<u8>| exact([before, &string, behind].concat()))
    })
}

/// A text with every kind of token and line.
pub const TEXT: &[u8] = b"# plan\n\n<s><p><o>.#x\n \t<a.b> <http://www.w3.org/1999/02/22-rdf-syntax-ns#type> <\xc3\xa9#> . # \\ \"\n\
    <s> <p> \"x\" .\n<s> <p> \"x\"@en-GB-1 .\n<s>\t<p>\t\"# . <\xff>\"^^<d>\t.\t\n<s> <p> <o> .\n   \t\n<> <p> \"\"@a .";

/// The same with blank nodes.
pub const BLANKS: &[u8] = b"<s> <p> <o> .\n_:a.b-c <p> _:1..:_. # x\n<s> <p> _:\x80.";

/// Texts with each byte replaced by each critical one, left out, doubled and followed by each; and cut at every length.
fn every_damage() -> impl Iterator<Item = Import> {
    [TEXT, BLANKS].into_iter().flat_map(|text| {
        let lacking = (0..text.len()).map(move |i| [&text[..i], &text[i + 1..]].concat());
        let doubled = (0..text.len()).map(move |i| [&text[..=i], &text[i..]].concat());
        let cut = (0..=text.len()).map(move |i| text[..i].to_vec());
        let inserted = (0..=text.len()).flat_map(move |i| BYTES.iter().map(move |&b| [&text[..i], &[b], &text[i..]].concat()));
        replaced(text.to_vec(), BYTES.iter().copied()).chain(lacking).chain(doubled).chain(cut).chain(inserted).map(exact)
    })
}

// Tokens

/// Tokens that are near one another.
const NEAR: &[&[u8]] = &[
    b"<>",
    b"<a>",
    b"<A>",
    b"<b>",
    b"<aa>",
    b"<ab>",
    b"<ba>",
    b"<a/>",
    b"</a>",
    b"<\x80>",
    b"<\xff>",
    b"<a\x80>",
    b"<\x80a>",
    b"<subClassOf>",
    b"<http://example/a>",
    b"<http://example/b>",
    b"<http://fxample/a>",
    b"<http://www.w3.org/2000/01/rdf-schema#>",
    b"<http://www.w3.org/2000/01/rdf-schema#type>",
    b"<http://www.w3.org/1999/02/22-rdf-syntax-ns#domain>",
    b"\"\"",
    b"\"a\"",
    b"\"A\"",
    b"\"aa\"",
    b"\"a \"",
    b"\" a\"",
    b"\"\0\"",
    b"\"\0\0\"",
    b"\"\x01\"",
    b"\"\x80\"",
    b"\"\xff\"",
    b"\"a\"@en",
    b"\"a\"@EN",
    b"\"a\"@en-a",
    b"\"a\"@en-b",
    b"\"a\"@eo",
    b"\"b\"@en",
    b"\"a\"^^<>",
    b"\"a\"^^<en>",
    b"\"a\"^^<EN>",
    b"\"a\"^^<http://www.w3.org/2001/XMLSchema#string>",
    b"\"a\"^^<http://www.w3.org/2001/XMLSchema#token>",
    b"\"<a>\"",
    b"\"a@en\"",
];

/// Every pair of tokens, and names as subject and predicate too.
fn every_pair() -> impl Iterator<Item = Import> {
    let names = || NEAR.iter().filter(|token| token[0] == b'<');
    let objects = NEAR.iter().flat_map(|a| NEAR.iter().map(move |b| [b"<s> <p> ", *a, b" .\n<s> <p> ", b, b" .\n"].concat()));
    let parts = names().flat_map(move |a| names().map(move |b| [*a, b, a, b".\n", b, a, b, b"."].concat()));
    objects.chain(parts).map(exact)
}

/// Each word of the vocabulary, whole, and with a byte left out, doubled, or of the other case, as each part of a statement; behind
/// a predicate that is in the vocabulary a literal earns 12.
fn every_word() -> impl Iterator<Item = Import> {
    let altered = |word: &'static [u8]| {
        (0..word.len()).flat_map(move |i| {
            let lacking = [&word[..i], &word[i + 1..]].concat();
            let doubled = [&word[..=i], &word[i..]].concat();
            let case = [&word[..i], &[word[i] ^ 32], &word[i + 1..]].concat();
            [lacking, doubled, case]
        })
    };
    let words = VOCABULARY.into_iter().flat_map(move |word| altered(word).chain([word.to_vec()]));
    words.flat_map(|word| {
        let predicate = |object: &[u8]| [b"<a> ", &word[..], object].concat();
        let subject = [&word[..], b" <b> <c> ."].concat();
        let object = [b"<a> <b> ", &word[..], b" ."].concat();
        [predicate(b" \"c\" ."), predicate(b" <a> ."), subject, object].map(exact)
    })
}

// Refusals

const TYPE: &[u8] = VOCABULARY[4];

/// A line of each kind: sound ones, silent ones, and those that earn one refusal or several.
fn kinds() -> Vec<Vec<u8>> {
    let of = |parts: &[&[u8]]| parts.concat();
    vec![
        b"<a> <b> <c> .".to_vec(),
        b"<c> <b> <a> .".to_vec(),
        b"".to_vec(),
        b" \t# <a> <b> <c> .".to_vec(),
        b"x".to_vec(),
        b"<a> <b> <c> .\r".to_vec(),
        b"_:a <b> <c> .".to_vec(),
        b"<a> <b> _:a .".to_vec(),
        b"_:a <b> <c>".to_vec(),
        of(&[TYPE, b" <b> <c> ."]),
        of(&[b"<a> <b> ", TYPE, b" ."]),
        of(&[b"<a> ", TYPE, b" \"c\" ."]),
        of(&[TYPE, b" ", TYPE, b" \"c\" ."]),
        of(&[b"_:a <b> ", TYPE, b" ."]),
        of(&[TYPE, b" <b> <c>"]),
    ]
}

/// Every three lines of these kinds, with memory and without.
fn every_order() -> impl Iterator<Item = Import> {
    let kinds = kinds();
    let texts = (0..kinds.len().pow(3)).map(move |code| {
        let line = |i: u32| &kinds[code / kinds.len().pow(i) % kinds.len()];
        [line(0), line(1), line(2)].map(|line| &line[..]).join(&b'\n')
    });
    texts.flat_map(|text| [Import { text: text.clone(), room: 0 }, exact(text)])
}

/// Every length of lent memory for three facts, of which one stands twice, and for none.
fn every_room() -> impl Iterator<Item = Import> {
    let three: &[u8] = b"<c> <b> <a> .\n<a> <b> <c> .\n<c> <b> <a> .\n<a> <b> \"c\" .\n";
    [three, b"# nothing\n", b""].into_iter().flat_map(|text| (0..70).map(|room| Import { text: text.to_vec(), room }))
}

// Sizes

/// A text of so many bytes: one piece again and again, and an end.
fn filled(size: usize, piece: &[u8], end: &[u8]) -> Vec<u8> {
    let front = piece.iter().copied().cycle().take(size - end.len());
    front.chain(end.iter().copied()).collect()
}

/// Texts of 65,535, 65,536 and 65,537 bytes: comments, white space, empty lines, statements, lines that are refused; one long
/// token.
fn sizes() -> impl Iterator<Item = Import> {
    let pieces: [&[u8]; 9] = [b"#", b" ", b"\t", b"\n", b"\r", b"x", b"# plan\n", b"<><><>.\n", b"\"<><>."];
    let ends: [&[u8]; 10] =
        [b"", b"\n", b"x", b"\nx", b"\n<a><b><c>.", b"\n<a><b>\"c\".\n", b"\n_:a<b><c>.", b"\n<a><b>.", b"\r\n", b"\n\r"];
    let long: [(&[u8], &[u8], &[u8]); 8] = [
        (b"<", b"a", b"><b><c>."),
        (b"<a><b>\"", b"#", b"\"."),
        (b"<a><b>\"c\"@", b"a", b"."),
        (b"<a><b>\"c\"@a", b"-1", b"."),
        (b"<a><b>\"c\"^^<", b"\xff", b">."),
        (b"<a><b>_:c", b".c", b"."),
        (b"<a><b><c>", b" ", b"."),
        (b"<a><b><c>.", b"\t", b"#"),
    ];
    (MOST_TEXT - 1..=MOST_TEXT + 1).flat_map(move |size| {
        let of_ends = pieces.into_iter().flat_map(move |piece| ends.map(|end| filled(size, piece, end)));
        let of_tokens = long.map(|(front, piece, end)| [front, &filled(size - front.len(), piece, end)].concat());
        of_ends.chain(of_tokens).flat_map(|text| [Import { text: text.clone(), room: 0 }, exact(text)])
    })
}

// Crowds

/// So many lines with different facts over few tokens; the facts stand in the table in this order.
fn facts(count: usize) -> Vec<Vec<u8>> {
    (0..count).map(|i| format!("<s{}><p><o{}>.\n", i / 40, i % 40).into_bytes()).collect()
}

/// A step that goes round so many places and meets each.
fn spread(count: usize) -> impl Iterator<Item = usize> {
    (0..count).map(move |i| (i * 607) % count)
}

/// About 1,024 different facts: in order, from the last up and mixed; with some of them again; with a line that earns another
/// refusal behind them or before; with memory that is enough and not.
fn crowds() -> impl Iterator<Item = Import> {
    (MOST_FACTS - 1..=MOST_FACTS + 2).flat_map(|count| {
        let up = facts(count);
        let down: Vec<_> = up.iter().rev().cloned().collect();
        let mixed: Vec<_> = spread(count).map(|i| up[i].clone()).collect();
        let again = [&up[..], &mixed[..500]].concat().concat();
        let early = [&up[..9], &mixed].concat().concat();
        let whole = [up.concat(), down.concat(), mixed.concat(), again, early];
        let with_line = kinds().into_iter().flat_map(move |line| {
            let line = [&line[..], b"\n"].concat();
            [0, 700, count].map(|at| [&up[..at].concat(), &line[..], &up[at..].concat()].concat())
        });
        whole.into_iter().chain(with_line).flat_map(rooms)
    })
}

/// Lines with many tokens, up to three new ones on each, which a form makes from the line's number; the same again and again, as
/// long as a text may be; and with a line behind them that is refused.
fn many_tokens() -> impl Iterator<Item = Import> {
    let forms: [fn(usize) -> String; 7] = [
        |i| format!("<s{i}><p{i}><o{i}>.\n"),
        |i| format!("<{i}s><{i}p>\"{i}\".\n"),
        |i| format!("<s{}><p{}>\"o{}\"@en.\n", 5000 - i, 5000 - i, 5000 - i),
        |i| format!("<{:04}/same><{:04}/so>\"{:04}\"^^<so>.\n", 607 * i % 1997, 607 * i % 1997, 607 * i % 1997),
        |i| format!("<{}><{}x><{}y>.\n", "i".repeat(i % 40), "j".repeat(i / 40), i),
        |i| format!("<é{i}><{i}é>\"{}\".\n", "\0".repeat(i % 9) + &i.to_string()),
        |i| format!("<{i}>{}<z{i}>.\n", String::from_utf8_lossy(VOCABULARY[i % 5])),
    ];
    forms.into_iter().flat_map(|form| {
        [1, 300, MOST_FACTS - 1, MOST_FACTS, MOST_FACTS + 1, MOST_FACTS + 60].into_iter().flat_map(move |count| {
            let once: Vec<u8> = (0..count).flat_map(|i| form(i).into_bytes()).collect();
            let again = (0..count).cycle().map(|i| form(i).into_bytes()).scan(0, |size, line| {
                *size += line.len();
                (*size <= MOST_TEXT).then_some(line)
            });
            let again = again.flatten().collect();
            let refused = [&once[..], b"<a><b>", TYPE, b"."].concat();
            [once, again, refused].into_iter().flat_map(rooms)
        })
    })
}
