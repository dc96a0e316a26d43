//! The import of N-Triples from the words of document 02, Point 3, and W3C's grammar of RDF 1.1 N-Triples: a reader by recursive
//! descent over the whole text, numbers from a map, facts in a set. Each part is a method of its own, so that a broken variant
//! (`variants`) replaces one of them and shares the rest.
use crate::facts::*;
use crate::lines::{table_bytes, TABLE_LINE};
use crate::parts::{Faithful, Parts, MOST_FACTS};
use std::collections::{BTreeSet, HashMap};

pub const MOST_TEXT: usize = 65_536;

/// What becomes 1 to 5, in this order.
pub const VOCABULARY: [&[u8]; 5] = [
    b"<http://www.w3.org/2000/01/rdf-schema#subClassOf>",
    b"<http://www.w3.org/2000/01/rdf-schema#subPropertyOf>",
    b"<http://www.w3.org/2000/01/rdf-schema#domain>",
    b"<http://www.w3.org/2000/01/rdf-schema#range>",
    b"<http://www.w3.org/1999/02/22-rdf-syntax-ns#type>",
];

pub const FIRST_NAME: u32 = 6;
pub const FIRST_LITERAL: u32 = 40_000;

/// A token with all its bytes: brackets, quotes, tag and datatype too.
#[derive(Clone, Copy, PartialEq, Eq, Debug)]
pub enum Token<'a> {
    Iri(&'a [u8]),
    Blank(&'a [u8]),
    Literal(&'a [u8]),
}

/// Subject, predicate, object.
pub type Statement<'a> = [Token<'a>; 3];

/// What stands behind what was read; none where nothing of the kind stands here.
pub type Behind<'a> = Option<&'a [u8]>;

/// What was read as well.
pub type Read<'a, T> = Option<(T, &'a [u8])>;

/// A statement or its fact, with its line, counted from 1.
pub type Placed<T> = (u32, T);

/// The number of each token so far.
pub type Numbers = HashMap<Vec<u8>, u32>;

/// The bytes that pass, and what stands behind them.
pub fn run(rest: &[u8], passes: impl Fn(u8) -> bool) -> (&[u8], &[u8]) {
    rest.split_at(rest.iter().position(|&b| !passes(b)).unwrap_or(rest.len()))
}

/// What stands behind one byte or more that pass.
pub fn behind_some(rest: &[u8], passes: impl Fn(u8) -> bool) -> Behind<'_> {
    let (some, behind) = run(rest, passes);
    (!some.is_empty()).then_some(behind)
}

/// The import with nothing replaced.
pub struct Plain;
impl Reader for Plain {}

pub trait Reader {
    // Bytes

    fn is_white(&self, b: u8) -> bool {
        b == b' ' || b == b'\t'
    }

    /// IRIREF bars 0 to 32 and these; a backslash would begin an escape.
    fn is_of_iri(&self, b: u8) -> bool {
        b > 32 && !b"<>\"{}|^`\\".contains(&b)
    }

    /// STRING_LITERAL_QUOTE bars these; a backslash would begin an escape.
    fn is_quoted(&self, b: u8) -> bool {
        !b"\"\\\n\r".contains(&b)
    }

    fn is_of_comment(&self, b: u8) -> bool {
        b != b'\n' && b != b'\r'
    }

    /// PN_CHARS_U or a digit. Bytes above 127 are not read.
    fn begins_label(&self, b: u8) -> bool {
        b.is_ascii_alphanumeric() || b == b'_' || b == b':' || b > 127
    }

    /// PN_CHARS or a full stop.
    fn is_of_label(&self, b: u8) -> bool {
        self.begins_label(b) || b == b'-' || b == b'.'
    }

    /// PN_CHARS.
    fn ends_label(&self, b: u8) -> bool {
        self.is_of_label(b) && b != b'.'
    }

    // Tokens

    fn iri<'a>(&self, rest: &'a [u8]) -> Behind<'a> {
        let (_, rest) = run(rest.strip_prefix(b"<")?, |b| self.is_of_iri(b));
        rest.strip_prefix(b">")
    }

    /// A label goes as far as it can, and doesn't end in a full stop.
    fn blank<'a>(&self, rest: &'a [u8]) -> Behind<'a> {
        let label = rest.strip_prefix(b"_:").filter(|label| label.first().is_some_and(|&b| self.begins_label(b)))?;
        let (longest, _) = run(label, |b| self.is_of_label(b));
        let last = longest.iter().rposition(|&b| self.ends_label(b))?;
        Some(&label[last + 1..])
    }

    /// LANGTAG: letters, then parts of letters and digits, with a hyphen before each.
    fn tag<'a>(&self, rest: &'a [u8]) -> Behind<'a> {
        let mut rest = behind_some(rest.strip_prefix(b"@")?, |b| b.is_ascii_alphabetic())?;
        while let Some(part) = rest.strip_prefix(b"-") {
            rest = behind_some(part, |b| b.is_ascii_alphanumeric())?;
        }
        Some(rest)
    }

    /// A literal's tag or datatype, or nothing.
    fn suffix<'a>(&self, rest: &'a [u8]) -> Behind<'a> {
        match rest {
            [b'@', ..] => self.tag(rest),
            [b'^', b'^', datatype @ ..] => self.iri(datatype),
            _ => Some(rest),
        }
    }

    /// A literal's parts stand one right behind the other.
    fn literal<'a>(&self, rest: &'a [u8]) -> Behind<'a> {
        let (_, rest) = run(rest.strip_prefix(b"\"")?, |b| self.is_quoted(b));
        self.suffix(rest.strip_prefix(b"\"")?)
    }

    fn token<'a>(&self, rest: &'a [u8]) -> Read<'a, Token<'a>> {
        let until = |behind: &'a [u8]| &rest[..rest.len() - behind.len()];
        match rest.first()? {
            b'<' => self.iri(rest).map(|behind| (Token::Iri(until(behind)), behind)),
            b'_' => self.blank(rest).map(|behind| (Token::Blank(until(behind)), behind)),
            _ => self.literal(rest).map(|behind| (Token::Literal(until(behind)), behind)),
        }
    }

    // Lines

    /// What stands behind spaces and tabs, of which there may be none.
    fn skip<'a>(&self, rest: &'a [u8]) -> &'a [u8] {
        run(rest, |b| self.is_white(b)).1
    }

    /// A subject is no literal, and a predicate an IRI.
    fn may_stand(&self, [subject, predicate, _]: &Statement) -> bool {
        !matches!(subject, Token::Literal(_)) && matches!(predicate, Token::Iri(_))
    }

    /// Subject, predicate, object, full stop.
    fn statement<'a>(&self, rest: &'a [u8]) -> Read<'a, Statement<'a>> {
        let (subject, rest) = self.token(rest)?;
        let (predicate, rest) = self.token(self.skip(rest))?;
        let (object, rest) = self.token(self.skip(rest))?;
        let statement = [subject, predicate, object];
        let rest = self.skip(rest).strip_prefix(b".")?;
        self.may_stand(&statement).then_some((statement, rest))
    }

    /// What stands behind a comment, or behind nothing.
    fn comment<'a>(&self, rest: &'a [u8]) -> &'a [u8] {
        rest.strip_prefix(b"#").map_or(rest, |comment| run(comment, |b| self.is_of_comment(b)).1)
    }

    /// Byte 10, or the end of the text.
    fn line_end<'a>(&self, rest: &'a [u8]) -> Behind<'a> {
        if rest.is_empty() {
            Some(rest)
        } else {
            rest.strip_prefix(b"\n")
        }
    }

    /// A line with its end: perhaps a statement, perhaps a comment.
    fn line<'a>(&self, rest: &'a [u8]) -> Read<'a, Option<Statement<'a>>> {
        let rest = self.skip(rest);
        let (statement, rest) = match rest.first() {
            None | Some(b'\n' | b'#') => (None, rest),
            _ => self.statement(rest).map(|(statement, behind)| (Some(statement), behind))?,
        };
        Some((statement, self.line_end(self.comment(self.skip(rest)))?))
    }

    /// A blank node is subject or object; elsewhere it is outside the subset.
    fn unknown_node(&self, [subject, _, object]: &Statement) -> bool {
        matches!(subject, Token::Blank(_)) || matches!(object, Token::Blank(_))
    }

    /// Line by line, 13 and then 14.
    fn statements<'a>(&self, text: &'a [u8]) -> Result<Vec<Placed<Statement<'a>>>, Answer> {
        let (mut statements, mut rest, mut place) = (vec![], text, 0);
        while !rest.is_empty() {
            place += 1;
            let (statement, behind) = self.line(rest).ok_or(refused(13, place))?;
            if statement.is_some_and(|statement| self.unknown_node(&statement)) {
                return Err(refused(14, place));
            }
            statements.extend(statement.map(|statement| (place, statement)));
            rest = behind;
        }
        Ok(statements)
    }

    // Numbers

    fn vocabulary(&self, iri: &[u8]) -> Option<u32> {
        VOCABULARY.iter().position(|&word| word == iri).map(|i| i as u32 + 1)
    }

    /// What of a token tells it from others: every byte.
    fn compared(&self, token: &[u8]) -> Vec<u8> {
        token.to_vec()
    }

    /// A token's number among names or among literals, the next one where it is new.
    fn numbered(&self, numbers: &mut Numbers, first: u32, token: &[u8]) -> u32 {
        let next = first + numbers.len() as u32;
        *numbers.entry(self.compared(token)).or_insert(next)
    }

    /// A token's number. A blank node has none: its line is refused before.
    fn term(&self, names: &mut Numbers, literals: &mut Numbers, token: Token) -> u32 {
        match token {
            Token::Literal(literal) => self.numbered(literals, FIRST_LITERAL, literal),
            Token::Iri(name) | Token::Blank(name) => self.vocabulary(name).unwrap_or_else(|| self.numbered(names, FIRST_NAME, name)),
        }
    }

    /// The statements' facts, with numbers in order of first appearance.
    fn numbering(&self, statements: &[Placed<Statement>]) -> Vec<Placed<Fact>> {
        let (mut names, mut literals) = (Numbers::new(), Numbers::new());
        let mut term = |token| self.term(&mut names, &mut literals, token);
        statements.iter().map(|&(place, statement)| (place, statement.map(&mut term))).collect()
    }

    // The table

    /// 5 and then 12.
    fn fault(&self, fact: Fact) -> Option<u32> {
        Faithful.fault(fact)
    }

    /// Fact by fact, in the order of the lines.
    fn first_fault(&self, facts: &[Placed<Fact>]) -> Option<Answer> {
        facts.iter().find_map(|&(place, fact)| Some(refused(self.fault(fact)?, place)))
    }

    /// Equal facts become one, and the result is sorted.
    fn sorted(&self, facts: &[Placed<Fact>]) -> Vec<Fact> {
        let set: BTreeSet<Fact> = facts.iter().map(|&(_, fact)| fact).collect();
        set.into_iter().collect()
    }

    fn is_crowd(&self, _facts: &[Placed<Fact>], sorted: &[Fact]) -> bool {
        sorted.len() > MOST_FACTS
    }

    /// The table's facts: 13 for the size, 13 and 14 line by line, 5 and 12 fact by fact, 15.
    fn table(&self, text: &[u8]) -> Result<Vec<Fact>, Answer> {
        if text.len() > MOST_TEXT {
            return Err(refused(13, 0));
        }
        let facts = self.numbering(&self.statements(text)?);
        let sorted = self.sorted(&facts);
        match self.first_fault(&facts) {
            Some(refusal) => Err(refusal),
            None if self.is_crowd(&facts, &sorted) => Err(refused(15, 0)),
            None => Ok(sorted),
        }
    }

    /// Short memory comes last.
    fn import(&self, text: &[u8], table: &mut [u8]) -> Answer {
        match self.table(text) {
            Err(refusal) => refusal,
            Ok(facts) if table.len() < TABLE_LINE * facts.len() => refused(8, 0),
            Ok(facts) => {
                table[..TABLE_LINE * facts.len()].copy_from_slice(&table_bytes(&facts));
                answered(DONE, facts.len())
            }
        }
    }
}
