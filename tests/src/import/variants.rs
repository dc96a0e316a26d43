//! Broken imports, each wrong in one part. The comparison must catch every one of them; where it does not, it is too weak.
use super::reader::*;
use crate::calls::ImportCall;
use crate::facts::*;
use crate::lines::{table_bytes, TABLE_LINE};
use crate::parts::MOST_FACTS;
use crate::variants::variants;

pub type Named = (String, Box<dyn ImportCall>);

/// Every variant with its name.
pub fn all() -> Vec<Named> {
    let bytes = [of_white(), of_iri_bytes(), of_quoted_bytes(), of_comment_bytes(), of_label_begin(), of_label_bytes(), of_label_end()];
    let tokens = [of_iri(), of_blank(), of_tag(), of_suffix(), of_literal()];
    let lines = [of_parts(), of_statement(), of_line_end(), of_line(), of_unknown(), of_statements(), vec![blank_predicate()]];
    let numbers = [of_vocabulary(), of_compared(), of_numbered(), of_term(), of_numbering()];
    let table = [of_fault(), of_first_fault(), of_sorted(), of_crowd(), of_table(), of_import()];
    bytes.into_iter().chain(tokens).chain(lines).chain(numbers).chain(table).flatten().collect()
}

// Bytes

variants! { of_white in Reader: is_white(&self, b: u8) -> bool;
    VerticalTabIsWhite => b == 11 || Plain.is_white(b),
    FormFeedIsWhite => b == 12 || Plain.is_white(b),
    CarriageReturnIsWhite => b == 13 || Plain.is_white(b),
    NulIsWhite => b == 0 || Plain.is_white(b),
    HighSpaceIsWhite => b == 0xa0 || Plain.is_white(b),
    TabIsNotWhite => b == b' ',
}

variants! { of_iri_bytes in Reader: is_of_iri(&self, b: u8) -> bool;
    SpaceInIri => b == b' ' || Plain.is_of_iri(b),
    CaretInIri => b == b'^' || Plain.is_of_iri(b),
    QuoteInIri => b == b'"' || Plain.is_of_iri(b),
    BraceInIri => b == b'{' || Plain.is_of_iri(b),
    OtherBraceInIri => b == b'}' || Plain.is_of_iri(b),
    BarInIri => b == b'|' || Plain.is_of_iri(b),
    BacktickInIri => b == b'`' || Plain.is_of_iri(b),
    BracketInIri => b == b'<' || Plain.is_of_iri(b),
    BackslashInIri => b == b'\\' || Plain.is_of_iri(b),
    ControlInIri => b == 31 || Plain.is_of_iri(b),
    NulInIri => b == 0 || Plain.is_of_iri(b),
    NoDeleteInIri => b != 127 && Plain.is_of_iri(b),
    NoHighByteInIri => b < 128 && Plain.is_of_iri(b),
    NoLastByteInIri => b != 255 && Plain.is_of_iri(b),
    NoStopInIri => b != b'.' && Plain.is_of_iri(b),
    NoHashInIri => b != b'#' && Plain.is_of_iri(b),
}

variants! { of_quoted_bytes in Reader: is_quoted(&self, b: u8) -> bool;
    BackslashQuoted => b == b'\\' || Plain.is_quoted(b),
    CarriageReturnQuoted => b == 13 || Plain.is_quoted(b),
    LineEndQuoted => b == 10 || Plain.is_quoted(b),
    NoTabQuoted => b != 9 && Plain.is_quoted(b),
    NoControlQuoted => (b > 31 || b == 9) && Plain.is_quoted(b),
    NoNulQuoted => b != 0 && Plain.is_quoted(b),
    NoDeleteQuoted => b != 127 && Plain.is_quoted(b),
    NoHighByteQuoted => b < 128 && Plain.is_quoted(b),
    NoHashQuoted => b != b'#' && Plain.is_quoted(b),
}

variants! { of_comment_bytes in Reader: is_of_comment(&self, b: u8) -> bool;
    CarriageReturnInComment => b == 13 || Plain.is_of_comment(b),
    NoBackslashInComment => b != b'\\' && Plain.is_of_comment(b),
    NoControlInComment => (b > 31 || b == 9) && Plain.is_of_comment(b),
    NoTabInComment => b != 9 && Plain.is_of_comment(b),
    NoHighByteInComment => b < 128 && Plain.is_of_comment(b),
    CommentGoesOn => b == 10 || Plain.is_of_comment(b),
}

variants! { of_label_begin in Reader: begins_label(&self, b: u8) -> bool;
    HyphenBeginsLabel => b == b'-' || Plain.begins_label(b),
    StopBeginsLabel => b == b'.' || Plain.begins_label(b),
    NoDigitBeginsLabel => !b.is_ascii_digit() && Plain.begins_label(b),
    NoColonInLabel => b != b':' && Plain.begins_label(b),
    NoUnderscoreInLabel => b != b'_' && Plain.begins_label(b),
    NoHighByteInLabel => b < 128 && Plain.begins_label(b),
}

variants! { of_label_bytes in Reader: is_of_label(&self, b: u8) -> bool;
    NoStopInLabel => b != b'.' && Plain.is_of_label(b),
    NoHyphenInLabel => b != b'-' && Plain.is_of_label(b),
    NoHighByteBehindLabelsFirst => b < 128 && Plain.is_of_label(b),
    ApostropheInLabel => b == b'\'' || Plain.is_of_label(b),
}

variants! { of_label_end in Reader: ends_label(&self, b: u8) -> bool;
    StopEndsLabel => Plain.is_of_label(b),
    HyphenEndsNoLabel => b != b'-' && Plain.ends_label(b),
    ColonEndsNoLabel => b != b':' && Plain.ends_label(b),
}

// Tokens

variants! { of_iri in Reader: iri<'a>(&self, rest: &'a [u8]) -> Behind<'a>;
    EmptyIriRefused => Plain.iri(rest).filter(|_| !rest.starts_with(b"<>")),
    RelativeIriRefused => Plain.iri(rest).filter(|behind| rest[..rest.len() - behind.len()].contains(&b':')),
    IriEndsAtWhite => {
        let (_, behind) = run(rest.strip_prefix(b"<")?, |b| Plain.is_of_iri(b));
        behind.strip_prefix(b">").or(Some(behind).filter(|behind| behind.first().is_some_and(|&b| Plain.is_white(b))))
    },
}

variants! { of_blank in Reader: blank<'a>(&self, rest: &'a [u8]) -> Behind<'a>;
    EmptyLabel => Plain.blank(rest).or(rest.strip_prefix(b"_:")),
    OneStopEndsLabel => {
        let behind = Plain.blank(rest)?;
        Some(behind.strip_prefix(b".").filter(|behind| behind.starts_with(b".")).unwrap_or(behind))
    },
}

/// A tag with the first part and the others of bytes that pass.
fn tag_of(rest: &[u8], first: fn(u8) -> bool, part: fn(u8) -> bool) -> Behind<'_> {
    let mut rest = behind_some(rest.strip_prefix(b"@")?, first)?;
    while let Some(behind) = rest.strip_prefix(b"-") {
        rest = behind_some(behind, part)?;
    }
    Some(rest)
}

variants! { of_tag in Reader: tag<'a>(&self, rest: &'a [u8]) -> Behind<'a>;
    EmptyTag => Plain.tag(rest).or(rest.strip_prefix(b"@")),
    DigitsInFirstPart => tag_of(rest, |b| b.is_ascii_alphanumeric(), |b| b.is_ascii_alphanumeric()),
    NoDigitsInTag => tag_of(rest, |b| b.is_ascii_alphabetic(), |b| b.is_ascii_alphabetic()),
    UnderscoreInTag => tag_of(rest, |b| b.is_ascii_alphabetic(), |b| b.is_ascii_alphanumeric() || b == b'_'),
    NoCapitalsInTag => tag_of(rest, |b| b.is_ascii_lowercase(), |b| b.is_ascii_alphanumeric()),
    TagOfOnePart => behind_some(rest.strip_prefix(b"@")?, |b| b.is_ascii_alphabetic()),
    EmptyPartAtEnd => Plain.tag(rest).or_else(|| {
        let (tag, behind) = run(rest, |b| b.is_ascii_alphanumeric() || b == b'-' || b == b'@');
        Some(behind).filter(|_| Plain.tag(tag.strip_suffix(b"-").unwrap_or(tag)) == Some(&[]))
    }),
    EmptyPartBetween => tag_of(rest, |b| b.is_ascii_alphabetic(), |b| b.is_ascii_alphanumeric() || b == b'-'),
}

variants! { of_suffix in Reader: suffix<'a>(&self, rest: &'a [u8]) -> Behind<'a>;
    WhiteBeforeTag => match Plain.skip(rest) {
        tag @ [b'@', ..] => Plain.tag(tag),
        _ => Plain.suffix(rest),
    },
    WhiteBeforeDatatype => match Plain.skip(rest) {
        datatype @ [b'^', ..] => Plain.suffix(datatype),
        _ => Plain.suffix(rest),
    },
    WhiteBehindCarets => rest.strip_prefix(b"^^").map_or_else(|| Plain.suffix(rest), |datatype| Plain.iri(Plain.skip(datatype))),
    OneCaret => match rest {
        [b'^', datatype @ ..] => Plain.iri(datatype.strip_prefix(b"^").unwrap_or(datatype)),
        _ => Plain.suffix(rest),
    },
    BlankDatatype => match rest.strip_prefix(b"^^") {
        Some(datatype) => Plain.iri(datatype).or_else(|| Plain.blank(datatype)),
        None => Plain.suffix(rest),
    },
    DatatypeBehindTag => Plain.suffix(rest).and_then(|behind| if rest.starts_with(b"@") { Plain.suffix(behind) } else { Some(behind) }),
    NoDatatype => Plain.suffix(rest).filter(|_| !rest.starts_with(b"^^")),
    NoTag => Plain.suffix(rest).filter(|_| !rest.starts_with(b"@")),
}

variants! { of_literal in Reader: literal<'a>(&self, rest: &'a [u8]) -> Behind<'a>;
    QuoteEscaped => {
        let mut rest = rest.strip_prefix(b"\"")?;
        loop {
            match run(rest, |b| Plain.is_quoted(b)).1 {
                [b'\\', b'"' | b'\\' | b'n' | b't', behind @ ..] => rest = behind,
                [b'"', behind @ ..] => break Plain.suffix(behind),
                _ => break None,
            }
        }
    },
    SingleQuotes => match rest.strip_prefix(b"'") {
        Some(quoted) => run(quoted, |b| b != b'\'' && Plain.is_quoted(b)).1.strip_prefix(b"'").and_then(|behind| Plain.suffix(behind)),
        None => Plain.literal(rest),
    },
    EmptyLiteralRefused => Plain.literal(rest).filter(|_| !rest.starts_with(b"\"\"")),
}

// Lines

variants! { of_parts in Reader: may_stand(&self, statement: &Statement) -> bool;
    LiteralSubject => matches!(statement[1], Token::Iri(_)),
    LiteralPredicate => Plain.may_stand(&[statement[0], Token::Iri(b""), statement[2]]) && !matches!(statement[1], Token::Blank(_)),
    NoLiteralObject => Plain.may_stand(statement) && !matches!(statement[2], Token::Literal(_)),
}

/// A blank node as predicate gets 14.
struct BlankPredicateIsUnknown;
impl Reader for BlankPredicateIsUnknown {
    fn may_stand(&self, [subject, predicate, _]: &Statement) -> bool {
        !matches!(subject, Token::Literal(_)) && !matches!(predicate, Token::Literal(_))
    }
    fn unknown_node(&self, statement: &Statement) -> bool {
        statement.iter().any(|token| matches!(token, Token::Blank(_)))
    }
}

fn blank_predicate() -> Named {
    ("BlankPredicateIsUnknown".into(), Box::new(BlankPredicateIsUnknown))
}

/// A statement, where `between` gives what stands behind the white space before predicate and object, and `stop` what stands
/// behind the full stop.
fn statement_by<'a>(
    rest: &'a [u8],
    between: impl Fn(&'a [u8]) -> Behind<'a>,
    stop: impl Fn(&'a [u8]) -> Behind<'a>,
) -> Read<'a, Statement<'a>> {
    let (subject, rest) = Plain.token(rest)?;
    let (predicate, rest) = Plain.token(between(rest)?)?;
    let (object, rest) = Plain.token(between(rest)?)?;
    let statement = [subject, predicate, object];
    Some((statement, stop(rest)?)).filter(|_| Plain.may_stand(&statement))
}

fn stop(rest: &[u8]) -> Behind<'_> {
    Plain.skip(rest).strip_prefix(b".")
}

fn white(rest: &[u8]) -> Behind<'_> {
    Some(Plain.skip(rest))
}

fn some_white(rest: &[u8]) -> Behind<'_> {
    behind_some(rest, |b| Plain.is_white(b))
}

variants! { of_statement in Reader: statement<'a>(&self, rest: &'a [u8]) -> Read<'a, Statement<'a>>;
    WhiteNeededBetween => statement_by(rest, some_white, stop),
    OneSpaceBetween => statement_by(rest, |rest| Some(rest.strip_prefix(b" ").unwrap_or(rest)), stop),
    WhiteNeededBeforeStop => statement_by(rest, white, |rest| stop(some_white(rest)?)),
    NoWhiteBeforeStop => statement_by(rest, white, |rest| rest.strip_prefix(b".")),
    StopMayLack => statement_by(rest, white, |rest| stop(rest).or(Some(rest))),
    TwoStops => statement_by(rest, white, |rest| stop(rest).map(|rest| rest.strip_prefix(b".").unwrap_or(rest))),
    StatementOverLines => statement_by(rest, |rest| Some(run(rest, |b| Plain.is_white(b) || b == b'\n').1), stop),
    CommentForStop => statement_by(rest, white, |rest| stop(rest).or(white(rest).filter(|rest| rest.starts_with(b"#")))),
    SemicolonForStop => statement_by(rest, white, |rest| stop(rest).or(Plain.skip(rest).strip_prefix(b";"))),
}

variants! { of_line_end in Reader: line_end<'a>(&self, rest: &'a [u8]) -> Behind<'a>;
    LastLineNeedsEnd => rest.strip_prefix(b"\n"),
    CarriageReturnBeforeEnd => rest.strip_prefix(b"\r").map_or(Plain.line_end(rest), |rest| Plain.line_end(rest)),
    CarriageReturnEndsLine => Plain.line_end(rest).or(rest.strip_prefix(b"\r")),
    NulEndsText => if rest.starts_with(b"\0") { Some(&[]) } else { Plain.line_end(rest) },
}

/// The bytes of the line that begins here.
fn bytes_of_line(rest: &[u8]) -> &[u8] {
    run(rest, |b| b != b'\n').0
}

fn behind_line(rest: &[u8]) -> &[u8] {
    let behind = run(rest, |b| b != b'\n').1;
    behind.strip_prefix(b"\n").unwrap_or(behind)
}

/// Whether a line has a comment right behind the full stop.
fn comment_at_stop(rest: &[u8]) -> bool {
    Plain.statement(Plain.skip(rest)).is_some_and(|(_, behind)| behind.starts_with(b"#"))
}

variants! { of_line in Reader: line<'a>(&self, rest: &'a [u8]) -> Read<'a, Option<Statement<'a>>>;
    CommentNeedsWhite => Plain.line(rest).filter(|_| !comment_at_stop(rest)),
    NoCommentBehindStop => Plain.line(rest).filter(|(statement, _)| statement.is_none() || bytes_of_line(rest).ends_with(b".")),
    NoCommentBehindWhite => Plain.line(rest).filter(|_| rest.starts_with(b"#") || !Plain.skip(rest).starts_with(b"#")),
    NoWhiteInFront => Plain.line(rest).filter(|(statement, _)| statement.is_none() || !Plain.is_white(rest[0])),
    NoWhiteAtEnd => Plain.line(rest).filter(|_| !bytes_of_line(rest).last().is_some_and(|&b| Plain.is_white(b))),
    EmptyLineRefused => Plain.line(rest).filter(|_| !rest.starts_with(b"\n")),
    WhiteLineRefused => Plain.line(rest).filter(|_| bytes_of_line(rest).is_empty() || !Plain.skip(bytes_of_line(rest)).is_empty()),
    EmptyCommentRefused => Plain.line(rest).filter(|_| bytes_of_line(rest) != b"#"),
    BadLineSkipped => Plain.line(rest).or_else(|| Some((None, behind_line(rest)))),
    UnknownNodeSkipped => Plain.line(rest).map(|(statement, behind)| (statement.filter(|nodes| !Plain.unknown_node(nodes)), behind)),
    RestIgnored => match Plain.statement(Plain.skip(rest)) {
        Some((statement, behind)) => Some((Some(statement), behind_line(behind))),
        None => Plain.line(rest),
    },
}

variants! { of_unknown in Reader: unknown_node(&self, statement: &Statement) -> bool;
    SubjectAloneUnknown => matches!(statement[0], Token::Blank(_)),
    ObjectAloneUnknown => matches!(statement[2], Token::Blank(_)),
    BothMustBeUnknown => [statement[0], statement[2]].iter().all(|token| matches!(token, Token::Blank(_))),
}

type Statements<'a> = Result<Vec<Placed<Statement<'a>>>, Answer>;

fn line_at(text: &[u8], place: u32) -> &[u8] {
    text.split(|&b| b == b'\n').nth(place as usize - 1).unwrap_or_default()
}

/// The first line that is refused otherwise than by 14, or else all of it.
fn statement_before_unknown(text: &[u8]) -> Statements<'_> {
    let lines = text.split(|&b| b == b'\n').enumerate();
    let bad = lines.filter(|(_, line)| Plain.line(line).is_none()).map(|(i, _)| refused(13, i as u32 + 1)).next();
    bad.map_or_else(|| Plain.statements(text), Err)
}

/// The refusal with its place counted otherwise.
fn placed(text: &[u8], place: impl Fn(&[&[u8]], u32) -> u32) -> Statements<'_> {
    let lines: Vec<&[u8]> = text.split(|&b| b == b'\n').collect();
    Plain.statements(text).map_err(|refusal| Answer { place: place(&lines[..refusal.place as usize - 1], refusal.place), ..refusal })
}

fn says_nothing(line: &&&[u8]) -> bool {
    Plain.line(line).is_some_and(|(statement, _)| statement.is_none())
}

variants! { of_statements in Reader: statements<'a>(&self, text: &'a [u8]) -> Statements<'a>;
    StatementBeforeUnknown => statement_before_unknown(text),
    UnknownWithoutStop => match Plain.statements(text) {
        Err(Answer { number: 13, place, .. }) => {
            let begins_blank = Plain.blank(Plain.skip(line_at(text, place))).is_some();
            Err(refused(if begins_blank { 14 } else { 13 }, place))
        }
        other => other,
    },
    LastLineWithoutEndIgnored => Plain.statements(&text[..text.iter().rposition(|&b| b == b'\n').map_or(0, |i| i + 1)]),
    MarkSkipped => Plain.statements(text.strip_prefix(b"\xef\xbb\xbf").unwrap_or(text)),
    EmptyTextRefused => if text.is_empty() { Err(refused(13, 1)) } else { Plain.statements(text) },
    TextEndsAtNul => Plain.statements(text.split(|&b| b == 0).next().unwrap_or_default()),
    PlaceFrom0 => placed(text, |_, place| place - 1),
    PlaceOverStatements => placed(text, |before, place| place - before.iter().filter(says_nothing).count() as u32),
    PlaceWithoutEmptyLines => placed(text, |before, place| place - before.iter().filter(|line| line.is_empty()).count() as u32),
    PlaceIn16Bits => placed(text, |_, place| place & 0xffff),
    LastRefusal => {
        let lines: Vec<&[u8]> = text.split(|&b| b == b'\n').collect();
        let mut refusals = lines.iter().enumerate().filter_map(|(i, line)| Some((i, Plain.statements(line).err()?)));
        refusals.next_back().map_or_else(|| Plain.statements(text), |(i, refusal)| Err(refused(refusal.number, i as u32 + 1)))
    },
}

// Numbers

/// The part of a word behind its last slash or hash.
fn local(iri: &[u8]) -> &[u8] {
    iri.rsplit(|&b| b == b'/' || b == b'#' || b == b'<').next().unwrap_or(iri)
}

fn word_by(test: impl Fn(&[u8]) -> bool) -> Option<u32> {
    VOCABULARY.iter().position(|word| test(word)).map(|i| i as u32 + 1)
}

variants! { of_vocabulary in Reader: vocabulary(&self, iri: &[u8]) -> Option<u32>;
    VocabularyByLocalName => word_by(|word| local(word) == local(iri)),
    VocabularyByEnd => word_by(|word| iri.ends_with(&word[20..])),
    VocabularyByFront => word_by(|word| iri.starts_with(&word[..word.len() - 1])),
    VocabularyOfAnyCase => word_by(|word| word.eq_ignore_ascii_case(iri)),
    VocabularyByLength => word_by(|word| word.len() == iri.len() && word[..30] == iri[..30]),
    VocabularyWithoutType => Plain.vocabulary(iri).filter(|&number| number != TYPE),
    DomainAndRangeSwapped => Plain.vocabulary(iri).map(|number| [1, 2, 4, 3, 5][number as usize - 1]),
    SubclassAndSubpropertySwapped => Plain.vocabulary(iri).map(|number| [2, 1, 3, 4, 5][number as usize - 1]),
    NoVocabulary => None,
}

/// A literal's quotes with what is in them, and its suffix.
fn literal_parts(token: &[u8]) -> (&[u8], &[u8]) {
    token.split_at(if token[0] == b'"' { token.iter().rposition(|&b| b == b'"').map_or(0, |i| i + 1) } else { token.len() })
}

variants! { of_compared in Reader: compared(&self, token: &[u8]) -> Vec<u8>;
    LiteralsWithoutTag => match literal_parts(token) {
        (quoted, [b'@', ..]) => quoted.to_vec(),
        _ => token.to_vec(),
    },
    LiteralsWithoutDatatype => match literal_parts(token) {
        (quoted, [b'^', ..]) => quoted.to_vec(),
        _ => token.to_vec(),
    },
    TagsOfAnyCase => match literal_parts(token) {
        (quoted, tag @ [b'@', ..]) => [quoted, &tag.to_ascii_lowercase()].concat(),
        _ => token.to_vec(),
    },
    PlainIsString => token.strip_suffix(b"^^<http://www.w3.org/2001/XMLSchema#string>").unwrap_or(token).to_vec(),
    IrisOfAnyCase => if token[0] == b'<' { token.to_ascii_lowercase() } else { token.to_vec() },
    LiteralsOfAnyCase => if token[0] == b'"' { token.to_ascii_lowercase() } else { token.to_vec() },
    LiteralsTrimmed => token.iter().copied().filter(|&b| b != b' ' || token[0] == b'<').collect(),
    TokensUntilNul => token.split(|&b| b == 0).next().unwrap_or_default().to_vec(),
    FirstBytesCompared => token[..token.len().min(12)].to_vec(),
    LastBytesCompared => token[token.len().saturating_sub(12)..].to_vec(),
    LengthAndSumCompared => [token.len(), token.iter().map(|&b| usize::from(b)).sum()].map(usize::to_be_bytes).concat(),
    SevenBitsCompared => token.iter().map(|b| b & 127).collect(),
}

variants! { of_numbered in Reader: numbered(&self, numbers: &mut Numbers, first: u32, token: &[u8]) -> u32;
    EachAppearanceNumbered => {
        numbers.insert(numbers.len().to_be_bytes().to_vec(), 0);
        first + numbers.len() as u32 - 1
    },
    NamesFrom5 => Plain.numbered(numbers, first, token) - u32::from(first == FIRST_NAME),
    NamesFrom7 => Plain.numbered(numbers, first, token) + u32::from(first == FIRST_NAME),
    LiteralsFrom40001 => Plain.numbered(numbers, first, token) + u32::from(first == FIRST_LITERAL),
    NumbersSkipped => {
        let next = first + 2 * numbers.len() as u32;
        *numbers.entry(token.to_vec()).or_insert(next)
    },
    LiteralsStopAt40999 => Plain.numbered(numbers, first, token).min(40_999),
    NamesStopAt3000 => match Plain.numbered(numbers, first, token) {
        number if first == FIRST_NAME => number.min(3000),
        number => number,
    },
}

variants! { of_term in Reader: term(&self, names: &mut Numbers, literals: &mut Numbers, token: Token) -> u32;
    VocabularyTakesNumbers => match token {
        Token::Iri(iri) => {
            let number = Plain.numbered(names, FIRST_NAME, iri);
            Plain.vocabulary(iri).unwrap_or(number)
        }
        _ => Plain.term(names, literals, token),
    },
    OneCountForAll => match token {
        Token::Literal(literal) => FIRST_LITERAL - FIRST_NAME + Plain.numbered(names, FIRST_NAME, literal),
        _ => Plain.term(names, literals, token),
    },
    LiteralsAreNames => match token {
        Token::Literal(literal) => Plain.numbered(names, FIRST_NAME, literal),
        _ => Plain.term(names, literals, token),
    },
}

type Facts = Vec<Placed<Fact>>;

/// The facts by numbers that are given first in another order of the statements' tokens.
fn numbered_first(statements: &[Placed<Statement>], order: Vec<Placed<Statement>>) -> Facts {
    let all = [&order[..], statements].concat();
    Plain.numbering(&all).split_off(order.len())
}

/// The bytes of a token.
fn bytes_of(token: &Token) -> Vec<u8> {
    let (Token::Iri(bytes) | Token::Blank(bytes) | Token::Literal(bytes)) = token;
    bytes.to_vec()
}

variants! { of_numbering in Reader: numbering(&self, statements: &[Placed<Statement>]) -> Facts;
    ObjectBeforePredicate => numbered_first(statements, statements.iter().map(|&(place, [s, p, o])| (place, [s, o, p])).collect()),
    PredicatesFirst => numbered_first(statements, statements.iter().map(|&(place, [_, p, _])| (place, [p, p, p])).collect()),
    NumbersFromLastLine => numbered_first(statements, statements.iter().rev().copied().collect()),
    NumbersBySortedTokens => {
        let mut order = statements.to_vec();
        order.sort_by_key(|(_, statement)| statement.each_ref().map(bytes_of));
        numbered_first(statements, order)
    },
    DatatypeTakesANumber => {
        let mut order = vec![];
        for &(place, statement) in statements {
            order.push((place, statement));
            if let Token::Literal(literal) = statement[2] {
                let datatype = literal_parts(literal).1.strip_prefix(b"^^");
                order.extend(datatype.map(|iri| (place, [Token::Iri(iri); 3])));
            }
        }
        numbered_first(statements, order)
    },
    ObjectsNumberedApart => {
        let (subjects, objects) = (Plain.numbering(statements), statements.iter().map(|&(place, [_, _, o])| (place, [o, o, o])));
        let objects = Plain.numbering(&objects.collect::<Vec<_>>());
        subjects.into_iter().zip(objects).map(|((place, [s, p, _]), (_, [o, _, _]))| (place, [s, p, o])).collect()
    },
}

// The table

variants! { of_fault in Reader: fault(&self, fact: Fact) -> Option<u32>;
    NothingTried => None,
    PartUntried => if text_as_class(fact) { Some(12) } else { None },
    ClassUntried => Plain.fault(fact).filter(|&number| number == 5),
    ClassBeforePart => if text_as_class(fact) { Some(12) } else { Plain.fault(fact) },
    ClassCalledPart => Plain.fault(fact).map(|_| 5),
    SubjectsPartUntried => Plain.fault([6, fact[1], fact[2]]),
    ObjectsPartUntried => Plain.fault([fact[0], fact[1], fact[2].max(6)]),
    TypeTakesText => Plain.fault(fact).filter(|&number| number == 5 || fact[1] != TYPE),
    ClassForTypeAlone => Plain.fault(fact).filter(|&number| number == 5 || fact[1] == TYPE),
}

variants! { of_first_fault in Reader: first_fault(&self, facts: &[Placed<Fact>]) -> Option<Answer>;
    EveryPartBeforeClass => {
        let first = |due: u32| facts.iter().find(|(_, fact)| Plain.fault(*fact) == Some(due)).map(|&(place, _)| refused(due, place));
        first(5).or(first(12))
    },
    LastFault => facts.iter().rev().find_map(|&(place, fact)| Some(refused(Plain.fault(fact)?, place))),
    FaultOfSortedFacts => {
        let mut sorted = facts.to_vec();
        sorted.sort_by_key(|&(_, fact)| fact);
        Plain.first_fault(&sorted)
    },
    FaultsPlaceOverStatements => facts.iter().enumerate().find_map(|(i, &(_, fact))| Some(refused(Plain.fault(fact)?, i as u32 + 1))),
    FaultsPlaceOverFacts => {
        let (place, fact) = facts.iter().find(|(_, fact)| Plain.fault(*fact).is_some())?;
        let before: Vec<_> = facts.iter().copied().filter(|(other, _)| other < place).collect();
        Some(refused(Plain.fault(*fact)?, Plain.sorted(&before).len() as u32 + 1))
    },
    FaultHasNoPlace => Plain.first_fault(facts).map(|refusal| Answer { place: 0, ..refusal }),
}

variants! { of_sorted in Reader: sorted(&self, facts: &[Placed<Fact>]) -> Vec<Fact>;
    NotSorted => {
        let mut unsorted = Plain.sorted(facts);
        unsorted.sort_by_key(|fact| facts.iter().position(|(_, other)| other == fact));
        unsorted
    },
    EqualFactsKept => {
        let mut all: Vec<Fact> = facts.iter().map(|&(_, fact)| fact).collect();
        all.sort();
        all
    },
    EqualNeighboursAloneBecomeOne => {
        let mut all: Vec<Fact> = facts.iter().map(|&(_, fact)| fact).collect();
        all.dedup();
        all.sort();
        all
    },
    SortedByPredicate => {
        let mut all = Plain.sorted(facts);
        all.sort_by_key(|&[s, p, o]| [p, s, o]);
        all
    },
    SortedByObject => {
        let mut all = Plain.sorted(facts);
        all.sort_by_key(|&[s, p, o]| [s, o, p]);
        all
    },
    SortedAsText => {
        let mut all = Plain.sorted(facts);
        all.sort_by_key(|fact| fact.map(|term| term.to_string()));
        all
    },
    OneObjectForSubjectAndPredicate => {
        let mut all = Plain.sorted(facts);
        all.dedup_by_key(|&mut [s, p, _]| [s, p]);
        all
    },
}

variants! { of_crowd in Reader: is_crowd(&self, facts: &[Placed<Fact>], sorted: &[Fact]) -> bool;
    CrowdAt1024 => sorted.len() >= MOST_FACTS,
    CrowdAbove1025 => sorted.len() > MOST_FACTS + 1,
    RepeatsCrowd => facts.len() > MOST_FACTS,
    NoCrowd => false,
}

/// So many statements have more than 1,024 different facts.
fn crowd_in(statements: &[Placed<Statement>]) -> bool {
    Plain.sorted(&Plain.numbering(statements)).len() > MOST_FACTS
}

/// The statements before the first line that is refused.
fn sound_lines(text: &[u8]) -> Vec<Placed<Statement<'_>>> {
    let Err(Answer { place, .. }) = Plain.statements(text) else { return Plain.statements(text).unwrap_or_default() };
    let end = text.split_inclusive(|&b| b == b'\n').take(place as usize - 1).map(<[u8]>::len).sum();
    Plain.statements(&text[..end]).unwrap_or_default()
}

variants! { of_table in Reader: table(&self, text: &[u8]) -> Result<Vec<Fact>, Answer>;
    SizeAt65536 => if text.len() >= MOST_TEXT { Err(refused(13, 0)) } else { Plain.table(text) },
    SizeAbove65537 => if text.len() > MOST_TEXT + 1 { Err(refused(13, 0)) } else { Plain.table(&text[..text.len().min(MOST_TEXT)]) },
    SizeHasPlace1 => if text.len() > MOST_TEXT { Err(refused(13, 1)) } else { Plain.table(text) },
    SizeIs1 => if text.len() > MOST_TEXT { Err(refused(1, 0)) } else { Plain.table(text) },
    SizeAfterLines => match Plain.statements(text) {
        Err(refusal) if text.len() > MOST_TEXT => Err(refusal),
        _ => Plain.table(text),
    },
    SizeAfterCrowd => {
        let facts = Plain.numbering(&sound_lines(text));
        if text.len() > MOST_TEXT && Plain.sorted(&facts).len() > MOST_FACTS { Err(refused(15, 0)) } else { Plain.table(text) }
    },
    SizeCut => Plain.table(&text[..text.len().min(MOST_TEXT)]),
    CrowdBeforeFacts => match Plain.table(text) {
        Err(Answer { number: 5 | 12, .. }) if crowd_in(&sound_lines(text)) => Err(refused(15, 0)),
        table => table,
    },
    CrowdBeforeLines => match Plain.table(text) {
        Err(Answer { place: 1.., .. }) if crowd_in(&sound_lines(text)) => Err(refused(15, 0)),
        table => table,
    },
    CrowdHasPlace => match Plain.table(text) {
        Err(Answer { number: 15, .. }) => Err(refused(15, MOST_FACTS as u32 + 1)),
        table => table,
    },
    FactsBeforeLaterLines => match Plain.table(text) {
        Err(refusal @ Answer { number: 13 | 14, place: 1.., .. }) => {
            Err(Plain.first_fault(&Plain.numbering(&sound_lines(text))).unwrap_or(refusal))
        }
        table => table,
    },
    PartBeforeUnknown => match Plain.table(text) {
        Err(refusal @ Answer { number: 14, place, .. }) => {
            let statement = Plain.line(line_at(text, place)).and_then(|(statement, _)| statement);
            let part = |token: &Token| Plain.vocabulary(&bytes_of(token)).is_some();
            Err(if statement.is_some_and(|[s, _, o]| part(&s) || part(&o)) { refused(5, place) } else { refusal })
        }
        table => table,
    },
    UnknownCalledBlank => Plain.table(text).map_err(|refusal| if refusal.number == 14 { refused(4, refusal.place) } else { refusal }),
    LastFactLost => Plain.table(text).map(|mut facts| {
        facts.truncate(facts.len().max(3) - 1);
        facts
    }),
}

variants! { of_import in Reader: import(&self, text: &[u8], table: &mut [u8]) -> Answer;
    ShortFirst => match Plain.import(text, table) {
        Answer { number: 1.., .. } if table.is_empty() => refused(8, 0),
        answer => answer,
    },
    ShortBeforeCrowd => match Plain.import(text, table) {
        Answer { number: 15, .. } if table.len() < TABLE_LINE * MOST_FACTS => refused(8, 0),
        answer => answer,
    },
    ShortWhereJustEnough => match Plain.import(text, table) {
        Answer { number: DONE, count, .. } if table.len() == TABLE_LINE * count as usize && count > 0 => refused(8, 0),
        answer => answer,
    },
    ShortByStatements => match Plain.statements(text) {
        Ok(statements) if Plain.table(text).is_ok() && table.len() < TABLE_LINE * statements.len() => refused(8, 0),
        _ => Plain.import(text, table),
    },
    ShortHasPlace => match Plain.import(text, table) {
        Answer { number: 8, .. } => refused(8, table.len() as u32 / 16 + 1),
        answer => answer,
    },
    WrittenAsFarAsItGoes => {
        let answer = Plain.import(text, table);
        let bytes = table_bytes(&Plain.table(text).unwrap_or_default());
        table.iter_mut().zip(bytes).filter(|_| answer.number == 8).for_each(|(to, from)| *to = from);
        answer
    },
    WrittenWhileRead => {
        let answer = Plain.import(text, table);
        let bytes = table_bytes(&Plain.sorted(&Plain.numbering(&sound_lines(text))));
        table.iter_mut().zip(bytes).filter(|_| answer.number >= 12).for_each(|(to, from)| *to = from);
        answer
    },
    BehindTableCleared => {
        let answer = Plain.import(text, table);
        let written = TABLE_LINE * answer.count as usize;
        table.iter_mut().skip(written).filter(|_| answer.number == DONE).for_each(|b| *b = 0);
        answer
    },
    EndAdded => {
        let answer = Plain.import(text, table);
        if let Some(end) = table.get_mut(TABLE_LINE * answer.count as usize).filter(|_| answer.number == DONE) {
            *end = 0;
        }
        answer
    },
    NothingWritten => Plain.import(text, &mut table.to_vec()),
    CountOfStatements => match Plain.import(text, table) {
        Answer { number: DONE, .. } => answered(DONE, Plain.statements(text).map_or(0, |all| all.len())),
        refusal => refusal,
    },
    CountOfBytes => match Plain.import(text, table) {
        answer @ Answer { number: DONE, .. } => Answer { count: TABLE_LINE as u32 * answer.count, ..answer },
        refusal => refusal,
    },
    CrowdWithCount => match Plain.import(text, table) {
        crowd @ Answer { number: 15, .. } => Answer { count: MOST_FACTS as u32 + 1, ..crowd },
        answer => answer,
    },
    RefusesEverything => match Plain.import(text, table) {
        Answer { number: DONE, .. } => refused(13, 1),
        refusal => refusal,
    },
}
