//! Five-column fields and lines of them (document 01, "Table layout", "Derivation lines and their check").
use crate::facts::{phase, Fact, SC, SP};

pub const TABLE_LINE: usize = 16;
pub const QUESTION_LINE: usize = 21;
pub const DERIVATION_LINE: usize = 31;

/// The fields of the numbers, then byte 10.
pub fn line(numbers: &[u32]) -> Vec<u8> {
    let fields: String = numbers.iter().map(|n| format!("{n:5}")).collect();
    (fields + "\n").into_bytes()
}

/// The number that a field holds: spaces, then a decimal number with no leading zero.
pub fn number(field: &[u8]) -> Option<u32> {
    let digits = &field[field.iter().take_while(|&&b| b == b' ').count()..];
    let canonical = digits.len() == 1 || digits.first().is_some_and(|&b| b != b'0');
    let value = digits.iter().try_fold(0, |n, &b| b.is_ascii_digit().then(|| 10 * n + u32::from(b - b'0')));
    value.filter(|_| canonical)
}

/// A line of a derivation.
#[derive(Clone, Copy, PartialEq, Eq, Debug)]
pub struct Line {
    pub rule: u32,
    pub first: u32,
    pub second: u32,
    pub fact: Fact,
}

impl Line {
    pub fn of_table(fact: Fact) -> Line {
        Line { rule: 0, first: 0, second: 0, fact }
    }

    pub fn numbers(&self) -> [u32; 6] {
        let [s, p, o] = self.fact;
        [self.rule, self.first, self.second, s, p, o]
    }
}

pub fn table_bytes(facts: &[Fact]) -> Vec<u8> {
    facts.iter().flat_map(|f| line(f)).collect()
}

pub fn derivation_bytes(lines: &[Line]) -> Vec<u8> {
    lines.iter().flat_map(|l| line(&l.numbers())).collect()
}

/// Facts stand on lines 1, 2, 4, 6, ..; a rule line behind each of them from the second on joins it to the result so far.
/// The facts are a chain of sp facts, at most one data fact, at most one dom or range fact, a chain of sc facts.
pub fn in_order(lines: &[Line]) -> bool {
    let joined = |k: usize| {
        let (fact, rule) = (lines[2 * k - 1], lines[2 * k]);
        let (low, high) = (rule.first.min(rule.second), rule.first.max(rule.second));
        fact.rule == 0 && rule.rule != 0 && (low, high) == (2 * k as u32 - 1, 2 * k as u32)
    };
    let facts: Vec<Fact> = [0].into_iter().chain((1..lines.len()).step_by(2)).map(|i| lines[i].fact).collect();
    let follows = |a: Fact, b: Fact| phase(a) < phase(b) || (a[1] == b[1] && [SP, SC].contains(&a[1]) && a[2] == b[0]);
    lines.len() % 2 == 1
        && lines[0].rule == 0
        && (1..=lines.len() / 2).all(joined)
        && facts.windows(2).all(|pair| follows(pair[0], pair[1]))
}
