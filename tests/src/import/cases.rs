//! The cases of `crates/import_cases`: texts whose answers and tables are written by hand, in `tools/cases/import_cases.py`, which
//! says what each is for.
use super::compare::Import;
use crate::facts::Answer;
use crate::lines::{number, TABLE_LINE};

const CASES: &[u8] = include_bytes!("../../../crates/import_cases/stdin");
const ANSWERS: &[u8] = include_bytes!("../../../crates/import_cases/stdout");

/// A case's first line, and the line of its answer: four fields and byte 10.
const LINE: usize = 21;

/// A text, the bytes lent, the answer, and the table where one is written.
pub struct Case {
    pub import: Import,
    pub answer: Answer,
    pub table: Vec<u8>,
}

/// The four numbers of a line, and what stands behind it.
fn numbers(rest: &[u8]) -> ([u32; 4], &[u8]) {
    let field = |i: usize| number(&rest[5 * i..5 * i + 5]).expect("a field");
    assert_eq!(rest[LINE - 1], b'\n', "the end of a line");
    ([0, 1, 2, 3].map(field), &rest[LINE..])
}

/// Every case.
pub fn cases() -> Vec<Case> {
    let (mut cases, mut inputs, mut outputs) = (vec![], CASES, ANSWERS);
    while !inputs.is_empty() {
        let ([fill, times, length, room], behind) = numbers(inputs);
        let (text, behind) = behind.split_at(length as usize);
        let ([number, place, count, kept], table) = numbers(outputs);
        assert_eq!(kept, 1, "memory is as it must be");
        let (table, rest) = table.split_at(TABLE_LINE * count as usize);
        let text = [&vec![fill as u8; times as usize][..], text].concat();
        let answer = Answer { number, place, count, filling: 0 };
        cases.push(Case { import: Import { text, room: room as usize }, answer, table: table.to_vec() });
        (inputs, outputs) = (behind, rest);
    }
    assert!(outputs.is_empty(), "an answer for each case");
    cases
}

/// The texts of the cases, with the memory lent for each.
pub fn imports() -> impl Iterator<Item = Import> {
    cases().into_iter().map(|case| case.import)
}
