//! What an input shows of refusal 12, so that a run can say how many inputs it had of each kind.
use crate::compare::Input;
use crate::facts::*;
use crate::lines::TABLE_LINE;
use crate::parts::{Faithful, Parts};

/// The kinds, in words.
pub const KINDS: [&str; 14] = [
    "a table that is accepted with a literal",
    "a line refused by 12 alone",
    "a line refused by 12 and not in order",
    "a line refused by 5 with a barred literal",
    "12 before another refusal on a later line",
    "another refusal before 12 on a later line",
    "a row refused by 12",
    "a question refused by 12",
    "a question with a gap refused by 12",
    "a question refused by 12 before 7",
    "a question refused by 12 before 8",
    "a check's triple refused by 12",
    "a table line of a derivation with a barred literal",
    "a rule line of a derivation with a barred literal",
];

/// What the lines of a table or the facts of a row show: the first six kinds.
fn of_lines(lines: &[Option<Fact>]) -> [bool; 6] {
    let Err(refusal) = Faithful.facts(lines.iter().copied()) else {
        let literal = lines.iter().flatten().any(|fact| fact.iter().any(|&term| is_literal(term)));
        return [literal, false, false, false, false, false];
    };
    let at = refusal.place as usize - 1;
    let earns = |i: usize| lines[i].map_or(Some(2), |fact| Faithful.fault(fact));
    let falls = at > 0 && lines[at] <= lines[at - 1];
    let barred = lines[at].is_some_and(text_as_class);
    let later = |class: bool| (at + 1..lines.len()).filter_map(earns).any(|number| (number == 12) == class);
    let class = refusal.number == 12;
    [false, class && !falls, class && falls, refusal.number == 5 && barred, class && later(false), !class && later(true)]
}

/// A table's lines; none where its size is refused.
fn lines_of(table: &[u8]) -> Vec<Option<Fact>> {
    let sound = table.len() % TABLE_LINE == 0 && table.len() <= 16_384;
    table.chunks(TABLE_LINE).filter(|_| sound).map(|line| Faithful.numbers(line)).collect()
}

/// A question that is refused by 12, with a gap, and before 7 or 8.
fn of_question(table: &[u8], triple: Fact, allowance: u32, paper: usize) -> [bool; 4] {
    let class = Faithful.sound(table, triple, allowance, paper).err() == Some(refused(12, 0));
    let gap = gap(triple).is_some();
    [class && !gap, class && gap, class && allowance > 1024, class && allowance <= 1024 && paper < Faithful.paper(allowance)]
}

/// A check's triple that is refused by 12, and a false line with a barred literal, marked as a table line or not.
fn of_check(table: &[u8], triple: Fact, derivation: &[u8]) -> [bool; 3] {
    let verdict = Faithful.judge(table, triple, derivation);
    let line = match verdict {
        Err(Answer { number: 10, place, .. }) => Faithful.lines(derivation).ok().map(|lines| lines[place as usize - 1]),
        _ => None,
    };
    let marked = |table_line: bool| line.is_some_and(|line| (line.rule == 0) == table_line && Faithful.fault(line.fact) == Some(12));
    [verdict == Err(refused(12, 0)), marked(true), marked(false)]
}

/// Which of the kinds the input shows.
pub fn shown(input: &Input) -> [bool; KINDS.len()] {
    let mut shown = [false; KINDS.len()];
    match input {
        Input::Question { table, triple, allowance, paper } => {
            shown[..6].copy_from_slice(&of_lines(&lines_of(table)));
            shown[7..11].copy_from_slice(&of_question(table, *triple, *allowance, *paper));
        }
        Input::Check { table, triple, derivation } => shown[11..].copy_from_slice(&of_check(table, *triple, derivation)),
        Input::Read { table, .. } => shown[..6].copy_from_slice(&of_lines(&lines_of(table))),
        Input::Write { row, .. } => shown[6] = Faithful.row(row).is_err_and(|refusal| refusal.number == 12),
        Input::Program { .. } => {}
    }
    shown
}
