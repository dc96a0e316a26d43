//! One input put to an implementation, its answer and every lent byte held against the papers and the choice (`chosen`).
use crate::calls::Calls;
use crate::facts::*;
use crate::lines::{in_order, line, DERIVATION_LINE, TABLE_LINE};
use crate::parts::{Faithful, Parts};
use std::fmt;

#[derive(Clone)]
pub enum Input {
    Question { table: Vec<u8>, triple: Fact, allowance: u32, paper: usize },
    Check { table: Vec<u8>, triple: Fact, derivation: Vec<u8> },
    Read { table: Vec<u8>, room: usize },
    Write { row: Vec<u32>, room: usize },
    Program { input: Vec<u8> },
}

/// The first difference found, in words.
pub type Verdict = Result<(), String>;

/// Guard values on either side of lent memory, and what stands in it before the call.
const GUARD: usize = 48;

fn fill(len: usize, salt: usize) -> impl Iterator<Item = u32> {
    (0..len + 2 * GUARD).map(move |i| ((i + salt) as u32).wrapping_mul(0x9e37_79b1) >> 7)
}

/// Calls with lent memory of some length in the midst of guards; gives the answer and all of that memory afterwards.
pub fn lend<T: Copy>(mut memory: Vec<T>, call: impl FnOnce(&mut [T]) -> u64) -> (u64, Vec<T>) {
    let inner = GUARD..memory.len() - GUARD;
    let answer = call(&mut memory[inner]);
    (answer, memory)
}

pub fn bytes(len: usize, salt: usize) -> Vec<u8> {
    fill(len, salt).map(|n| n as u8).collect()
}

/// Puts the input to the candidate; the answer and all memory must be the papers'.
pub fn compare(candidate: &dyn Calls, input: &Input) -> Verdict {
    match input {
        Input::Question { table, triple, allowance, paper } => question(candidate, table, *triple, *allowance, *paper),
        Input::Check { table, triple, derivation } => check(candidate, table, *triple, derivation),
        Input::Read { table, room } => {
            let memory = || fill(*room, table.len()).collect::<Vec<u32>>();
            let expected = lend(memory(), |row| Faithful.read(table, row).packed());
            same(expected, lend(memory(), |row| candidate.factbox_read(table, row)))
        }
        Input::Write { row, room } => {
            let memory = || bytes(*room, row.len());
            let expected = lend(memory(), |output| Faithful.write(row, output).packed());
            same(expected, lend(memory(), |output| candidate.factbox_write(row, output)))
        }
        Input::Program { input } => program(candidate, input),
    }
}

fn same_answer(expected: u64, found: u64) -> Verdict {
    if expected == found {
        return Ok(());
    }
    let words = |r: u64| format!("{} place {} count {} filling {}", r & 255, r >> 8 & 0xff_ffff, r >> 32 & 0xffff, r >> 48);
    Err(format!("answer {} where {} is due", words(found), words(expected)))
}

pub fn same<T: PartialEq>(expected: (u64, Vec<T>), found: (u64, Vec<T>)) -> Verdict {
    same_answer(expected.0, found.0)?;
    match expected.1.iter().zip(&found.1).position(|(e, f)| e != f) {
        Some(i) => Err(format!("lent memory at {} is not as laid down", i as isize - GUARD as isize)),
        None => Ok(()),
    }
}

/// Every byte of the paper is compared. Which shortest derivation a yes prints, and which term it names where several fill the
/// gap as shortly, is the product's choice (`chosen`) and not the papers'; so what is named and printed is first judged, and
/// one that makes no such choice need not name and print the same.
fn question(candidate: &dyn Calls, table: &[u8], triple: Fact, allowance: u32, paper: usize) -> Verdict {
    let before = bytes(paper, table.len() + allowance as usize % 1000);
    let mut expected = lend(before.clone(), |paper| Faithful.question(table, triple, allowance, paper).packed());
    let found = lend(before, |paper| candidate.factbox_question(table, triple, allowance, paper));
    let yes = expected.0 & 255 == u64::from(YES);
    if yes && !candidate.chooses() {
        expected.0 = (expected.0 << 16 >> 16) | (found.0 >> 48 << 48);
    }
    same_answer(expected.0, found.0)?;
    if yes {
        let f = (expected.0 >> 32) as usize & 0xffff;
        let printed = GUARD..GUARD + DERIVATION_LINE * (2 * f - 1);
        judge_yes(candidate, table, triple, f, (found.0 >> 48) as u32, &found.1[printed.clone()])?;
        if !candidate.chooses() {
            expected.1[printed.clone()].copy_from_slice(&found.1[printed]);
        }
    }
    same(expected, found)
}

/// A yes names nothing where there is no gap, and else a term that fills it, with no fewer table facts to follow from than
/// the yes has. What is printed is a derivation of the filled triple. The check refuses the triple with the gap.
fn judge_yes(candidate: &dyn Calls, table: &[u8], triple: Fact, f: usize, term: u32, printed: &[u8]) -> Verdict {
    if gap(triple).is_none() {
        let none = if term == 0 { Ok(()) } else { Err(format!("{term} named where there is no gap")) };
        return none.and(judge_printed(candidate, table, triple, f, printed));
    }
    let filled = filled(triple, term);
    let own = Faithful.table(table).ok().and_then(|facts| Faithful.chosen(&facts, filled)).map(|used| used.len());
    if !fills(triple, filled) || own != Some(f) {
        return Err(format!("{term} named, which fills the gap with {own:?} table lines and not with {f}"));
    }
    check(candidate, table, triple, printed).map_err(|e| format!("check of the triple with its gap: {e}"))?;
    judge_printed(candidate, table, filled, f, printed)
}

fn check(candidate: &dyn Calls, table: &[u8], triple: Fact, derivation: &[u8]) -> Verdict {
    same_answer(Faithful.check(table, triple, derivation).packed(), candidate.factbox_check(table, triple, derivation))
}

/// A printed derivation has 2 f - 1 lines in the order laid down; both checks accept it with f, and both say the same of it
/// with a byte damaged.
fn judge_printed(candidate: &dyn Calls, table: &[u8], triple: Fact, f: usize, printed: &[u8]) -> Verdict {
    let verdict = Faithful.check(table, triple, printed);
    if verdict != answered(ACCEPTED, f) {
        return Err(format!("the independent check says {verdict:?} of the derivation printed"));
    }
    check(candidate, table, triple, printed).map_err(|e| format!("check of the derivation printed: {e}"))?;
    if !in_order(&Faithful.lines(printed).expect("accepted")) {
        return Err("the derivation printed is not in the order laid down".into());
    }
    for k in 1..=3 {
        let mut damaged = printed.to_vec();
        let i = (k * 7919 + table.len() + triple[0] as usize) % printed.len();
        damaged[i] = b" 0123456789\n"[(i + k) % 12];
        check(candidate, table, triple, &damaged).map_err(|e| format!("check of the derivation printed, byte {i} damaged: {e}"))?;
    }
    Ok(())
}

/// What stands behind the reply that must come next.
fn behind<'a>(output: &'a [u8], reply: &[u8]) -> Result<&'a [u8], String> {
    let found = &output[..reply.len().min(output.len())];
    output.strip_prefix(reply).ok_or_else(|| format!("{:?} printed where {:?} is due", text(found), text(reply)))
}

/// Every byte of the program's output, reply by reply, with nothing behind the last. A derivation is first judged.
fn program(candidate: &dyn Calls, input: &[u8]) -> Verdict {
    let output = candidate.factbox(input);
    let mut rest = &output[..];
    let Some((table, questions)) = Faithful.questions(input) else {
        return if output == line(&[9, 0, 0]) { Ok(()) } else { Err(format!("printed {:?}", text(&output))) };
    };
    for [s, p, o, allowance] in questions {
        let mut paper = vec![0; Faithful.paper(allowance.min(1024))];
        let Answer { number, place, count, filling } = Faithful.question(table, [s, p, o], allowance, &mut paper);
        rest = behind(rest, &line(&[number, place, count]))?;
        if number == YES {
            let f = count as usize;
            let printed = rest.get(..DERIVATION_LINE * (2 * f - 1)).ok_or("the derivation is cut short")?;
            judge_printed(&Faithful, table, filled([s, p, o], filling), f, printed)?;
            rest = behind(rest, &paper[..printed.len()])?;
        }
    }
    if rest.is_empty() {
        Ok(())
    } else {
        Err(format!("{} bytes printed behind the last reply", rest.len()))
    }
}

fn text(bytes: &[u8]) -> String {
    String::from_utf8_lossy(bytes).into_owned()
}

impl fmt::Display for Input {
    fn fmt(&self, f: &mut fmt::Formatter) -> fmt::Result {
        let show = |bytes: &[u8], width: usize| -> String {
            let lines: Vec<_> = bytes.chunks(width).take(40).map(|l| format!("  {:?}", text(l))).collect();
            format!("{} bytes\n{}", bytes.len(), lines.join("\n"))
        };
        match self {
            Input::Question { table, triple, allowance, paper } => {
                write!(f, "question {triple:?} allowance {allowance} paper {paper}, table of {}", show(table, TABLE_LINE))
            }
            Input::Check { table, triple, derivation } => {
                write!(f, "check {triple:?}, table of {}\nderivation of {}", show(table, TABLE_LINE), show(derivation, DERIVATION_LINE))
            }
            Input::Read { table, room } => write!(f, "read into {room} numbers, table of {}", show(table, TABLE_LINE)),
            Input::Write { row, room } => write!(f, "write {} numbers into {room} bytes: {:?}", row.len(), &row[..row.len().min(120)]),
            Input::Program { input } => write!(f, "program, input of {}", show(input, TABLE_LINE)),
        }
    }
}
