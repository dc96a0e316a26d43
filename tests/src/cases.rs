//! The papers' own cases: document 01's twelve table questions, its further ones to run, and the program's example; questions with
//! a gap (document 02, Point 1); and literals where a class or a property belongs (Point 2), with what easily goes wrong there.
use crate::calls::Calls;
use crate::compare::{compare, Input};
use crate::facts::*;
use crate::lines::{line, table_bytes, DERIVATION_LINE};
use crate::parts::{Faithful, Parts};

/// The table of document 01's example.
pub const T: [Fact; 4] = [[10, 13, 20], [11, 1, 12], [13, 2, 14], [14, 3, 11]];

pub const EXAMPLE_INPUT: &str =
    "   10   13   20\n   11    1   12\n   13    2   14\n   14    3   11\n    0    0    0\n   10    5   12    4\n";

pub const EXAMPLE_OUTPUT: &str = "   90    0    4
    0    0    0   13    2   14
    0    0    0   10   13   20
    2    1    2   10   14   20
    0    0    0   14    3   11
    5    4    3   10    5   11
    0    0    0   11    1   12
    4    6    5   10    5   12
";

/// Name, table, triple, allowance, answer.
type Case = (&'static str, &'static [Fact], Fact, u32, Answer);

const fn answer(number: u32, place: u32, count: u32) -> Answer {
    Answer { number, place, count, filling: 0 }
}

const fn no() -> Answer {
    answer(NO, 0, 0)
}

/// A yes to a question with a gap.
const fn yes(count: u32, filling: u32) -> Answer {
    Answer { number: YES, place: 0, count, filling }
}

/// The tables of cases h and i: a literal stands as object of sp, and as subject of sp or of dom.
const H: [Fact; 3] = [[6, 7, 8], [7, 2, 40000], [40000, 2, 9]];
const I: [Fact; 3] = [[6, 7, 8], [7, 2, 40000], [40000, 3, 9]];

pub const CASES: &[Case] = &[
    ("a", &[], [10, 1, 11], 4, answer(NO, 0, 0)),
    ("b", &T, [10, 5, 12], 4, answer(YES, 0, 4)),
    ("c, 3", &T, [10, 5, 12], 3, answer(LONG, 0, 4)),
    ("c, 0", &T, [10, 5, 12], 0, answer(LONG, 0, 4)),
    ("d", &T, [10, 14, 20], 4, answer(YES, 0, 2)),
    ("e", &T, [12, 1, 12], 4, answer(NO, 0, 0)),
    ("f", &[[10, 1, 11], [11, 1, 10]], [10, 1, 10], 4, answer(YES, 0, 2)),
    ("g", &T, [13, 3, 11], 4, answer(NO, 0, 0)),
    ("h", &H, [6, 9, 8], 4, answer(12, 2, 0)),
    ("i", &I, [6, 5, 9], 4, answer(12, 2, 0)),
    ("j", &[[6, 5, 10], [6, 7, 8], [7, 3, 10]], [6, 5, 10], 4, answer(YES, 0, 1)),
    ("k", &[[10, 1, 11], [10, 1, 11]], [10, 1, 11], 4, answer(6, 2, 0)),
    ("l", &T, [5, 1, 10], 4, answer(5, 0, 0)),
    ("predicate 39999", &[], [10, 39999, 11], 4, answer(NO, 0, 0)),
    ("predicate 40000", &[], [10, 40000, 11], 4, answer(5, 0, 0)),
    ("object 59999", &[], [10, 13, 59999], 4, answer(NO, 0, 0)),
    ("object 60000, a gap", &[], [10, 1, 60000], 4, answer(NO, 0, 0)),
    ("object 65536", &[], [10, 1, 65536], 4, answer(3, 0, 0)),
    ("line, predicate 39999", &[[10, 39999, 11]], [10, 39999, 11], 4, answer(YES, 0, 1)),
    ("line, predicate 40000", &[[10, 40000, 11]], [10, 1, 11], 4, answer(5, 1, 0)),
    ("line, object 59999", &[[10, 13, 59999]], [10, 13, 59999], 4, answer(YES, 0, 1)),
    ("line, object 60000", &[[10, 1, 60000]], [10, 1, 11], 4, answer(4, 1, 0)),
    ("line, object 65536", &[[10, 1, 65536]], [10, 1, 11], 4, answer(3, 1, 0)),
];

/// A table in which what is typed by domain and what is typed by range differ.
const BOTH: [Fact; 3] = [[6, 7, 8], [7, 3, 9], [7, 4, 10]];
const CYCLE: [Fact; 2] = [[10, 1, 11], [11, 1, 10]];

/// Questions with a gap, where only one filling has the least count.
pub const GAPS: &[Case] = &[
    ("empty table", &[], [60000, 5, 12], 4, no()),
    ("some parcel is of type 12", &T, [60000, 5, 12], 4, yes(4, 10)),
    ("the last blank asks the same", &T, [65535, 5, 12], 4, yes(4, 10)),
    ("a blank between them", &T, [61234, 5, 12], 1024, yes(4, 10)),
    ("long names nothing", &T, [60000, 5, 12], 3, answer(LONG, 0, 4)),
    ("long under allowance 0", &T, [65535, 5, 12], 0, answer(LONG, 0, 4)),
    ("of some type", &T, [10, 5, 60000], 4, yes(3, 11)),
    ("of some type, the last blank", &T, [10, 5, 65535], 3, yes(3, 11)),
    ("of some type, long", &T, [10, 5, 60000], 2, answer(LONG, 0, 3)),
    ("a fact's object", &T, [10, 13, 60000], 1, yes(1, 20)),
    ("a fact's subject", &T, [60000, 13, 20], 1, yes(1, 10)),
    ("lifted, object", &T, [10, 14, 60000], 2, yes(2, 20)),
    ("lifted, subject", &T, [60000, 14, 20], 2, yes(2, 10)),
    ("below a class", &T, [60000, 1, 12], 4, yes(1, 11)),
    ("above a class", &T, [11, 1, 60000], 4, yes(1, 12)),
    ("nothing below", &T, [60000, 1, 11], 4, no()),
    ("nothing above", &T, [12, 1, 60000], 4, no()),
    ("below a property", &T, [60000, 2, 14], 4, yes(1, 13)),
    ("above a property", &T, [13, 2, 60000], 4, yes(1, 14)),
    ("some domain", &T, [14, 3, 60000], 4, yes(1, 11)),
    ("domain of some property", &T, [60000, 3, 11], 4, yes(1, 14)),
    ("no domain handed down", &T, [13, 3, 60000], 4, no()),
    ("no range", &T, [60000, 4, 11], 4, no()),
    ("nothing typed by range", &T, [20, 5, 60000], 4, no()),
    ("no under allowance 0", &T, [60000, 1, 11], 0, no()),
    ("no gap names nothing", &T, [10, 5, 12], 4, yes(4, 0)),
    ("a class within a cycle is not its own first filling", &CYCLE, [60000, 1, 10], 4, yes(1, 11)),
    ("the same from below", &CYCLE, [10, 1, 60000], 4, yes(1, 11)),
    ("the class itself, where the table has it", &[[10, 1, 10], [10, 1, 11]], [60000, 1, 10], 4, yes(1, 10)),
    ("a property within a cycle", &[[10, 2, 11], [11, 2, 10]], [60000, 2, 10], 4, yes(1, 11)),
    ("the other end by a cycle", &[[10, 5, 11], [11, 1, 10]], [60000, 5, 10], 4, yes(2, 10)),
    ("the other end by its own domain", &[[7, 3, 10], [10, 7, 10]], [10, 5, 60000], 4, yes(2, 10)),
    ("range is filled by the object", &[[6, 7, 8], [7, 4, 9]], [60000, 5, 9], 4, yes(2, 8)),
    ("range gives the subject nothing", &[[6, 7, 8], [7, 4, 9]], [6, 5, 60000], 4, no()),
    ("by domain the subject", &BOTH, [60000, 5, 9], 4, yes(2, 6)),
    ("by range the object", &BOTH, [60000, 5, 10], 4, yes(2, 8)),
    ("the subject's type", &BOTH, [6, 5, 60000], 4, yes(2, 9)),
    ("the object's type", &BOTH, [8, 5, 60000], 4, yes(2, 10)),
    ("range shorter than domain", &[[6, 7, 8], [7, 2, 9], [7, 4, 10], [9, 3, 10]], [60000, 5, 10], 4, yes(2, 8)),
    ("the smallest, not the first that fits", &[[6, 5, 10], [7, 5, 11], [10, 1, 11]], [60000, 5, 11], 4, yes(1, 7)),
    ("the smallest object", &[[6, 8, 9], [6, 10, 11], [8, 2, 10]], [6, 10, 60000], 4, yes(1, 11)),
    ("a literal by range", &[[6, 7, 40000], [7, 4, 9]], [60000, 5, 9], 4, yes(2, 40000)),
    ("a literal subject", &[[59999, 7, 6]], [60000, 7, 6], 4, yes(1, 59999)),
    ("a literal object", &[[6, 7, 59999]], [6, 7, 60000], 4, yes(1, 59999)),
    ("a literal lifted", &[[7, 2, 8], [40000, 7, 40001]], [40000, 8, 60000], 4, yes(2, 40001)),
    ("a literal of a type", &[[40000, 5, 6]], [60000, 5, 6], 4, yes(1, 40000)),
    ("a literal of a class above", &[[6, 1, 7], [40000, 5, 6]], [60000, 5, 7], 4, yes(2, 40000)),
    ("a literal's type", &[[40000, 5, 6]], [40000, 5, 60000], 4, yes(1, 6)),
    ("a literal's type by domain", &[[7, 3, 9], [40000, 7, 6]], [40000, 5, 60000], 4, yes(2, 9)),
    ("j with a gap", &[[6, 5, 10], [6, 7, 8], [7, 3, 10]], [60000, 5, 10], 4, yes(1, 6)),
    ("k with a gap", &[[10, 1, 11], [10, 1, 11]], [60000, 1, 11], 4, answer(6, 2, 0)),
    ("a blank in the table", &[[10, 1, 60000]], [10, 1, 60000], 4, answer(4, 1, 0)),
    ("59999 is no gap", &T, [59999, 5, 12], 4, no()),
    ("65536 is no gap", &T, [65536, 5, 12], 4, answer(3, 0, 0)),
    ("two equal blanks", &T, [60000, 5, 60000], 4, answer(4, 0, 0)),
    ("two blanks", &T, [60000, 5, 60001], 4, answer(4, 0, 0)),
    ("a blank predicate", &T, [10, 60000, 20], 4, answer(4, 0, 0)),
    ("a blank predicate and subject", &T, [60000, 60000, 20], 4, answer(4, 0, 0)),
    ("a blank predicate and object", &T, [10, 65535, 60000], 4, answer(4, 0, 0)),
    ("three blanks", &T, [60000, 60000, 60000], 4, answer(4, 0, 0)),
    ("3 before a blank predicate", &T, [0, 60000, 7], 4, answer(3, 0, 0)),
    ("3 with a gap, subject 0", &T, [0, 7, 60000], 4, answer(3, 0, 0)),
    ("3 with a gap, object 65536", &T, [60000, 7, 65536], 4, answer(3, 0, 0)),
    ("3 before two blanks", &T, [60000, 0, 60000], 4, answer(3, 0, 0)),
    ("5 with a gap, literal predicate", &T, [60000, 40000, 7], 4, answer(5, 0, 0)),
    ("5 with a gap, literal predicate, object", &T, [7, 59999, 60000], 4, answer(5, 0, 0)),
    ("5 with a gap, vocabulary subject", &T, [3, 7, 60000], 4, answer(5, 0, 0)),
    ("5 with a gap, vocabulary object", &T, [60000, 7, 5], 4, answer(5, 0, 0)),
    ("4 before 5", &T, [60000, 60000, 5], 4, answer(4, 0, 0)),
    ("7 with a gap", &T, [60000, 5, 12], 1025, answer(7, 0, 0)),
    ("5 before 7 with a gap", &T, [60000, 5, 1], 1025, answer(5, 0, 0)),
];

/// Questions with a gap, where several fillings have the least count: the choice that is named.
pub const TIES: &[Case] = &[
    ("two of a type", &[[6, 5, 10], [7, 5, 10]], [60000, 5, 10], 4, yes(1, 6)),
    ("two types", &[[6, 5, 10], [6, 5, 11]], [6, 5, 60000], 4, yes(1, 10)),
    ("the last fact that stands earliest", &[[6, 9, 7], [7, 8, 6], [8, 3, 30], [9, 3, 30]], [60000, 5, 30], 4, yes(2, 7)),
    ("domain before range", &[[6, 7, 8], [7, 3, 9], [7, 4, 9]], [60000, 5, 9], 4, yes(2, 6)),
    ("domain before an earlier range fact", &[[6, 7, 8], [6, 9, 8], [7, 4, 10], [9, 3, 10]], [60000, 5, 10], 4, yes(2, 6)),
    ("the class itself, where it stands first", &[[10, 1, 10], [11, 1, 10]], [60000, 1, 10], 4, yes(1, 10)),
    ("the class itself, where it stands behind", &[[10, 1, 11], [11, 1, 10], [11, 1, 11]], [60000, 1, 11], 4, yes(1, 10)),
];

/// A literal where a class or a property belongs, in tables and in questions: refusal 12, after 5 and before 6, 7 and 8.
pub const CLASSES: &[Case] = &[
    ("h under allowance 0", &H, [6, 9, 8], 0, answer(12, 2, 0)),
    ("h under allowance 1,024", &H, [6, 9, 8], 1024, answer(12, 2, 0)),
    ("h under allowance 1,025", &H, [6, 9, 8], 1025, answer(12, 2, 0)),
    ("i under allowance 0", &I, [6, 5, 9], 0, answer(12, 2, 0)),
    ("i, a question that is refused", &I, [0, 60000, 5], 1025, answer(12, 2, 0)),
    ("h with a gap", &H, [6, 9, 60000], 4, answer(12, 2, 0)),
    ("i with a gap", &I, [60000, 5, 9], 4, answer(12, 2, 0)),
    ("h with the gap that its literal would fill", &H, [7, 2, 60000], 4, answer(12, 2, 0)),
    ("line, subject of sc", &[[40000, 1, 6]], [6, 1, 7], 4, answer(12, 1, 0)),
    ("line, object of sc", &[[6, 1, 40000]], [6, 1, 60000], 4, answer(12, 1, 0)),
    ("line, subject of sp", &[[59999, 2, 6]], [6, 1, 7], 4, answer(12, 1, 0)),
    ("line, object of sp", &[[6, 2, 59999]], [6, 1, 7], 4, answer(12, 1, 0)),
    ("line, subject of dom", &[[40000, 3, 6]], [6, 1, 7], 4, answer(12, 1, 0)),
    ("line, object of dom", &[[6, 3, 40000]], [6, 1, 7], 4, answer(12, 1, 0)),
    ("line, subject of range", &[[59999, 4, 6]], [6, 1, 7], 4, answer(12, 1, 0)),
    ("line, object of range", &[[6, 4, 59999]], [6, 1, 7], 4, answer(12, 1, 0)),
    ("line, both ends of range", &[[40000, 4, 40000]], [6, 1, 7], 4, answer(12, 1, 0)),
    ("line, object of type", &[[6, 5, 40000]], [6, 5, 60000], 4, answer(12, 1, 0)),
    ("line, both ends of type", &[[40000, 5, 40001]], [6, 1, 7], 4, answer(12, 1, 0)),
    ("line, subject of type", &[[40000, 5, 6]], [40000, 5, 6], 4, answer(YES, 0, 1)),
    ("line, both ends of a name", &[[40000, 6, 59999]], [40000, 6, 59999], 4, answer(YES, 0, 1)),
    ("line, the last name", &[[39999, 1, 39999]], [39999, 1, 39999], 4, answer(YES, 0, 1)),
    ("line, 3 first", &[[40000, 1, 0]], [6, 1, 7], 4, answer(3, 1, 0)),
    ("line, 4 first", &[[40000, 1, 60000]], [6, 1, 7], 4, answer(4, 1, 0)),
    ("line, 5 first, of the object", &[[40000, 1, 5]], [6, 1, 7], 4, answer(5, 1, 0)),
    ("line, 5 first, of the subject", &[[1, 5, 40000]], [6, 1, 7], 4, answer(5, 1, 0)),
    ("line, 5 alone, a literal predicate", &[[40000, 40000, 40000]], [6, 1, 7], 4, answer(5, 1, 0)),
    ("line, behind a 6 on an earlier line", &[[6, 1, 8], [6, 1, 7], [40000, 1, 6]], [6, 1, 7], 4, answer(6, 2, 0)),
    ("line, before 6 on the same", &[[7, 1, 8], [6, 1, 40000]], [6, 1, 7], 4, answer(12, 2, 0)),
    ("line, before 6 on the same, subjects equal", &[[40000, 7, 6], [40000, 1, 6]], [6, 1, 7], 4, answer(12, 2, 0)),
    ("line, of two equal ones the first", &[[40000, 1, 6], [40000, 1, 6]], [6, 1, 7], 4, answer(12, 1, 0)),
    ("line, before a 5 on a later line", &[[6, 1, 40000], [7, 1, 5]], [6, 1, 7], 4, answer(12, 1, 0)),
    ("line, before a 3 on a later line", &[[6, 1, 40000], [7, 1, 0]], [6, 1, 7], 4, answer(12, 1, 0)),
    ("line, behind a 5 on an earlier line", &[[6, 1, 5], [6, 1, 40000]], [6, 1, 7], 4, answer(5, 1, 0)),
    ("line, before the question's 3", &[[6, 1, 40000]], [0, 1, 7], 4, answer(12, 1, 0)),
    ("question, subject of sc", &T, [40000, 1, 12], 4, answer(12, 0, 0)),
    ("question, object of sc", &T, [11, 1, 40000], 4, answer(12, 0, 0)),
    ("question, subject of sp", &T, [59999, 2, 14], 4, answer(12, 0, 0)),
    ("question, object of sp", &T, [13, 2, 59999], 4, answer(12, 0, 0)),
    ("question, subject of dom", &T, [40000, 3, 11], 4, answer(12, 0, 0)),
    ("question, object of dom", &T, [14, 3, 40000], 4, answer(12, 0, 0)),
    ("question, subject of range", &T, [40000, 4, 11], 4, answer(12, 0, 0)),
    ("question, object of range", &T, [14, 4, 40000], 4, answer(12, 0, 0)),
    ("question, object of type", &T, [10, 5, 40000], 4, answer(12, 0, 0)),
    ("question, subject of type", &T, [40000, 5, 12], 4, answer(NO, 0, 0)),
    ("question, both ends of a name", &T, [40000, 13, 59999], 4, answer(NO, 0, 0)),
    ("question, 3 first", &T, [40000, 1, 65536], 4, answer(3, 0, 0)),
    ("question, 4 first", &T, [60000, 60000, 40000], 4, answer(4, 0, 0)),
    ("question, 5 first", &T, [40000, 1, 5], 4, answer(5, 0, 0)),
    ("question, before 7", &T, [40000, 1, 12], 1025, answer(12, 0, 0)),
    ("question, a gap is no literal", &T, [60000, 1, 12], 4, yes(1, 11)),
    ("question, literal object of sc and a gap", &T, [60000, 1, 40000], 4, answer(12, 0, 0)),
    ("question, literal subject of sc and a gap", &T, [40000, 1, 60000], 4, answer(12, 0, 0)),
    ("question, literal object of sp and a gap", &T, [65535, 2, 59999], 4, answer(12, 0, 0)),
    ("question, literal subject of dom and a gap", &T, [40000, 3, 65535], 4, answer(12, 0, 0)),
    ("question, literal object of range and a gap", &T, [60000, 4, 40000], 4, answer(12, 0, 0)),
    ("question, literal object of type and a gap", &T, [60000, 5, 40000], 4, answer(12, 0, 0)),
    ("question, literal subject of type and a gap", &T, [40000, 5, 60000], 4, no()),
    ("question, literal object of a name and a gap", &T, [60000, 13, 40000], 4, no()),
    ("question, with a gap before 7", &T, [60000, 5, 40000], 1025, answer(12, 0, 0)),
    ("question, 5 alone, with a gap", &T, [60000, 40000, 40000], 1025, answer(5, 0, 0)),
];

/// The cases with a gap and with literals as questions to compare by, with more paper than they need and with less.
pub fn questions() -> impl Iterator<Item = Input> {
    let question = |&(_, facts, triple, allowance, _): &Case| {
        let need = Faithful.paper(allowance.min(1025));
        let table = table_bytes(facts);
        [need + 9, need.saturating_sub(1)].map(|paper| Input::Question { table: table.clone(), triple, allowance, paper })
    };
    TIES.iter().chain(GAPS).chain(CLASSES).flat_map(question)
}

/// Every case must have its answer, from the call and from the program, and the example its output, byte for byte. Of several
/// least fillings one that makes no choice may name any.
pub fn run(calls: &dyn Calls) {
    for case in CASES.iter().chain(GAPS).chain(CLASSES) {
        run_case(calls, case, true);
    }
    for case in TIES {
        run_case(calls, case, calls.chooses());
    }
    assert_eq!(String::from_utf8(calls.factbox(EXAMPLE_INPUT.as_bytes())).unwrap(), EXAMPLE_OUTPUT);
}

fn run_case(calls: &dyn Calls, &(name, facts, triple, allowance, expected): &Case, same_filling: bool) {
    let table = table_bytes(facts);
    let mut paper = vec![0; 31 * (2 * allowance.max(4) as usize - 1)];
    let answer = calls.factbox_question(&table, triple, allowance, &mut paper);
    let filling = if same_filling { expected.filling } else { (answer >> 48) as u32 };
    assert_eq!(answer, Answer { filling, ..expected }.packed(), "case {name}");
    if expected.number == YES {
        let printed = &paper[..DERIVATION_LINE * (2 * expected.count as usize - 1)];
        check_printed(calls, name, &table, (triple, filled(triple, filling)), printed);
    }
    let [s, p, o] = triple;
    let input = [table, line(&[0; 3]), line(&[s, p, o, allowance])].concat();
    let first = line(&[expected.number, expected.place, expected.count]);
    assert!(calls.factbox(&input).starts_with(&first), "case {name}, program");
    compare(calls, &Input::Program { input }).unwrap_or_else(|e| panic!("case {name}, program: {e}"));
}

/// The derivation ends in the filled triple, and the check accepts it for that and refuses the gap.
fn check_printed(calls: &dyn Calls, name: &str, table: &[u8], (triple, filled): (Fact, Fact), printed: &[u8]) {
    assert!(printed.ends_with(&line(&filled)), "case {name}, the last line");
    let count = printed.len() / DERIVATION_LINE / 2 + 1;
    assert_eq!(calls.factbox_check(table, filled, printed), answered(ACCEPTED, count).packed(), "case {name}, check");
    if gap(triple).is_some() {
        assert_eq!(calls.factbox_check(table, triple, printed), refused(4, 0).packed(), "case {name}, check of the gap");
    }
}
