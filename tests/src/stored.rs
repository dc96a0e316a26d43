//! Inputs whose outputs stand in `stored.txt` as the library and the program gave them before a literal was barred as a class or a
//! property (document 02, Point 2). They are of two sorts. Where no literal stands where it is barred now, every answer and every
//! byte of lent memory must be as it was. Where one does, in the table or in the triple, the answer is what the independent
//! implementation lays down: refusal 12 with its place, unless a refusal that comes before it is earned, which then was given
//! before as well.
//!
//! The corpus is made here and rests on nothing else but `Random`, `line` and the numbers of the vocabulary, so that a change
//! of the other inputs leaves it alone. If it changes all the same, or answers are meant to change, `stored.txt` has to be
//! written again, with the library and the program from before that change and never with those under test:
//! `make stored LIB=OLD/libentail.a PROGRAM=OLD/factbox`.
use crate::calls::Calls;
use crate::facts::*;
use crate::generate::Random;
use crate::lines::{line, number, DERIVATION_LINE, TABLE_LINE};
use std::collections::BTreeSet;

/// A table as bytes, the row of its facts to write, and the questions put over it.
pub struct Sheet {
    pub table: Vec<u8>,
    pub row: Vec<u32>,
    pub questions: Vec<Asked>,
}

/// A question's triple, its allowance and the bytes of its output.
pub struct Asked {
    pub triple: Fact,
    pub allowance: u32,
    pub output: usize,
}

const SIZES: &[usize] = &[0, 1, 2, 3, 4, 6, 6, 9, 9, 12, 12, 16, 24, 40, 80, 200, 500, 1000, 1023, 1024];

/// All of the corpus: six sheets of each size.
pub fn corpus() -> Vec<Sheet> {
    let mut r = Random(20);
    (0..6 * SIZES.len()).map(|i| sheet(&mut r, SIZES[i % SIZES.len()])).collect()
}

/// In a quarter of the sheets a literal is barred in the table, in another quarter in questions.
fn sheet(r: &mut Random, size: usize) -> Sheet {
    let names: Vec<u32> = (6..9 + r.below(2 + size / 2) as u32).collect();
    let mut terms = [&names[..], &[40000, 59999][..r.below(3)]].concat();
    r.shuffle(&mut terms);
    let mut facts = facts(r, size, &terms, &names);
    let mut questions = Vec::new();
    let text = r.below(4);
    for kind in 0..12 {
        let mut triple = triple(r, kind % 6, &facts, &terms, &names);
        if text == 0 && r.one_in(3) {
            put_text(r, &mut triple);
        }
        if kind >= 6 {
            triple[r.pick(&[0, 2])] = r.pick(&[60000, 61234, 65535]);
        }
        let allowance = if r.one_in(2) { r.below(6) as u32 } else { r.pick(&[7, 20, 100, 1023, 1024, 1024]) };
        questions.push(asked(r, triple, allowance));
    }
    let (triple, allowance) = (refused_triple(r), r.pick(&[0, 4, 1025, u32::MAX]));
    questions.push(asked(r, triple, allowance));
    let (triple, allowance) = (r.pick(&[[6, SC, 7], [6, TYPE, 60000]]), r.pick(&[1025, 1026, 65_536, u32::MAX]));
    questions.push(asked(r, triple, allowance));
    if text == 1 && !facts.is_empty() {
        put_text_into(r, &mut facts);
    }
    if r.one_in(if text == 1 { 2 } else { 8 }) && !facts.is_empty() {
        damage(r, &mut facts);
    }
    Sheet { table: table(r, &facts), row: facts.concat(), questions }
}

/// Chains of sc and of sp facts over the names, and any facts besides.
fn facts(r: &mut Random, size: usize, terms: &[u32], names: &[u32]) -> Vec<Fact> {
    let mut facts = BTreeSet::new();
    for predicate in [SC, SP] {
        let from = r.below(names.len());
        let length = r.below(size / 2 + 1);
        let round = names.iter().cycle().skip(from);
        facts.extend(round.clone().zip(round.skip(1)).take(length).map(|(&a, &b)| [a, predicate, b]));
    }
    // without side ways the chains are the only ways
    let side_ways = r.one_in(2);
    for _ in 0..40 * size {
        if facts.len() < size {
            let name = r.pick(names);
            let predicates = if side_ways { [SC, SP, DOM, RANGE, TYPE, name] } else { [DOM, RANGE, TYPE, name, name, name] };
            let p = r.pick(&predicates);
            facts.insert([r.pick(if p < TYPE { names } else { terms }), p, r.pick(if p <= TYPE { names } else { terms })]);
        }
    }
    facts.into_iter().collect()
}

/// Puts a literal where it is barred now.
fn put_text(r: &mut Random, fact: &mut Fact) {
    if fact[1] > TYPE {
        fact[1] = 1 + r.below(5) as u32;
    }
    fact[if fact[1] == TYPE { 2 } else { r.pick(&[0, 2]) }] = r.pick(&[40000, 59999]);
}

/// Does so to one fact or to two; most are then put in order again.
fn put_text_into(r: &mut Random, facts: &mut Vec<Fact>) {
    for _ in 0..1 + r.below(2) {
        let at = r.below(facts.len());
        put_text(r, &mut facts[at]);
    }
    if !r.one_in(3) {
        facts.sort();
        facts.dedup();
    }
}

/// A term that some steps over facts with this predicate lead to.
fn follow(r: &mut Random, facts: &[Fact], predicate: u32, mut term: u32) -> u32 {
    for _ in 0..r.pick(&[1, 2, 3, 6, 40, 600]) {
        let next: Vec<u32> = facts.iter().filter(|f| (f[0], f[1]) == (term, predicate)).map(|f| f[2]).collect();
        term = if next.is_empty() { term } else { r.pick(&next) };
    }
    term
}

/// A triple of some kind that often follows: a chain, a fact lifted, a type by domain, by range or neither, or any at all.
fn triple(r: &mut Random, kind: usize, facts: &[Fact], terms: &[u32], names: &[u32]) -> Fact {
    let any = [r.pick(names), r.pick(&[SC, SP, DOM, RANGE, TYPE, names[0]]), r.pick(names)];
    let with = |test: &dyn Fn(u32) -> bool| facts.iter().copied().filter(|f| test(f[1])).collect::<Vec<Fact>>();
    let (data, fires) = (with(&is_name), with(&|p| p == DOM || p == RANGE));
    match kind {
        0 | 1 => {
            let predicate = [SC, SP][kind];
            let from = with(&|p| p == predicate).first().map_or(any[0], |f| f[0]);
            [from, predicate, follow(r, facts, predicate, from)]
        }
        2 if !data.is_empty() => {
            let [x, p, y] = r.pick(&data);
            [x, follow(r, facts, SP, p), y]
        }
        3 if !data.is_empty() && !fires.is_empty() => {
            let ([x, _, y], [_, predicate, class]) = (r.pick(&data), r.pick(&fires));
            [if predicate == DOM { x } else { y }, TYPE, follow(r, facts, SC, class)]
        }
        4 if !facts.is_empty() => r.pick(facts),
        _ if any[1] == TYPE => [r.pick(terms), TYPE, any[2]],
        _ => any,
    }
}

/// Refused with 3, 4 or 5.
fn refused_triple(r: &mut Random) -> Fact {
    let mut triple = [6, SC, 7];
    match r.below(5) {
        0 => triple[r.below(3)] = 0,
        1 => triple[r.below(3)] = r.pick(&[65_536, 65_542, 99_999, 131_078, u32::MAX]),
        2 => triple[r.pick(&[0, 2])] = 1 + r.below(5) as u32,
        3 => triple = r.pick(&[[6, 60000, 7], [65535, SC, 65535], [60000, 6, 65535]]),
        _ => triple[1] = r.pick(&[40000, 59999]),
    }
    triple
}

/// The question with an output of the length that it needs, or about that.
fn asked(r: &mut Random, triple: Fact, allowance: u32) -> Asked {
    let need = 31 * (2 * allowance.min(1025) as usize).saturating_sub(1);
    let output = match r.below(10) {
        0 => need.saturating_sub(1),
        1 | 2 => need + r.below(70),
        _ => need,
    };
    Asked { triple, allowance, output }
}

/// Puts in a fact that is refused, or one twice.
fn damage(r: &mut Random, facts: &mut Vec<Fact>) {
    let at = r.below(facts.len());
    match r.below(4) {
        0 => facts[at] = [6, SC, 0],
        1 => facts[at] = [6, SC, TYPE],
        2 => facts[at] = [6, SC, 60000],
        _ => facts.insert(at, facts[at]),
    }
}

/// The table's bytes; one table in twelve is badly laid out or torn.
fn table(r: &mut Random, facts: &[Fact]) -> Vec<u8> {
    let mut bytes: Vec<u8> = facts.iter().flat_map(|fact| line(fact)).collect();
    if !facts.is_empty() && r.one_in(12) {
        let at = r.below(bytes.len());
        match r.below(2) {
            0 => bytes.truncate(at),
            _ => bytes[at] = b'x',
        }
    }
    bytes
}

/// What lies around lent memory on either side.
const GUARD: usize = 40;

/// A digest of bytes (FNV-1a).
fn digest(bytes: impl IntoIterator<Item = u8>) -> u64 {
    bytes.into_iter().fold(0xcbf2_9ce4_8422_2325, |hash, b| (hash ^ u64::from(b)).wrapping_mul(0x0100_0000_01b3))
}

/// An answer's number, place and count; one that names a term shows that behind.
fn answer(packed: u64) -> String {
    let (number, place, count, term) = (packed & 255, packed >> 8 & 0xff_ffff, packed >> 32 & 0xffff, packed >> 48);
    let named = if term == 0 { String::new() } else { format!(" names {term}") };
    format!("{number} {place} {count}{named}")
}

/// The answer of a call that is lent so much memory, and the digest of all that memory afterwards. Gives the memory too.
fn lent<T: Copy>(
    length: usize,
    fill: fn(usize) -> T,
    bytes: fn(T) -> Vec<u8>,
    call: impl FnOnce(&mut [T]) -> u64,
) -> (String, u64, Vec<T>) {
    let mut memory: Vec<T> = (0..length + 2 * GUARD).map(fill).collect();
    let packed = call(&mut memory[GUARD..GUARD + length]);
    let digest = digest(memory.iter().flat_map(|&item| bytes(item)));
    (format!("{} {digest:016x}", answer(packed)), packed, memory)
}

fn some_byte(i: usize) -> u8 {
    ((i * 151) >> 3) as u8
}

/// What an implementation has for an input, and whether a literal stands in that where it is barred now.
pub struct Entry {
    pub line: String,
    pub barred: bool,
}

/// A question's line. Behind a yes stand the answers of the check to what was printed, and to that without its first line.
fn question_line(calls: &dyn Calls, table: &[u8], asked: &Asked) -> String {
    let call = |output: &mut [u8]| calls.factbox_question(table, asked.triple, asked.allowance, output);
    let (mut line, packed, memory) = lent(asked.output, some_byte, |b| vec![b], call);
    if packed & 255 == u64::from(YES) {
        let printed = &memory[GUARD..GUARD + DERIVATION_LINE * (2 * (packed >> 32 & 0xffff) as usize - 1)];
        let triple = filled(asked.triple, (packed >> 48) as u32);
        for derivation in [printed, &printed[DERIVATION_LINE..]] {
            line += &format!(", {}", answer(calls.factbox_check(table, triple, derivation)));
        }
    }
    line
}

/// The program's line: how many bytes it prints for a sheet, and their digest. Numbers of six digits are left out.
fn program_line(calls: &dyn Calls, sheet: &Sheet) -> String {
    let fields = sheet.questions.iter().map(|q| [q.triple[0], q.triple[1], q.triple[2], q.allowance]);
    let questions: Vec<u8> = fields.filter(|f| f.iter().all(|&n| n < 100_000)).flat_map(|f| line(&f)).collect();
    let printed = calls.factbox(&[&sheet.table[..], &line(&[0; 3]), &questions].concat());
    format!("program {} {:016x}", printed.len(), digest(printed))
}

/// The facts of the table's lines that are laid out well.
fn laid_out(table: &[u8]) -> impl Iterator<Item = Fact> + '_ {
    let field = |line: &[u8], i: usize| number(&line[5 * i..5 * i + 5]);
    table.chunks_exact(TABLE_LINE).filter_map(move |line| Some([field(line, 0)?, field(line, 1)?, field(line, 2)?]))
}

/// A sheet's entries: its questions, its table read, its row written, and the program.
fn entries_of(calls: &dyn Calls, sheet: &Sheet) -> Vec<Entry> {
    let Sheet { table, row, questions } = sheet;
    let in_table = laid_out(table).any(text_as_class);
    let in_row = row.chunks(3).any(|fact| text_as_class([fact[0], fact[1], fact[2]]));
    let in_question = |asked: &Asked| in_table || text_as_class(asked.triple);
    let question = |asked: &Asked| Entry { line: question_line(calls, table, asked), barred: in_question(asked) };
    let mut entries: Vec<Entry> = questions.iter().map(question).collect();
    let (read, ..) = lent(row.len(), |i| (i * 151) as u32, |n| n.to_le_bytes().to_vec(), |room| calls.factbox_read(table, room));
    let (written, ..) = lent(row.len() / 3 * TABLE_LINE, some_byte, |b| vec![b], |room| calls.factbox_write(row, room));
    entries.push(Entry { line: format!("read {read}"), barred: in_table });
    entries.push(Entry { line: format!("write {written}"), barred: in_row });
    entries.push(Entry { line: program_line(calls, sheet), barred: questions.iter().any(in_question) });
    entries
}

/// What an implementation has for the corpus.
pub fn entries(calls: &dyn Calls) -> Vec<Entry> {
    corpus().iter().flat_map(|sheet| entries_of(calls, sheet)).collect()
}
