//! The inputs on which implementations are compared: random ones from a seed, and all of some kinds (`systematic`, `gaps`).
use crate::compare::Input;
use crate::facts::*;
use crate::lines::{derivation_bytes, line, table_bytes, Line, DERIVATION_LINE, QUESTION_LINE, TABLE_LINE};
use crate::parts::{Faithful, Parts};
use crate::{cases, gaps, systematic};
use std::collections::BTreeSet;

/// A small generator of random numbers (splitmix64).
pub struct Random(pub u64);

impl Random {
    fn next(&mut self) -> u64 {
        self.0 = self.0.wrapping_add(0x9e37_79b9_7f4a_7c15);
        let mut z = self.0;
        z = (z ^ z >> 30).wrapping_mul(0xbf58_476d_1ce4_e5b9);
        z = (z ^ z >> 27).wrapping_mul(0x94d0_49bb_1331_11eb);
        z ^ z >> 31
    }
    pub fn below(&mut self, n: usize) -> usize {
        (self.next() % n as u64) as usize
    }
    pub fn one_in(&mut self, n: usize) -> bool {
        self.below(n) == 0
    }
    pub fn pick<T: Copy>(&mut self, from: &[T]) -> T {
        from[self.below(from.len())]
    }
    pub fn shuffle<T>(&mut self, items: &mut [T]) {
        for i in (1..items.len()).rev() {
            items.swap(i, self.below(i + 1));
        }
    }
}

/// The inputs of a test: the library must pass them all, and every broken variant must fail on one.
pub fn test_inputs() -> impl Iterator<Item = Input> {
    inputs(1, 120_000)
}

/// Every input of a run: as many random ones as asked for, and all of some kinds. Those that show most of what may be wrong come
/// first.
pub fn inputs(seed: u64, random: usize) -> impl Iterator<Item = Input> {
    let first = random_inputs(seed, random / 20);
    let rest = random_inputs(seed + 1, random - random / 20);
    let early = cases::questions().chain(first).chain(systematic::short());
    early.chain(rest).chain(systematic::long()).chain(gaps::long()).chain(gaps::short())
}

/// Random inputs alone.
pub fn random_inputs(seed: u64, count: usize) -> impl Iterator<Item = Input> {
    let mut r = Random(seed);
    (0..count).map(move |_| match r.below(100) {
        0..=39 => question(&mut r),
        40..=69 => check(&mut r),
        70..=84 => read(&mut r),
        85..=97 => write(&mut r),
        _ => program(&mut r),
    })
}

// Numbers and bytes at which something changes.
pub const NUMBERS: &[u32] = &[0, 1, 2, 3, 4, 5, 6, 7, 10, 39999, 40000, 40001, 59999, 60000, 65535, 65536, 65546, 99999];
pub const LITERALS: &[u32] = &[40000, 40001, 59999];
pub const BLANKS: &[u32] = &[60000, 60001, 65535];
pub const WIDE_NUMBERS: &[u32] = &[100_000, 65_536 + 10, 131_072 + 13, 1 << 24 | 10, u32::MAX - 1, u32::MAX];
pub const BYTES: &[u8] = b" 0123456789\n\t\r+-.ax/:\0\x80\xff";

// Random tables and triples

/// The table's facts, about `most` at most, all well-formed, and a triple that often follows from them.
pub fn table(r: &mut Random, most: usize) -> (Vec<Fact>, Fact) {
    let size = r.below(most + 1);
    let mut names: Vec<u32> = (6..9 + r.below(2 + size / 2) as u32).chain([39999]).collect();
    r.shuffle(&mut names);
    let mut terms = [&names, &LITERALS[..r.below(4)]].concat();
    r.shuffle(&mut terms);
    let mut facts = BTreeSet::new();
    let longest = if r.one_in(2) { size / 2 } else { size.min(4) };
    let triple = if r.one_in(4) { plant_net(r, &mut facts) } else { plant(r, &terms, &names, longest, &mut facts) };
    for _ in 0..2 * size {
        if facts.len() < size {
            facts.insert(random_fact(r, &terms, &names));
        }
    }
    (facts.into_iter().take(1024).collect(), triple)
}

fn random_fact(r: &mut Random, terms: &[u32], names: &[u32]) -> Fact {
    let name = r.pick(names);
    match r.pick(&[SC, SC, SC, SP, SP, SP, DOM, RANGE, TYPE, TYPE, name, name, name]) {
        TYPE => [r.pick(terms), TYPE, r.pick(names)],
        p if is_name(p) => [r.pick(terms), p, r.pick(terms)],
        p => [r.pick(names), p, r.pick(names)],
    }
}

/// Puts most facts of a net into the table; gives its triple.
fn plant_net(r: &mut Random, facts: &mut BTreeSet<Fact>) -> Fact {
    let mut names = [6, 7, 8, 9, 10, 39999];
    r.shuffle(&mut names);
    let (net, triple) = systematic::nets(names).swap_remove(r.pick(&[0, 1, 2, 3, 4, 4, 4]));
    facts.extend(net.into_iter().filter(|_| !r.one_in(6)));
    triple
}

/// Puts the facts of one kind of derivation into the table, with chains that have side ways; gives the triple derived.
fn plant(r: &mut Random, terms: &[u32], names: &[u32], longest: usize, facts: &mut BTreeSet<Fact>) -> Fact {
    let (x, y, class, q) = (r.pick(terms), r.pick(terms), r.pick(names), r.pick(names));
    let (kind, width) = (r.below(6), r.pick(&[1, 1, 2, 3, 4]));
    let longest = longest.min(1000 / (width * width));
    let (n, m) = (r.below(longest + 1), r.below(longest + 1));
    let mut round = names.iter().copied().cycle().skip(r.below(names.len()));
    let mut chain = |predicate: u32, from: u32, n: usize, facts: &mut BTreeSet<Fact>| {
        let mut layer = vec![from];
        for _ in 0..n {
            let next: Vec<u32> = round.by_ref().take(width).collect();
            let sideways = layer.iter().flat_map(|&a| next.iter().map(move |&b| [a, predicate, b]));
            facts.extend(sideways.filter(|&[a, _, b]| (a, b) == (layer[0], next[0]) || r.one_in(2)));
            layer = next;
        }
        layer[0]
    };
    match kind {
        0 => [q, SP, chain(SP, q, n + 1, facts)],
        1 => [q, SC, chain(SC, q, n + 1, facts)],
        2 => {
            facts.insert([x, TYPE, class]);
            [x, TYPE, chain(SC, class, n, facts)]
        }
        kind => {
            facts.insert([x, q, y]);
            let property = chain(SP, q, n, facts);
            if kind == 3 {
                return [x, property, y];
            }
            facts.insert([property, if kind == 4 { DOM } else { RANGE }, class]);
            [if kind == 4 { x } else { y }, TYPE, chain(SC, class, m, facts)]
        }
    }
}

fn any_table(r: &mut Random) -> (Vec<Fact>, Fact) {
    let most = r.pick(&[3, 3, 6, 6, 6, 10, 10, 10, 24, 24, 60, 60]);
    let most = if r.one_in(40) { 1024 } else { most };
    table(r, most)
}

/// The triple, or one with a blank or two, or another of the table's terms, or one with numbers that may be refused, or with a
/// literal where a class or a property belongs, with a gap or without.
fn any_triple(r: &mut Random, facts: &[Fact], mut triple: Fact) -> Fact {
    match r.below(13) {
        0..=4 => {}
        7..=9 => {
            triple[r.pick(&[0, 0, 2, 2])] = r.pick(BLANKS);
            if r.one_in(10) {
                triple[r.below(3)] = r.pick(BLANKS);
            }
        }
        5 | 6 if !facts.is_empty() => {
            let fact = r.pick(facts);
            triple[r.below(3)] = r.pick(&fact);
        }
        10 => {
            let place = put_text(r, &mut triple);
            if r.one_in(2) {
                triple[2 - place] = r.pick(BLANKS);
            }
        }
        _ => {
            for _ in 0..1 + r.below(2) {
                triple[r.below(3)] = if r.one_in(3) { r.pick(WIDE_NUMBERS) } else { r.pick(NUMBERS) };
            }
        }
    }
    triple
}

// Damage

/// Puts a literal where a class or a property belongs, at times with vocabulary at the other end; gives the literal's place.
fn put_text(r: &mut Random, fact: &mut Fact) -> usize {
    if !is_vocabulary(fact[1]) {
        fact[1] = 1 + r.below(5) as u32;
    }
    let place = if fact[1] == TYPE { 2 } else { r.pick(&[0, 2]) };
    fact[place] = r.pick(LITERALS);
    if r.one_in(5) {
        fact[2 - place] = 1 + r.below(5) as u32;
    }
    place
}

/// Does so to a fact or two. One half of the tables is then put in order again; in the other such a fact often falls below the
/// one before it.
fn put_text_into(r: &mut Random, facts: &mut [Fact]) {
    let in_order = r.one_in(2);
    for _ in 0..if facts.is_empty() { 0 } else { 1 + r.below(2) } {
        let i = r.below(facts.len());
        facts[i] = facts[if in_order { i } else { r.below(i + 1) }];
        put_text(r, &mut facts[i]);
    }
    if in_order {
        facts.sort();
    }
}

/// Damages bytes laid out in lines of a width.
fn damage(r: &mut Random, bytes: &mut Vec<u8>, width: usize) {
    let (at, lines) = (r.below(bytes.len() + 1), bytes.len() / width);
    match r.below(9) {
        0 => bytes.insert(at, r.pick(BYTES)),
        1 => bytes.truncate(at),
        2 => bytes.extend(line(&vec![r.pick(NUMBERS); width / 5])),
        _ if lines == 0 => bytes.push(r.pick(BYTES)),
        3 => drop(bytes.remove(at.min(bytes.len() - 1))),
        4 => {
            let (i, j) = (width * r.below(lines), width * r.below(lines));
            let copy = bytes[i..i + width].to_vec();
            bytes[j..j + width].copy_from_slice(&copy);
        }
        5 | 6 => {
            let i = width * r.below(lines) + 5 * r.below(width / 5);
            bytes[i..i + 5].copy_from_slice(&line(&[r.pick(NUMBERS)])[..5]);
        }
        _ => {
            let i = at.min(bytes.len() - 1);
            bytes[i] = r.pick(BYTES);
        }
    }
}

/// The table's bytes, damaged in one of eight; one in ten has a literal where a class or a property belongs.
fn any_table_bytes(r: &mut Random, facts: &[Fact]) -> Vec<u8> {
    let mut facts = facts.to_vec();
    if r.one_in(10) {
        put_text_into(r, &mut facts);
    }
    let mut bytes = table_bytes(&facts);
    if r.one_in(8) {
        (0..1 + r.below(2)).for_each(|_| damage(r, &mut bytes, TABLE_LINE));
    }
    bytes
}

/// About the length that is needed.
pub fn any_room(r: &mut Random, need: usize) -> usize {
    match r.below(8) {
        0 => need.saturating_sub(1),
        1 => need + r.below(100),
        2 => r.below(need + 1),
        3 => need + 1,
        _ => need,
    }
}

// Random inputs, one function a call

fn any_allowance(r: &mut Random, facts: &[Fact], triple: Fact) -> u32 {
    // of a triple that is refused no count is known: the allowance may be refused too
    if Faithful.question_fault(triple).is_some() {
        return r.pick(&[0, 1, 4, 4, 1024, 1025, 1 << 16, u32::MAX]);
    }
    let f = Faithful.found(facts, triple).map_or(1, |(_, used)| used.len()) as u32;
    match r.below(10) {
        0 | 1 => f - 1,
        2 => f + 1,
        3 => r.below(1030) as u32,
        4 => r.pick(&[0, 1, 1023, 1024, 1025, 1 << 16, 1 << 31, u32::MAX]),
        _ => f,
    }
}

fn question(r: &mut Random) -> Input {
    let (facts, triple) = any_table(r);
    let triple = any_triple(r, &facts, triple);
    let allowance = any_allowance(r, &facts, triple);
    let paper = any_room(r, Faithful.paper(allowance.min(1025)));
    Input::Question { table: any_table_bytes(r, &facts), triple, allowance, paper }
}

/// Lines one after another, each a table line or a rule's result from any two before it.
fn forward(r: &mut Random, facts: &[Fact], count: usize) -> Vec<Line> {
    let mut lines: Vec<Line> = Vec::new();
    while lines.len() < count {
        let mut next = Line::of_table(r.pick(facts));
        for _ in 0..if lines.is_empty() || r.one_in(3) { 0 } else { 24 } {
            let (first, second, rule) = (r.below(lines.len()), r.below(lines.len()), 1 + r.below(6) as u32);
            if let Some(fact) = Faithful.gives(rule, lines[first].fact, lines[second].fact) {
                next = Line { rule, first: first as u32 + 1, second: second as u32 + 1, fact };
                break;
            }
        }
        lines.push(next);
    }
    lines
}

/// Damages a derivation in its numbers and lines; its layout stays.
fn damage_lines(r: &mut Random, lines: &mut Vec<Line>, facts: &[Fact]) {
    let (count, i, j) = (lines.len(), r.below(lines.len()), r.below(lines.len()));
    let number = r.pick(NUMBERS);
    let term = facts.get(r.below(facts.len() + 1)).map_or(number, |&f| r.pick(&f));
    let l = &mut lines[i];
    match r.below(13) {
        0 => l.rule = r.below(8) as u32,
        1 => l.rule = number,
        2 => (l.first, l.second) = (l.second, l.first),
        3 => l.first = r.below(i + 3) as u32,
        4 => l.second = r.below(i + 3) as u32,
        5 => *(if r.one_in(2) { &mut l.first } else { &mut l.second }) = number,
        6 => l.fact[r.below(3)] = term,
        7 => l.fact[r.below(3)] = number,
        8 => lines.swap(i, j),
        9 => lines.insert(i, lines[j]),
        10 if count > 1 => drop(lines.remove(i)),
        11 => {
            put_text(r, &mut l.fact);
        }
        _ => l.rule = 0,
    }
}

fn check(r: &mut Random) -> Input {
    let (facts, target) = any_table(r);
    let mut lines = match Faithful.chosen(&facts, target) {
        Some(used) if r.one_in(2) => Faithful.derivation(&used),
        _ if facts.is_empty() => vec![Line::of_table(target)],
        _ => {
            let count = if r.one_in(200) { 2040 + r.below(12) } else { 1 + r.below(14) };
            forward(r, &facts, count)
        }
    };
    let end = lines[lines.len() - 1].fact;
    if r.one_in(2) {
        (0..1 + r.below(2)).for_each(|_| damage_lines(r, &mut lines, &facts));
    }
    let triple = match r.below(8) {
        0 | 1 => any_triple(r, &facts, target),
        2 | 3 => lines[lines.len() - 1].fact,
        _ => end,
    };
    let mut derivation = derivation_bytes(&lines);
    if r.one_in(6) {
        (0..1 + r.below(2)).for_each(|_| damage(r, &mut derivation, DERIVATION_LINE));
    }
    Input::Check { table: any_table_bytes(r, &facts), triple, derivation }
}

/// A table's facts, one in four with a literal where a class or a property belongs.
fn any_facts(r: &mut Random) -> Vec<Fact> {
    let (mut facts, _) = any_table(r);
    if r.one_in(4) {
        put_text_into(r, &mut facts);
    }
    facts
}

fn read(r: &mut Random) -> Input {
    let facts = any_facts(r);
    let mut table = table_bytes(&facts);
    (0..r.below(3)).for_each(|_| damage(r, &mut table, TABLE_LINE));
    Input::Read { table, room: any_room(r, 3 * facts.len()) }
}

fn write(r: &mut Random) -> Input {
    let facts = any_facts(r);
    let mut row = facts.concat();
    for _ in 0..r.below(3) {
        let at = r.below(row.len() + 1);
        match r.below(5) {
            0 => row.truncate(at),
            1 => row.insert(at, r.pick(NUMBERS)),
            2 if row.len() >= 3 => row.extend_from_within(row.len() - 3..),
            _ if at < row.len() => row[at] = if r.one_in(3) { r.pick(WIDE_NUMBERS) } else { r.pick(NUMBERS) },
            _ => {}
        }
    }
    Input::Write { row, room: any_room(r, TABLE_LINE * facts.len()) }
}

fn program(r: &mut Random) -> Input {
    let (facts, target) = any_table(r);
    let mut input = [any_table_bytes(r, &facts), line(&[0; 3])].concat();
    for _ in 0..r.below(6) {
        let triple = any_triple(r, &facts, target);
        let [s, p, o] = triple.map(|t| t % 100_000);
        input.extend(line(&[s, p, o, any_allowance(r, &facts, triple) % 100_000]));
    }
    if r.one_in(4) {
        let width = r.pick(&[TABLE_LINE, QUESTION_LINE]);
        damage(r, &mut input, width);
    }
    Input::Program { input }
}
