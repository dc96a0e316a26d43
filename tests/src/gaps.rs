//! Questions with a gap, and checks of what fills it: every one over small tables, ties of every kind, cycles, every size; and
//! derivations with a blank or a literal where it may not stand.
use crate::compare::Input;
use crate::facts::*;
use crate::generate::{BLANKS, BYTES, LITERALS};
use crate::lines::{derivation_bytes, line, table_bytes, Line};
use crate::parts::{Faithful, Parts};
use crate::systematic::{asked, chain, choices, example, kinds, lattice, replaced};

pub fn short() -> impl Iterator<Item = Input> {
    small_tables().chain(gapped_choices()).chain(rings()).chain(damaged()).chain(checks())
}

pub fn long() -> impl Iterator<Item = Input> {
    every_size().chain(many_fillings())
}

/// The triple with a gap at its subject and with one at its object. Which blank stands there goes round.
fn gapped([s, p, o]: Fact, round: usize) -> [Fact; 2] {
    let blank = BLANKS[round % BLANKS.len()];
    [[blank, p, o], [s, p, blank]]
}

const TERMS: [u32; 3] = [6, 7, 40000];
const PREDICATES: [u32; 7] = [SC, SP, DOM, RANGE, TYPE, 6, 7];

/// Every fact of these terms and predicates, in order.
fn small_facts() -> Vec<Fact> {
    TERMS.into_iter().flat_map(|s| PREDICATES.into_iter().flat_map(move |p| TERMS.map(|o| [s, p, o]))).collect()
}

/// Every table of at most two of these facts, and some of three, that are well-formed; and some of two that need not be.
fn tables() -> impl Iterator<Item = Vec<Fact>> {
    let (all, facts) = (small_facts(), small_facts().into_iter().filter(|&fact| well_formed(fact)).collect::<Vec<Fact>>());
    let pairs = |n: usize| (0..n).flat_map(move |i| (i + 1..n).map(move |j| vec![i, j]));
    let n = facts.len();
    let three = pairs(n).flat_map(move |pair| (pair[1] + 1..n).map(move |k| [&pair[..], &[k]].concat()));
    let places = [vec![]].into_iter().chain((0..n).map(|i| vec![i])).chain(pairs(n)).chain(three.step_by(5));
    let pairs_of_all = pairs(all.len()).step_by(17).map(move |pair| pair.into_iter().map(|i| all[i]).collect());
    places.map(move |places| places.into_iter().map(|i| facts[i]).collect()).chain(pairs_of_all)
}

/// Every question with a gap over the same terms and predicates, under an allowance of 2 or another that goes round.
fn small_questions(round: usize) -> impl Iterator<Item = (Fact, u32)> {
    let other = TERMS.into_iter().flat_map(|term| PREDICATES.map(|p| [term, p, term]));
    other.flat_map(move |triple| gapped(triple, round)).zip([2, 1, 2, 0, 3].into_iter().cycle().skip(round % 5))
}

/// Every such question over every such table; some of them put to the program, all of a table's at once.
fn small_tables() -> impl Iterator<Item = Input> {
    tables().enumerate().flat_map(|(round, facts)| {
        let table = table_bytes(&facts);
        let lines: Vec<u8> = small_questions(round).flat_map(|([s, p, o], allowance)| line(&[s, p, o, allowance])).collect();
        let program = Input::Program { input: [&table[..], &line(&[0; 3]), &lines].concat() };
        // one table in five with paper for an allowance of 1
        let paper = if round % 5 == 0 { 31 } else { 31 * 5 + 7 };
        let question = move |(triple, allowance)| Input::Question { table: table.clone(), triple, allowance, paper };
        small_questions(round).map(question).chain((round % 11 == 0).then_some(program))
    })
}

/// Some of the tables with several shortest derivations of a triple, put to the call with a gap, under allowances 2 and 8.
pub fn ties() -> impl Iterator<Item = Input> {
    let some = choices().step_by(31).enumerate();
    some.flat_map(|(i, (facts, triple))| {
        gapped(triple, i)
            .into_iter()
            .flat_map(move |gap| [2, 8].map(|allowance| asked(&facts, gap, allowance, false)).into_iter().flatten())
    })
}

/// Tables with several shortest derivations of a triple, the triple's subject or object being the gap.
fn gapped_choices() -> impl Iterator<Item = Input> {
    let some = choices().step_by(3).enumerate();
    some.flat_map(|(i, (facts, triple))| gapped(triple, i).into_iter().flat_map(move |gap| asked(&facts, gap, 8, i % 61 == 0)))
}

/// Rings of sc or of sp facts, alone and with facts that lead into them and out of them.
fn rings() -> impl Iterator<Item = Input> {
    let shapes = (1..=6).flat_map(|n| [SC, SP].into_iter().flat_map(move |p| (0..32).map(move |more| (n, p, more))));
    shapes.flat_map(|(n, p, more)| {
        let into = [[20, TYPE, 6], [20, 6, 21], [6, DOM, 30], [7, RANGE, 6], [22, p, 6]];
        let ring = (0..n).map(|i| [6 + i, p, 6 + (i + 1) % n]);
        let mut facts: Vec<Fact> = ring.chain((0..5).filter(|i| more >> i & 1 == 1).map(|i| into[i])).collect();
        facts.sort();
        let ends = (6..6 + n).chain([20, 21, 22, 30]);
        let triples = ends.flat_map(move |end| [p, TYPE, 6, 7, DOM].map(|q| [end, q, end]));
        triples.enumerate().flat_map(move |(i, triple)| {
            let facts = facts.clone();
            gapped(triple, i).into_iter().flat_map(move |gap| asked(&facts, gap, 8, false))
        })
    })
}

/// The example with a gap, and each byte of its table damaged, each length of paper, each allowance about its count.
fn damaged() -> impl Iterator<Item = Input> {
    let (table, triple, _) = example();
    gapped(triple, 0).into_iter().flat_map(move |triple| {
        let intact = table.clone();
        let bytes = replaced(table.clone(), BYTES.iter().copied());
        let tables = bytes.map(move |table| Input::Question { table, triple, allowance: 4, paper: 217 });
        let papers = (0..=240).flat_map(|paper| [3, 4].map(|allowance| (allowance, paper)));
        let allowances = (0..=8).chain([1024, 1025, 65_536, u32::MAX]).map(|allowance| (allowance, 63_457));
        let rooms =
            papers.chain(allowances).map(move |(allowance, paper)| Input::Question { table: intact.clone(), triple, allowance, paper });
        tables.chain(rooms)
    })
}

/// The example's derivation put to the check for its triple with every blank and some literals in every place, or in two; and
/// with one in each place of each of its lines.
fn checks() -> impl Iterator<Item = Input> {
    let (table, triple, derivation) = example();
    let put = move |triple: Fact, derivation: Vec<u8>| Input::Check { table: table.clone(), triple, derivation };
    let mut inputs = Vec::new();
    for &term in BLANKS.iter().chain(LITERALS) {
        for places in 1..8 {
            let triple = [0, 1, 2].map(|i| if places >> i & 1 == 1 { term } else { triple[i] });
            inputs.extend([put(triple, derivation.clone()), put(triple, vec![]), put(triple, derivation[1..].to_vec())]);
        }
        for place in 0..7 * 3 {
            let mut lines = Faithful.lines(&derivation).expect("the example");
            lines[place / 3].fact[place % 3] = term;
            let last = lines[6].fact;
            inputs.extend([triple, last].map(|triple| put(triple, derivation_bytes(&lines))));
        }
    }
    inputs.into_iter().chain(text_lines())
}

/// The example's derivation with a line more in front of it, behind it, or in its midst, where a literal stands as subject or
/// object of each predicate: marked as a table line, or as given by each rule from two lines before it. The triple put is the
/// example's, or that line's.
fn text_lines() -> impl Iterator<Item = Input> {
    let (table, triple, derivation) = example();
    let lines = Faithful.lines(&derivation).expect("the example");
    let facts = [SC, SP, DOM, RANGE, TYPE, 13].into_iter().flat_map(|p| [[40000, p, 12], [10, p, 59999], [40000, p, 40001]]);
    let places = facts.flat_map(|fact| [0, 4, 7].map(|place| (fact, place)));
    let checks = places.flat_map(move |(fact, place)| {
        let (table, lines) = (table.clone(), lines.clone());
        (0..=6).map(move |rule| {
            let mut lines = lines.clone();
            let (first, second) = if rule == 0 { (0, 0) } else { (1, 2) };
            lines.insert(place, Line { rule, first, second, fact });
            let derivation = derivation_bytes(&lines);
            [triple, fact].map(|triple| Input::Check { table: table.clone(), triple, derivation: derivation.clone() })
        })
    });
    checks.flatten()
}

/// A question with allowances about its count.
fn about_count(facts: &[Fact], triple: Fact) -> impl Iterator<Item = Input> {
    let f = Faithful.found(facts, triple).map_or(1, |(_, used)| used.len() as u32);
    let table = table_bytes(facts);
    [f - 1, f, f + 1].into_iter().map(move |allowance| Input::Question {
        table: table.clone(),
        triple,
        allowance,
        paper: Faithful.paper(allowance),
    })
}

/// Chains and lattices of each kind, up to full tables, with a gap at either end.
fn every_size() -> impl Iterator<Item = Input> {
    let sizes = (2..20).chain([63, 64, 65, 255, 256, 1024]);
    let chains = sizes.flat_map(|n| kinds(n, |n, predicate| chain(n, predicate, if n % 2 == 0 { 701 } else { 1 })));
    let shapes = [(16, 3, 1), (16, 4, 701), (64, 4, 1), (64, 7, 701), (256, 7, 1), (256, 3, 701), (1024, 4, 701)].into_iter();
    let lattices = shapes.flat_map(|(n, width, step)| kinds(n, |n, predicate| lattice(n, predicate, width, step)));
    let all = chains.chain(lattices).enumerate();
    all.flat_map(|(i, (facts, triple))| gapped(triple, i).into_iter().flat_map(move |gap| about_count(&facts, gap)))
}

/// Full tables in which a thousand terms fill the gap, names or literals: all alike, or one of them, in any place, by a fact fewer
/// than the rest.
fn many_fillings() -> impl Iterator<Item = Input> {
    let near = [None, Some(0), Some(500), Some(1010)].into_iter();
    near.flat_map(|near| [TYPE, DOM, RANGE, SP].map(|way| (near, way))).enumerate().flat_map(|(round, (near, way))| {
        let ahead = |i: u32| u32::from(near == Some(i));
        // names in one half of the tables, literals in the other
        let base = if (round / 4 + round) % 2 == 0 { 0 } else { 40_000 };
        let (subject, object) = (base + 100, base + 19_000);
        let links = [[7, SP, 8], [8, way, 20_000], [20_000, SC, 20_001], [20_001, SC, 20_002]];
        let many = (0..1011).map(|i| match way {
            TYPE => [subject + i, TYPE, 20_000 + ahead(i)],
            SP => [subject, 7 + ahead(i), subject + 1 + i],
            // the first facts have the largest objects
            _ => [subject + i, 7 + ahead(i), object - i],
        });
        let mut facts: Vec<Fact> = many.chain(links).collect();
        facts.sort();
        let triple = match way {
            SP => [subject, 8, subject + 1],
            RANGE => [object, TYPE, 20_002],
            _ => [subject, TYPE, 20_002],
        };
        gapped(triple, round).into_iter().flat_map(move |gap| about_count(&facts, gap))
    })
}
