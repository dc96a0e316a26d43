//! All inputs of some kinds: every byte, length, line, refusal, precedence, rule step, allowance and choice.
use crate::cases::{EXAMPLE_INPUT, T};
use crate::compare::Input;
use crate::facts::*;
use crate::fewest::members;
use crate::generate::{BYTES, NUMBERS, WIDE_NUMBERS};
use crate::lines::{derivation_bytes, line, table_bytes, Line};
use crate::parts::{Faithful, Parts};

pub fn short() -> impl Iterator<Item = Input> {
    let tables = every_byte().chain(every_length()).chain(every_line()).chain(every_row()).chain(every_literal());
    programs().chain(tables).chain(every_precedence()).chain(every_step()).chain(every_choice())
}

pub fn long() -> impl Iterator<Item = Input> {
    every_allowance().chain(lattices()).chain(every_place())
}

/// The bytes with each byte in turn replaced by each of some.
pub fn replaced(bytes: Vec<u8>, by: impl Iterator<Item = u8> + Clone) -> impl Iterator<Item = Vec<u8>> {
    (0..bytes.len()).flat_map(move |i| {
        let bytes = bytes.clone();
        by.clone().map(move |b| {
            let mut damaged = bytes.clone();
            damaged[i] = b;
            damaged
        })
    })
}

pub fn example() -> (Vec<u8>, Fact, Vec<u8>) {
    let triple = [10, 5, 12];
    let used = Faithful.chosen(&T, triple).expect("case b");
    (table_bytes(&T), triple, derivation_bytes(&Faithful.derivation(&used)))
}

/// Every value of every byte of the example's table and derivation.
fn every_byte() -> impl Iterator<Item = Input> {
    let (table, triple, derivation) = example();
    let (intact, put) = (table.clone(), derivation.clone());
    let all = 0..=255u8;
    let read = replaced(table.clone(), all.clone()).map(|table| Input::Read { table, room: 14 });
    let question =
        replaced(table.clone(), BYTES.iter().copied()).map(move |table| Input::Question { table, triple, allowance: 4, paper: 240 });
    let check = replaced(table, BYTES.iter().copied()).map(move |table| Input::Check { table, triple, derivation: put.clone() });
    let lines = replaced(derivation, all).map(move |derivation| Input::Check { table: intact.clone(), triple, derivation });
    read.chain(question).chain(check).chain(lines)
}

/// Every length of the example's table, derivation, row and lent memory, and the lengths about the largest.
fn every_length() -> impl Iterator<Item = Input> {
    let (table, triple, derivation) = example();
    let intact = table.clone();
    let full = table_bytes(&chain(1024, SC, 1).0);
    let tables = (0..=table.len()).map(move |n| table[..n].to_vec());
    let long_tables = (16_350..16_420).map(move |n| full.iter().copied().cycle().take(n).collect::<Vec<u8>>());
    let sizes = tables.chain(long_tables).flat_map(move |table| {
        let paper = 217;
        [
            Input::Read { table: table.clone(), room: 3072 },
            Input::Question { table: table.clone(), triple, allowance: 4, paper },
            Input::Check { table, triple, derivation: vec![] },
        ]
    });
    let copy = intact.clone();
    let rooms = (0..20).flat_map(move |room| [Input::Read { table: copy.clone(), room }, Input::Write { row: T.concat(), room: 4 * room }]);
    let rows = (0..=12).chain(3066..3080).map(|n| Input::Write { row: chain(1100, SC, 1).0.concat()[..n].to_vec(), room: 16_384 });
    let longest = derivation_bytes(&[Line::of_table(T[0])].repeat(2050));
    let lengths = (0..derivation.len() + 40)
        .map(move |n| derivation.iter().copied().cycle().take(n).collect())
        .chain((63_420..63_500).map(move |n| longest[..n].to_vec()));
    let checks = lengths.map(move |derivation: Vec<u8>| Input::Check { table: intact.clone(), triple, derivation });
    sizes.chain(rooms).chain(rows).chain(checks)
}

/// Terms for each kind of fault and for none.
const TERMS: [u32; 12] = [0, 1, 5, 6, 11, 12, 39999, 40000, 59999, 60000, 65535, 65536];

/// Every triple of these terms, and the same with the rest of the vocabulary as predicate.
fn triples() -> impl Iterator<Item = Fact> + Clone {
    let predicates = TERMS.into_iter().chain([SP, DOM, RANGE]);
    predicates.flat_map(|p| TERMS.into_iter().flat_map(move |s| TERMS.into_iter().map(move |o| [s, p, o])))
}

/// Every such fact behind another one: as it is, before a further bad line, with a bad line end, and with too little room. Many
/// stand in order, and many do not.
fn every_line() -> impl Iterator<Item = Input> {
    triples().flat_map(|fact| {
        let facts = [[11, 1, 12], fact, [12, 1, 1]];
        let (two, three) = (table_bytes(&facts[..2]), table_bytes(&facts));
        let bad_end = [&two[..31], b" "].concat();
        let read = [(two.clone(), 6), (three, 9), (bad_end, 6), (two, 5)].map(|(table, room)| Input::Read { table, room });
        let write = [(2, 32), (3, 48), (2, 31)].map(|(n, room)| Input::Write { row: facts[..n].concat(), room });
        read.into_iter().chain(write)
    })
}

/// Triples put with and without a gap, and with each fault.
fn put() -> impl Iterator<Item = Fact> {
    let whole = [[10, 5, 12], [10, 5, 11], [0, 40000, 60000], [10, 60000, 1], [10, 40000, 6], [1, 60000, 65536], [65546, 5, 12]];
    let gaps = [[60000, 5, 12], [10, 5, 65535], [60000, 5, 60000], [60000, 40000, 6], [3, 7, 60000]];
    let literals = [[40000, 5, 12], [10, 5, 40000], [40000, 4, 11], [40000, 1, 5], [60000, 1, 40000], [59999, 3, 65535], [40000, 2, 65536]];
    whole.into_iter().chain(gaps).chain(literals)
}

/// Every refusal of the table with every fault of the triple, of the allowance and the paper, or of the derivation.
fn every_precedence() -> impl Iterator<Item = Input> {
    let (good, _, derivation) = example();
    let mut torn = good.clone();
    torn.pop();
    let mut column = good.clone();
    column[20] = b'x';
    let faults = [[0, 1, 6], [60000, 1, 6], [40000, 40000, 6], [10, 13, 20], [40000, 1, 6], [6, 5, 40000], [40000, 1, 5]];
    let faults = faults.map(|f| table_bytes(&[T[0], f]));
    let tables: Vec<Vec<u8>> = [good, torn, column].into_iter().chain(faults).collect();
    let mut bad_form = derivation.clone();
    bad_form[31 * 6 + 30] = b' ';
    let mut bad_step = derivation.clone();
    bad_step[31 + 4] = b'1';
    let both = [&bad_step[..31 * 6], &bad_form[31 * 6..]].concat();
    let derivations = [derivation.clone(), vec![], derivation[1..].to_vec(), bad_form, bad_step, both, derivation[..31 * 5].to_vec()];
    let again = tables.clone();
    let question = tables.into_iter().flat_map(move |table| {
        put().flat_map(move |triple| {
            let table = table.clone();
            let terms = [(4, 217), (4, 216), (1025, 217), (1025, 0), (1024, 63_457), (1024, 63_456), (0, 0), (3, 155), (u32::MAX, 300)];
            terms.into_iter().map(move |(allowance, paper)| Input::Question { table: table.clone(), triple, allowance, paper })
        })
    });
    let check = again.into_iter().flat_map(move |table| {
        let derivations = derivations.clone();
        put().flat_map(move |triple| {
            let table = table.clone();
            derivations.clone().into_iter().map(move |derivation| Input::Check { table: table.clone(), triple, derivation })
        })
    });
    let every_triple = triples().flat_map(|triple| {
        let table = table_bytes(&T);
        let derivation = derivation_bytes(&[Line::of_table(triple)]);
        [Input::Question { table: table.clone(), triple, allowance: 2, paper: 93 }, Input::Check { table, triple, derivation }]
    });
    question.chain(check).chain(every_triple)
}

/// The i-th of 2,003 names in order (step 1) or in none.
fn name(i: usize, step: usize) -> u32 {
    6 + (i * step % 2003) as u32
}

/// n facts with this predicate that lead from one name to another, and the triple derived from all of them.
pub fn chain(n: usize, predicate: u32, step: usize) -> (Vec<Fact>, Fact) {
    let name = |i: usize| name(i, step);
    let mut facts: Vec<Fact> = (0..n).map(|i| [name(i), predicate, name(i + 1)]).collect();
    facts.sort();
    (facts, [name(0), predicate, name(n)])
}

/// About n facts with this predicate that lead from one name to another over layers of names, from each name to two of the
/// next layer; and the triple derived.
pub fn lattice(n: usize, predicate: u32, width: usize, step: usize) -> (Vec<Fact>, Fact) {
    let (first, last, depth) = (name(0, step), name(2002, step), (n / (2 * width)).max(1));
    let node = |layer: usize, i: usize| name(1 + layer * width + i % width, step);
    let ends = (0..width).flat_map(|i| [[first, predicate, node(0, i)], [node(depth - 1, i), predicate, last]]);
    let inner = (1..depth).flat_map(|layer| (0..2 * width).map(move |i| (layer, i)));
    let mut facts: Vec<Fact> =
        ends.chain(inner.map(|(layer, i)| [node(layer - 1, i / 2), predicate, node(layer, i.div_ceil(2))])).collect();
    facts.sort();
    (facts, [first, predicate, last])
}

/// The facts of each kind of derivation, n where a chain has as many facts as asked for, and its triple.
pub fn kinds(n: usize, chain: impl Fn(usize, u32) -> (Vec<Fact>, Fact)) -> Vec<(Vec<Fact>, Fact)> {
    let (x, y) = (39998, 40000);
    let mut kinds = vec![chain(n, SC), chain(n, SP)];
    let (classes, [class, _, last_class]) = chain(n - 1, SC);
    kinds.push(([classes, vec![[x, TYPE, class]]].concat(), [x, TYPE, last_class]));
    let (properties, [property, _, last_property]) = chain(n - 1, SP);
    kinds.push(([properties, vec![[x, property, y]]].concat(), [x, last_property, y]));
    if n >= 2 {
        let (properties, [property, _, fires]) = chain((n - 2) / 2, SP);
        let (classes, [class, _, last_class]) = chain(n - 2 - (n - 2) / 2, SC);
        for (predicate, typed) in [(DOM, x), (RANGE, y)] {
            let facts = [&properties[..], &classes, &[[x, property, y], [fires, predicate, class]]].concat();
            kinds.push((facts, [typed, TYPE, last_class]));
        }
    }
    kinds.iter_mut().for_each(|(facts, _)| facts.sort());
    kinds
}

/// Every allowance with the paper that it needs, one byte less and one more; every f, in every kind of derivation, with
/// allowances about it.
fn every_allowance() -> impl Iterator<Item = Input> {
    let papers = (0..=1025).flat_map(|allowance| {
        let need = Faithful.paper(allowance);
        let question = |paper| Input::Question { table: table_bytes(&T), triple: [10, 5, 12], allowance, paper };
        [need.saturating_sub(1), need, need + 1].map(question)
    });
    let sizes = (1..64).chain([127, 128, 129, 255, 256, 257, 511, 512, 513, 1023, 1024]);
    let all = sizes.flat_map(|n| [1, 701].into_iter().flat_map(move |step| kinds(n, |n, predicate| chain(n, predicate, step))));
    let counts = all.flat_map(|(facts, triple)| {
        let n = facts.len() as u32;
        [n - 1, n, (n + 1).min(1024)].map(|allowance| Input::Question {
            table: table_bytes(&facts),
            triple,
            allowance,
            paper: Faithful.paper(allowance),
        })
    });
    papers.chain(counts)
}

/// The facts as a table with a question, put to the call, and to the program as well where that is said.
pub fn asked(facts: &[Fact], triple: Fact, allowance: u32, program: bool) -> impl Iterator<Item = Input> {
    let (table, [s, p, o]) = (table_bytes(facts), triple);
    let input = [&table[..], &line(&[0; 3]), &line(&[s, p, o, allowance])].concat();
    let question = Input::Question { table, triple, allowance, paper: Faithful.paper(allowance) + 5 };
    [question].into_iter().chain(program.then_some(Input::Program { input }))
}

/// Facts of which many subsets have several shortest derivations of a triple: the two ways through a square of each kind of
/// chain, and a type by domain, by range and by neither.
pub fn nets([a, b, c, d, x, y]: [u32; 6]) -> Vec<(Vec<Fact>, Fact)> {
    let square = |first: [Fact; 2], p: u32, triple: Fact| {
        let rest = [[a, p, c], [a, p, d], [b, p, c], [b, p, d], [c, p, y], [d, p, y]];
        ([&first[..], &rest].concat(), triple)
    };
    let types = [[x, TYPE, c], [x, TYPE, d], [c, SC, d], [c, SC, y], [d, SC, y]];
    let properties = [[x, a, x], [x, b, x], [a, SP, b], [a, DOM, c], [a, RANGE, c], [b, DOM, d], [b, RANGE, d]];
    vec![
        square([[x, SC, a], [x, SC, b]], SC, [x, SC, y]),
        square([[x, SP, a], [x, SP, b]], SP, [x, SP, y]),
        square([[x, TYPE, a], [x, TYPE, b]], SC, [x, TYPE, y]),
        square([[x, a, c], [x, b, c]], SP, [x, y, c]),
        ([&types[..], &properties].concat(), [x, TYPE, y]),
    ]
}

/// Every subset of these facts, with the names in several orders, and the triple.
pub fn choices() -> impl Iterator<Item = (Vec<Fact>, Fact)> {
    let orders = (0..12).map(|i| {
        let mut names = [6, 7, 8, 9, 10, 11];
        names.rotate_left(i % 6);
        if i < 6 {
            names.reverse();
        }
        names
    });
    orders.flat_map(nets).flat_map(|(mut facts, triple)| {
        facts.sort();
        (0..1 << facts.len()).map(move |set| (members(&facts, set), triple))
    })
}

/// All of them as questions, and every 61st put to the program as well.
fn every_choice() -> impl Iterator<Item = Input> {
    choices().enumerate().flat_map(|(i, (facts, triple))| asked(&facts, triple, 8, i % 61 == 0))
}

/// Lattices of each kind, up to full tables.
fn lattices() -> impl Iterator<Item = Input> {
    let sizes = [16, 64, 256, 1024].into_iter().flat_map(|n| [3, 4, 7].map(|width| (n, width)));
    let shapes = sizes.flat_map(|(n, width)| [1, 701, 1301].map(|step| (n, width, step)));
    let all = shapes.flat_map(|(n, width, step)| kinds(n, |n, predicate| lattice(n, predicate, width, step)));
    all.flat_map(|(facts, triple)| asked(&facts, triple, 1024, true))
}

/// Facts of every kind, in order.
const EVERY_KIND: [Fact; 8] = [[6, 1, 7], [7, 2, 8], [8, 3, 9], [9, 4, 10], [10, 5, 11], [11, 12, 13], [40000, 5, 12], [40001, 13, 59999]];

/// The row with each number in turn replaced by each of some.
fn replaced_in(row: Vec<u32>) -> impl Iterator<Item = Vec<u32>> {
    (0..row.len()).flat_map(move |i| {
        let row = row.clone();
        NUMBERS.iter().chain(WIDE_NUMBERS).map(move |&number| {
            let mut row = row.clone();
            row[i] = number;
            row
        })
    })
}

/// Every number of the example's row, and of one with facts of every kind, replaced by each of some: written, read, and asked of.
fn every_row() -> impl Iterator<Item = Input> {
    let example = replaced_in(T.concat()).flat_map(|row| [64, 63, 80].map(|room| Input::Write { row: row.clone(), room }));
    let kinds = replaced_in(EVERY_KIND.concat()).flat_map(|row| {
        let table: Vec<u8> = row.chunks(3).filter(|fact| fact.iter().all(|&n| n < 100_000)).flat_map(line).collect();
        let read = [24, 23].map(|room| Input::Read { table: table.clone(), room });
        let ask = |triple| Input::Question { table: table.clone(), triple, allowance: 2, paper: 93 };
        let asked = [[6, SC, 7], [60000, TYPE, 12], [40000, SC, 7], [10, TYPE, 60000]].map(ask);
        [Input::Write { row, room: 128 }].into_iter().chain(read).chain(asked)
    });
    example.chain(kinds)
}

/// Two facts of a table with facts of every kind, each with a literal, vocabulary or 0 for a term, or with the fact before it again.
fn every_literal() -> impl Iterator<Item = Input> {
    let n = EVERY_KIND.len();
    let spoilt = |place: usize, how: usize| {
        let mut fact = EVERY_KIND[place];
        match how {
            0 => fact[0] = 40000,
            1 => fact[2] = 59999,
            2 => (fact[0], fact[2]) = (40000, 5),
            3 => (fact[0], fact[2]) = (1, 40000),
            4 => fact[0] = 6,
            5 => (fact[0], fact[2]) = (6, 40000),
            6 => fact[2] = 0,
            _ => fact = EVERY_KIND[place.saturating_sub(1)],
        }
        fact
    };
    let places = (0..n).flat_map(move |i| (0..n).map(move |j| (i, j)));
    places.flat_map(move |(i, j)| (0..64).map(move |how| (i, j, how % 8, how / 8))).flat_map(move |(i, j, one, other)| {
        let mut facts = EVERY_KIND;
        facts[i] = spoilt(i, one);
        facts[j] = spoilt(j, other);
        [Input::Read { table: table_bytes(&facts), room: 24 }, Input::Write { row: facts.concat(), room: 128 }]
    })
}

/// Two table lines (a P b), (c Q d) that share a term, or whose predicate is the other's term, and a line that each rule
/// in turn is said to give from them, with every predicate and all terms of theirs; and the same line as a question.
fn every_step() -> impl Iterator<Item = Input> {
    let predicates = [SC, SP, DOM, RANGE, TYPE, 10];
    let kinds = [[6, 7, 8, 9], [40006, 7, 8, 9], [6, 40007, 8, 9], [6, 7, 40008, 9], [6, 7, 8, 40009]];
    let pairs = kinds.into_iter().flat_map(move |kind| {
        predicates.into_iter().flat_map(move |p| predicates.into_iter().flat_map(move |q| (0..6).map(move |link| (kind, p, q, link))))
    });
    pairs.flat_map(|([a, b, c, d], p, q, link)| {
        let (first, second) = match link {
            0 => ([a, p, b], [b, q, d]),
            1 => ([a, p, b], [c, a, d]),
            2 => ([a, p, b], [c, q, a]),
            3 => ([a, p, b], [a, q, d]),
            4 => ([a, p, b], [c, q, b]),
            _ => ([a, p, a], [a, p, a]),
        };
        // a fact that is not well-formed stands in the derivation alone: its line is false, whatever is said to follow
        let mut facts: Vec<Fact> = [first, second].into_iter().filter(|&fact| well_formed(fact)).collect();
        let most = if facts.len() == 2 { 36 } else { 2 };
        facts.sort();
        facts.dedup();
        let table = table_bytes(&facts);
        let ends = [p, q, TYPE, b].into_iter().flat_map(move |r| [first[0], second[0], second[2]].map(|s| (r, s)));
        let conclusions = ends.flat_map(move |(r, s)| [first[2], second[2], second[0]].map(|o| [s, r, o])).take(most);
        conclusions.flat_map(move |fact| {
            let table = table.clone();
            // where the line is not well-formed, another triple is put, so that the step is tried
            let triple = if well_formed(fact) { fact } else { [6, 10, 7] };
            (0..=6).map(move |rule| {
                let table = table.clone();
                if rule == 0 {
                    return Input::Question { table, triple: fact, allowance: 2, paper: 93 };
                }
                let lines = [Line::of_table(first), Line::of_table(second), Line { rule, first: 1, second: 2, fact }];
                Input::Check { table, triple, derivation: derivation_bytes(&lines) }
            })
        })
    })
}

/// A full table with each byte in turn damaged, and a derivation of 2,047 lines with every 29th.
fn every_place() -> impl Iterator<Item = Input> {
    let (facts, triple) = chain(1024, SC, 701);
    let (table, derivation) =
        (table_bytes(&facts), derivation_bytes(&Faithful.derivation(&Faithful.chosen(&facts, triple).expect("a chain"))));
    let damaged = |bytes: &[u8], i: usize| {
        let mut bytes = bytes.to_vec();
        bytes[i] = BYTES[i % 7919 % BYTES.len()];
        bytes
    };
    let intact = table.clone();
    let read = (0..table.len()).map(move |i| Input::Read { table: damaged(&table, i), room: 3072 });
    read.chain((0..derivation.len()).step_by(29).map(move |i| Input::Check {
        table: intact.clone(),
        triple,
        derivation: damaged(&derivation, i),
    }))
}

/// The program's example damaged at every byte and cut at every length; inputs about the largest; the zero line about.
fn programs() -> impl Iterator<Item = Input> {
    let example = EXAMPLE_INPUT.as_bytes().to_vec();
    let (table, zero, question) = (table_bytes(&T), line(&[0; 3]), line(&[10, 5, 12, 4]));
    let wide = |n: usize| table_bytes(&chain(n, SC, 1).0);
    let (copy, cut) = (example.clone(), example.clone());
    let bytes = replaced(example, b"0 1x\n".iter().copied());
    let lengths = (0..=copy.len()).map(move |n| cut[..n].to_vec());
    let full = |facts: usize, questions: usize, last: &[u8]| {
        [wide(facts), line(&[0; 3]), line(&[6, 1, 9, 3]).repeat(questions), last.to_vec()].concat()
    };
    let some = [
        [&zero[..], &question, &question].concat(),
        [&table[..], &question].concat(),
        [&zero[..], &table, &zero, &question].concat(),
        [&table[..], &zero, &zero, &question].concat(),
        [&table[..], b"\n", &zero, &question].concat(),
        [&table[..], &zero, &line(&[0; 4]), &question, &line(&[10, 65536, 1, 99999]), &line(&[10, 5, 12, 1025])].concat(),
        [&table[..16], &table[..16], &zero, &question, &line(&[0, 0, 0, 0])].concat(),
        [&wide(1025), &zero[..], &question, &question].concat(),
        [&wide(1025), &zero[..]].concat(),
        [&wide(1024)[..], &zero, &line(&[6, 1, 1030, 1024]), &line(&[6, 1, 1030, 1023])].concat(),
        wide(2048),
        [&wide(2047)[..], &zero].concat(),
        [&wide(2047)[..], &zero, b"\n"].concat(),
        [&wide(2048)[..], &zero].concat(),
        full(1018, 784, b""),
        full(1018, 784, b"\n"),
        full(1024, 779, b""),
        full(1024, 780, b""),
        full(1024, 779, &question[..9]),
        [zero.clone(), question.repeat(1559)].concat(),
        [zero.clone(), question.repeat(1560)].concat(),
        vec![b' '; 32_768],
        vec![b' '; 40_000],
    ];
    bytes.chain(lengths).chain(some).map(|input| Input::Program { input })
}
