//! The independent implementation against itself: its algorithms for f, its choice among the shortest derivations, document
//! 01's own cases, and what it prints.
use factbox_tests::chosen::{all_shortest, fillings, least_fillings, rank, several};
use factbox_tests::compare::compare;
use factbox_tests::facts::*;
use factbox_tests::fewest::{by_cost, by_subsets, closure, ways};
use factbox_tests::generate::{inputs, table, Random};
use factbox_tests::parts::{Faithful, Parts};
use factbox_tests::systematic::choices;
use factbox_tests::{cases, lines};
use std::collections::HashMap;

fn by_ways(facts: &[Fact], triple: Fact) -> Option<usize> {
    ways(facts, triple).iter().map(Vec::len).min()
}

fn by_choice(facts: &[Fact], triple: Fact) -> Option<usize> {
    Faithful.chosen(facts, triple).map(|used| used.len())
}

/// Tables of at most `most` facts, each with some triples: the one planted, derivable ones, others.
fn questions(seed: u64, tables: usize, most: usize) -> impl Iterator<Item = (Vec<Fact>, Vec<Fact>)> {
    let mut r = Random(seed);
    (0..tables).map(move |_| {
        let (mut facts, planted) = table(&mut r, most);
        facts.truncate(most);
        let derivable = closure(&Faithful, &facts);
        let mut triples: Vec<Fact> = (0..4).filter(|_| !derivable.is_empty()).map(|_| r.pick(&derivable)).collect();
        let terms: Vec<u32> = planted.into_iter().chain(facts.concat()).collect();
        triples.extend((0..3).map(|_| [r.pick(&terms), r.pick(&terms), r.pick(&terms)]).chain([planted]));
        triples.retain(|&t| well_formed(t));
        (facts, triples)
    })
}

#[test]
fn the_least_subset_and_the_uniform_cost_and_the_ways_and_the_choice_agree() {
    let mut derivable = [0; 9];
    for (facts, triples) in questions(1, 8000, 8) {
        for triple in triples {
            let f = by_subsets(&Faithful, &facts, triple);
            assert_eq!(f, by_cost(&Faithful, &facts, triple), "by cost: {triple:?} over {facts:?}");
            assert_eq!(f, by_ways(&facts, triple), "by ways: {triple:?} over {facts:?}");
            assert_eq!(f, by_choice(&facts, triple), "by choice: {triple:?} over {facts:?}");
            derivable[f.unwrap_or(0)] += 1;
        }
    }
    println!("questions over small tables by f (0: no): {derivable:?}");
    assert!(derivable[..8].iter().all(|&n| n > 20), "{derivable:?}");
}

#[test]
fn the_uniform_cost_and_the_ways_and_the_choice_agree_on_larger_tables() {
    for (facts, triples) in questions(2, 300, 40) {
        for triple in triples {
            let f = by_cost(&Faithful, &facts, triple);
            assert_eq!(f, by_ways(&facts, triple), "by ways: {triple:?} over {facts:?}");
            assert_eq!(f, by_choice(&facts, triple), "by choice: {triple:?} over {facts:?}");
        }
    }
}

#[test]
fn the_chosen_derivation_is_the_one_of_least_rank_among_all_shortest_ones() {
    let random = questions(4, 10_000, 12).flat_map(|(facts, triples)| triples.into_iter().map(move |triple| (facts.clone(), triple)));
    let mut counts = [0; 13];
    for (facts, triple) in random.chain(choices().step_by(7)) {
        let f = by_cost(&Faithful, &facts, triple);
        let all = f.map_or(vec![], |f| all_shortest(&facts, triple, f));
        counts[f.unwrap_or(0)] += usize::from(all.len() > 1);
        assert_eq!(several(&facts, triple), all.len() > 1, "{triple:?} over {facts:?}");
        let least = all.into_iter().min_by_key(|used| rank(&facts, used));
        assert_eq!(Faithful.chosen(&facts, triple), least, "{triple:?} over {facts:?}");
    }
    println!("questions over small tables with several shortest derivations, by f: {counts:?}");
    assert!(counts[2..6].iter().all(|&n| n > 20), "{counts:?}");
}

/// The triples with a gap at the subject and with one at the object.
fn with_gaps(triples: Vec<Fact>) -> impl Iterator<Item = Fact> {
    triples.into_iter().flat_map(|[s, p, o]| [[60000, p, o], [s, p, 65535]])
}

/// The triple filled with each of the table's terms, and with a name and a literal that occur nowhere.
fn filled_with_more(facts: &[Fact], triple: Fact) -> Vec<Fact> {
    fillings(facts, triple).into_iter().chain([39_990, 59_990].map(|term| filled(triple, term))).collect()
}

fn count_found(facts: &[Fact], triple: Fact) -> Option<usize> {
    Faithful.found(facts, triple).map(|(filled, used)| {
        assert!(fills(triple, filled), "{triple:?} filled to {filled:?} over {facts:?}");
        used.len()
    })
}

#[test]
fn with_a_gap_the_least_subset_and_the_uniform_cost_and_every_filling_by_itself_agree() {
    let mut counts = [0; 8];
    for (n, (facts, triples)) in questions(5, 4000, 7).enumerate() {
        for triple in with_gaps(triples) {
            let f = count_found(&facts, triple);
            assert_eq!(f, by_cost(&Faithful, &facts, triple), "by cost: {triple:?} over {facts:?}");
            assert_eq!(f, by_subsets(&Faithful, &facts, triple), "by subsets: {triple:?} over {facts:?}");
            let by_itself = |fact| by_cost(&Faithful, &facts, fact);
            assert_eq!(f, filled_with_more(&facts, triple).into_iter().filter_map(by_itself).min(), "{triple:?} over {facts:?}");
            if n % 20 == 0 {
                let each = fillings(&facts, triple).into_iter().filter_map(|fact| by_ways(&facts, fact));
                assert_eq!(f, each.min(), "by ways: {triple:?} over {facts:?}");
            }
            counts[f.unwrap_or(0)] += 1;
        }
    }
    println!("questions with a gap over small tables by f (0: no): {counts:?}");
    assert!(counts[..5].iter().all(|&n| n > 20), "{counts:?}");
}

#[test]
fn with_a_gap_the_uniform_cost_and_every_filling_agree_on_larger_tables() {
    for (facts, triples) in questions(6, 300, 40) {
        for triple in with_gaps(triples) {
            assert_eq!(count_found(&facts, triple), by_cost(&Faithful, &facts, triple), "{triple:?} over {facts:?}");
        }
    }
}

#[test]
fn with_every_term_there_is_tried_as_a_filling_the_count_is_the_same() {
    let mut follows = 0;
    for (facts, triples) in questions(19, 8, 3) {
        for triple in with_gaps(triples).take(3) {
            let f = count_found(&facts, triple);
            let every = (6..60_000).filter_map(|term| by_cost(&Faithful, &facts, filled(triple, term))).min();
            assert_eq!(f, every, "{triple:?} over {facts:?}");
            follows += usize::from(f.is_some());
        }
    }
    assert!(follows > 5, "{follows}");
}

#[test]
fn with_a_gap_the_derivation_is_the_one_of_least_rank_among_all_shortest_ones_of_all_fillings() {
    let random = questions(7, 6000, 10).map(|(facts, triples)| (facts, with_gaps(triples).collect::<Vec<Fact>>()));
    let nets = choices().step_by(23).map(|(facts, triple)| (facts, with_gaps(vec![triple]).collect()));
    let (mut ties, mut both_ways) = (0, 0);
    for (facts, triples) in random.chain(nets) {
        for triple in triples {
            let f = by_cost(&Faithful, &facts, triple);
            let all_of = |fact| all_shortest(&facts, fact, f.unwrap_or(1)).into_iter().map(move |used| (fact, used));
            let all: Vec<_> = fillings(&facts, triple).into_iter().flat_map(all_of).collect();
            let of = |way: u32| all.iter().any(|(_, used)| triple[1] == TYPE && used.iter().any(|fact| fact[1] == way));
            both_ways += usize::from(of(DOM) && of(RANGE));
            ties += usize::from(least_fillings(&facts, triple).len() > 1);
            let least = all.into_iter().min_by_key(|(_, used)| rank(&facts, used));
            assert_eq!(Faithful.found(&facts, triple), least, "{triple:?} over {facts:?}");
        }
    }
    println!("questions with a gap over small tables with several least fillings: {ties}, by domain and by range: {both_ways}");
    assert!(ties > 1000 && both_ways > 100, "{ties} {both_ways}");
}

const EVERY_CLASS: [u32; 17] = [0, 1, 2, 3, 4, 5, 6, 7, 39999, 40000, 40001, 59999, 60000, 60001, 65535, 65536, u32::MAX];

fn triples_of_every_class() -> impl Iterator<Item = Fact> {
    EVERY_CLASS.into_iter().flat_map(|s| EVERY_CLASS.into_iter().flat_map(move |p| EVERY_CLASS.map(|o| [s, p, o])))
}

/// Refusal 3 for a number that is no term; else 4 for a blank predicate or two blanks; else 5 for vocabulary at an end or a literal
/// between them; else 12 where nothing fills the gap, or where without one the triple is not well-formed.
#[test]
fn a_question_is_refused_as_document_02_says() {
    let any = |test: fn(u32) -> bool, triple: Fact| triple.into_iter().filter(|&t| test(t)).count();
    for triple in triples_of_every_class() {
        let askable = EVERY_CLASS.into_iter().any(|term| fills(triple, filled(triple, term)));
        let expected = match triple {
            _ if any(|t| t == 0 || t > 65535, triple) > 0 => Some(3),
            [_, p, _] if is_blank(p) || any(is_blank, triple) > 1 => Some(4),
            [s, p, o] if (1..6).contains(&s) || (1..6).contains(&o) || p >= 40000 => Some(5),
            _ => (!askable).then_some(12),
        };
        assert_eq!(Faithful.question_fault(triple), expected, "{triple:?}");
        let [s, p, o] = triple;
        let direct = if is_blank(s) { well_formed([6, p, o]) } else { well_formed([s, p, if is_blank(o) { 6 } else { o }]) };
        assert_eq!(expected.is_none(), direct, "{triple:?}");
    }
}

/// Refusal 12 is for what was well-formed in document 01 and is no more.
#[test]
fn a_fact_has_no_fault_exactly_when_it_is_well_formed_and_12_where_a_literal_is_barred() {
    let node = |term: u32| (6..60_000).contains(&term);
    for fact in triples_of_every_class() {
        let [s, p, o] = fact;
        let was_well_formed = node(s) && (1..40_000).contains(&p) && node(o);
        assert_eq!(Faithful.fault(fact).is_none(), well_formed(fact), "{fact:?}");
        assert_eq!(Faithful.fault(fact) == Some(12), was_well_formed && !well_formed(fact), "{fact:?}");
    }
}

/// From well-formed facts every rule writes a well-formed one, so that a search need not try what a step gives. The rules try it
/// all the same.
#[test]
fn no_step_leads_from_well_formed_facts_to_another() {
    let terms = [6, 7, 8, 40000, 40001];
    let predicates = [SC, SP, DOM, RANGE, TYPE, 6, 7, 8];
    let all = terms.into_iter().flat_map(|s| predicates.into_iter().flat_map(move |p| terms.map(|o| [s, p, o])));
    let facts: Vec<Fact> = all.filter(|&fact| well_formed(fact)).collect();
    let pairs = facts.iter().flat_map(|&first| facts.iter().map(move |&second| (first, second)));
    let mut steps = [0; 6];
    for (first, second) in pairs {
        for rule in 1..=6 {
            let given = Faithful.concludes(rule, first, second);
            assert_eq!(given, Faithful.gives(rule, first, second), "rule {rule} from {first:?} and {second:?}");
            steps[rule as usize - 1] += usize::from(given.is_some());
        }
    }
    assert!(steps.iter().all(|&n| n > 20), "{steps:?}");
}

/// Tables that are accepted have literals wherever they may stand, and derivations lead over them.
#[test]
fn many_tables_have_literals_where_they_may_stand() {
    let mut with = [0; 3];
    for (facts, _) in questions(8, 2000, 20) {
        assert_eq!(Faithful.table(&lines::table_bytes(&facts)), Ok(facts.clone()));
        let derived = closure(&Faithful, &facts);
        let has = |test: fn(Fact) -> bool| derived.iter().any(|&fact| !facts.contains(&fact) && test(fact));
        let shown =
            [has(|[s, p, _]| p == TYPE && is_literal(s)), has(|[s, p, _]| is_name(p) && is_literal(s)), has(|[_, _, o]| is_literal(o))];
        with.iter_mut().zip(shown).for_each(|(n, shows)| *n += usize::from(shows));
    }
    println!("tables from which follow a literal's type, a literal subject, a literal object: {with:?}");
    assert!(with.iter().all(|&n| n > 100), "{with:?}");
}

#[test]
fn a_field_is_read_exactly_when_it_is_one_that_is_printed() {
    let printed: HashMap<Vec<u8>, u32> = (0..100_000).map(|n| (lines::line(&[n])[..5].to_vec(), n)).collect();
    let alphabet = b" 0189x\n+";
    let others = (0..8usize.pow(5)).map(|code| (0..5).map(|i| alphabet[code >> (3 * i) & 7]).collect());
    for field in printed.keys().cloned().chain(others) {
        assert_eq!(lines::number(&field), printed.get(&field).copied(), "{field:?}");
    }
}

#[test]
fn it_has_the_papers_own_cases() {
    cases::run(&Faithful);
}

#[test]
fn it_passes_its_own_comparison() {
    for input in inputs(3, 20_000) {
        compare(&Faithful, &input).unwrap_or_else(|e| panic!("{e}\n{input}"));
    }
}
