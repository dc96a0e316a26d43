//! Broken implementations, each wrong in one part, among them the jams that document 01 expects and what easily goes wrong
//! with a gap and with a literal where a class or a property belongs. The comparison must catch every one of them; where it does
//! not, it is too weak.
use crate::calls::Calls;
use crate::chosen::{all_shortest, chosen_by_range, chosen_upward, fillings, least_fillings, rank};
use crate::facts::*;
use crate::fewest;
use crate::lines::{self, line, table_bytes, Line, DERIVATION_LINE, QUESTION_LINE, TABLE_LINE};
use crate::parts::{Faithful, Parts};
use std::cmp::Reverse;
use std::collections::BTreeSet;
use std::sync::atomic::{AtomicUsize, Ordering::Relaxed};

pub type Named = (String, Box<dyn Calls>);

/// Variants that try everything are faithful on tables of more facts.
const SMALL: usize = 12;

/// Variants that replace one and the same method of a trait: its signature, then a name and a body for each; and the list of
/// them. They are of one type, with the body in it, so that all the other methods are compiled once.
macro_rules! variants {
    ($list:ident: $($rest:tt)+) => {
        variants! { $list in Parts: $($rest)+ }
    };
    ($list:ident in $trait:ident: $method:ident<$life:lifetime> $($rest:tt)+) => {
        variants! { @list $list $trait $method [$life] $($rest)+ }
    };
    ($list:ident in $trait:ident: $method:ident $($rest:tt)+) => {
        variants! { @list $list $trait $method [] $($rest)+ }
    };
    (@list $list:ident $trait:ident $method:ident $life:tt $arguments:tt -> $result:ty; $($name:ident => $body:expr,)+) => {
        fn $list() -> Vec<Named> {
            variants!(@type $trait $method $life $arguments -> $result);
            vec![$((stringify!($name).to_string(), Box::new(variants!(@of $arguments $body)))),+]
        }
    };
    (@type $trait:ident $method:ident [$($life:lifetime)?] (&self, $($argument:ident: $type:ty),+) -> $result:ty) => {
        struct Replaced($(for<$life>)? fn($($type),+) -> $result);
        impl $trait for Replaced {
            fn $method$(<$life>)?(&self, $($argument: $type),+) -> $result {
                (self.0)($($argument),+)
            }
        }
    };
    (@of (&self, $($argument:ident: $type:ty),+) $body:expr) => {
        Replaced(|$($argument),+| {
            // not every body uses each of them
            $(let _ = &$argument;)+
            $body
        })
    };
}
pub(crate) use variants;

/// Variants that choose otherwise among the fillings of the least count, which the papers leave free.
pub fn free_choices() -> Vec<Named> {
    of_least()
}

/// Says of each variant, two at a time, which input catches it and how; gives how many are caught by none.
pub fn missed(names: &[String], caught: impl Fn(&str) -> Option<(usize, String)> + Sync) -> usize {
    let (next, missed) = (AtomicUsize::new(0), AtomicUsize::new(0));
    let work = || {
        while let Some(name) = names.get(next.fetch_add(1, Relaxed)) {
            match caught(name) {
                Some((n, difference)) => println!("{name}: caught by input {n}: {}", difference.lines().next().unwrap_or_default()),
                None => {
                    println!("{name}: NOT CAUGHT");
                    missed.fetch_add(1, Relaxed);
                }
            }
        }
    };
    std::thread::scope(|scope| (0..2).for_each(|_| drop(scope.spawn(work))));
    missed.into_inner()
}

/// Every variant with its name.
pub fn all() -> Vec<Named> {
    let single: Vec<Named> =
        vec![("LineEndIgnored".into(), Box::new(LineEndIgnored)), ("GapInTablePasses".into(), Box::new(GapInTablePasses))];
    let question = [of_chosen(), of_choice(), of_within(), of_question(), of_sound(), of_join(), of_derivation()];
    let check = [in_check(), of_table_lines(), of_judge(), of_ends_in(), of_premise(), of_justified(), of_in_table()];
    let table = [of_place(), of_above(), of_number(), of_fault(), of_table(), of_read(), of_row(), of_write(), single];
    let program = [of_divider(), of_program()];
    let gaps = [of_filling(), of_least(), of_named(), of_question_fault(), of_gapped_question(), of_gapped_check()];
    let class =
        [of_class(), of_asked_class(), of_class_and_limits(), of_class_in_check(), of_text_in_table(), of_text_line(), of_text_row()];
    let class = class.into_iter().chain([of_lines_with_class(), of_literal_filling()]);
    let all = question.into_iter().chain([in_search()]).chain(gaps).chain(class).chain(check).chain(table).chain(program);
    all.flatten().collect()
}

// Rules

/// What a rule gives from two facts.
type Rules = fn(u32, Fact, Fact) -> Option<Fact>;

/// Broken rules, each with its name.
const RULES: &[(&str, Rules)] = &[
    ("DomainHandedDown", |rule, p, q| match (rule, p, q) {
        (1, [a, SP, b], [b2, DOM, c]) if b == b2 => Some([a, DOM, c]),
        _ => Faithful.gives(rule, p, q),
    }),
    ("DomainHandedUp", |rule, p, q| match (rule, p, q) {
        (3, [a, DOM, b], [b2, SC, c]) if b == b2 => Some([a, DOM, c]),
        _ => Faithful.gives(rule, p, q),
    }),
    ("RangeTypesSubject", |rule, p, q| match (rule, p, q) {
        (6, [a, RANGE, b], [x, a2, _]) if a == a2 => Some([x, TYPE, b]),
        _ => Faithful.gives(rule, p, q),
    }),
    ("LiteralHasNoType", |rule, p, q| Faithful.gives(rule, p, q).filter(|given| given[1] != TYPE || !is_literal(given[0]))),
    ("SubpropertyNotTransitive", |rule, p, q| Faithful.gives(rule, p, q).filter(|_| rule != 1)),
    ("NoCycles", |rule, p, q| Faithful.gives(rule, p, q).filter(|given| given[1] > SP || given[0] != given[2])),
    ("PremisesEitherWay", |rule, p, q| Faithful.gives(rule, p, q).or_else(|| Faithful.gives(rule, q, p))),
];

/// A check by broken rules, with a search by the true ones.
struct InCheck(Rules);
impl Parts for InCheck {
    fn gives(&self, rule: u32, p: Fact, q: Fact) -> Option<Fact> {
        (self.0)(rule, p, q)
    }
}

fn in_check() -> Vec<Named> {
    RULES.iter().map(|&(name, rules)| (name.to_string(), Box::new(InCheck(rules)) as Box<dyn Calls>)).collect()
}

/// A search by broken rules, with a check by the true ones.
struct InSearch(Rules);
impl Parts for InSearch {
    /// On tables small enough: f by the broken rules, with a derivation of as many facts or with nothing in particular.
    fn chosen(&self, facts: &[Fact], triple: Fact) -> Option<Vec<Fact>> {
        let faithful = Faithful.chosen(facts, triple);
        if facts.len() > SMALL {
            return faithful;
        }
        let f = fewest::by_cost(&InCheck(self.0), facts, triple)?;
        Some(faithful.filter(|used| used.len() == f).unwrap_or(vec![triple; f]))
    }
}

fn in_search() -> Vec<Named> {
    // a search puts the premises in their order itself
    let rules = RULES.iter().filter(|(name, _)| *name != "PremisesEitherWay");
    rules.map(|&(name, rules)| (format!("{name} in the search"), Box::new(InSearch(rules)) as Box<dyn Calls>)).collect()
}

// The question

variants! { of_chosen: chosen(&self, facts: &[Fact], triple: Fact) -> Option<Vec<Fact>>;
    ReflexiveSubclass => Faithful.chosen(facts, triple).or((triple[1] == SC && triple[0] == triple[2]).then(|| vec![triple])),
    FirstFoundForShortest => fewest::ways(facts, triple).into_iter().next(),
    LongestWay => fewest::ways(facts, triple).into_iter().max_by_key(Vec::len),
    DomainOnly => {
        let by_range = |used: &Vec<Fact>| triple[1] == TYPE && used.iter().any(|f| f[1] == RANGE);
        fewest::ways(facts, triple).into_iter().filter(|used| !by_range(used)).min_by_key(Vec::len)
    },
    DepthBound => Faithful.chosen(facts, triple).filter(|used| used.len() < 1024),
    LastFactUnseen => Faithful.chosen(&facts[..facts.len().min(1023)], triple),
    DataFactFirst => Faithful.chosen(facts, triple).map(|mut used| {
        used.sort_by_key(|&f| !is_data(f));
        used
    }),
    NoToEverything => Faithful.chosen(facts, triple).filter(|_| false),
}

// The choice among the shortest derivations

/// The derivation that an upside-down table would choose, where that is said.
fn last_if(wrong: bool, facts: &[Fact], triple: Fact) -> Option<Vec<Fact>> {
    if wrong {
        chosen_upward(facts, triple)
    } else {
        Faithful.chosen(facts, triple)
    }
}

/// On tables small enough: all shortest derivations, ordered by a key that is made from whether they go by range and from the
/// places of their facts from the path's last back; and the n-th of them, or the last.
fn nth_by<K: Ord>(n: usize, facts: &[Fact], triple: Fact, key: impl Fn(&[Fact], bool, Vec<usize>) -> K) -> Option<Vec<Fact>> {
    let used = Faithful.chosen(facts, triple)?;
    if facts.len() > SMALL {
        return Some(used);
    }
    let mut all = all_shortest(facts, triple, used.len());
    all.sort_by_key(|used| {
        let (by_range, places) = rank(facts, used);
        key(used, by_range, places)
    });
    all.truncate(n + 1);
    all.pop()
}

fn backward(mut places: Vec<usize>) -> Vec<usize> {
    places.reverse();
    places
}

/// Chooses as if the table stood upside down.
struct LastFound;
impl Parts for LastFound {
    fn chosen(&self, facts: &[Fact], triple: Fact) -> Option<Vec<Fact>> {
        chosen_upward(facts, triple)
    }
}

variants! { of_choice: chosen(&self, facts: &[Fact], triple: Fact) -> Option<Vec<Fact>>;
    AnyShortest => fewest::ways(facts, triple).into_iter().min_by_key(Vec::len),
    LastShortest => LastFound.chosen(facts, triple),
    LastSubclassChain => last_if(triple[1] == SC, facts, triple),
    LastSubpropertyChain => last_if(triple[1] == SP, facts, triple),
    LastType => last_if(triple[1] == TYPE, facts, triple),
    LastOfName => last_if(is_name(triple[1]), facts, triple),
    LastInFullTable => last_if(facts.len() > 1000, facts, triple),
    LastOfLongOnes => last_if(Faithful.chosen(facts, triple)?.len() > 100, facts, triple),
    RangeOnTie => chosen_by_range(facts, triple),
    WaysAlike => nth_by(0, facts, triple, |_, _, places| places),
    TypeFactOnTie => nth_by(0, facts, triple, |used, by_range, places| (used.iter().any(|f| phase(*f) == 2), by_range, places)),
    DomainOnTie => nth_by(0, facts, triple, |used, by_range, places| (!used.iter().any(|f| f[1] == DOM), by_range, places)),
    SecondShortest => nth_by(1, facts, triple, |_, by_range, places| (by_range, places)),
    EarliestFirstFact => nth_by(0, facts, triple, |_, by_range, places| (by_range, backward(places))),
    EarliestLastFactOnly => nth_by(0, facts, triple, |_, by_range, places| (by_range, places[0], Reverse(places))),
    LatestFirstFact => nth_by(0, facts, triple, |_, by_range, mut places| {
        let first = places.pop();
        (by_range, places, Reverse(first))
    }),
    EarliestAsPrinted => nth_by(0, facts, triple, |used, by_range, _| {
        (by_range, used.iter().rev().copied().collect::<Vec<_>>())
    }),
}

variants! { of_within: within(&self, f: usize, allowance: u32) -> bool;
    YesBeyondAllowance => f <= allowance as usize + 1,
    AllowanceExclusive => f < allowance as usize,
}

variants! { of_question: question(&self, table: &[u8], triple: Fact, allowance: u32, paper: &mut [u8]) -> Answer;
    LongBeforeSearch => match Faithful.question(table, triple, allowance, paper) {
        Answer { number: NO, .. } if allowance == 0 => answered(LONG, 1),
        answer => answer,
    },
    LongWithoutCount => match Faithful.question(table, triple, allowance, paper) {
        Answer { number: LONG, .. } => answered(LONG, 0),
        answer => answer,
    },
    LongWrites => {
        let answer = Faithful.question(table, triple, allowance, paper);
        paper.iter_mut().filter(|_| answer.number == LONG).for_each(|b| *b = b' ');
        answer
    },
    PaperCleared => {
        let answer = Faithful.question(table, triple, allowance, paper);
        let printed = DERIVATION_LINE * (2 * answer.count as usize).saturating_sub(1);
        paper.iter_mut().skip(printed).filter(|_| answer.number == YES).for_each(|b| *b = 0);
        answer
    },
    BlankPaper => Faithful.question(table, triple, allowance, &mut paper.to_vec()),
}

variants! { of_sound: sound(&self, table: &[u8], triple: Fact, allowance: u32, paper: usize) -> Result<Vec<Fact>, Answer>;
    PaperAsPrinted => {
        let facts = Faithful.sound(table, triple, allowance, usize::MAX)?;
        match Faithful.chosen(&facts, triple) {
            Some(used) if used.len() <= allowance as usize && paper < Faithful.paper(used.len() as u32) => Err(refused(8, 0)),
            _ => Ok(facts),
        }
    },
    ShortBeforeAllowance => Faithful.sound(table, triple, allowance.min(1024), paper).and(Faithful.sound(table, triple, allowance, paper)),
    AllowanceBeforeTriple => Faithful.sound(table, [6, 6, 6], allowance, usize::MAX).and(Faithful.sound(table, triple, allowance, paper)),
    TripleBeforeTable => Faithful.sound(&[], triple, 0, 0).and(Faithful.sound(table, triple, allowance, paper)),
    TripleCutTo16Bits => Faithful.sound(table, triple.map(|t| t & 0xffff), allowance, paper),
}

variants! { of_join: join(&self, result: Line, number: u32, fact: Fact) -> Line;
    PremisesSwapped => {
        let l = Faithful.join(result, number, fact);
        Line { first: l.second, second: l.first, ..l }
    },
}

variants! { of_derivation: derivation(&self, facts: &[Fact]) -> Vec<Line>;
    FactsFirst => {
        // lines 1, 2, 4, 6, .. move to the front, lines 3, 5, 7, .. behind them
        let moved = |p: u32| if p < 2 { p } else if p % 2 == 0 { p / 2 + 1 } else { facts.len() as u32 + p / 2 };
        let lines = Faithful.derivation(facts);
        let rules = lines.iter().filter(|l| l.rule != 0).map(|l| Line { first: moved(l.first), second: moved(l.second), ..*l });
        facts.iter().map(|&f| Line::of_table(f)).chain(rules).collect()
    },
    FactTwice => [vec![Line::of_table(facts[0])], Faithful.derivation(facts)].concat(),
}

// Gaps

/// A filling with the facts of its derivation.
type Filled = (Fact, Vec<Fact>);

/// Every filling that follows, with the derivation chosen for it, in the order of the terms.
fn all_fillings(facts: &[Fact], triple: Fact) -> Vec<Filled> {
    fillings(facts, triple).into_iter().filter_map(|filled| Some((filled, Faithful.chosen(facts, filled)?))).collect()
}

/// A path for some filling may begin with the fact.
fn may_begin(triple: Fact, fact: Fact) -> bool {
    let ([x, p, y], [s, q, o]) = (triple, fact);
    let same = |t: u32, u: u32| is_blank(t) || t == u;
    match p {
        SC | SP => q == p && same(x, s),
        DOM | RANGE => fills(triple, fact),
        TYPE => is_data(fact) && (same(x, s) || same(x, o)),
        _ => is_name(q) && same(x, s) && same(y, o),
    }
}

variants! { of_filling: chosen_filling(&self, facts: &[Fact], triple: Fact) -> Option<Filled>;
    GapIsAPlainTerm => Faithful.chosen(facts, triple).map(|used| (triple, used)),
    FirstFilling => all_fillings(facts, triple).into_iter().next(),
    LastFilling => all_fillings(facts, triple).into_iter().next_back(),
    LongestFilling => all_fillings(facts, triple).into_iter().max_by_key(|(_, used)| used.len()),
    FirstMatchingFactAlone => {
        let first = facts.iter().find(|&&fact| may_begin(triple, fact))?;
        let begin_with = |used: &[Fact]| used.iter().find(|&&f| is_data(f)).or(used.first()) == Some(first);
        all_fillings(facts, triple).into_iter().filter(|(_, used)| begin_with(used)).min_by_key(|(_, used)| used.len())
    },
    FirstMatchingSubjectAlone => {
        let first = facts.iter().find(|&&fact| may_begin(triple, fact))?;
        let of_first = |(filled, _): &Filled| filled[0] == first[0] || filled[0] == first[2];
        all_fillings(facts, triple).into_iter().filter(of_first).min_by_key(|(_, used)| used.len())
    },
    ClassItselfAssumed => match triple {
        [s, SC, o] if is_blank(s) => Some(([o, SC, o], vec![[o, SC, o]])),
        _ => Faithful.chosen_filling(facts, triple),
    },
    ClassItselfByCycle => {
        let [s, p, o] = triple;
        let itself = if is_blank(s) { [o, p, o] } else { [s, p, s] };
        let by_cycle = Faithful.chosen(facts, itself).filter(|_| p == SC).map(|used| (itself, used));
        by_cycle.or_else(|| Faithful.chosen_filling(facts, triple))
    },
    OtherEndNeverFills => Faithful.chosen_filling(facts, triple).filter(|(filled, _)| filled[0] != filled[2]),
    LiteralNeverFills => Faithful.chosen_filling(facts, triple).filter(|(filled, _)| !is_literal(filled[gap(triple).unwrap_or(1)])),
    LiteralNeverFillsType => Faithful.chosen_filling(facts, triple).filter(|([s, p, _], _)| *p != TYPE || !is_literal(*s)),
    LiteralNeverFillsObject => Faithful.chosen_filling(facts, triple).filter(|([_, _, o], _)| gap(triple) != Some(2) || !is_literal(*o)),
    OnlySubjectsFill => {
        let subject = |term: u32| facts.iter().any(|fact| fact[0] == term);
        Faithful.chosen_filling(facts, triple).filter(|(filled, _)| subject(filled[gap(triple).unwrap_or(1)]))
    },
    DomainThoughLonger => {
        let by = |way: u32| fewest_by(facts, triple, |used| !used.iter().any(|f| f[1] == way));
        if triple[1] == TYPE { by(RANGE).or_else(|| by(DOM)) } else { Faithful.chosen_filling(facts, triple) }
    },
    NoByDomain => fewest_by(facts, triple, |used| triple[1] != TYPE || !used.iter().any(|f| f[1] == DOM)),
    NoByRange => fewest_by(facts, triple, |used| triple[1] != TYPE || !used.iter().any(|f| f[1] == RANGE)),
    NoToEveryGap => Faithful.chosen_filling(facts, triple).filter(|_| facts.len() > 1024),
}

/// Of the fillings whose own derivation passes a test, the one of the smallest count and least rank.
fn fewest_by(facts: &[Fact], triple: Fact, passes: impl Fn(&[Fact]) -> bool) -> Option<Filled> {
    let some = all_fillings(facts, triple).into_iter().filter(|(_, used)| passes(used));
    some.min_by_key(|(_, used)| (used.len(), rank(facts, used)))
}

/// Of the fillings of the least count the one with the least key, which is made from the filling and its derivation's rank.
fn least_by<K: Ord>(facts: &[Fact], triple: Fact, key: impl Fn(&Filled, bool, Vec<usize>) -> K) -> Option<Filled> {
    least_fillings(facts, triple).into_iter().min_by_key(|found| {
        let (by_range, places) = rank(facts, &found.1);
        key(found, by_range, places)
    })
}

variants! { of_least: chosen_filling(&self, facts: &[Fact], triple: Fact) -> Option<Filled>;
    SmallestTermOnTie => least_by(facts, triple, |(filled, _), _, _| *filled),
    LargestTermOnTie => least_by(facts, triple, |(filled, _), _, _| Reverse(*filled)),
    LastFillingOnTie => least_by(facts, triple, |_, by_range, places| Reverse((by_range, places))),
    RangeFillingOnTie => least_by(facts, triple, |_, by_range, places| (!by_range, places)),
    WaysAlikeInFillings => least_by(facts, triple, |_, _, places| places),
    EarliestFirstFactOfFillings => least_by(facts, triple, |_, by_range, places| (by_range, backward(places))),
    EarliestLastFactOfFillings => least_by(facts, triple, |_, by_range, places| (by_range, places[0], Reverse(places))),
    LastShortestOfFilling => Faithful.chosen_filling(facts, triple).and_then(|(filled, _)| Some((filled, chosen_upward(facts, filled)?))),
    SmallestTermInFullTable => least_by(facts, triple, |(filled, _), by_range, places| {
        (if facts.len() > 1000 { *filled } else { [0; 3] }, by_range, places)
    }),
}

/// The data fact of a derivation by range.
fn ranged(triple: Fact, used: &[Fact]) -> Option<Fact> {
    let by_range = triple[1] == TYPE && used.iter().any(|f| f[1] == RANGE);
    used.iter().copied().find(|&f| by_range && is_name(f[1]))
}

variants! { of_named: named(&self, triple: Fact, filled: Fact, used: &[Fact]) -> u32;
    // the filled triple has no gap
    NothingNamed => Faithful.named(filled, triple, used),
    BlankNamed => gap(triple).map_or(Faithful.named(triple, filled, used), |place| triple[place]),
    SubjectNamedForRange => match ranged(triple, used) {
        Some([s, _, _]) if gap(triple) == Some(0) => s,
        _ => Faithful.named(triple, filled, used),
    },
    PredicateNamedForObject => match gap(triple) {
        Some(2) if is_name(filled[1]) => filled[1],
        _ => Faithful.named(triple, filled, used),
    },
    FirstFactsSubjectNamed => gap(triple).map_or(0, |place| if place == 0 { used[0][0] } else { filled[2] }),
    FirstFactsObjectNamed => gap(triple).map_or(0, |place| if place == 2 { used[0][2] } else { filled[0] }),
    SubjectNamedWithoutGap => gap(triple).map_or(filled[0], |_| Faithful.named(triple, filled, used)),
}

/// The refusal of the triple with a name in place of every blank.
fn with_names(triple: Fact) -> Option<u32> {
    Faithful.fault(triple.map(|term| if is_blank(term) { 6 } else { term }))
}

fn blanks(triple: Fact) -> usize {
    triple.into_iter().filter(|&term| is_blank(term)).count()
}

variants! { of_question_fault: question_fault(&self, triple: Fact) -> Option<u32>;
    GapRefused => Faithful.fault(triple),
    SubjectGapRefused => if gap(triple) == Some(0) { Faithful.fault(triple) } else { Faithful.question_fault(triple) },
    ObjectGapRefused => if gap(triple) == Some(2) { Faithful.fault(triple) } else { Faithful.question_fault(triple) },
    TwoBlanksPass => if is_blank(triple[1]) { Faithful.fault(triple) } else { with_names(triple) },
    TwoEqualBlanksPass => if triple[0] == triple[2] && blanks(triple) == 2 { with_names(triple) } else { Faithful.question_fault(triple) },
    TwoUnequalBlanksPass => match triple {
        [s, p, o] if s != o && !is_blank(p) => with_names(triple),
        _ => Faithful.question_fault(triple),
    },
    BlankPredicatePasses => if blanks(triple) == 1 { with_names(triple) } else { Faithful.fault(triple) },
    ThreeBlanksPass => if blanks(triple) == 3 { None } else { Faithful.question_fault(triple) },
    FirstBlankAlone => match gap(triple) {
        Some(place) if triple[place] != 60000 => Some(4),
        _ => Faithful.question_fault(triple),
    },
    LastBlankUnknown => if triple.contains(&65535) { Faithful.fault(triple) } else { Faithful.question_fault(triple) },
    LastLiteralIsAGap => if [triple[0], triple[2]].contains(&59999) { Some(4) } else { Faithful.question_fault(triple) },
    PartUntriedWithGap => Faithful.question_fault(triple).filter(|&number| gap(triple).is_none() || number != 5),
    TermUntriedWithGap => Faithful.question_fault(triple).filter(|&number| gap(triple).is_none() || number != 3),
    BlankBeforeTerm => if is_blank(triple[1]) || blanks(triple) > 1 { Some(4) } else { Faithful.question_fault(triple) },
    PartBeforeTwoBlanks => match Faithful.question_fault(triple) {
        Some(4) if with_names(triple) == Some(5) => Some(5),
        fault => fault,
    },
}

variants! { of_gapped_question: question(&self, table: &[u8], triple: Fact, allowance: u32, paper: &mut [u8]) -> Answer;
    FirstThatFits => {
        let answer = Faithful.question(table, triple, allowance, paper);
        let facts = Faithful.table(table).unwrap_or_default();
        let fits = |(_, used): &Filled| Faithful.within(used.len(), allowance);
        match all_fillings(&facts, triple).into_iter().find(fits).filter(|_| answer.number == YES && gap(triple).is_some()) {
            Some((filled, used)) => {
                let bytes = lines::derivation_bytes(&Faithful.derivation(&used));
                paper[..bytes.len()].copy_from_slice(&bytes);
                Answer { filling: Faithful.named(triple, filled, &used), ..answered(YES, used.len()) }
            }
            None => answer,
        }
    },
    CountOfFirstFilling => {
        let answer = Faithful.question(table, triple, allowance, paper);
        let facts = Faithful.table(table).unwrap_or_default();
        match all_fillings(&facts, triple).first().filter(|_| answer.count > 0 && gap(triple).is_some()) {
            Some((_, used)) => Answer { count: used.len() as u32, ..answer },
            None => answer,
        }
    },
    LongNames => match Faithful.question(table, triple, allowance, paper) {
        Answer { number: LONG, count, .. } => {
            let facts = Faithful.table(table).unwrap_or_default();
            let filling = Faithful.found(&facts, triple).map_or(0, |(filled, used)| Faithful.named(triple, filled, &used));
            Answer { filling, ..answered(LONG, count as usize) }
        }
        answer => answer,
    },
    NoNamesTheBlank => match Faithful.question(table, triple, allowance, paper) {
        Answer { number: NO, .. } => Answer { filling: gap(triple).map_or(0, |place| triple[place]), ..answered(NO, 0) },
        answer => answer,
    },
    RefusalNamesTheBlank => match Faithful.question(table, triple, allowance, paper) {
        answer if answer.number < YES => Answer { filling: gap(triple).map_or(0, |place| triple[place]), ..answer },
        answer => answer,
    },
    LastLineUnfilled => {
        let answer = Faithful.question(table, triple, allowance, paper);
        let end = DERIVATION_LINE * (2 * answer.count as usize).saturating_sub(1);
        if answer.number == YES {
            paper[end - TABLE_LINE..end].copy_from_slice(&line(&triple));
        }
        answer
    },
    PaperByCountWithGap => {
        // paper that is too short for the allowance and enough for the derivation
        let more = Faithful.paper(allowance.min(1024)).saturating_sub(paper.len());
        let mut longer = [&paper[..], &vec![0; more]].concat();
        let answer = Faithful.question(table, triple, allowance, &mut longer);
        let fits = Faithful.paper(answer.count) <= paper.len();
        if gap(triple).is_none() || !fits {
            return Faithful.question(table, triple, allowance, paper);
        }
        paper.copy_from_slice(&longer[..paper.len()]);
        answer
    },
}

variants! { of_gapped_check: judge(&self, table: &[u8], triple: Fact, derivation: &[u8]) -> Result<usize, Answer>;
    GapAcceptedByCheck => {
        let last = Faithful.lines(derivation).ok().and_then(|lines| lines.last().map(|line| line.fact));
        let put = last.filter(|&fact| gap(triple).is_some() && fills(triple, fact)).unwrap_or(triple);
        Faithful.judge(table, put, derivation)
    },
    GapRefusedAsTheEnd => match Faithful.judge(table, triple, derivation) {
        Err(Answer { number: 4, place: 0, .. }) if gap(triple).is_some() => {
            let lines = Faithful.lines(derivation)?;
            Err(refused(11, lines.len() as u32))
        }
        verdict => verdict,
    },
    BlankOfALineIsBlank => match Faithful.judge(table, triple, derivation) {
        Err(Answer { number: 10, place, .. }) => {
            let lines = Faithful.lines(derivation)?;
            Err(refused(if blanks(lines[place as usize - 1].fact) > 0 { 4 } else { 10 }, place))
        }
        verdict => verdict,
    },
}

struct GapInTablePasses;
impl Parts for GapInTablePasses {
    fn facts(&self, lines: impl Iterator<Item = Option<Fact>>) -> Result<Vec<Fact>, Answer> {
        let lines: Vec<Option<Fact>> = lines.collect();
        let with_names = lines.iter().map(|line| line.map(|fact| filled(fact, 39999)));
        Faithful.facts(with_names).map(|_| lines.into_iter().flatten().collect())
    }
}

// Literals where a class or a property belongs

/// The fact with one term in place of another.
fn with(fact: Fact, old: u32, new: u32) -> Fact {
    fact.map(|term| if term == old { new } else { term })
}

variants! { of_class: fault(&self, fact: Fact) -> Option<u32>;
    ClassNeverTried => Faithful.fault(fact).filter(|&number| number != 12),
    ClassCalledPart => Faithful.fault(fact).map(|number| if number == 12 { 5 } else { number }),
    ClassBeforePart => Faithful.fault(fact).map(|number| if number == 5 && text_as_class(fact) { 12 } else { number }),
    ClassBeforeBlank => Faithful.fault(fact).map(|number| if number == 4 && text_as_class(fact) { 12 } else { number }),
    ClassBeforeTerm => Faithful.fault(fact).map(|number| if number == 3 && text_as_class(fact) { 12 } else { number }),
    SubclassForgotten => Faithful.fault(fact).filter(|&number| number != 12 || fact[1] != SC),
    SubpropertyForgotten => Faithful.fault(fact).filter(|&number| number != 12 || fact[1] != SP),
    DomainForgotten => Faithful.fault(fact).filter(|&number| number != 12 || fact[1] != DOM),
    RangeForgotten => Faithful.fault(fact).filter(|&number| number != 12 || fact[1] != RANGE),
    LiteralIsAType => Faithful.fault(fact).filter(|&number| number != 12 || fact[1] != TYPE),
    LiteralSubjectPasses => Faithful.fault(fact).filter(|&number| number != 12 || is_literal(fact[2])),
    LiteralObjectPasses => Faithful.fault(fact).filter(|&number| number != 12 || is_literal(fact[0]) && fact[1] != TYPE),
    BothEndsAloneBarred => Faithful.fault(fact).filter(|&number| number != 12 || is_literal(fact[0]) && is_literal(fact[2])),
    LiteralHasNoTypeFact => Faithful.fault(fact).or((fact[1] == TYPE && is_literal(fact[0])).then_some(12)),
    LiteralSubjectOfNameBarred => Faithful.fault(fact).or((is_name(fact[1]) && is_literal(fact[0])).then_some(12)),
    LiteralObjectOfNameBarred => Faithful.fault(fact).or((is_name(fact[1]) && is_literal(fact[2])).then_some(12)),
    FirstLiteralPasses => Faithful.fault(fact).filter(|&number| number != 12 || text_as_class(with(fact, 40000, 6))),
    LastLiteralPasses => Faithful.fault(fact).filter(|&number| number != 12 || text_as_class(with(fact, 59999, 6))),
    LastNameBarred => Faithful.fault(fact).or(text_as_class(with(fact, 39999, 40000)).then_some(12)),
}

variants! { of_asked_class: question_fault(&self, triple: Fact) -> Option<u32>;
    GapIsALiteral => Faithful.question_fault(triple).or_else(|| Faithful.fault(filled(triple, 40000))),
    ClassUntriedWithGap => Faithful.question_fault(triple).filter(|&number| gap(triple).is_none() || number != 12),
    ClassUntriedWithoutGap => Faithful.question_fault(triple).filter(|&number| gap(triple).is_some() || number != 12),
}

/// What is said of a question, with 7 or 8 before the triple's 12.
fn class_after(number: u32, table: &[u8], triple: Fact, allowance: u32, paper: usize) -> Result<Vec<Fact>, Answer> {
    let verdict = Faithful.sound(table, triple, allowance, paper);
    match (&verdict, Faithful.sound(table, [6, 6, 6], allowance, paper)) {
        (Err(Answer { number: 12, place: 0, .. }), Err(other)) if other.number == number => Err(other),
        _ => verdict,
    }
}

variants! { of_class_and_limits: sound(&self, table: &[u8], triple: Fact, allowance: u32, paper: usize) -> Result<Vec<Fact>, Answer>;
    AllowanceBeforeClass => class_after(7, table, triple, allowance, paper),
    ShortBeforeClass => class_after(8, table, triple, allowance, paper),
    AllowanceBeforeClassWithGap => class_after(if gap(triple).is_some() { 7 } else { 0 }, table, triple, allowance, paper),
    ShortBeforeClassWithGap => class_after(if gap(triple).is_some() { 8 } else { 0 }, table, triple, allowance, paper),
    ClassAtLineOne => Faithful.sound(table, triple, allowance, paper).map_err(|refusal| match refusal {
        Answer { number: 12, place: 0, .. } => refused(12, 1),
        refusal => refusal,
    }),
}

variants! { of_class_in_check: judge(&self, table: &[u8], triple: Fact, derivation: &[u8]) -> Result<usize, Answer>;
    ClassUntriedInCheck => match Faithful.judge(table, triple, derivation) {
        // as for a triple that ends no derivation
        Err(Answer { number: 12, place: 0, .. }) => Faithful.judge(table, [6, 6, 6], derivation),
        verdict => verdict,
    },
    FormBeforeClass => match Faithful.judge(table, triple, derivation) {
        Err(Answer { number: 12, place: 0, .. }) => Faithful.lines(derivation).and(Err(refused(12, 0))),
        verdict => verdict,
    },
    TableLineRefusedAsClass => line_as_class(table, triple, derivation, |rule| rule == 0),
    RuleLineRefusedAsClass => line_as_class(table, triple, derivation, |rule| rule != 0),
}

/// The check, in which a false line gets 12 where it has a literal as a class and its rule passes a test.
fn line_as_class(table: &[u8], triple: Fact, derivation: &[u8], test: fn(u32) -> bool) -> Result<usize, Answer> {
    match Faithful.judge(table, triple, derivation) {
        Err(Answer { number: 10, place, .. }) => {
            let line = Faithful.lines(derivation)?[place as usize - 1];
            Err(refused(if test(line.rule) && Faithful.fault(line.fact) == Some(12) { 12 } else { 10 }, place))
        }
        verdict => verdict,
    }
}

variants! { of_text_in_table: in_table(&self, table: &[Fact], fact: Fact) -> bool;
    TextTakenForATableFact => Faithful.in_table(table, fact) || Faithful.fault(fact) == Some(12),
    LiteralTypeTakenForATableFact => Faithful.in_table(table, fact) || (Faithful.fault(fact) == Some(12) && fact[1] == TYPE),
}

variants! { of_text_line: justified(&self, table: &[Fact], lines: &[Line], own: usize) -> bool;
    TextTakenForARulesResult => {
        let Line { rule, fact, .. } = lines[own];
        Faithful.justified(table, lines, own) || (rule != 0 && Faithful.fault(fact) == Some(12))
    },
}

variants! { of_text_row: row(&self, row: &[u32]) -> Result<Vec<Fact>, Answer>;
    ClassUntriedInRows => Class(ClassPlace::Never).row(row),
    ClassAfterOrderInRows => Class(ClassPlace::BehindOrder).row(row),
}

/// Where a line is tried for 12 instead of behind 5.
#[derive(Clone, Copy, PartialEq)]
enum ClassPlace {
    Never,
    BehindOrder,
    BehindAllLines,
}

struct Class(ClassPlace);
impl Parts for Class {
    fn facts(&self, lines: impl Iterator<Item = Option<Fact>>) -> Result<Vec<Fact>, Answer> {
        let lines: Vec<Option<Fact>> = lines.collect();
        let mut facts: Vec<Fact> = Vec::new();
        for (i, fact) in lines.iter().enumerate() {
            let fact = fact.ok_or(refused(2, self.place(i)))?;
            let order = facts.last().filter(|&&before| !self.above(fact, before)).map(|_| 6);
            let class = text_as_class(fact).then_some(12).filter(|_| self.0 == ClassPlace::BehindOrder);
            let number = self.fault(fact).filter(|&number| number != 12).or(order).or(class);
            number.map_or(Ok(()), |number| Err(refused(number, self.place(i))))?;
            facts.push(fact);
        }
        match facts.iter().position(|&fact| text_as_class(fact)).filter(|_| self.0 == ClassPlace::BehindAllLines) {
            Some(i) => Err(refused(12, self.place(i))),
            None => Ok(facts),
        }
    }
}

fn of_lines_with_class() -> Vec<Named> {
    let variant = |name: &str, place| (name.to_string(), Box::new(Class(place)) as Box<dyn Calls>);
    vec![
        variant("ClassAfterOrder", ClassPlace::BehindOrder),
        variant("ClassBehindAllLines", ClassPlace::BehindAllLines),
        variant("ClassUntriedInTables", ClassPlace::Never),
    ]
}

/// A table fact of which the predicate is sc and the object a literal, for a question with a gap there.
fn literal_above(table: &[u8], [s, p, o]: Fact) -> Option<Fact> {
    let facts = Class(ClassPlace::Never).table(table).ok().filter(|_| p == SC && is_blank(o))?;
    facts.into_iter().find(|fact| fact[..2] == [s, SC] && is_literal(fact[2]))
}

variants! { of_literal_filling: question(&self, table: &[u8], triple: Fact, allowance: u32, paper: &mut [u8]) -> Answer;
    LiteralFillsClassGap => match (Faithful.question(table, triple, allowance, paper), literal_above(table, triple)) {
        (Answer { number: 12, .. }, Some(fact)) if allowance > 0 && paper.len() >= Faithful.paper(allowance) => {
            let bytes = lines::derivation_bytes(&[Line::of_table(fact)]);
            paper[..bytes.len()].copy_from_slice(&bytes);
            Answer { filling: fact[2], ..answered(YES, 1) }
        }
        (answer, _) => answer,
    },
}

// The check

variants! { of_table_lines: table_lines(&self, lines: &[Line]) -> usize;
    DistinctFactsCounted => lines.iter().filter(|l| l.rule == 0).map(|l| l.fact).collect::<BTreeSet<_>>().len(),
    UsedFactsCounted => {
        let used = |n: usize| n == lines.len() || lines.iter().any(|l| l.first == n as u32 || l.second == n as u32);
        (1..=lines.len()).filter(|&n| lines[n - 1].rule == 0 && used(n)).count()
    },
    LinesCounted => lines.len(),
}

variants! { of_judge: judge(&self, table: &[u8], triple: Fact, derivation: &[u8]) -> Result<usize, Answer>;
    StepBeforeForm => {
        let whole = derivation.len() % DERIVATION_LINE == 0;
        for n in (1..=2047).map(|n| n * DERIVATION_LINE).take_while(|&n| whole && n <= derivation.len()) {
            Faithful.judge(table, triple, &derivation[..n]).or_else(|refusal| if refusal.number == 11 { Ok(0) } else { Err(refusal) })?;
        }
        Faithful.judge(table, triple, derivation)
    },
    EndBeforeStep => {
        let lines = Faithful.lines(derivation).unwrap_or_default();
        match Faithful.judge(table, triple, derivation) {
            Err(Answer { number: 10, .. }) if !Faithful.ends_in(&lines, triple) => Err(refused(11, lines.len() as u32)),
            verdict => verdict,
        }
    },
    EmptyDerivationAccepted => match Faithful.judge(table, triple, derivation) {
        Err(Answer { number: 9, .. }) if derivation.is_empty() => Ok(0),
        verdict => verdict,
    },
    OneLineTooMany => Faithful.judge(table, triple, if derivation.len() == 31 * 2048 { &derivation[31..] } else { derivation }),
    LineFaultByTerm => Faithful.judge(table, triple, derivation).map_err(|refusal| match Faithful.lines(derivation) {
        Ok(lines) if refusal.number == 10 => {
            refused(Faithful.fault(lines[refusal.place as usize - 1].fact).unwrap_or(10), refusal.place)
        }
        _ => refusal,
    }),
}

variants! { of_ends_in: ends_in(&self, lines: &[Line], triple: Fact) -> bool;
    TripleOnAnyLine => lines.iter().any(|l| l.fact == triple),
}

variants! { of_premise: premise(&self, lines: &[Line], own: usize, number: u32) -> Option<Fact>;
    OwnLineAsPremise => Faithful.premise(lines, own + 1, number),
    LaterLineAsPremise => Faithful.premise(lines, own.max(lines.len()), number),
    PremisesFromZero => Faithful.premise(lines, own, number + 1),
}

variants! { of_justified: justified(&self, table: &[Fact], lines: &[Line], own: usize) -> bool;
    OnePremiseOnce => (lines[own].rule == 0 || lines[own].first != lines[own].second) && Faithful.justified(table, lines, own),
    TableFactUnderRule => Faithful.justified(table, lines, own) || (lines[own].rule <= 6 && table.contains(&lines[own].fact)),
    TableLineWithPremises => Faithful.justified(table, lines, own) || (lines[own].rule == 0 && table.contains(&lines[own].fact)),
    RuleNumberIgnored => {
        let by = |rule| {
            let mut lines = lines[..=own].to_vec();
            lines[own].rule = rule;
            Faithful.justified(table, &lines, own)
        };
        if lines[own].rule == 0 { by(0) } else { (1..=6).any(by) }
    },
    LastLineUntried => own + 1 == lines.len() || Faithful.justified(table, lines, own),
    RejectsEveryDerivation => table.len() > 1024 && Faithful.justified(table, lines, own),
}

variants! { of_in_table: in_table(&self, table: &[Fact], fact: Fact) -> bool;
    SubclassOfItselfAssumed => Faithful.in_table(table, fact) || (fact[1] == SC && fact[0] == fact[2] && well_formed(fact)),
}

// Reading and writing

variants! { of_place: place(&self, index: usize) -> u32;
    PlaceFromZero => index as u32,
}

variants! { of_above: above(&self, fact: Fact, before: Fact) -> bool;
    EqualLinesPass => fact >= before,
    OrderWithoutObject => fact[..2] >= before[..2] && fact != before,
}

variants! { of_number: number(&self, field: &[u8]) -> Option<u32>;
    LeadingZeros => lines::number(field).or_else(|| std::str::from_utf8(field).ok()?.trim_start_matches(' ').parse().ok()),
    SpacesBehind => lines::number(field).or_else(|| lines::number(std::str::from_utf8(field).ok()?.trim_end_matches(' ').as_bytes())),
    SpacesAreZero => if field == b"     " { Some(0) } else { lines::number(field) },
}

struct LineEndIgnored;
impl Parts for LineEndIgnored {
    fn numbers<const K: usize>(&self, line: &[u8]) -> Option<[u32; K]> {
        Faithful.numbers(&[&line[..5 * K], b"\n"].concat())
    }
}

variants! { of_fault: fault(&self, fact: Fact) -> Option<u32>;
    FieldByField => {
        let one_by_one = [[fact[0], 6, 6], [6, fact[1], 6], [6, 6, fact[2]]].into_iter().find_map(|one| Faithful.fault(one));
        one_by_one.or(Faithful.fault(fact))
    },
    PartBeforeBlank => match Faithful.fault(fact) {
        Some(4) if is_vocabulary(fact[0]) || is_vocabulary(fact[2]) || is_literal(fact[1]) => Some(5),
        fault => fault,
    },
    LiteralSubjectRefused => Faithful.fault(fact).or(is_literal(fact[0]).then_some(5)),
    LastLiteralIsBlank => Faithful.fault(fact).or(fact.contains(&59999).then_some(4)),
    FirstLiteralAsPredicate => Faithful.fault(fact).filter(|_| fact[1] != 40000 || Faithful.fault([fact[0], 6, fact[2]]).is_some()),
}

variants! { of_table: table(&self, bytes: &[u8]) -> Result<Vec<Fact>, Answer>;
    LinesBeforeSize => Faithful.facts(bytes.chunks_exact(TABLE_LINE).map(|l| Faithful.numbers(l))).and(Faithful.table(bytes)),
    RefusesEveryTable => if bytes.len() > 16_384 { Faithful.table(bytes) } else { Err(refused(1, 0)) },
}

variants! { of_read: read(&self, table: &[u8], row: &mut [u32]) -> Answer;
    ShortBeforeLines => {
        let short = table.len() % TABLE_LINE == 0 && table.len() <= 16_384 && 16 * row.len() < 3 * table.len();
        if short { refused(8, 0) } else { Faithful.read(table, row) }
    },
    RowFilledBeforeRefusal => {
        let answer = Faithful.read(table, row);
        row.iter_mut().take(3).filter(|_| answer.number == 6).for_each(|n| *n = 0);
        answer
    },
    RowWrittenBehind => {
        let answer = Faithful.read(table, row);
        row.iter_mut().skip(3 * answer.count as usize).take(1).filter(|_| answer.number == DONE).for_each(|n| *n = 0);
        answer
    },
}

variants! { of_row: row(&self, row: &[u32]) -> Result<Vec<Fact>, Answer>;
    RowCutTo16Bits => Faithful.row(&row.iter().map(|n| n & 0xffff).collect::<Vec<_>>()),
}

variants! { of_write: write(&self, row: &[u32], output: &mut [u8]) -> Answer;
    WriteCountsNumbers => {
        let answer = Faithful.write(row, output);
        Answer { count: 3 * answer.count, ..answer }
    },
    WrittenWithZeros => {
        let answer = Faithful.write(row, output);
        output.iter_mut().take(16 * answer.count as usize).filter(|b| **b == b' ').for_each(|b| *b = b'0');
        answer
    },
}

// The program

variants! { of_divider: divider(&self, input: &[u8]) -> Option<usize>;
    ZeroLineAnywhere => input.windows(TABLE_LINE).position(|l| l == line(&[0; 3])),
    ZeroLineWithoutEnd => input.chunks_exact(TABLE_LINE).position(|l| l[..15] == line(&[0; 3])[..15]).map(|i| TABLE_LINE * i),
    LastZeroLine => input.chunks(TABLE_LINE).rposition(|l| l == line(&[0; 3])).map(|i| TABLE_LINE * i),
}

variants! { of_program: program(&self, input: &[u8]) -> Vec<u8>;
    LastShortestInProgram => LastFound.program(input),
    OneRefusalForTheTable => match Faithful.questions(input).map(|(table, _)| Faithful.table(table)) {
        Some(Err(refusal)) => line(&[refusal.number, refusal.place, 0]),
        _ => Faithful.program(input),
    },
    BadQuestionAlone => match Faithful.divider(input).filter(|_| input.len() <= 32_768) {
        Some(at) => {
            let (table, questions) = input.split_at(at + TABLE_LINE);
            questions.chunks(QUESTION_LINE).flat_map(|q| Faithful.program(&[table, q].concat())).collect()
        }
        None => Faithful.program(input),
    },
    TornEndIgnored => {
        let torn = Faithful.divider(input).map_or(0, |at| (input.len() - at - TABLE_LINE) % QUESTION_LINE);
        Faithful.program(if input.len() > 32_768 { input } else { &input[..input.len() - torn] })
    },
    InputCut => Faithful.program(&input[..input.len().min(32_768)]),
    NothingOnEmptyInput => if input.is_empty() { vec![] } else { Faithful.program(input) },
    ZeroQuestionIsForm => match Faithful.questions(input) {
        Some((_, questions)) if questions.iter().any(|q| q.contains(&0)) => line(&[9, 0, 0]),
        _ => Faithful.program(input),
    },
    TableWrittenToo => match Faithful.questions(input).and_then(|(table, _)| Faithful.table(table).ok()) {
        Some(facts) => [table_bytes(&facts), Faithful.program(input)].concat(),
        None => Faithful.program(input),
    },
}
