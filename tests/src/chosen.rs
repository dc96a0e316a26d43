//! Which of the shortest derivations is printed. Document 01 leaves it free, and the product names it. A path visits the
//! data fact first, then the sp facts, a dom or range fact, the sc facts. Of the shortest paths the one is meant whose last
//! fact stands earliest in the table, then whose last but one, and so on back; by domain, and by range only where that is
//! strictly shorter.
//!
//! - `all_shortest`, `rank`: the meaning, for small tables. Every shortest derivation in printed order, by the rules alone;
//!   the one of least rank is meant.
//! - `chosen`: for tables of any size. Layer by layer over the properties and classes that paths lead to, with the best path
//!   to each of them.
//!
//! A question with a gap has the shortest paths of all its fillings to choose from, by the same rule. `least_fillings` tries
//! one filling after the other, each as a question without a gap; `chosen_filling` takes the one of least rank.
use crate::facts::*;
use crate::lines::in_order;
use crate::parts::{Faithful, Parts};
use std::collections::{BTreeSet, HashMap, HashSet};

/// The facts of every derivation of the triple with f table lines in printed order.
pub fn all_shortest(facts: &[Fact], triple: Fact, f: usize) -> Vec<Vec<Fact>> {
    let sound = |used: &Vec<Fact>| {
        let lines = Faithful.derivation(used);
        in_order(&lines) && Faithful.justified(facts, &lines, lines.len() - 1)
    };
    let mut all: Vec<Vec<Fact>> = facts.iter().map(|&fact| vec![fact]).collect();
    for _ in 1..f {
        let longer = all.iter().flat_map(|used| facts.iter().map(|&fact| [&used[..], &[fact]].concat()));
        all = longer.filter(sound).collect();
    }
    all.retain(|used| Faithful.ends_in(&Faithful.derivation(used), triple));
    all
}

/// What a derivation is chosen by: whether it goes by range, then the places of its facts from the path's last back.
pub fn rank(facts: &[Fact], printed: &[Fact]) -> (bool, Vec<usize>) {
    let mut path: Vec<Fact> = printed.iter().rev().copied().collect();
    path.sort_by_key(|&fact| is_data(fact));
    let place = |fact: &Fact| facts.iter().position(|f| f == fact).expect("a fact of the table");
    (printed.iter().any(|fact| fact[1] == RANGE), path.iter().map(place).collect())
}

/// What a path has led to so far.
#[derive(PartialEq, Eq, Hash)]
enum End {
    Property(u32),
    Class(u32),
}

/// What a fact leads to.
fn end([_, p, o]: Fact) -> End {
    match p {
        SP => End::Property(o),
        SC | DOM | RANGE | TYPE => End::Class(o),
        _ => End::Property(p),
    }
}

/// A path for the triple may begin with the fact. By range a data fact gives a type to its object, else to its subject.
fn begins(way: u32, triple: Fact, fact: Fact) -> bool {
    let ([x, p, y], [s, q, o]) = (triple, fact);
    match p {
        SP | SC => (s, q) == (x, p),
        DOM | RANGE => fact == triple,
        TYPE if is_name(q) => x == if way == RANGE { o } else { s },
        TYPE => (s, q) == (x, TYPE),
        _ => is_name(q) && (s, o) == (x, y),
    }
}

/// What a path must have led to for the fact to come next, if there is such a thing.
fn comes_after(way: u32, [s, p, _]: Fact) -> Option<End> {
    match p {
        SP => Some(End::Property(s)),
        SC => Some(End::Class(s)),
        _ => (p == way).then_some(End::Property(s)),
    }
}

/// Paths by domain or by range, over facts in the order in which they stand.
struct Paths<'a> {
    way: u32,
    facts: &'a [Fact],
    after: HashMap<End, Vec<(usize, Fact)>>,
}

impl<'a> Paths<'a> {
    fn new(way: u32, facts: &'a [Fact]) -> Self {
        let mut after: HashMap<End, Vec<(usize, Fact)>> = HashMap::new();
        for (place, &fact) in facts.iter().enumerate() {
            if let Some(end) = comes_after(way, fact) {
                after.entry(end).or_default().push((place, fact));
            }
        }
        Paths { way, facts, after }
    }

    /// The best path for the triple, if it has one of at most so many facts.
    fn best(&self, triple: Fact, most: usize) -> Option<Vec<Fact>> {
        if !self.facts.iter().any(|&fact| end(fact) == end(triple)) {
            return None;
        }
        // of each path its last fact and the step before; of the next ones its place too
        let mut steps: Vec<(Fact, Option<usize>)> = Vec::new();
        let first = self.facts.iter().enumerate().filter(|(_, &fact)| begins(self.way, triple, fact));
        let mut next: Vec<(usize, Fact, Option<usize>)> = first.map(|(place, &fact)| (place, fact, None)).collect();
        let mut reached = HashSet::new();
        for _ in 0..most {
            // of the paths that lead to the same, the one stays whose last fact stands earliest
            next.sort();
            let layer = steps.len();
            steps.extend(next.into_iter().filter(|&(_, fact, _)| reached.insert(end(fact))).map(|(_, fact, before)| (fact, before)));
            if let Some(last) = (layer..steps.len()).find(|&i| end(steps[i].0) == end(triple)) {
                return Some(back_from(&steps, last));
            }
            if layer == steps.len() {
                return None;
            }
            let after = |i: usize| self.after.get(&end(steps[i].0)).into_iter().flatten();
            next = (layer..steps.len()).flat_map(|i| after(i).map(move |&(place, fact)| (place, fact, Some(i)))).collect();
        }
        None
    }
}

/// The facts of the path that ends with a step.
fn back_from(steps: &[(Fact, Option<usize>)], last: usize) -> Vec<Fact> {
    let mut path: Vec<Fact> = std::iter::successors(Some(last), |&i| steps[i].1).map(|i| steps[i].0).collect();
    path.reverse();
    path
}

/// The facts of the shortest of the best paths by each way, in printed order; of equally short ones, that by the first way.
fn by_ways(ways: &[Paths; 2], triple: Fact, most: usize) -> Option<Vec<Fact>> {
    let mut used = ways.iter().filter_map(|paths| paths.best(triple, most)).min_by_key(Vec::len)?;
    used.sort_by_key(|&fact| phase(fact));
    Some(used)
}

/// The facts of the derivation that is printed, in printed order.
pub fn chosen(facts: &[Fact], triple: Fact) -> Option<Vec<Fact>> {
    by_ways(&[DOM, RANGE].map(|way| Paths::new(way, facts)), triple, usize::MAX)
}

/// The same with range preferred to domain where both are as short.
pub fn chosen_by_range(facts: &[Fact], triple: Fact) -> Option<Vec<Fact>> {
    by_ways(&[RANGE, DOM].map(|way| Paths::new(way, facts)), triple, usize::MAX)
}

/// The one that would be chosen if the table stood upside down.
pub fn chosen_upward(facts: &[Fact], triple: Fact) -> Option<Vec<Fact>> {
    chosen(&upward(facts), triple)
}

fn upward(facts: &[Fact]) -> Vec<Fact> {
    facts.iter().rev().copied().collect()
}

/// Several derivations are shortest: the first and the last by domain, the first and the last by range are not all the same.
pub fn several(facts: &[Fact], triple: Fact) -> bool {
    let others = [chosen_upward(facts, triple), chosen_by_range(facts, triple), chosen_by_range(&upward(facts), triple)];
    let chosen = chosen(facts, triple);
    others.iter().any(|other| *other != chosen)
}

/// Every triple that fills the gap with a term of the table or of the question. No other filling follows from the table: the
/// subject and the object of what a rule gives are subjects or objects of its premises, so that whatever follows has only
/// terms of table facts there.
pub fn fillings(facts: &[Fact], triple: Fact) -> Vec<Fact> {
    let terms: BTreeSet<u32> = facts.iter().flatten().copied().chain(triple).collect();
    terms.into_iter().map(|term| filled(triple, term)).filter(|&fact| fills(triple, fact)).collect()
}

/// The fillings that have the least count of all, each with the facts of the derivation that is chosen for it alone.
pub fn least_fillings(facts: &[Fact], triple: Fact) -> Vec<(Fact, Vec<Fact>)> {
    let ways = [DOM, RANGE].map(|way| Paths::new(way, facts));
    let mut least = usize::MAX;
    let mut all = Vec::new();
    for filled in fillings(facts, triple) {
        // a longer one than the least so far need not be followed to its end
        if let Some(used) = by_ways(&ways, filled, least) {
            least = used.len();
            all.push((filled, used));
        }
    }
    all.retain(|(_, used)| used.len() == least);
    all
}

/// The triple with its gap filled by the derivation that is printed, and the facts of that, in printed order.
pub fn chosen_filling(facts: &[Fact], triple: Fact) -> Option<(Fact, Vec<Fact>)> {
    least_fillings(facts, triple).into_iter().min_by_key(|(_, used)| rank(facts, used))
}
