//! f, the fewest table lines of a derivation, by three algorithms that share nothing but the rules. For a triple with a gap
//! the first two count over whatever fills it; the third knows no gaps, and every filling is put to it in turn.
//!
//! - `by_subsets`: the definition. A derivation's table lines are a set of table facts whose closure holds the triple, and
//!   every such set gives a derivation that lists each of its facts once. So f is the size of the least such set.
//! - `by_cost`: uniform cost over all derivable facts; a rule's result costs as much as its premises together.
//! - `ways`: for tables of any size. Six kinds of derivations, each a chain of facts; costs to the goal are lowered over
//!   the chain facts until nothing changes, and the chain is read off from them.
use crate::facts::*;
use crate::parts::Parts;
use std::collections::{BTreeSet, HashMap};

/// The least set closed under the rules that holds the facts.
pub fn closure(parts: &impl Parts, facts: &[Fact]) -> Vec<Fact> {
    let mut known = facts.to_vec();
    let mut next = 0;
    while next < known.len() {
        for other in 0..=next {
            for given in results(parts, known[next], known[other]) {
                if !known.contains(&given) {
                    known.push(given);
                }
            }
        }
        next += 1;
    }
    known
}

/// What the rules give from two facts, in either order.
fn results(parts: &impl Parts, a: Fact, b: Fact) -> impl Iterator<Item = Fact> + '_ {
    (1..=6).flat_map(move |rule| [parts.gives(rule, a, b), parts.gives(rule, b, a)]).flatten()
}

/// The facts at the places of the bits that are set.
pub fn members(facts: &[Fact], set: u32) -> Vec<Fact> {
    facts.iter().enumerate().filter(|(i, _)| set >> i & 1 == 1).map(|(_, &f)| f).collect()
}

pub fn by_subsets(parts: &impl Parts, facts: &[Fact], triple: Fact) -> Option<usize> {
    let holds = |set: u32| closure(parts, &members(facts, set)).into_iter().any(|fact| fills(triple, fact));
    let all = (1 << facts.len()) - 1;
    let mut sets: Vec<u32> = (0..=all).collect();
    sets.sort_by_key(|set| set.count_ones());
    let least = if holds(all) { sets.into_iter().find(|&set| holds(set)) } else { None };
    least.map(|set| set.count_ones() as usize)
}

pub fn by_cost(parts: &impl Parts, facts: &[Fact], triple: Fact) -> Option<usize> {
    let mut queue: BTreeSet<(usize, Fact)> = facts.iter().map(|&f| (1, f)).collect();
    let mut settled: HashMap<Fact, usize> = HashMap::new();
    while let Some((cost, fact)) = queue.pop_first() {
        if fills(triple, fact) {
            return Some(cost);
        }
        if settled.contains_key(&fact) {
            continue;
        }
        settled.insert(fact, cost);
        for (&other, &more) in &settled {
            queue.extend(results(parts, fact, other).map(|given| (cost + more, given)));
        }
    }
    None
}

const FAR: usize = usize::MAX / 2;

/// The fewest facts from each term to the goal.
struct Costs<'a> {
    facts: &'a [Fact],
    predicate: u32,
    cost: Vec<usize>,
}

impl<'a> Costs<'a> {
    /// Chains of facts with this predicate, from each term to one of the ends, which have costs of their own.
    fn new(facts: &'a [Fact], predicate: u32, ends: impl Iterator<Item = (u32, usize)>) -> Self {
        let mut cost = vec![FAR; 65536];
        for (term, end) in ends {
            cost[term as usize] = end.min(cost[term as usize]);
        }
        let links: Vec<_> = facts.iter().filter(|f| f[1] == predicate).map(|f| (f[0] as usize, f[2] as usize)).collect();
        let mut changed = true;
        while changed {
            changed = false;
            for &(a, b) in &links {
                if cost[b] + 1 < cost[a] {
                    cost[a] = cost[b] + 1;
                    changed = true;
                }
            }
        }
        Costs { facts, predicate, cost }
    }

    fn of(&self, term: u32) -> usize {
        self.cost[term as usize]
    }

    /// The chain from a term down to an end, and that end.
    fn chain(&self, mut term: u32) -> (Vec<Fact>, u32) {
        let mut chain = Vec::new();
        let down = |term: u32| self.facts.iter().find(|f| f[1] == self.predicate && f[0] == term && self.of(f[2]) + 1 == self.of(term));
        while let Some(&fact) = down(term) {
            chain.push(fact);
            term = fact[2];
        }
        (chain, term)
    }
}

/// Of some first facts the one from which the goal costs least, if any reaches it.
fn cheapest(first: impl Iterator<Item = Fact>, cost: impl Fn(Fact) -> usize) -> Option<Fact> {
    first.filter(|&f| cost(f) < FAR).min_by_key(|&f| cost(f))
}

/// For each kind of derivation that the triple has, the facts of a shortest one, in printed order: by domain, by range, and
/// then without them.
pub fn ways(facts: &[Fact], triple: Fact) -> Vec<Vec<Fact>> {
    let [x, p, y] = triple;
    let to = |predicate, term| Costs::new(facts, predicate, [(term, 0)].into_iter());
    let with = |predicate| facts.iter().copied().filter(move |f| f[1] == predicate);
    let data = || facts.iter().copied().filter(|f| is_name(f[1]));
    match p {
        // a chain of at least one fact
        SP | SC => {
            let costs = to(p, y);
            let first = cheapest(with(p).filter(|f| f[0] == x), |f| costs.of(f[2]));
            first.map(|f| [vec![f], costs.chain(f[2]).0].concat()).into_iter().collect()
        }
        DOM | RANGE => facts.iter().filter(|&&f| f == triple).map(|&f| vec![f]).collect(),
        TYPE => {
            let classes = to(SC, y);
            let typed = cheapest(with(TYPE).filter(|f| f[0] == x), |f| classes.of(f[2]));
            let plain = typed.map(|f| [vec![f], classes.chain(f[2]).0].concat());
            let by = |predicate: u32, own: usize| {
                let properties = Costs::new(facts, SP, with(predicate).map(|f| (f[0], 1 + classes.of(f[2]))));
                let first = cheapest(data().filter(|f| f[own] == x), |f| properties.of(f[1]))?;
                let (chain, last) = properties.chain(first[1]);
                let fired = cheapest(with(predicate).filter(|f| f[0] == last), |f| classes.of(f[2]))?;
                Some([chain, vec![first, fired], classes.chain(fired[2]).0].concat())
            };
            [by(DOM, 0), by(RANGE, 2), plain].into_iter().flatten().collect()
        }
        _ => {
            let costs = to(SP, p);
            let first = cheapest(data().filter(|f| (f[0], f[2]) == (x, y)), |f| costs.of(f[1]));
            first.map(|f| [costs.chain(f[1]).0, vec![f]].concat()).into_iter().collect()
        }
    }
}
