//! Terms, facts and answers (document 01, "Terms and facts" and the table of numbers; document 02, Point 1 for gaps and Point 2 for
//! where a literal may stand).

/// Subject, predicate, object. 32 bits wide, so that a number that is no term can be put, and refused.
pub type Fact = [u32; 3];

pub const SC: u32 = 1;
pub const SP: u32 = 2;
pub const DOM: u32 = 3;
pub const RANGE: u32 = 4;
pub const TYPE: u32 = 5;

pub fn is_vocabulary(term: u32) -> bool {
    (1..=5).contains(&term)
}

pub fn is_name(term: u32) -> bool {
    (6..=39999).contains(&term)
}

pub fn is_literal(term: u32) -> bool {
    (40000..=59999).contains(&term)
}

pub fn is_blank(term: u32) -> bool {
    (60000..=65535).contains(&term)
}

/// Subject and object of sc, sp, dom and range are names; the subject of type is a name or a literal, its object a name; with a
/// name as predicate both are names or literals.
pub fn well_formed([s, p, o]: Fact) -> bool {
    let node = |term| is_name(term) || is_literal(term);
    match p {
        SC | SP | DOM | RANGE => is_name(s) && is_name(o),
        TYPE => node(s) && is_name(o),
        _ => node(s) && is_name(p) && node(o),
    }
}

/// A literal stands as subject or object of sc, sp, dom or range, or as object of type, whatever else is wrong with the fact.
pub fn text_as_class([s, p, o]: Fact) -> bool {
    is_vocabulary(p) && (is_literal(o) || is_literal(s) && p != TYPE)
}

/// Where a question's triple has its gap: the place of its only blank, 0 for the subject and 2 for the object. A blank
/// predicate is no gap, and two blanks are none.
pub fn gap(triple: Fact) -> Option<usize> {
    match triple.map(is_blank) {
        [true, false, false] => Some(0),
        [false, false, true] => Some(2),
        _ => None,
    }
}

/// The triple with a term in its gap; the triple itself where it has none.
pub fn filled(mut triple: Fact, term: u32) -> Fact {
    if let Some(place) = gap(triple) {
        triple[place] = term;
    }
    triple
}

/// The fact is well-formed and has the triple's terms but for its gap.
pub fn fills(triple: Fact, fact: Fact) -> bool {
    well_formed(fact) && (0..3).all(|place| gap(triple) == Some(place) || triple[place] == fact[place])
}

/// A data fact: predicate a name or type.
pub fn is_data([_, p, _]: Fact) -> bool {
    is_name(p) || p == TYPE
}

/// Where a fact stands in a printed derivation: the sp facts, then the data fact, a dom or range fact, the sc facts.
pub fn phase([_, p, _]: Fact) -> u32 {
    match p {
        SP => 0,
        DOM | RANGE => 2,
        SC => 3,
        _ => 1,
    }
}

pub const DONE: u32 = 0;
pub const YES: u32 = 90;
pub const NO: u32 = 91;
pub const LONG: u32 = 92;
pub const ACCEPTED: u32 = 93;

/// What a call answers.
#[derive(Clone, Copy, PartialEq, Eq, Debug)]
pub struct Answer {
    pub number: u32,
    pub place: u32,
    pub count: u32,
    /// What fills the gap, in a yes to a question that has one; else 0.
    pub filling: u32,
}

/// An answer that is no refusal: place 0.
pub fn answered(number: u32, count: usize) -> Answer {
    Answer { number, place: 0, count: count as u32, filling: 0 }
}

/// A refusal: count 0.
pub fn refused(number: u32, place: u32) -> Answer {
    Answer { number, place, count: 0, filling: 0 }
}

impl Answer {
    /// As C gets it: bits 0-7 number, 8-31 place, 32-47 count, 48-63 filling.
    pub fn packed(self) -> u64 {
        u64::from(self.number) | u64::from(self.place) << 8 | u64::from(self.count) << 32 | u64::from(self.filling) << 48
    }
}
