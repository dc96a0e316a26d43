//! Document 01 with Points 1 and 2 of document 02, part by part, from their own words. Each part is a method of its own, so that a
//! broken variant (`variants`) replaces one of them and shares the rest.
use crate::chosen;
use crate::facts::*;
use crate::lines::{self, derivation_bytes, line, table_bytes, Line, DERIVATION_LINE, QUESTION_LINE, TABLE_LINE};

pub const MOST_FACTS: usize = 1_024;
pub const MOST_LINES: usize = 2_047;
pub const MOST_INPUT: usize = 32_768;

/// The independent implementation with nothing replaced.
pub struct Faithful;
impl Parts for Faithful {}

pub trait Parts {
    // Terms and facts

    /// The first of refusals 3, 4, 5, 12, each over the whole width.
    fn fault(&self, fact: Fact) -> Option<u32> {
        let [s, p, o] = fact;
        if fact.iter().any(|&t| t == 0 || t > 65535) {
            Some(3)
        } else if fact.into_iter().any(is_blank) {
            Some(4)
        } else if is_vocabulary(s) || is_vocabulary(o) || is_literal(p) {
            Some(5)
        } else {
            text_as_class(fact).then_some(12)
        }
    }

    /// The same of a question's triple. One with a gap is refused when it is so with a name and with a literal there: a fault
    /// that both leave is one of the other terms.
    fn question_fault(&self, triple: Fact) -> Option<u32> {
        match gap(triple) {
            None => self.fault(triple),
            Some(_) => [6, 40000].into_iter().map(|term| self.fault(filled(triple, term))).min().flatten(),
        }
    }

    /// Facts ascend strictly by subject, then predicate, then object.
    fn above(&self, fact: Fact, before: Fact) -> bool {
        fact > before
    }

    // Table layout

    fn number(&self, field: &[u8]) -> Option<u32> {
        lines::number(field)
    }

    /// The K numbers of a line that is laid out well.
    fn numbers<const K: usize>(&self, line: &[u8]) -> Option<[u32; K]> {
        let mut numbers = [0; K];
        for (n, field) in numbers.iter_mut().zip(line.chunks(5)) {
            *n = self.number(field)?;
        }
        (line[5 * K..] == [10]).then_some(numbers)
    }

    /// A line's place, counted from 1.
    fn place(&self, index: usize) -> u32 {
        index as u32 + 1
    }

    /// Lines downward, each tried for 2, 3, 4, 5, 12, 6. A row's facts come as they are, with no 2.
    fn facts(&self, lines: impl Iterator<Item = Option<Fact>>) -> Result<Vec<Fact>, Answer> {
        let mut facts: Vec<Fact> = Vec::new();
        for (i, fact) in lines.enumerate() {
            let fact = fact.ok_or(refused(2, self.place(i)))?;
            let order = || facts.last().filter(|&&before| !self.above(fact, before)).map(|_| 6);
            if let Some(number) = self.fault(fact).or_else(order) {
                return Err(refused(number, self.place(i)));
            }
            facts.push(fact);
        }
        Ok(facts)
    }

    fn table(&self, bytes: &[u8]) -> Result<Vec<Fact>, Answer> {
        if bytes.len() % TABLE_LINE != 0 || bytes.len() > TABLE_LINE * MOST_FACTS {
            return Err(refused(1, 0));
        }
        self.facts(bytes.chunks(TABLE_LINE).map(|line| self.numbers(line)))
    }

    fn row(&self, row: &[u32]) -> Result<Vec<Fact>, Answer> {
        if row.len() % 3 != 0 || row.len() > 3 * MOST_FACTS {
            return Err(refused(1, 0));
        }
        self.facts(row.chunks(3).map(|fact| Some([fact[0], fact[1], fact[2]])))
    }

    fn read(&self, table: &[u8], row: &mut [u32]) -> Answer {
        match self.table(table) {
            Err(refusal) => refusal,
            Ok(facts) if row.len() < 3 * facts.len() => refused(8, 0),
            Ok(facts) => {
                row[..3 * facts.len()].copy_from_slice(&facts.concat());
                answered(DONE, facts.len())
            }
        }
    }

    fn write(&self, row: &[u32], output: &mut [u8]) -> Answer {
        match self.row(row) {
            Err(refusal) => refusal,
            Ok(facts) if output.len() < TABLE_LINE * facts.len() => refused(8, 0),
            Ok(facts) => {
                output[..TABLE_LINE * facts.len()].copy_from_slice(&table_bytes(&facts));
                answered(DONE, facts.len())
            }
        }
    }

    // Rules

    /// What a rule writes for two facts in the order in which it has them, well-formed or not.
    fn concludes(&self, rule: u32, first: Fact, second: Fact) -> Option<Fact> {
        let given = match (rule, first, second) {
            (1, [a, SP, b], [b2, SP, c]) if b == b2 => [a, SP, c],
            (2, [a, SP, b], [x, a2, y]) if a == a2 => [x, b, y],
            (3, [a, SC, b], [b2, SC, c]) if b == b2 => [a, SC, c],
            (4, [a, SC, b], [x, TYPE, a2]) if a == a2 => [x, TYPE, b],
            (5, [a, DOM, b], [x, a2, _]) if a == a2 => [x, TYPE, b],
            (6, [a, RANGE, b], [_, a2, y]) if a == a2 => [y, TYPE, b],
            _ => return None,
        };
        Some(given)
    }

    /// What a rule gives from two facts: all triples of a step are well-formed.
    fn gives(&self, rule: u32, first: Fact, second: Fact) -> Option<Fact> {
        let given = self.concludes(rule, first, second)?;
        [first, second, given].into_iter().all(well_formed).then_some(given)
    }

    // Derivation lines and their check

    fn lines(&self, bytes: &[u8]) -> Result<Vec<Line>, Answer> {
        if bytes.is_empty() || bytes.len() % DERIVATION_LINE != 0 || bytes.len() > DERIVATION_LINE * MOST_LINES {
            return Err(refused(9, 0));
        }
        let line = |(i, bytes)| {
            let [rule, first, second, s, p, o] = self.numbers(bytes).ok_or(refused(9, self.place(i)))?;
            Ok(Line { rule, first, second, fact: [s, p, o] })
        };
        bytes.chunks(DERIVATION_LINE).enumerate().map(line).collect()
    }

    fn in_table(&self, table: &[Fact], fact: Fact) -> bool {
        table.binary_search(&fact).is_ok()
    }

    /// The fact of an earlier line, by its number.
    fn premise(&self, lines: &[Line], own: usize, number: u32) -> Option<Fact> {
        let earlier = &lines[..own];
        earlier.get((number as usize).checked_sub(1)?).map(|l| l.fact)
    }

    /// Line `own`, counted from 0, is a table line or a rule's result.
    fn justified(&self, table: &[Fact], lines: &[Line], own: usize) -> bool {
        let Line { rule, first, second, fact } = lines[own];
        if rule == 0 {
            return (first, second) == (0, 0) && self.in_table(table, fact);
        }
        match (self.premise(lines, own, first), self.premise(lines, own, second)) {
            (Some(p), Some(q)) => self.gives(rule, p, q) == Some(fact),
            _ => false,
        }
    }

    fn ends_in(&self, lines: &[Line], triple: Fact) -> bool {
        lines.last().is_some_and(|l| l.fact == triple)
    }

    /// All lines with rule 0, used or not; the same fact on two lines counts twice.
    fn table_lines(&self, lines: &[Line]) -> usize {
        lines.iter().filter(|l| l.rule == 0).count()
    }

    /// Table, triple, 9 over all lines, 10, 11.
    fn judge(&self, table: &[u8], triple: Fact, derivation: &[u8]) -> Result<usize, Answer> {
        let table = self.table(table)?;
        self.fault(triple).map_or(Ok(()), |number| Err(refused(number, 0)))?;
        let lines = self.lines(derivation)?;
        match (0..lines.len()).find(|&i| !self.justified(&table, &lines, i)) {
            Some(i) => Err(refused(10, self.place(i))),
            None if !self.ends_in(&lines, triple) => Err(refused(11, self.place(lines.len() - 1))),
            None => Ok(self.table_lines(&lines)),
        }
    }

    fn check(&self, table: &[u8], triple: Fact, derivation: &[u8]) -> Answer {
        self.judge(table, triple, derivation).map_or_else(|refusal| refusal, |count| answered(ACCEPTED, count))
    }

    // The question

    /// Bytes of paper for an allowance.
    fn paper(&self, allowance: u32) -> usize {
        DERIVATION_LINE * (2 * allowance as usize).saturating_sub(1)
    }

    /// Table, triple, 7, 8.
    fn sound(&self, table: &[u8], triple: Fact, allowance: u32, paper: usize) -> Result<Vec<Fact>, Answer> {
        let facts = self.table(table)?;
        match self.question_fault(triple) {
            Some(number) => Err(refused(number, 0)),
            None if allowance as usize > MOST_FACTS => Err(refused(7, 0)),
            None if paper < self.paper(allowance) => Err(refused(8, 0)),
            None => Ok(facts),
        }
    }

    /// The facts of the derivation that is printed where the allowance is enough, in printed order; their number is f.
    fn chosen(&self, facts: &[Fact], triple: Fact) -> Option<Vec<Fact>> {
        chosen::chosen(facts, triple)
    }

    /// The same for a triple with a gap, and the triple filled.
    fn chosen_filling(&self, facts: &[Fact], triple: Fact) -> Option<(Fact, Vec<Fact>)> {
        chosen::chosen_filling(facts, triple)
    }

    /// The triple of which a derivation is printed, and the facts of that.
    fn found(&self, facts: &[Fact], triple: Fact) -> Option<(Fact, Vec<Fact>)> {
        match gap(triple) {
            None => self.chosen(facts, triple).map(|used| (triple, used)),
            Some(_) => self.chosen_filling(facts, triple),
        }
    }

    /// What a yes names: the term in the gap, or 0.
    fn named(&self, triple: Fact, filled: Fact, _used: &[Fact]) -> u32 {
        gap(triple).map_or(0, |place| filled[place])
    }

    fn within(&self, f: usize, allowance: u32) -> bool {
        f <= allowance as usize
    }

    /// The rule line that joins a fact, on the line after the result's, to the result so far.
    fn join(&self, result: Line, number: u32, fact: Fact) -> Line {
        let (rule, result_first) = match (result.fact[1], fact[1]) {
            (SP, SP) => (1, true),
            (SP, _) => (2, true),
            (SC, _) => (3, true),
            (_, SC) => (4, false),
            (_, DOM) => (5, false),
            _ => (6, false),
        };
        let (first, second) = if result_first { (number, number + 1) } else { (number + 1, number) };
        let (p, q) = if result_first { (result.fact, fact) } else { (fact, result.fact) };
        Line { rule, first, second, fact: Faithful.gives(rule, p, q).unwrap_or(fact) }
    }

    /// The facts in printed order, each from the second on followed by its rule line.
    fn derivation(&self, facts: &[Fact]) -> Vec<Line> {
        let mut lines = vec![Line::of_table(facts[0])];
        for &fact in &facts[1..] {
            let (result, number) = (lines[lines.len() - 1], lines.len() as u32);
            lines.push(Line::of_table(fact));
            lines.push(self.join(result, number, fact));
        }
        lines
    }

    fn question(&self, table: &[u8], triple: Fact, allowance: u32, paper: &mut [u8]) -> Answer {
        let facts = match self.sound(table, triple, allowance, paper.len()) {
            Err(refusal) => return refusal,
            Ok(facts) => facts,
        };
        match self.found(&facts, triple) {
            None => answered(NO, 0),
            Some((_, used)) if !self.within(used.len(), allowance) => answered(LONG, used.len()),
            Some((filled, used)) => {
                let bytes = derivation_bytes(&self.derivation(&used));
                let fits = bytes.len().min(paper.len());
                paper[..fits].copy_from_slice(&bytes[..fits]);
                Answer { filling: self.named(triple, filled, &used), ..answered(YES, used.len()) }
            }
        }
    }

    // The program

    /// Where the table ends: the first zero line at a multiple of 16 bytes.
    fn divider(&self, input: &[u8]) -> Option<usize> {
        input.chunks(TABLE_LINE).position(|l| l == line(&[0; 3])).map(|i| TABLE_LINE * i)
    }

    /// The table's bytes and the questions; none where the whole input is refused.
    fn questions<'a>(&self, input: &'a [u8]) -> Option<(&'a [u8], Vec<[u32; 4]>)> {
        if input.len() > MOST_INPUT {
            return None;
        }
        let (table, rest) = input.split_at(self.divider(input)?);
        let lines = rest[TABLE_LINE..].chunks(QUESTION_LINE);
        let question = |l: &[u8]| if l.len() == QUESTION_LINE { self.numbers(l) } else { None };
        Some((table, lines.map(question).collect::<Option<_>>()?))
    }

    fn program(&self, input: &[u8]) -> Vec<u8> {
        let Some((table, questions)) = self.questions(input) else { return line(&[9, 0, 0]) };
        let mut output = Vec::new();
        for [s, p, o, allowance] in questions {
            let mut paper = vec![0; self.paper(allowance.min(MOST_FACTS as u32))];
            let Answer { number, place, count, .. } = self.question(table, [s, p, o], allowance, &mut paper);
            output.extend(line(&[number, place, count]));
            if number == YES {
                output.extend(paper.iter().take(DERIVATION_LINE * (2 * count as usize - 1)));
            }
        }
        output
    }
}
