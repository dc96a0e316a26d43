//! The independent implementation of the import: the cases written by hand, texts of which it is known what they say, and broken
//! variants, each of which is caught by the comparison that the library must pass.
use factbox_tests::calls::ImportCall;
use factbox_tests::facts::*;
use factbox_tests::generate::Random;
use factbox_tests::import::compare::compare;
use factbox_tests::import::reader::{Placed, Plain, Reader, VOCABULARY};
use factbox_tests::import::systematic::{BLANKS, TEXT};
use factbox_tests::import::texts::{written, Tokens, Written};
use factbox_tests::import::{cases, test_inputs, variants};
use factbox_tests::parts::{Faithful, Parts};
use factbox_tests::variants::missed;
use std::collections::BTreeSet;

#[test]
fn it_has_the_cases_written_by_hand() {
    let cases = cases::cases();
    for (i, case) in cases.iter().enumerate() {
        let mut table = vec![170; case.import.room];
        let answer = Plain.factbox_import(&case.import.text, &mut table);
        assert_eq!(answer, case.answer.packed(), "case {}: {}", i + 1, case.import);
        let kept = vec![170; case.import.room - case.table.len()];
        assert!(table == [&case.table[..], &kept].concat(), "table of case {}: {}", i + 1, case.import);
    }
    assert!(cases.len() >= 150, "{} cases", cases.len());
}

/// The texts that are damaged at every byte: one is accepted, and one has blank nodes alone that are refused.
#[test]
fn the_texts_to_damage_are_in_the_subset() {
    assert_eq!(Plain.table(TEXT).map(|facts| facts.len()), Ok(6));
    assert_eq!(Plain.table(BLANKS), Err(refused(14, 2)));
}

/// A token's place among those before it that differ, by looking at each of them.
fn first_appearance(seen: &mut Vec<Vec<u8>>, token: &[u8]) -> u32 {
    let place = seen.iter().position(|other| other == token).unwrap_or(seen.len());
    if place == seen.len() {
        seen.push(token.to_vec());
    }
    place as u32
}

/// The facts of statements, and the tokens that have numbers from 6 and from 40000.
fn facts_of(statements: &[Placed<Tokens>]) -> (Vec<Fact>, [Vec<Vec<u8>>; 2]) {
    let mut seen = [vec![], vec![]];
    let mut term = |token: &Vec<u8>| match VOCABULARY.iter().position(|word| word == token) {
        Some(i) => i as u32 + 1,
        None if token[0] == b'"' => 40_000 + first_appearance(&mut seen[1], token),
        None => 6 + first_appearance(&mut seen[0], token),
    };
    let facts = statements.iter().map(|(_, tokens)| tokens.each_ref().map(&mut term)).collect();
    (facts, seen)
}

/// The token that has a number.
fn token_of(term: u32, [names, literals]: &[Vec<Vec<u8>>; 2]) -> Vec<u8> {
    match term {
        1..=5 => VOCABULARY[term as usize - 1].to_vec(),
        6..=39_999 => names[term as usize - 6].clone(),
        _ => literals[term as usize - 40_000].clone(),
    }
}

/// The first refusal of statements whose lines are all in the subset.
fn refusal_of(statements: &[Placed<Tokens>], facts: &[Fact]) -> Option<Answer> {
    let blank = |tokens: &Tokens| [&tokens[0], &tokens[2]].iter().any(|token| token[0] == b'_');
    let unknown = statements.iter().find(|(_, tokens)| blank(tokens)).map(|&(place, _)| refused(14, place));
    let fault = || statements.iter().zip(facts).find_map(|(&(place, _), &fact)| Some(refused(Faithful.fault(fact)?, place)));
    unknown.or_else(fault)
}

/// Of a text that was written from statements the table holds their triples under its numbering, and no others, each once and
/// sorted; or it has the refusal that these statements earn.
#[test]
fn it_holds_the_triples_that_were_written_and_no_others() {
    let mut r = Random(7);
    let (mut accepted, mut refusals, mut repeats) = (0, BTreeSet::new(), 0);
    for _ in 0..30_000 {
        let Written { text, statements } = written(&mut r);
        let (facts, seen) = facts_of(&statements);
        if let Some(refusal) = refusal_of(&statements, &facts) {
            assert_eq!(Plain.table(&text), Err(refusal), "{}", text.escape_ascii());
            refusals.insert(refusal.number);
            continue;
        }
        let table = Plain.table(&text).unwrap_or_else(|refusal| panic!("{refusal:?}: {}", text.escape_ascii()));
        let triples: BTreeSet<Tokens> = table.iter().map(|fact| fact.map(|term| token_of(term, &seen))).collect();
        let due: BTreeSet<Tokens> = statements.iter().map(|(_, tokens)| tokens.clone()).collect();
        assert!(triples == due, "{}", text.escape_ascii());
        assert!(table.windows(2).all(|pair| pair[0] < pair[1]), "{table:?}");
        accepted += 1;
        repeats += usize::from(table.len() < statements.len());
    }
    println!("{accepted} texts accepted, {repeats} with equal facts");
    assert!(accepted > 10_000 && repeats > 3_000 && refusals == BTreeSet::from([5, 12, 14]), "{accepted} {repeats} {refusals:?}");
}

/// Every answer is there often enough, and each table is one that reading accepts.
#[test]
fn the_inputs_have_every_answer() {
    let mut counts = [0; 17];
    for input in test_inputs() {
        let mut table = vec![0; input.room];
        let answer = Plain.import(&input.text, &mut table);
        if answer.number == DONE {
            let facts = Faithful.table(&table[..16 * answer.count as usize]).unwrap_or_else(|refusal| panic!("{refusal:?}\n{input}"));
            assert_eq!(facts.len(), answer.count as usize);
        }
        let too_large = answer.number == 13 && answer.place == 0;
        counts[if too_large { 16 } else { answer.number as usize }] += 1;
    }
    println!("{} inputs; by answer, 13 with place 0 last: {counts:?}", counts.iter().sum::<usize>());
    for (answer, least) in [(0, 40_000), (5, 4_000), (8, 4_000), (12, 2_000), (13, 60_000), (14, 5_000), (15, 200), (16, 150)] {
        assert!(counts[answer] >= least, "{answer}: {} inputs", counts[answer]);
    }
}

/// The first input that catches a variant, and how; nothing where none does.
fn caught(name: &str) -> Option<(usize, String)> {
    let (_, variant) = variants::all().into_iter().find(|(n, _)| n == name)?;
    test_inputs().enumerate().find_map(|(n, input)| Some((n + 1, compare(variant.as_ref(), &input).err()?)))
}

#[test]
fn every_variant_is_caught() {
    let names: Vec<String> = variants::all().into_iter().map(|(name, _)| name).collect();
    assert_eq!(missed(&names, caught), 0, "variants not caught");
    println!("{} variants, all caught", names.len());
}
