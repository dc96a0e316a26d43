//! The static library and the program `factbox` against the independent implementation.
use factbox_tests::calls::Calls;
use factbox_tests::cases;
use factbox_tests::chosen::{least_fillings, several};
use factbox_tests::compare::{compare, Input};
use factbox_tests::facts::{gap, is_blank};
use factbox_tests::gaps::ties;
use factbox_tests::generate::test_inputs;
use factbox_tests::library::Library;
use factbox_tests::parts::{Faithful, Parts};
use factbox_tests::shown::{self, KINDS};

#[test]
fn the_library_has_the_papers_own_cases() {
    cases::run(&Library::from_environment());
}

/// What a yes to a question shows: one of several shortest derivations, a gap, a gap with several fillings of least count.
fn shows(input: &Input) -> [bool; 3] {
    let Input::Question { table, triple, allowance, paper } = input else { return [false; 3] };
    let Ok(facts) = Faithful.sound(table, *triple, *allowance, *paper) else { return [false; 3] };
    // a large table may have a thousand fillings
    let has_gap = gap(*triple).is_some() && facts.len() <= 100;
    let least = if has_gap { least_fillings(&facts, *triple) } else { vec![] };
    let used = if has_gap { least.first().map(|(_, used)| used.clone()) } else { Faithful.chosen(&facts, *triple) };
    if !used.is_some_and(|used| Faithful.within(used.len(), *allowance)) {
        return [false; 3];
    }
    [!has_gap && several(&facts, *triple), has_gap, least.len() > 1]
}

/// Adds to each number whether the input shows what it counts.
fn add<const K: usize>(counts: &mut [usize; K], shows: [bool; K]) {
    counts.iter_mut().zip(shows).for_each(|(n, shows)| *n += usize::from(shows));
}

#[test]
fn the_library_does_as_the_papers_say() {
    let library = Library::from_environment();
    let mut counts = [0; 5];
    let mut shown = [0; 3];
    let mut kinds = [0; KINDS.len()];
    for input in test_inputs() {
        compare(&library, &input).unwrap_or_else(|e| panic!("{e}\n{input}"));
        add(&mut shown, shows(&input));
        add(&mut kinds, shown::shown(&input));
        counts[match input {
            Input::Question { .. } => 0,
            Input::Check { .. } => 1,
            Input::Read { .. } => 2,
            Input::Write { .. } => 3,
            Input::Program { .. } => 4,
        }] += 1;
    }
    let total: usize = counts.iter().sum();
    let ([question, check, read, write, program], [choices, gaps, ties]) = (counts, shown);
    println!("{total} inputs agree: question {question}, check {check}, read {read}, write {write}, program {program}");
    println!("{choices} yes to one of several shortest derivations, {gaps} to a gap, {ties} of them to one of several least fillings");
    for (kind, n) in KINDS.iter().zip(kinds) {
        println!("{n} inputs with {kind}");
        assert!(n >= 500, "too few inputs with {kind}: {n}");
    }
    assert!(total >= 200_000 && choices >= 5_000 && gaps >= 20_000 && ties >= 5_000, "too few inputs: {total}, {choices}, {gaps}, {ties}");
}

/// Every blank asks the same: answer and output are those of the first, whichever derivation is printed.
#[test]
fn which_blank_stands_in_the_gap_does_not_matter() {
    let library = Library::from_environment();
    let asked = |input: &Input, blank: u32| {
        let Input::Question { table, triple, allowance, paper } = input else { unreachable!("questions alone") };
        let mut output = vec![7; *paper];
        let triple = triple.map(|term| if is_blank(term) { blank } else { term });
        (library.factbox_question(table, triple, *allowance, &mut output), output)
    };
    for input in ties() {
        let first = asked(&input, 60000);
        for blank in [60001, 62767, 65534, 65535] {
            assert!(asked(&input, blank) == first, "{blank} and 60000 differ\n{input}");
        }
    }
}

mod imports {
    use super::*;
    use factbox_tests::calls::ImportCall;
    use factbox_tests::facts::{answered, Fact, DONE};
    use factbox_tests::import::compare::{compare, Import};
    use factbox_tests::import::reader::{Plain, Reader};
    use factbox_tests::import::test_inputs;
    use factbox_tests::lines::TABLE_LINE;

    /// The table that the library writes is accepted by its reading, with the facts that are due, each once and ascending.
    fn is_read(library: &Library, Import { text, room }: &Import, due: &[Fact]) {
        let (mut table, mut row) = (vec![0; *room], vec![0; 3 * due.len()]);
        let answer = library.factbox_import(text, &mut table);
        assert_eq!(answer, answered(DONE, due.len()).packed());
        assert_eq!(library.factbox_read(&table[..TABLE_LINE * due.len()], &mut row), answer);
        assert!(row == due.concat() && due.windows(2).all(|pair| pair[0] < pair[1]), "{due:?}");
    }

    #[test]
    fn the_library_imports_as_document_02_says() {
        let library = Library::from_environment();
        let (mut count, mut tables) = (0, 0);
        for input in test_inputs() {
            compare(&library, &input).unwrap_or_else(|e| panic!("{e}\n{input}"));
            count += 1;
            if let Some(facts) = Plain.table(&input.text).ok().filter(|facts| TABLE_LINE * facts.len() <= input.room) {
                is_read(&library, &input, &facts);
                tables += 1;
            }
        }
        println!("{count} texts to import agree, {tables} of them with a table that reading accepts");
        assert!(count >= 200_000 && tables >= 50_000, "too few inputs: {count}, {tables}");
    }
}
