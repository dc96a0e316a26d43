//! What has no literal as a class or a property is answered as before Point 2 of document 02: number, place, count, the term named
//! and every byte of lent memory. What has one is refused as laid down.
use factbox_tests::library::Library;
use factbox_tests::parts::Faithful;
use factbox_tests::stored::{entries, Entry};

fn stored() -> Vec<&'static str> {
    include_str!("../stored.txt").lines().filter(|line| !line.starts_with('#')).collect()
}

/// The number of a line's answer; none where it is the program's.
fn number(line: &str) -> Option<u32> {
    line.split(' ').filter(|_| !line.starts_with("program")).find_map(|word| word.parse().ok())
}

/// Each entry with the line that was stored for it and its place.
fn with_stored(entries: &[Entry]) -> impl Iterator<Item = (usize, &Entry, &'static str)> {
    let stored = stored();
    assert_eq!(entries.len(), stored.len(), "lines");
    entries.iter().zip(stored).enumerate().map(|(n, (entry, stored))| (n + 1, entry, stored))
}

/// Without a barred literal the line is the one stored. With one it is refused by 12, or for what was refused before.
#[test]
fn the_independent_implementation_answers_as_before_but_for_12() {
    for (n, Entry { line, barred }, stored) in with_stored(&entries(&Faithful)) {
        let may_change = *barred && (stored.starts_with("program") || number(line) == Some(12));
        assert!(may_change || line == stored, "line {n} of those that are stored: {line}, not {stored}");
    }
}

/// Without a barred literal the line is the one stored, with one the independent implementation's.
#[test]
fn the_library_and_the_program_answer_as_before_but_for_12() {
    let laid_down = entries(&Faithful);
    let found = entries(&Library::from_environment());
    for ((n, Entry { line, barred }, stored), laid_down) in with_stored(&found).zip(&laid_down) {
        let due = if *barred { &laid_down.line } else { stored };
        assert_eq!(line, due, "line {n} of those that are stored");
    }
}

/// Every answer is there often enough where no literal is barred, and 12 where one is.
#[test]
fn the_corpus_has_every_answer() {
    let entries = entries(&Faithful);
    let count = |barred, answer| entries.iter().filter(|entry| entry.barred == barred && number(&entry.line) == Some(answer)).count();
    let answers = [(0, 100), (1, 30), (2, 20), (3, 60), (4, 40), (5, 40), (6, 30), (7, 60), (8, 60), (90, 300), (91, 100), (92, 60)];
    for (answer, least) in answers {
        assert!(count(false, answer) >= least, "{answer}: {} lines", count(false, answer));
    }
    let earlier: usize = (1..=6).map(|answer| count(true, answer)).sum();
    let programs = entries.iter().filter(|entry| !entry.barred && entry.line.starts_with("program")).count();
    println!("{} lines, {} refused by 12, {earlier} before that, {programs} of the program as before", entries.len(), count(true, 12));
    assert!(count(true, 12) >= 200 && earlier >= 50 && programs >= 30, "{} {earlier} {programs}", count(true, 12));
}
