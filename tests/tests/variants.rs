//! Every broken variant is caught by the comparison that the library must pass.
use factbox_tests::calls::AnyChoice;
use factbox_tests::compare::compare;
use factbox_tests::generate::test_inputs;
use factbox_tests::variants::{all, free_choices, missed};
use factbox_tests::{cases, gaps};

/// The papers leave it free which of the least fillings is named, and nothing else: one that need not make the same choice
/// passes with another, and not with a filling that is none of them.
#[test]
fn any_least_filling_may_be_named_and_no_other() {
    let inputs = || cases::questions().chain(gaps::ties());
    let verdict = |variant: &AnyChoice| inputs().map(|input| compare(variant, &input)).find(Result::is_err).unwrap_or(Ok(()));
    for (name, variant) in free_choices() {
        assert_eq!(verdict(&AnyChoice(variant)), Ok(()), "{name}");
    }
    let wrong = ["FirstFilling", "FirstThatFits", "CountOfFirstFilling", "SubjectNamedForRange", "NothingNamed", "BlankNamed", "LongNames"];
    for (name, variant) in all().into_iter().filter(|(name, _)| wrong.contains(&name.as_str())) {
        assert!(verdict(&AnyChoice(variant)).is_err(), "{name}");
    }
}

/// The first input that catches a variant, and how; nothing where none does.
fn caught(name: &str) -> Option<(usize, String)> {
    let (_, variant) = all().into_iter().find(|(n, _)| n == name)?;
    test_inputs().enumerate().find_map(|(n, input)| Some((n + 1, compare(variant.as_ref(), &input).err()?)))
}

#[test]
fn every_variant_is_caught() {
    let names: Vec<String> = all().into_iter().map(|(name, _)| name).collect();
    assert_eq!(missed(&names, caught), 0, "variants not caught");
    println!("{} variants, all caught", names.len());
}
