//! A longer run: random inputs from a seed, until as many as asked for agree or one does not; and as many texts to import.
//! `fuzz SEED INPUTS`
use factbox_tests::compare::compare;
use factbox_tests::generate::random_inputs;
use factbox_tests::import;
use factbox_tests::library::Library;
use std::fmt::Display;

/// Compares the inputs one after the other; the first difference ends the run.
fn run<I: Display>(seed: u64, inputs: impl Iterator<Item = I>, compare: impl Fn(&I) -> Result<(), String>) {
    let mut count = 0;
    for input in inputs {
        count += 1;
        if let Err(difference) = compare(&input) {
            println!("seed {seed}, input {count}: {difference}\n{input}");
            std::process::exit(1);
        }
        if count % 1_000_000 == 0 {
            println!("{count} inputs agree");
        }
    }
    println!("seed {seed}: {count} inputs agree");
}

fn main() {
    let mut words = std::env::args().skip(1).map(|w| w.parse::<u64>().expect("fuzz SEED INPUTS: two numbers"));
    let (seed, count) = (words.next().unwrap_or(1), words.next().unwrap_or(1_000_000) as usize);
    let library = Library::from_environment();
    run(seed, import::random_inputs(seed, count), |input| import::compare::compare(&library, input));
    run(seed, random_inputs(seed, count), |input| compare(&library, input));
}
