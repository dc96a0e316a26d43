//! Writes `stored.txt` to standard output: the lines that the library linked and the program have for the stored corpus.
use factbox_tests::library::Library;
use factbox_tests::stored::entries;

fn main() {
    println!("# Answers of the library and the program from before a literal was barred as a class. src/stored.rs says when and how");
    println!("# this file is written again. A question's line: number, place, count, what it names, digest of the output and what lies");
    println!("# about it; behind a yes two answers of the check. Lines with `read` and `write`: the same of the table read and of the row");
    println!("# written. A line with `program`: how many bytes the program prints for the questions before it, and their digest.");
    entries(&Library::from_environment()).iter().for_each(|entry| println!("{}", entry.line));
}
