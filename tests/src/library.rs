//! The static library through its C interface, and the program `factbox` through standard input and output.
use crate::calls::Calls;
use crate::calls::ImportCall;
use crate::facts::Fact;
use std::io::{Read, Write};
use std::path::PathBuf;
use std::process::{Command, Stdio};

extern "C" {
    fn factbox_question(table: *const u8, table_len: usize, s: u32, p: u32, o: u32, limit: u32, output: *mut u8, output_len: usize) -> u64;
    fn factbox_check(table: *const u8, table_len: usize, s: u32, p: u32, o: u32, derivation: *const u8, derivation_len: usize) -> u64;
    fn factbox_read(table: *const u8, table_len: usize, row: *mut u32, row_len: usize) -> u64;
    fn factbox_write(row: *const u32, row_len: usize, output: *mut u8, output_len: usize) -> u64;
    fn factbox_import(text: *const u8, text_len: usize, table: *mut u8, table_len: usize) -> u64;
}

pub struct Library {
    program: PathBuf,
    chooses: bool,
}

impl Library {
    /// The library that was linked, with the program that FACTBOX_PROGRAM names. With FACTBOX_ANY_CHOICE set any shortest
    /// derivation will do for the library.
    pub fn from_environment() -> Library {
        let program =
            PathBuf::from(std::env::var("FACTBOX_PROGRAM").expect("FACTBOX_PROGRAM must name the program, as target/bin/factbox"));
        assert!(program.is_file(), "FACTBOX_PROGRAM={}: no such file", program.display());
        Library { program, chooses: std::env::var_os("FACTBOX_ANY_CHOICE").is_none() }
    }
}

// Every call is given slices of live memory, and no output overlaps an input: a `&mut` slice has no other reader.
impl Calls for Library {
    fn chooses(&self) -> bool {
        self.chooses
    }
    fn factbox_question(&self, table: &[u8], [s, p, o]: Fact, allowance: u32, paper: &mut [u8]) -> u64 {
        unsafe { factbox_question(table.as_ptr(), table.len(), s, p, o, allowance, paper.as_mut_ptr(), paper.len()) }
    }
    fn factbox_check(&self, table: &[u8], [s, p, o]: Fact, derivation: &[u8]) -> u64 {
        unsafe { factbox_check(table.as_ptr(), table.len(), s, p, o, derivation.as_ptr(), derivation.len()) }
    }
    fn factbox_read(&self, table: &[u8], row: &mut [u32]) -> u64 {
        unsafe { factbox_read(table.as_ptr(), table.len(), row.as_mut_ptr(), row.len()) }
    }
    fn factbox_write(&self, row: &[u32], output: &mut [u8]) -> u64 {
        unsafe { factbox_write(row.as_ptr(), row.len(), output.as_mut_ptr(), output.len()) }
    }
    fn factbox(&self, input: &[u8]) -> Vec<u8> {
        let mut child = Command::new(&self.program).stdin(Stdio::piped()).stdout(Stdio::piped()).spawn().expect("the program starts");
        let mut stdin = child.stdin.take().unwrap();
        let mut stdout = child.stdout.take().unwrap();
        let mut output = Vec::new();
        std::thread::scope(|scope| {
            // input too long is not read to its end: a write may fail then
            scope.spawn(move || stdin.write_all(input));
            stdout.read_to_end(&mut output).expect("the program's output is read");
        });
        assert!(child.wait().expect("the program ends").code().is_some(), "the program was killed by a signal");
        output
    }
}

impl ImportCall for Library {
    fn factbox_import(&self, text: &[u8], table: &mut [u8]) -> u64 {
        unsafe { factbox_import(text.as_ptr(), text.len(), table.as_mut_ptr(), table.len()) }
    }
}
