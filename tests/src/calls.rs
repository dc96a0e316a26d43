//! The calls as C sees them, and the program: what two implementations are compared by.
use crate::facts::Fact;
use crate::import::reader::Reader;
use crate::parts::Parts;

pub trait Calls {
    fn factbox_question(&self, table: &[u8], triple: Fact, allowance: u32, paper: &mut [u8]) -> u64;
    fn factbox_check(&self, table: &[u8], triple: Fact, derivation: &[u8]) -> u64;
    fn factbox_read(&self, table: &[u8], row: &mut [u32]) -> u64;
    fn factbox_write(&self, row: &[u32], output: &mut [u8]) -> u64;
    fn factbox(&self, input: &[u8]) -> Vec<u8>;
    /// Whether its question prints the named one among several shortest derivations, and fills a gap by that.
    fn chooses(&self) -> bool {
        true
    }
}

impl<T: Parts> Calls for T {
    fn factbox_question(&self, table: &[u8], triple: Fact, allowance: u32, paper: &mut [u8]) -> u64 {
        self.question(table, triple, allowance, paper).packed()
    }
    fn factbox_check(&self, table: &[u8], triple: Fact, derivation: &[u8]) -> u64 {
        self.check(table, triple, derivation).packed()
    }
    fn factbox_read(&self, table: &[u8], row: &mut [u32]) -> u64 {
        self.read(table, row).packed()
    }
    fn factbox_write(&self, row: &[u32], output: &mut [u8]) -> u64 {
        self.write(row, output).packed()
    }
    fn factbox(&self, input: &[u8]) -> Vec<u8> {
        self.program(input)
    }
}

/// The import as C sees it.
pub trait ImportCall {
    fn factbox_import(&self, text: &[u8], table: &mut [u8]) -> u64;
}

impl<T: Reader> ImportCall for T {
    fn factbox_import(&self, text: &[u8], table: &mut [u8]) -> u64 {
        self.import(text, table).packed()
    }
}

/// The same implementation, from which any shortest derivation and any least filling is taken.
pub struct AnyChoice(pub Box<dyn Calls>);

impl Calls for AnyChoice {
    fn chooses(&self) -> bool {
        false
    }
    fn factbox_question(&self, table: &[u8], triple: Fact, allowance: u32, paper: &mut [u8]) -> u64 {
        self.0.factbox_question(table, triple, allowance, paper)
    }
    fn factbox_check(&self, table: &[u8], triple: Fact, derivation: &[u8]) -> u64 {
        self.0.factbox_check(table, triple, derivation)
    }
    fn factbox_read(&self, table: &[u8], row: &mut [u32]) -> u64 {
        self.0.factbox_read(table, row)
    }
    fn factbox_write(&self, row: &[u32], output: &mut [u8]) -> u64 {
        self.0.factbox_write(row, output)
    }
    fn factbox(&self, input: &[u8]) -> Vec<u8> {
        self.0.factbox(input)
    }
}
