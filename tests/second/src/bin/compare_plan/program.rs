//! What is compared: something that reads and writes plan files. Everything is lent between
//! guards, what is only read as well.

use crate::library;
use second::answer::Answer;
use second::lent::Lent;
use second::plan::broken::Functions;

pub trait Program {
    /// Accepted with 0, or refused.
    fn check(&self, file: &mut Lent<u8>) -> Answer;
    /// How many numbers the rows have, written where they fit.
    fn table(&self, file: &mut Lent<u8>, table: &mut Lent<u32>) -> u64;
    /// How many bytes the script has, written where they fit.
    fn script(&self, file: &mut Lent<u8>, script: &mut Lent<u8>) -> u64;
    /// Accepted with the file's length, or refused.
    fn write(&self, table: &mut Lent<u32>, script: &mut Lent<u8>, output: &mut Lent<u8>) -> Answer;
}

/// The second program and its broken copies.
impl Program for Functions {
    fn check(&self, file: &mut Lent<u8>) -> Answer {
        (self.check)(file.part()).map(|()| 0)
    }

    fn table(&self, file: &mut Lent<u8>, table: &mut Lent<u32>) -> u64 {
        (self.table_into)(file.part(), table.part_to_write())
    }

    fn script(&self, file: &mut Lent<u8>, script: &mut Lent<u8>) -> u64 {
        (self.script_into)(file.part(), script.part_to_write())
    }

    fn write(&self, table: &mut Lent<u32>, script: &mut Lent<u8>, output: &mut Lent<u8>) -> Answer {
        (self.write)(table.part(), script.part(), output.part_to_write())
    }
}

pub struct Library;

impl Program for Library {
    fn check(&self, file: &mut Lent<u8>) -> Answer {
        library::check(file)
    }

    fn table(&self, file: &mut Lent<u8>, table: &mut Lent<u32>) -> u64 {
        library::table(file, table)
    }

    fn script(&self, file: &mut Lent<u8>, script: &mut Lent<u8>) -> u64 {
        library::script(file, script)
    }

    fn write(&self, table: &mut Lent<u32>, script: &mut Lent<u8>, output: &mut Lent<u8>) -> Answer {
        library::write(table, script, output)
    }
}
