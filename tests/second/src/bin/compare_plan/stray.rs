//! Programs that answer as the second program does, but write where nothing was lent for
//! writing, or leave a place unwritten. Safe code can't do that; a library through C can.

use crate::difference::SECOND;
use crate::program::Program;
use second::answer::Answer;
use second::lent::{answered, Lent, Pattern};

#[derive(Clone, Copy, PartialEq, Eq)]
pub enum Stray {
    PlaceUnwritten,
    BesidePlace,
    PastTable,
    BeforeTable,
    PastScript,
    BeforeScript,
    PastOutput,
    BeforeOutput,
    IntoFile,
    PastFile,
    IntoTableToWrite,
    IntoScriptToWrite,
}

pub const STRAY: [(&str, Stray); 12] = [
    ("place left unwritten", Stray::PlaceUnwritten),
    ("a number beside the place written", Stray::BesidePlace),
    ("a number past the lent table written", Stray::PastTable),
    ("a number before the lent table written", Stray::BeforeTable),
    ("a byte past the lent script written", Stray::PastScript),
    ("a byte before the lent script written", Stray::BeforeScript),
    ("a byte past the lent output written", Stray::PastOutput),
    ("a byte before the lent output written", Stray::BeforeOutput),
    ("the file itself written", Stray::IntoFile),
    ("a byte past the file that is read written", Stray::PastFile),
    ("the table to write written", Stray::IntoTableToWrite),
    ("the script to write written", Stray::IntoScriptToWrite),
];

impl Stray {
    /// Changes the place this far from the start of what is lent, if this is the stray one.
    fn go<T: Pattern>(self, which: Stray, lent: &mut Lent<T>, distance: isize) {
        if self == which {
            lent.stray(distance);
        }
    }

    fn past<T: Pattern>(self, which: Stray, lent: &mut Lent<T>) {
        self.go(which, lent, lent.part().len() as isize);
    }

    /// The sound answer's number, and its place unless that is left unwritten.
    fn answer(self, sound: Answer) -> Answer {
        answered(|place| {
            let (number, given) = match sound {
                Ok(given) => (0, given),
                Err(refusal) => (refusal.number, refusal.place),
            };
            if self != Stray::PlaceUnwritten {
                // SAFETY: `place` is good for one number.
                unsafe { *place = given };
            }
            if self == Stray::BesidePlace {
                // SAFETY: the place stands between guards.
                unsafe { *place.offset(1) = 0 };
            }
            number
        })
    }
}

impl Program for Stray {
    fn check(&self, file: &mut Lent<u8>) -> Answer {
        self.go(Stray::IntoFile, file, 0);
        self.past(Stray::PastFile, file);
        self.answer(SECOND.check(file))
    }

    fn table(&self, file: &mut Lent<u8>, table: &mut Lent<u32>) -> u64 {
        self.past(Stray::PastTable, table);
        self.go(Stray::BeforeTable, table, -1);
        SECOND.table(file, table)
    }

    fn script(&self, file: &mut Lent<u8>, script: &mut Lent<u8>) -> u64 {
        self.past(Stray::PastScript, script);
        self.go(Stray::BeforeScript, script, -1);
        SECOND.script(file, script)
    }

    fn write(&self, table: &mut Lent<u32>, script: &mut Lent<u8>, output: &mut Lent<u8>) -> Answer {
        let answer = SECOND.write(table, script, output);
        self.past(Stray::PastOutput, output);
        self.go(Stray::BeforeOutput, output, -1);
        self.go(Stray::IntoTableToWrite, table, 0);
        self.go(Stray::IntoScriptToWrite, script, 0);
        self.answer(answer)
    }
}
