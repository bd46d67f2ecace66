//! Programs that reckon as the second program does, but say or write something else: where
//! nothing was lent, where there is too little room, or a length that isn't the text's.

use crate::program::{into_lent, Program};
use second::lent::Lent;
use second::text::run::text;

#[derive(Clone, Copy, PartialEq, Eq)]
pub enum Stray {
    PastText,
    PastLent,
    BeforeText,
    IntoFile,
    PastFile,
    AsMuchAsFits,
    FirstByteWhereShort,
    RoomForOneMore,
    ZeroWhereShort,
    NothingWritten,
    LengthOneShort,
}

pub const STRAY: [(&str, Stray); 11] = [
    ("a byte past the text written", Stray::PastText),
    ("a byte past the lent text written", Stray::PastLent),
    ("a byte before the lent text written", Stray::BeforeText),
    ("the file itself written", Stray::IntoFile),
    ("a byte past the file written", Stray::PastFile),
    ("as much as fits written where the text doesn't", Stray::AsMuchAsFits),
    ("a byte written where the text doesn't fit", Stray::FirstByteWhereShort),
    ("room for one byte more asked for", Stray::RoomForOneMore),
    ("0 returned where the text doesn't fit", Stray::ZeroWhereShort),
    ("nothing written", Stray::NothingWritten),
    ("a length that is one short", Stray::LengthOneShort),
];

impl Program for Stray {
    fn report(&self, file: &mut Lent<u8>, lent: &mut Lent<u8>) -> u64 {
        let text = text(file.part());
        let room = lent.part().len();
        let fits = room >= text.len();
        let length = text.len() as u64;
        match self {
            Stray::NothingWritten => return length,
            Stray::RoomForOneMore if room == text.len() => return length,
            _ => into_lent(&text, lent.part_to_write()),
        };
        match self {
            Stray::PastText if fits => lent.stray(text.len() as isize),
            Stray::PastLent => lent.stray_past(),
            Stray::BeforeText => lent.stray(-1),
            Stray::IntoFile => file.stray(0),
            Stray::PastFile => file.stray_past(),
            Stray::AsMuchAsFits if !fits => lent.part_to_write().copy_from_slice(&text[..room]),
            Stray::FirstByteWhereShort if !fits => lent.stray(0),
            _ => {}
        }
        match self {
            Stray::LengthOneShort => length - 1,
            Stray::ZeroWhereShort if !fits => 0,
            _ => length,
        }
    }
}
