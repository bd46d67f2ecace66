//! What is compared: something that gives the text of a plan. Everything is lent between guards,
//! what is only read as well.

use crate::library;
use second::lent::Lent;
use second::text::broken::Text;

pub trait Program {
    /// The length of the whole text, which is written to the front where it fits.
    fn report(&self, file: &mut Lent<u8>, text: &mut Lent<u8>) -> u64;
}

/// The second program and its broken copies.
impl Program for Text {
    fn report(&self, file: &mut Lent<u8>, text: &mut Lent<u8>) -> u64 {
        into_lent(&self(file.part()), text.part_to_write())
    }
}

pub struct Library;

impl Program for Library {
    fn report(&self, file: &mut Lent<u8>, text: &mut Lent<u8>) -> u64 {
        library::report(file, text)
    }
}

/// The length of the text, which is written where the lent part has room for all of it.
pub fn into_lent(text: &[u8], lent: &mut [u8]) -> u64 {
    if lent.len() >= text.len() {
        lent[..text.len()].copy_from_slice(text);
    }
    text.len() as u64
}
