//! A plan's run as text.

use crate::library;
use crate::refusal::Refusal;

/// No text of a run is longer.
const LONGEST_TEXT: usize = 655_360;

/// The whole text of a plan's run, as the run program prints it.
///
/// ```
/// use tollsalmon::{run_to_text, Plan, Tick};
///
/// let plan = Plan { table: vec![10, 8, 3, 2], script: vec![Tick::arrivals(&[1])] };
/// let text = run_to_text(&plan.write()?)?;
/// assert_eq!(text, "ACCEPT 1\n1 10 8 3 2 2 6 3\n0 G1 - 0\nTASK 1 1 0 0 1\n");
/// # Ok::<(), tollsalmon::Refusal>(())
/// ```
///
/// # Errors
///
/// Refusals 13 to 17 of the file, and 2, 3, 5, 6, 7 and 19 of its table. A tick that is refused is
/// a line of the text.
pub fn run_to_text(file: &[u8]) -> Result<String, Refusal> {
    let mut text = vec![0; LONGEST_TEXT];
    let length = library::report(file, &mut text);
    text.truncate(length);
    text.shrink_to_fit();
    let text = String::from_utf8(text).expect("a run's text is ASCII");
    refused(&text).map_or(Ok(text), Err)
}

/// The refusal of a plan whose text is only "REFUSE number place".
fn refused(text: &str) -> Option<Refusal> {
    let (number, place) = text.strip_prefix("REFUSE ")?.trim_end().split_once(' ')?;
    Some(Refusal::new(number.parse().ok()?, place.parse().ok()?))
}
