//! The analysis of a table.

use crate::library;
use crate::refusal::Refusal;

/// The most tasks of a table.
///
/// ```
/// let row = [1_000, 1_000, 1, 1];
/// assert!(tollsalmon::check_table(&row.repeat(tollsalmon::MOST_TASKS)).is_ok());
/// ```
pub const MOST_TASKS: usize = 32;

/// Numbers of a row (T, D, C, K) and of a result (R, E, G).
pub(crate) const ROW: usize = 4;
const RESULT: usize = 3;

/// What the response equations give for a task.
///
/// ```
/// use tollsalmon::{check_table, Response};
///
/// assert_eq!(check_table(&[10, 8, 3, 2])?, [Response { r: 2, e: 6, g: 3 }]);
/// # Ok::<(), tollsalmon::Refusal>(())
/// ```
#[derive(Clone, Copy, Debug, PartialEq, Eq, Hash)]
pub struct Response {
    /// R: how long the hypertask takes at the most, from when it is due.
    pub r: u32,
    /// E = D - R: when the hypertask takes over, from the arrival.
    pub e: u32,
    /// G: how long the guest takes at the most, from the arrival.
    pub g: u32,
}

/// R, E and G of each task of a table that keeps its deadlines.
///
/// ```
/// use tollsalmon::check_table;
///
/// let responses = check_table(&[10, 10, 2, 1, 20, 20, 4, 2])?;
/// assert_eq!(responses[1].e, 16);
/// # Ok::<(), tollsalmon::Refusal>(())
/// ```
///
/// # Errors
///
/// Refusals 1, 2, 3, 5, 6, 7 and 19: 5 and 6 row by row, then 7 and 19 row by row.
pub fn check_table(table: &[u32]) -> Result<Vec<Response>, Refusal> {
    let mut results = [[0; RESULT]; MOST_TASKS];
    let tasks = library::analyse(table, results.as_flattened_mut())?;
    Ok(results[..tasks].iter().map(|&[r, e, g]| Response { r, e, g }).collect())
}
