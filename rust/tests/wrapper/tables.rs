//! Document 01's cases, and tables that only one of a guest's two windows refuses.

use crate::refusal;
use tollsalmon::{check_table, Machine, Response};

#[test]
fn accepted_tables_have_their_responses() {
    let response = |r, e, g| Response { r, e, g };
    assert_eq!(check_table(&[10, 8, 3, 2]), Ok(vec![response(2, 6, 3)]));
    assert_eq!(check_table(&crate::P3), Ok(vec![response(2, 6, 6)]));
    let p9 = [10, 10, 2, 1, 20, 20, 4, 2];
    assert_eq!(check_table(&p9), Ok(vec![response(3, 7, 4), response(4, 16, 7)]));
}

#[test]
fn refused_tables_are_refused_the_same_at_a_start() {
    let cases: [(&[u32], (u32, u64)); 13] = [
        (&[], (1, 0)),
        (&[10, 8, 3, 2, 10], (1, 5)),
        (&[10, 8, 7, 2], (7, 1)),
        (&[5, 2, 1, 2], (7, 1)),
        (&[5, 2, 1, 3], (6, 1)),
        (&[5, 5, 1, 6], (5, 1)),
        (&[10, 11, 1, 1], (3, 1)),
        (&[5, 5, 1, 2, 7, 7, 1, 2, 7, 7, 1, 2], (6, 2)),
        (&[10, 8, 0, 2], (2, 2)),
        // What a guest's two windows say, row by row and 7 before 19 in each: only the second fails;
        // 19 at task 1 before 7 at task 2; both fail at task 2; 7 at task 1 before 19 at task 2.
        (&[5, 5, 2, 1, 8, 8, 2, 1], (19, 2)),
        (&[23, 23, 8, 7, 19, 19, 4, 2, 21, 21, 4, 3], (19, 1)),
        (&[5, 4, 1, 1, 3, 3, 2, 1], (7, 2)),
        (&[7, 4, 3, 1, 11, 10, 1, 3], (7, 1)),
    ];
    for (table, expected) in cases {
        assert_eq!(refusal(check_table(table)), expected, "{table:?}");
        assert_eq!(refusal(Machine::start(table)), expected, "{table:?}");
    }
}
