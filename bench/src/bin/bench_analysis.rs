//! Tables a second: the library's analysis beside the plain Rust one, on the same tables.

use bench::analysis;
use bench::answer::{Answer, Refusal};
use bench::dice::Dice;
use bench::interface::tollsalmon_analyse;
use bench::planner_tables::planner_tables;
use bench::rounds::{alternate, Times};
use std::hint::black_box;
use std::time::Duration;

const SEED: u64 = 1;
const TABLES: usize = 1_000;
const ROUNDS: usize = 41;
const RESULTS: usize = 96;

fn library(table: &[u32], results: &mut [u32]) -> Answer {
    let mut place = 0;
    // SAFETY: both pointers are good for the lengths given with them, and `place` for one number.
    let number = unsafe {
        tollsalmon_analyse(table.as_ptr(), table.len(), results.as_mut_ptr(), results.len(), &mut place)
    };
    match number {
        0 => Ok(place),
        number => Err(Refusal { number, place }),
    }
}

/// Sizes, and how often the tables of a size are gone through in one round: so often that the
/// clock's own grain doesn't show.
const SIZES: [(usize, usize); 3] = [(4, 16), (16, 2), (32, 1)];

fn main() {
    println!("{TABLES} made-up tables of each size, {ROUNDS} rounds, seed {SEED}");
    println!("                 tables a second, best   tables a second, median   time library/Rust");
    println!("rows  accepted      library        Rust       library          Rust     best   median");
    for (tasks, passes) in SIZES {
        let tables = planner_tables(&mut Dice::new(SEED), TABLES, tasks);
        let accepted = count_accepted(&tables);
        let (of_library, of_rust) = measure(&tables, passes);
        print_line(tasks, accepted, passes, &of_library, &of_rust);
    }
}

/// Both programs must say the same of every table, or their times mean nothing.
fn count_accepted(tables: &[Vec<u32>]) -> usize {
    let accepts = |table: &&Vec<u32>| {
        let (mut by_library, mut by_rust) = ([0; RESULTS], [0; RESULTS]);
        let answer = library(table, &mut by_library);
        assert_eq!(answer, analysis::analyse(table, &mut by_rust), "{table:?}");
        assert_eq!(by_library, by_rust, "{table:?}");
        answer.is_ok()
    };
    tables.iter().filter(accepts).count()
}

fn measure(tables: &[Vec<u32>], passes: usize) -> (Times, Times) {
    alternate(ROUNDS, || run(tables, passes, library), || run(tables, passes, analysis::analyse))
}

fn run(tables: &[Vec<u32>], passes: usize, analyse: impl Fn(&[u32], &mut [u32]) -> Answer) {
    let mut results = [0; RESULTS];
    for _ in 0..passes {
        for table in tables {
            let _ = black_box(analyse(black_box(table), black_box(&mut results)));
        }
    }
}

fn print_line(tasks: usize, accepted: usize, passes: usize, library: &Times, rust: &Times) {
    let a_second = |time: Duration| (TABLES * passes) as f64 / time.as_secs_f64();
    let ratio = |library: Duration, rust: Duration| library.as_secs_f64() / rust.as_secs_f64();
    println!(
        "{tasks:>4}  {accepted:>8}  {:>11.0} {:>11.0}   {:>11.0}   {:>11.0}   {:>6.2}   {:>6.2}",
        a_second(library.best()),
        a_second(rust.best()),
        a_second(library.median()),
        a_second(rust.median()),
        ratio(library.best(), rust.best()),
        ratio(library.median(), rust.median()),
    );
}
