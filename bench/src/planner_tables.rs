//! Tables as a planner tries them: periods from ten milliseconds to a second, the shortest
//! first, and a load that mostly fits, at times just not.

use crate::analysis::analyse;
use crate::dice::Dice;

/// Usual periods, in ticks of ten microseconds.
const PERIODS: [u64; 14] = [
    1_000, 2_000, 2_500, 4_000, 5_000, 8_000, 10_000, 12_500, 20_000, 25_000, 40_000, 50_000, 80_000, 100_000,
];

/// Of a hundred tables, those that are just too much.
const REFUSED_PERCENT: u64 = 20;

/// Each row's period, deadline, and its parts of a load: guest and hypertask.
type Shape = Vec<(u64, u64, f64, f64)>;

pub fn planner_tables(dice: &mut Dice, number: usize, tasks: usize) -> Vec<Vec<u32>> {
    (0..number).map(|_| planner_table(dice, tasks)).collect()
}

fn planner_table(dice: &mut Dice, tasks: usize) -> Vec<u32> {
    loop {
        let shape = shape(dice, tasks);
        if !accepted(&loaded(&shape, 0.0)) {
            continue;
        }
        let (fits, too_much) = fullest_load(&shape);
        if dice.percent(REFUSED_PERCENT) {
            return loaded(&shape, too_much);
        }
        let table = loaded(&shape, fits * (0.4 + 0.6 * dice.part()));
        if accepted(&table) {
            return table;
        }
    }
}

fn shape(dice: &mut Dice, tasks: usize) -> Shape {
    let mut periods: Vec<u64> = (0..tasks).map(|_| period(dice)).collect();
    periods.sort_unstable();
    let shortest = periods[0] as f64;
    let row = |period: u64| {
        let deadline = dice.from_to(period * 3 / 4, period);
        let guest = (0.2 + dice.part()) * period as f64 / tasks as f64;
        let hyper = (0.2 + dice.part()) * 0.1 * shortest / tasks as f64;
        (period, deadline, guest, hyper)
    };
    periods.into_iter().map(row).collect()
}

/// A usual one mostly, else any.
fn period(dice: &mut Dice) -> u64 {
    let usual = dice.one_of(&PERIODS);
    let any = dice.of_any_size(1_000, 100_000);
    if dice.percent(75) {
        usual
    } else {
        any
    }
}

fn loaded(shape: &Shape, load: f64) -> Vec<u32> {
    let field = |number: f64| number.clamp(1.0, 1_000_000.0) as u32;
    let row = |&(period, deadline, guest, hyper): &(u64, u64, f64, f64)| {
        [period as u32, deadline as u32, field(guest * load), field(hyper * load)]
    };
    shape.iter().flat_map(row).collect()
}

fn accepted(table: &[u32]) -> bool {
    analyse(table, &mut [0; 96]).is_ok()
}

/// Two loads close to each other: one that fits and one that is too much.
fn fullest_load(shape: &Shape) -> (f64, f64) {
    let (mut fits, mut too_much) = (0.0, 16.0);
    while too_much - fits > 0.001 {
        let middle = (fits + too_much) / 2.0;
        if accepted(&loaded(shape, middle)) {
            fits = middle;
        } else {
            too_much = middle;
        }
    }
    (fits, too_much)
}
