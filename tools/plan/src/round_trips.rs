//! A file shown and made again is the same file, and a text made and shown twice is the same text.

use crate::make::made_of;
use crate::show::text_of;
use tollsalmon::{Plan, Tick};

/// Made-up numbers that are the same in every run (splitmix64).
struct Dice(u64);

impl Dice {
    fn number(&mut self) -> u64 {
        self.0 = self.0.wrapping_add(0x9E37_79B9_7F4A_7C15);
        let mut z = self.0;
        z = (z ^ (z >> 30)).wrapping_mul(0xBF58_476D_1CE4_E5B9);
        z = (z ^ (z >> 27)).wrapping_mul(0x94D0_49BB_1331_11EB);
        z ^ (z >> 31)
    }

    fn below(&mut self, limit: usize) -> usize {
        self.number() as usize % limit
    }

    fn field(&mut self) -> u32 {
        [0, 1, u32::MAX, self.number() as u32, self.number() as u32 % 100][self.below(5)]
    }

    fn tick(&mut self) -> Tick {
        let bit = 1 << self.below(32);
        let mask =
            [0, 0, bit, self.number() as u32, self.number() as u32 % 64, u32::MAX][self.below(6)];
        let signal = [0, 0, 1, 255, self.number() as u8][self.below(5)];
        Tick { mask, signal, early: self.below(4) == 0 }
    }

    fn plan(&mut self) -> Plan {
        let rows = 1 + self.below(32);
        let table = (0..4 * rows).map(|_| self.field()).collect();
        let mut plan = Plan { table, script: vec![] };
        for _ in 0..self.below(12) {
            let times = [1, 1, 2, 1 + self.below(40)][self.below(4)];
            plan.script.extend(vec![self.tick(); times]);
        }
        plan
    }
}

fn assert_round_trips(plan: &Plan) {
    let file = plan.write().unwrap();
    let shown = Plan::read(&file).unwrap();
    assert_eq!(&shown, plan);
    let text = text_of(&shown);
    let made = made_of(text.as_bytes()).unwrap().plan;
    assert_eq!(made.write(), Ok(file));
    assert_eq!(text_of(&made), text);
}

#[test]
fn made_up_plans() {
    let mut dice = Dice(1);
    for _ in 0..5_000 {
        assert_round_trips(&dice.plan());
    }
}

#[test]
fn the_longest_plans() {
    let mut dice = Dice(2);
    for rows in [1, 2, 31, 32] {
        let mut plan = Plan { table: [1, 2, 3, 4].repeat(rows), script: vec![] };
        plan.script = (0..plan.room()).map(|_| dice.tick()).collect();
        assert_eq!(plan.write().unwrap().len(), 65_532);
        assert_round_trips(&plan);
        plan.script.fill(Tick::default());
        assert_round_trips(&plan);
    }
}
