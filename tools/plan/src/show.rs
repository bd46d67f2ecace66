//! The text of a plan in its normal form: the same plan always has the same text.

use crate::ROW;
use tollsalmon::{Plan, Tick};

/// More tasks than this in one mask are shown as a number.
const MOST_NAMES: u32 = 8;

pub fn text_of(plan: &Plan) -> String {
    let mut text = "rows    # T D C K, the highest priority first\n".to_string();
    for row in plan.table.chunks(ROW) {
        text += &row_line(row);
    }
    if !plan.script.is_empty() {
        text += "\nticks    # arrivals, signal, early mark\n";
    }
    for same in plan.script.chunk_by(|one, next| one == next) {
        text += &ticks_line(&same[0], same.len());
    }
    text
}

fn row_line(row: &[u32]) -> String {
    let fields: Vec<String> = row.iter().map(u32::to_string).collect();
    fields.join(" ") + "\n"
}

fn ticks_line(tick: &Tick, times: usize) -> String {
    let signal = if tick.signal == 0 { "-".to_string() } else { tick.signal.to_string() };
    let early = if tick.early { "1" } else { "-" };
    let times = if times == 1 { String::new() } else { format!(" x{times}") };
    format!("{} {signal} {early}{times}\n", mask_words(tick.mask))
}

fn mask_words(mask: u32) -> String {
    if mask == 0 {
        return "-".to_string();
    }
    if mask.count_ones() > MOST_NAMES {
        return format!("{mask:#x}");
    }
    let named = (0..32).filter(|i| mask >> i & 1 == 1);
    named.map(|i| format!("t{}", i + 1)).collect::<Vec<_>>().join("+")
}
