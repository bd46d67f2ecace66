//! Time of a whole run, from a plan's bytes to its text: the library beside plain Rust, on a plan of
//! 32 rows and 8,000 records.

use bench::interface::tollsalmon_report;
use bench::rounds::{alternate, Times};
use bench::text::text;
use std::hint::black_box;

const ROWS: u32 = 32;
const RECORDS: u32 = 8_000;
const ROUNDS: usize = 61;
/// From so many lent bytes on the library makes one pass.
const ROOM: usize = 655_360;

fn library_text(file: &[u8], room: &mut [u8]) -> usize {
    // SAFETY: both pointers are good for the lengths given with them.
    unsafe { tollsalmon_report(file.as_ptr(), file.len(), room.as_mut_ptr(), room.len()) as usize }
}

fn main() {
    let file = plan();
    let mut room = vec![0; ROOM];
    let length = library_text(&file, &mut room);
    let expected = text(&file);
    assert!(room[..length] == expected[..], "different texts");
    let (library, rust) = alternate(
        ROUNDS,
        || {
            black_box(library_text(black_box(&file), &mut room));
        },
        || {
            black_box(text(black_box(&file)));
        },
    );
    println!("a plan of {ROWS} rows and {RECORDS} records, {length} bytes of text, {ROUNDS} rounds");
    println!("                 library      Rust   library/Rust");
    print("best", &library, &rust, |times| times.best().as_secs_f64());
    print("median", &library, &rust, |times| times.median().as_secs_f64());
}

fn print(name: &str, library: &Times, rust: &Times, of: fn(&Times) -> f64) {
    let (library, rust) = (of(library), of(rust));
    println!("{name:<8} ms     {:>8.3}  {:>8.3}   {:>6.2}", library * 1e3, rust * 1e3, library / rust);
}

/// Tasks that arrive as often as they may, guests that answer, stay silent or are foreign, early ends.
fn plan() -> Vec<u8> {
    let mut file = Vec::new();
    let mut put = |n: u32| file.extend(n.to_le_bytes());
    let rows = 16 * ROWS;
    for n in [2, 1, 28, rows, 2, 28 + rows, 8 * RECORDS] {
        put(n);
    }
    for i in 0..ROWS {
        for n in [1_000 + i, 1_000, 10, 2] {
            put(n);
        }
    }
    for tick in 0..RECORDS {
        let mask = (0..ROWS).filter(|i| tick % (1_000 + i) == i * 7).fold(0, |mask, i| mask | 1 << i);
        put(mask);
        let (signal, early) = (tick % 40, u32::from(tick % 7 == 0));
        put(signal | early << 8);
    }
    file
}
