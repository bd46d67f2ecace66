//! A plan for people: in the text form of tools/plan where the file can be read, as bytes where
//! it can't.

use second::plan::file::{check, rows, script};

const MOST_BYTES: usize = 1_024;

/// Prints the plan as far as its text is the same, which is up to this line.
pub fn show(file: &[u8], line: Option<usize>) {
    match check(file) {
        Ok(()) => show_plan(file, line),
        Err(_) => show_bytes(file),
    }
}

fn show_plan(file: &[u8], line: Option<usize>) {
    println!("rows");
    for row in rows(file).chunks(16) {
        let fields = row.chunks(4).map(|field| number(field).to_string());
        println!("{}", fields.collect::<Vec<_>>().join(" "));
    }
    let records: Vec<&[u8]> = script(file).chunks(8).collect();
    let needed = line.map_or(records.len(), |line| line.saturating_sub(rows(file).len() / 16));
    println!("ticks");
    for same in records[..needed.min(records.len())].chunk_by(|a, b| a == b) {
        let (mask, signal, early) = (number(&same[0][..4]), same[0][4], same[0][5]);
        println!("{mask:#x} {signal} {early} x{}", same.len());
    }
    if needed < records.len() {
        println!("# and {} records more", records.len() - needed);
    }
}

fn number(bytes: &[u8]) -> u32 {
    u32::from_le_bytes([bytes[0], bytes[1], bytes[2], bytes[3]])
}

fn show_bytes(file: &[u8]) {
    println!("a file of {} bytes, which begins with", file.len());
    for line in file[..file.len().min(MOST_BYTES)].chunks(16) {
        println!("  {}", line.iter().map(|byte| format!("{byte:02x}")).collect::<Vec<_>>().join(" "));
    }
}
