//! Whole jobs, each from its card to the text that is shown, by an independent writing of the rules in Rust: what the proved code is
//! compared with, answer by answer.
//!
//!   mkdir -p target; rustc --edition 2021 -C opt-level=3 -C codegen-units=1 -o target/bench tools/bench/main.rs
//!   target/bench < CARDS
//!
//! A card of standard input is its length in two bytes, the low one first, and its bytes. After the sheet of a job that opens comes a
//! line with the 64 bits of its smallest pivot. Rules as in docs/; nothing here is shared with the crates.

mod card;
mod cards;
mod exchange;
mod job;
mod plan;
mod walk;
mod whole;

use std::io::{self, Read, Write};

fn main() -> io::Result<()> {
    let mut bytes = Vec::new();
    io::stdin().lock().read_to_end(&mut bytes)?;
    let mut out = io::stdout().lock();
    let mut text = Vec::new();
    for card in cards::of(&bytes) {
        text.clear();
        let pivot = whole::show(card, &mut text)?;
        out.write_all(&text)?;
        if let Some(pivot) = pivot {
            writeln!(out, "pivot {}", pivot.to_bits())?;
        }
    }
    Ok(())
}
