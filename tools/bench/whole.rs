//! A whole job, from its card to the text that is shown: docs/SOLVE.md for the budgets, docs/TEXT.md for the text.

use std::io::{self, Write};

use crate::card::{read_card, Refusal};
use crate::exchange::Ended;
use crate::plan::{Plan, Report};

const STEPS: u32 = 1_000;
const MOVES: u32 = 100_000;

fn solved(card: &[u8]) -> Result<(Plan, Report), Refusal> {
    let mut plan = Plan::open(read_card(card)?);
    let report = plan.solve(STEPS, MOVES);
    Ok((plan, report))
}

fn sheet(plan: &Plan, report: &Report, text: &mut Vec<u8>) -> io::Result<()> {
    let exchange = match report.exchange {
        Ended::Done => "done",
        Ended::Full => "full",
        Ended::Stuck => "stuck",
        Ended::Spent => "spent",
    };
    writeln!(text, "exchange {} {exchange}", report.steps)?;
    writeln!(text, "moves {} {}", report.moves, if report.settled { "settled" } else { "spent" })?;
    match &plan.point {
        None => writeln!(text, "no point\nfloor {}", plan.floor),
        Some(held) => {
            let gap = 256 * held.cost - plan.floor;
            write!(text, "cost {}\nfloor {}\ngap {gap}\npoint", held.cost, plan.floor)?;
            for x in &held.z {
                write!(text, " {x}")?;
            }
            writeln!(text)
        }
    }
}

/// Adds the sheet of a card's job, or the card's refusal, to a text. Of a job that opens, the smallest pivot.
pub fn show(card: &[u8], text: &mut Vec<u8>) -> io::Result<Option<f64>> {
    match solved(card) {
        Ok((plan, report)) => {
            sheet(&plan, &report, text)?;
            Ok(Some(report.smallest))
        }
        Err(refusal) => {
            writeln!(text, "refused {} at {}", refusal.number, refusal.place)?;
            Ok(None)
        }
    }
}
