//! The plan: what is held, and the two searchers whose offers it judges. docs/PLAN.md and docs/SOLVE.md.

use crate::exchange::{Ended, Exchange};
use crate::job::Job;
use crate::walk::walk;

pub struct Held {
    pub z: Vec<i64>,
    pub cost: i64,
}

pub struct Plan {
    job: Job,
    pub point: Option<Held>,
    pub floor: i64,
}

pub struct Report {
    pub steps: u32,
    pub exchange: Ended,
    pub moves: u32,
    pub settled: bool,
    pub smallest: f64,
}

fn offer_point(job: &Job, held: &mut Option<Held>, z: &[i64]) {
    if !job.meets_rows(z) {
        return;
    }
    let cost = job.cost(z);
    if held.as_ref().is_none_or(|h| cost < h.cost) {
        *held = Some(Held { z: z.to_vec(), cost });
    }
}

impl Plan {
    pub fn open(job: Job) -> Self {
        let floor = job.floor(&job.l, &vec![0; job.m]);
        Plan { job, point: None, floor }
    }

    pub fn solve(&mut self, budget: u32, most_moves: u32) -> Report {
        let Plan { job, point, floor } = self;
        let mut exchange = Exchange::new(job);
        let (mut steps, mut offered) = (0, false);
        let ended = loop {
            if steps == budget {
                break Ended::Spent;
            }
            steps += 1;
            let Some(over) = exchange.step() else {
                break Ended::Stuck;
            };
            offered = true;
            let offer = &exchange.offer;
            offer_point(job, point, &offer.point);
            *floor = (*floor).max(job.floor(&offer.point, &offer.multipliers));
            if let Some(end) = over {
                break end;
            }
        };
        let mut z = match point {
            Some(held) => held.z.clone(),
            None if offered => exchange.offer.point.clone(),
            None => job.l.clone(),
        };
        let walked = walk(job, &mut z, most_moves);
        if walked.meets_rows {
            offer_point(job, point, &z);
        }
        Report { steps, exchange: ended, moves: walked.moves, settled: walked.settled, smallest: exchange.smallest_pivot() }
    }
}
