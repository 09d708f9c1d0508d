//! The working set over a dense elimination in floats: docs/EXCHANGE.md.

use crate::job::{dot, ticks, Job};

const SMALL: f64 = 1.0 / 1_048_576.0;
const LARGE: f64 = 1_152_921_504_606_846_976.0;
const INSIDE: f64 = 1_073_741_824.0;
const MULTIPLIER: i64 = 16_777_216;

#[derive(Clone, Copy, PartialEq)]
enum Limit {
    Row(usize),
    Bound(usize),
}

#[derive(Clone, Copy, PartialEq)]
enum Side {
    Lower,
    Upper,
}

#[derive(Clone, Copy)]
struct Member {
    limit: Limit,
    side: Side,
}

#[derive(Clone, Copy, PartialEq)]
pub enum Ended {
    Done,
    Full,
    Stuck,
    Spent,
}

/// What a step offers: a point inside the bounds, and a multiplier for each row.
pub struct Offer {
    pub point: Vec<i64>,
    pub multipliers: Vec<i64>,
}

pub struct Exchange<'a> {
    job: &'a Job,
    members: Vec<Member>,
    row_held: Vec<bool>,
    bound_held: Vec<bool>,
    lines: Vec<Vec<f64>>,
    unknowns: Vec<f64>,
    rounded: Vec<i64>,
    wrongs: Vec<i64>,
    smallest: f64,
    pub offer: Offer,
}

impl<'a> Exchange<'a> {
    pub fn new(job: &'a Job) -> Self {
        let most = 2 * job.n;
        Exchange {
            job,
            members: Vec::with_capacity(job.n),
            row_held: vec![false; job.m],
            bound_held: vec![false; job.n],
            lines: vec![vec![0.0; most + 1]; most],
            unknowns: vec![0.0; most],
            rounded: vec![0; job.n],
            wrongs: Vec::with_capacity(job.n),
            smallest: f64::INFINITY,
            offer: Offer { point: vec![0; job.n], multipliers: vec![0; job.m] },
        }
    }

    pub fn smallest_pivot(&self) -> f64 {
        if self.smallest == f64::INFINITY {
            0.0
        } else {
            self.smallest
        }
    }

    /// Fills the lines of the system; the right side stands in the last place of each.
    fn fill(&mut self) {
        let (job, n) = (self.job, self.job.n);
        let size = n + self.members.len();
        for (r, line) in self.lines[..size].iter_mut().enumerate() {
            line[..=size].fill(0.0);
            if r < n {
                for (place, &x) in line.iter_mut().zip(job.g_row(r)) {
                    *place = x as f64;
                }
                line[size] = -(job.c[r] as f64);
            }
        }
        for (w, member) in self.members.iter().enumerate() {
            let at = n + w;
            match member.limit {
                Limit::Row(i) => {
                    for (r, &x) in job.row(i).iter().enumerate() {
                        self.lines[r][at] = -(x as f64);
                        self.lines[at][r] = x as f64;
                    }
                }
                Limit::Bound(j) => {
                    self.lines[j][at] = -1.0;
                    self.lines[at][j] = 1.0;
                }
            }
            let limit = match (member.limit, member.side) {
                (Limit::Row(i), Side::Lower) => job.lo[i],
                (Limit::Row(i), Side::Upper) => job.hi[i],
                (Limit::Bound(j), Side::Lower) => job.l[j],
                (Limit::Bound(j), Side::Upper) => job.u[j],
            };
            self.lines[at][size] = limit as f64;
        }
    }

    fn eliminate(&mut self, size: usize) -> Option<()> {
        for k in 0..size {
            let (mut best, mut largest) = (k, 0.0);
            for (r, line) in self.lines[..size].iter().enumerate().skip(k) {
                if line[k].abs() > largest {
                    (best, largest) = (r, line[k].abs());
                }
            }
            if !(largest > SMALL && largest < LARGE) {
                return None;
            }
            self.smallest = self.smallest.min(largest);
            self.lines.swap(k, best);
            let (above, below) = self.lines[..size].split_at_mut(k + 1);
            let pivot = &above[k][k..=size];
            for line in below {
                let line = &mut line[k..=size];
                let f = line[0] / pivot[0];
                for (x, y) in line[1..].iter_mut().zip(&pivot[1..]) {
                    *x -= f * y;
                }
            }
        }
        Some(())
    }

    fn substitute(&mut self, size: usize) -> Option<()> {
        for k in (0..size).rev() {
            let line = &self.lines[k];
            let mut right = line[size];
            for j in k + 1..size {
                right -= line[j] * self.unknowns[j];
            }
            let x = right / line[k];
            if !(x > -INSIDE && x < INSIDE) {
                return None;
            }
            self.unknowns[k] = x;
        }
        Some(())
    }

    fn make_offer(&mut self) {
        let job = self.job;
        for j in 0..job.n {
            self.rounded[j] = self.unknowns[j].round() as i64;
            self.offer.point[j] = self.rounded[j].clamp(job.l[j], job.u[j]);
        }
        self.offer.multipliers.fill(0);
        self.wrongs.clear();
        for (w, member) in self.members.iter().enumerate() {
            let y = (self.unknowns[job.n + w] * 256.0).round() as i64;
            self.wrongs.push(if member.side == Side::Lower { -y } else { y });
            if let Limit::Row(i) = member.limit {
                self.offer.multipliers[i] = y.clamp(-MULTIPLIER, MULTIPLIER);
            }
        }
    }

    /// The limit most ticks outside among those that are not in the set.
    fn entering(&self) -> Option<Member> {
        let job = self.job;
        let (mut most, mut found) = (0, None);
        let mut look = |limit, low, x, high| {
            let out = ticks(low, x, high);
            if out > most {
                most = out;
                found = Some(Member { limit, side: if x < low { Side::Lower } else { Side::Upper } });
            }
        };
        for i in (0..job.m).filter(|&i| !self.row_held[i]) {
            look(Limit::Row(i), job.lo[i], dot(job.row(i), &self.rounded), job.hi[i]);
        }
        for j in (0..job.n).filter(|&j| !self.bound_held[j]) {
            look(Limit::Bound(j), job.l[j], self.rounded[j], job.u[j]);
        }
        found
    }

    fn leaving(&self) -> Option<usize> {
        let (mut most, mut found) = (0, None);
        for (w, &wrong) in self.wrongs.iter().enumerate() {
            if wrong > most {
                (most, found) = (wrong, Some(w));
            }
        }
        found
    }

    fn hold(&mut self, limit: Limit, held: bool) {
        match limit {
            Limit::Row(i) => self.row_held[i] = held,
            Limit::Bound(j) => self.bound_held[j] = held,
        }
    }

    /// One step: nothing if it is stuck, and otherwise whether the exchange is over; the offer is then that of the step.
    pub fn step(&mut self) -> Option<Option<Ended>> {
        let size = self.job.n + self.members.len();
        self.fill();
        self.eliminate(size)?;
        self.substitute(size)?;
        self.make_offer();
        if let Some(member) = self.entering() {
            if self.members.len() == self.job.n {
                return Some(Some(Ended::Full));
            }
            self.members.push(member);
            self.hold(member.limit, true);
        } else if let Some(w) = self.leaving() {
            let member = self.members.remove(w);
            self.hold(member.limit, false);
        } else {
            return Some(Some(Ended::Done));
        }
        Some(None)
    }
}
