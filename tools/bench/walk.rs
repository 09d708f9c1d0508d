//! The descent in whole ticks, with sums that are kept running: docs/WALK.md.

use crate::job::{dot, ticks, Job};

struct Running<'a> {
    job: &'a Job,
    /// Rope by rope.
    columns: Vec<i64>,
    sums: Vec<i64>,
    slope: Vec<i64>,
    outside: i64,
}

impl<'a> Running<'a> {
    fn new(job: &'a Job, z: &[i64]) -> Self {
        let columns = (0..job.n).flat_map(|j| (0..job.m).map(move |i| job.a[i * job.n + j])).collect();
        let sums: Vec<i64> = (0..job.m).map(|i| dot(job.row(i), z)).collect();
        let slope = (0..job.n).map(|j| 2 * (dot(job.g_row(j), z) + job.c[j])).collect();
        let outside = sums.iter().zip(&job.lo).zip(&job.hi).map(|((&s, &low), &high)| ticks(low, s, high)).sum();
        Running { job, columns, sums, slope, outside }
    }

    fn column(&self, j: usize) -> &[i64] {
        &self.columns[j * self.job.m..(j + 1) * self.job.m]
    }

    /// The ticks outside after the move, if the move lowers.
    fn lowers(&self, j: usize, d: i64) -> Option<i64> {
        let cheaper = d * (self.slope[j] + self.job.g[j * self.job.n + j] * d) < 0;
        if self.outside == 0 && !cheaper {
            return None;
        }
        let limits = self.job.lo.iter().zip(&self.job.hi);
        let moved = self.sums.iter().zip(self.column(j)).map(|(s, w)| s + w * d);
        let outside: i64 = moved.zip(limits).map(|(s, (&low, &high))| ticks(low, s, high)).sum();
        (outside < self.outside || (outside == self.outside && cheaper)).then_some(outside)
    }

    /// The first move that lowers, and the ticks outside after it.
    fn first(&self, z: &[i64]) -> Option<(usize, i64, i64)> {
        for j in 0..self.job.n {
            let (down, up) = (self.job.l[j] - z[j], self.job.u[j] - z[j]);
            for size in (0..15).rev().map(|k| 1i64 << k) {
                for d in [size, -size] {
                    if down <= d && d <= up {
                        if let Some(outside) = self.lowers(j, d) {
                            return Some((j, d, outside));
                        }
                    }
                }
            }
        }
        None
    }

    fn make(&mut self, j: usize, d: i64, outside: i64) {
        let (n, m) = (self.job.n, self.job.m);
        for (s, w) in self.sums.iter_mut().zip(&self.columns[j * m..(j + 1) * m]) {
            *s += w * d;
        }
        for (x, g) in self.slope.iter_mut().zip(&self.job.g[j * n..(j + 1) * n]) {
            *x += 2 * g * d;
        }
        self.outside = outside;
    }
}

pub struct Walked {
    pub moves: u32,
    pub settled: bool,
    pub meets_rows: bool,
}

pub fn walk(job: &Job, z: &mut [i64], budget: u32) -> Walked {
    let mut running = Running::new(job, z);
    let mut moves = 0;
    loop {
        let found = running.first(z);
        match found {
            Some((j, d, outside)) if moves < budget => {
                z[j] += d;
                running.make(j, d, outside);
                moves += 1;
            }
            _ => return Walked { moves, settled: found.is_none(), meets_rows: running.outside == 0 },
        }
    }
}
