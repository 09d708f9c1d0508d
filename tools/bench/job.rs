//! A job in plain numbers. Every sum here fits 64 bits: places are within 2^12 and 2^10, points within 2^15 or, rounded, 2^30.

pub struct Job {
    pub n: usize,
    pub m: usize,
    /// Row by row.
    pub g: Vec<i64>,
    /// Row by row.
    pub a: Vec<i64>,
    pub c: Vec<i64>,
    pub l: Vec<i64>,
    pub u: Vec<i64>,
    pub lo: Vec<i64>,
    pub hi: Vec<i64>,
}

pub fn dot(xs: &[i64], ys: &[i64]) -> i64 {
    xs.iter().zip(ys).map(|(x, y)| x * y).sum()
}

/// How far x lies below the lower or above the upper limit.
pub fn ticks(low: i64, x: i64, high: i64) -> i64 {
    (low - x).max(x - high).max(0)
}

impl Job {
    pub fn g_row(&self, i: usize) -> &[i64] {
        &self.g[i * self.n..(i + 1) * self.n]
    }

    pub fn row(&self, i: usize) -> &[i64] {
        &self.a[i * self.n..(i + 1) * self.n]
    }

    pub fn cost(&self, z: &[i64]) -> i64 {
        (0..self.n).map(|j| z[j] * (dot(self.g_row(j), z) + 2 * self.c[j])).sum()
    }

    pub fn meets_rows(&self, z: &[i64]) -> bool {
        (0..self.m).all(|i| (self.lo[i]..=self.hi[i]).contains(&dot(self.row(i), z)))
    }

    /// The floor of a pair, in 256ths. With the point inside its bounds no term passes 2^56, and no sum 2^62.
    pub fn floor(&self, p: &[i64], y: &[i64]) -> i64 {
        let mut weighed = [0; 16];
        let mut slack = 0;
        for (i, &w) in y.iter().enumerate() {
            let row = self.row(i);
            let s = dot(row, p);
            slack += (w * (s - self.lo[i])).max(w * (s - self.hi[i]));
            for (t, x) in weighed.iter_mut().zip(row) {
                *t += w * x;
            }
        }
        let mut cost = 0;
        for j in 0..self.n {
            let half = dot(self.g_row(j), p) + self.c[j];
            let r = 256 * half - weighed[j];
            slack += (r * (p[j] - self.l[j])).max(r * (p[j] - self.u[j]));
            cost += p[j] * (half + self.c[j]);
        }
        256 * cost - 2 * slack
    }
}
