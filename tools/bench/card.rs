//! From the bytes of a card to a job: docs/CARD.md for the bytes, docs/PLAN.md for the numbers.

use crate::job::Job;

const BLOCK: usize = 512;
const PER_BLOCK: usize = 126;

pub struct Refusal {
    pub number: u32,
    pub place: usize,
}

fn refuse<T>(number: u32, place: usize) -> Result<T, Refusal> {
    Err(Refusal { number, place })
}

fn check_sum(block: &[u8]) -> u32 {
    block[..510].iter().zip(1u32..).map(|(&b, k)| k * u32::from(b)).sum::<u32>() % 65_521
}

fn number_at(block: &[u8], at: usize) -> i64 {
    let p = 4 + 4 * at;
    i64::from(i32::from_le_bytes([block[p], block[p + 1], block[p + 2], block[p + 3]]))
}

fn word(block: &[u8], at: usize) -> u32 {
    u32::from(u16::from_le_bytes([block[at], block[at + 1]]))
}

/// Check sum, letter and number of a block.
fn check_frame(block: &[u8], number: usize, letter: u8) -> Result<(), Refusal> {
    if word(block, 510) != check_sum(block) {
        return refuse(2, number);
    }
    if block[0] != letter || word(block, 2) as usize != number {
        return refuse(3, number);
    }
    Ok(())
}

fn check_spare(block: &[u8], number: usize, used: usize) -> Result<(), Refusal> {
    if block[1] != 0 || block[4 + 4 * used..510].iter().any(|&b| b != 0) {
        return refuse(5, number);
    }
    Ok(())
}

struct Reader<'a> {
    blocks: std::slice::ChunksExact<'a, u8>,
    number: usize,
}

impl Reader<'_> {
    fn section(&mut self, letter: u8, count: usize) -> Result<Vec<i64>, Refusal> {
        let mut numbers = Vec::with_capacity(count);
        while numbers.len() < count {
            let Some(block) = self.blocks.next() else {
                unreachable!("the length was checked");
            };
            let used = (count - numbers.len()).min(PER_BLOCK);
            check_frame(block, self.number, letter)?;
            check_spare(block, self.number, used)?;
            numbers.extend((0..used).map(|k| number_at(block, k)));
            self.number += 1;
        }
        Ok(numbers)
    }
}

fn sizes(card: &[u8]) -> Result<(usize, usize), Refusal> {
    if card.len() % BLOCK != 0 || !(1..=15).contains(&(card.len() / BLOCK)) {
        return refuse(1, card.len());
    }
    let head = &card[..BLOCK];
    check_frame(head, 0, b'H')?;
    let (n, m) = (number_at(head, 0), number_at(head, 1));
    if !(1..=16).contains(&n) || !(0..=32).contains(&m) {
        return refuse(4, 0);
    }
    check_spare(head, 0, 2)?;
    let (n, m) = (n as usize, m as usize);
    let blocks: usize = [2, n * n, m * n, n, 2 * n, 2 * m, n * n].iter().map(|k| k.div_ceil(PER_BLOCK)).sum();
    if card.len() != blocks * BLOCK {
        return refuse(1, card.len());
    }
    Ok((n, m))
}

fn beyond(numbers: &[i64], limit: i64) -> Option<usize> {
    numbers.iter().position(|x| x.abs() > limit)
}

/// Whether the rest of row i, 1,048,576 G - LᵀL, is outweighed beside its diagonal.
fn outweighed(n: usize, g: &[i64], slip: &[i64], i: usize) -> bool {
    let mut rest: Vec<i64> = g[i * n..(i + 1) * n].iter().map(|x| x << 20).collect();
    for line in slip.chunks_exact(n) {
        for (r, x) in rest.iter_mut().zip(line) {
            *r -= line[i] * x;
        }
    }
    let beside: i64 = rest.iter().map(|r| r.abs()).sum::<i64>() - rest[i].abs();
    rest[i] < beside
}

fn check_numbers(job: &Job, slip: &[i64]) -> Result<(), Refusal> {
    let n = job.n;
    for (table, limit) in [(&job.g, 4_096), (&job.a, 1_024)] {
        if let Some(at) = beyond(table, limit) {
            return refuse(11, at / n);
        }
    }
    for i in 0..n {
        if (i + 1..n).any(|j| job.g[i * n + j] != job.g[j * n + i]) {
            return refuse(12, i);
        }
    }
    let lists = [&job.c, &job.l, &job.u, &job.lo, &job.hi];
    let limits = [1 << 28, 32_768, 32_768, 1 << 29, 1 << 29];
    for (at, (list, limit)) in lists.into_iter().zip(limits).enumerate() {
        if beyond(list, limit).is_some() {
            return refuse(14, at);
        }
    }
    if beyond(slip, 131_072).is_some() {
        return refuse(14, 5);
    }
    for (at, low, high) in [(1, &job.l, &job.u), (3, &job.lo, &job.hi)] {
        if low.iter().zip(high).any(|(x, y)| x > y) {
            return refuse(14, at);
        }
    }
    match (0..n).find(|&i| outweighed(n, &job.g, slip, i)) {
        Some(i) => refuse(15, i),
        None => Ok(()),
    }
}

/// The job of a card, or the first fault of the card or of its numbers.
pub fn read_card(card: &[u8]) -> Result<Job, Refusal> {
    let (n, m) = sizes(card)?;
    let mut reader = Reader { blocks: card[BLOCK..].chunks_exact(BLOCK), number: 1 };
    let g = reader.section(b'G', n * n)?;
    let a = reader.section(b'A', m * n)?;
    let c = reader.section(b'C', n)?;
    let mut l = reader.section(b'B', 2 * n)?;
    let u = l.split_off(n);
    let mut lo = reader.section(b'R', 2 * m)?;
    let hi = lo.split_off(m);
    let slip = reader.section(b'L', n * n)?;
    let job = Job { n, m, g, a, c, l, u, lo, hi };
    check_numbers(&job, &slip)?;
    Ok(job)
}
