//! The proved port, called through its C entry. Before a call every place lent, and every place around them, holds a NaN of
//! its own payload or a word of its own; after it the bits of each place that the contract keeps are compared with that.
use crate::cases::Case;
use crate::random::{mixed, Random};

extern "C" {
    /// The C entry: see bindings/c/trend_filter.h.
    pub fn trend_filter_fit(
        y: *const f64, y_len: usize,
        lam: f64, tol: f64, max_iter: u64, order: u32, penalty: u32,
        trend: *mut f64, trend_len: usize,
        cycle: *mut f64, cycle_len: usize,
        knots: *mut u32, knots_len: usize,
        dual: *mut f64, dual_len: usize,
        work: *mut f64, work_len: usize,
        marks: *mut u32, marks_len: usize,
        numbers: *mut [f64; 5], counts: *mut [u64; 5],
    ) -> u32;

    fn trend_filter_needs(n: u64, max_iter: u64, order: u32, penalty: u32, needs: *mut [u64; 3]) -> u32;
}

/// What document 02's A7 says that a fit needs: places of work and of marks, and the most steps; or the number of the first of
/// questions 1, 2, 3 and 7 that is answered no.
pub fn needed(n: u64, max_iter: u64, order: u32, penalty: u32) -> Result<[u64; 3], u32> {
    match (order, penalty) {
        (1 | 2, 1 | 2) if n <= order as u64 => Err(2),
        (1 | 2, 1 | 2) if n > 65_536 => Err(3),
        (1 | 2, 1 | 2) if max_iter == 0 => Err(7),
        (1 | 2, 1) => Ok([40 * n, 2 * n, max_iter.min(1_447_640)]),
        (1 | 2, 2) => Ok([16 * n, 0, 0]),
        _ => Err(1),
    }
}

const GUARD: usize = 8;

/// What a place of a buffer holds before a call.
trait Fill: Copy + PartialEq {
    fn of(random: u64) -> Self;
}

impl Fill for u64 {
    /// The bits of a NaN, quiet or signalling, of either sign: one of four with the least, the usual or the greatest payload,
    /// the others with any.
    fn of(random: u64) -> u64 {
        const PAYLOADS: [u64; 4] = [1, 0x0007_ffff_ffff_ffff, 0x0008_0000_0000_0000, 0x000f_ffff_ffff_ffff];
        const PAYLOAD: u64 = 0x000f_ffff_ffff_ffff;
        let payload = if random >> 60 & 3 == 0 { PAYLOADS[(random & 3) as usize] } else { (random & PAYLOAD).max(1) };
        random & 1 << 63 | 0x7ff << 52 | payload
    }
}

impl Fill for u32 {
    fn of(random: u64) -> u32 {
        random as u32
    }
}

/// A buffer between two guards.
struct Lent<T> {
    all: Vec<T>,
    seed: u64,
}

impl<T> Default for Lent<T> {
    fn default() -> Lent<T> {
        Lent { all: Vec::new(), seed: 0 }
    }
}

impl<T: Fill> Lent<T> {
    fn filled(&mut self, places: usize, seed: u64) -> *mut T {
        self.seed = seed;
        self.all.clear();
        self.all.extend((0..places + 2 * GUARD).map(|i| T::of(mixed(seed.wrapping_add(i as u64)))));
        self.all[GUARD..].as_mut_ptr()
    }

    fn first(&self, count: usize) -> &[T] {
        &self.all[GUARD..GUARD + count]
    }

    /// How many places were compared: all but the first `written`, the guards included. An error names the first that changed.
    fn kept(&self, name: &str, written: usize) -> Result<u64, String> {
        for (i, &x) in self.all.iter().enumerate() {
            if (i < GUARD || GUARD + written <= i) && x != T::of(mixed(self.seed.wrapping_add(i as u64))) {
                return Err(format!("{name}: place {} changed", i as i64 - GUARD as i64));
            }
        }
        Ok((self.all.len() - written) as u64)
    }
}

/// How many places are lent.
#[derive(Clone, Debug)]
pub struct Lengths {
    pub trend: usize,
    pub cycle: usize,
    pub knots: usize,
    pub dual: usize,
    pub work: usize,
    pub marks: usize,
}

impl Lengths {
    /// Exactly what a series of n needs; where the penalty is neither 1 nor 2, what L1 would.
    pub fn exact(n: usize, penalty: u32) -> Lengths {
        let (work, marks) = if penalty == 2 { (16 * n, 0) } else { (40 * n, 2 * n) };
        Lengths { trend: n, cycle: n, knots: n, dual: n, work, marks }
    }

    /// How many buffers there are.
    pub const BUFFERS: usize = 6;
    /// How many of them, the first, take the answer.
    pub const ANSWERS: usize = 4;

    /// The buffer of number i, from 0.
    pub fn buffer(&mut self, i: usize) -> &mut usize {
        [&mut self.trend, &mut self.cycle, &mut self.knots, &mut self.dual, &mut self.work, &mut self.marks].into_iter().nth(i).unwrap()
    }

    /// What a series of n needs or more, each buffer by itself; in one of sixteen cases one or two are too short.
    pub fn any(r: &mut Random, n: usize, penalty: u32) -> Lengths {
        let mut l = Lengths::exact(n, penalty);
        for i in 0..Self::BUFFERS {
            let more = r.below(n + 9);
            *l.buffer(i) += r.pick(&[0, 1, 3, more, 2 * more]);
        }
        if r.below(16) == 0 {
            for _ in 0..1 + r.below(2) {
                let i = r.below(Self::BUFFERS);
                let needed = *Lengths::exact(n, penalty).buffer(i);
                *l.buffer(i) = if r.below(2) == 0 { needed.saturating_sub(1) } else { r.below(needed + 1) };
            }
        }
        l
    }

    /// The first of questions 8 and 9 that is answered no.
    pub fn refused(&self, n: usize, penalty: u32) -> Option<u32> {
        let needed = Lengths::exact(n, penalty);
        if self.trend < n || self.cycle < n || self.knots < n || self.dual < n {
            Some(8)
        } else if self.work < needed.work || self.marks < needed.marks {
            Some(9)
        } else {
            None
        }
    }
}

/// Buffers that are used again for every call.
#[derive(Default)]
pub struct Port {
    calls: u64,
    y: Vec<u64>,
    trend: Lent<u64>,
    cycle: Lent<u64>,
    knots: Lent<u32>,
    dual: Lent<u64>,
    work: Lent<u64>,
    marks: Lent<u32>,
    numbers: Lent<u64>,
    counts: Lent<u64>,
    needs: Lent<u64>,
}

pub struct Answer {
    pub refused: u32,
    pub trend: Vec<f64>,
    pub cycle: Vec<f64>,
    pub knots: Vec<u32>,
    /// the n - order places that a fit writes
    pub dual: Vec<f64>,
    /// lam_max, gap, first gap, best gap, objective
    pub numbers: Vec<f64>,
    /// knots, n_iter, improvements, converged, reason
    pub counts: Vec<u64>,
    /// how many places were compared with what they held before the call
    pub kept: u64,
}

impl Port {
    /// What the port says that a fit needs, or its refusal; an error where a place changed that may not.
    pub fn needs(&mut self, n: u64, max_iter: u64, order: u32, penalty: u32) -> Result<Result<[u64; 3], u32>, String> {
        self.calls += 1;
        let needs = self.needs.filled(3, mixed(self.calls << 3)) as *mut [u64; 3];
        // SAFETY: needs is to three places.
        let refused = unsafe { trend_filter_needs(n, max_iter, order, penalty, needs) };
        self.needs.kept("needs", if refused == 0 { 3 } else { 0 })?;
        let told = self.needs.first(3);
        Ok(if refused == 0 { Ok([told[0], told[1], told[2]]) } else { Err(refused) })
    }

    /// Calls the port; an error names a place outside what the contract lets it write.
    pub fn fit(&mut self, c: &Case, l: &Lengths) -> Result<Answer, String> {
        let n = c.y.len();
        self.calls += 1;
        let seed = |buffer: u64| mixed(self.calls << 3 | buffer);
        self.y.clear();
        self.y.extend(c.y.iter().map(|x| x.to_bits()));
        let trend = self.trend.filled(l.trend, seed(0)) as *mut f64;
        let cycle = self.cycle.filled(l.cycle, seed(1)) as *mut f64;
        let knots = self.knots.filled(l.knots, seed(2));
        let dual = self.dual.filled(l.dual, seed(3)) as *mut f64;
        let work = self.work.filled(l.work, seed(4)) as *mut f64;
        let marks = self.marks.filled(l.marks, seed(5));
        let numbers = self.numbers.filled(5, seed(6)) as *mut [f64; 5];
        let counts = self.counts.filled(5, seed(7)) as *mut [u64; 5];
        // SAFETY: each pointer is to as many places as the length beside it says, and none overlap.
        let refused = unsafe {
            trend_filter_fit(
                self.y.as_ptr() as *const f64, n, c.lam, c.tol, c.max_iter, c.order, c.penalty,
                trend, l.trend, cycle, l.cycle, knots, l.knots, dual, l.dual, work, l.work, marks, l.marks, numbers, counts,
            )
        };
        let fit = refused == 0;
        let if_fit = |places: usize| if fit { places } else { 0 };
        let if_free = |places: usize| if fit || refused == 10 { places } else { 0 };
        let count = if_fit(self.counts.first(1)[0] as usize);
        if count > l.knots {
            return Err("more knots than places".into());
        }
        if self.y.iter().zip(&c.y).any(|(&a, b)| a != b.to_bits()) {
            return Err("y changed".into());
        }
        let m = if_fit(n.saturating_sub(c.order as usize));
        let free = Lengths::exact(n, c.penalty);
        let kept = self.trend.kept("trend", if_fit(n))?
            + self.cycle.kept("cycle", if_fit(n))?
            + self.knots.kept("knots", count)?
            + self.dual.kept("dual", m)?
            + self.work.kept("work", if_free(free.work))?
            + self.marks.kept("marks", if_free(free.marks))?
            + self.numbers.kept("numbers", if_fit(5))?
            + self.counts.kept("counts", if_fit(5))?;
        let doubles = |v: &Lent<u64>, n: usize| v.first(n).iter().map(|&b| f64::from_bits(b)).collect();
        Ok(Answer {
            refused,
            trend: doubles(&self.trend, if_fit(n)),
            cycle: doubles(&self.cycle, if_fit(n)),
            knots: self.knots.first(count).to_vec(),
            dual: doubles(&self.dual, m),
            numbers: doubles(&self.numbers, if_fit(5)),
            counts: self.counts.first(if_fit(5)).to_vec(),
            kept,
        })
    }
}

/// The answer where nothing is lent but addresses of no places: every pointer but those of numbers and counts is null.
pub fn nothing_lent(order: u32, penalty: u32) -> u32 {
    use std::ptr::{null, null_mut};
    let (mut numbers, mut counts) = ([0.0; 5], [0; 5]);
    // SAFETY: a slice of no places is never read or written.
    unsafe {
        trend_filter_fit(
            null(), 0, 1.0, 1e-8, 100, order, penalty,
            null_mut(), 0, null_mut(), 0, null_mut(), 0, null_mut(), 0, null_mut(), 0, null_mut(), 0, &mut numbers, &mut counts,
        )
    }
}
