//! The inputs that are compared: random, adversarial around each boundary, damaged copies of good ones, exhaustive short ones.
use crate::random::Random;

#[derive(Clone, Debug)]
pub struct Case {
    pub y: Vec<f64>,
    pub lam: f64,
    pub tol: f64,
    pub max_iter: u64,
    pub order: u32,
    pub penalty: u32,
}

fn level(r: &mut Random) -> f64 {
    match r.below(10) {
        0 => 1e-300,
        1 => 5e-324 * (1 + r.below(1000)) as f64,
        2 => 1e300,
        3 => 1e150,
        4 => 1e-150,
        5 => 1.0,
        _ => 1000.0,
    }
}

fn series(r: &mut Random, n: usize) -> Vec<f64> {
    let a = level(r);
    let kind = r.below(12);
    let mut walk = 0.0;
    let step = r.below(n);
    let slope = r.normal();
    let values: Vec<f64> = (0..4).map(|_| r.normal() * a).collect();
    (0..n)
        .map(|i| match kind {
            0 | 1 => r.normal() * a,
            2 | 3 => {
                walk += r.normal();
                walk * a
            }
            4 => (r.below(16001) as f64 - 8000.0).trunc(),
            5 => (if i < step { 0.0 } else { 1.0 }) * a,
            6 => slope * i as f64 * a,
            7 => r.pick(&values),
            8 => r.pick(&[0.0, -0.0, a, -a]),
            9 => r.any_finite(),
            10 => (((i as f64) / 9.0).sin() * 4000.0 + r.normal() * 300.0).round(),
            _ => a,
        })
        .collect()
}

/// A penalty around a given greatest one, or around nothing at all.
fn penalty_weight(r: &mut Random, lam_max: f64) -> f64 {
    let bits = lam_max.to_bits();
    match r.below(16) {
        0 => 0.0,
        1 => -0.0,
        2 => lam_max,
        3 => f64::from_bits(bits.wrapping_add(1)),
        4 => f64::from_bits(bits.wrapping_sub(1)),
        5 => 5e-324,
        6 => 1e308,
        7 => r.any_finite().abs(),
        8 => lam_max * 0.999_999,
        9 => lam_max * 1e-9,
        _ => lam_max * r.unit(),
    }
}

fn tolerance(r: &mut Random) -> f64 {
    r.pick(&[1e-8, 1e-8, 1e-8, 1e-10, 1e-12, 1e-14, 1e-3, 0.5, 1.0, 1e300, 5e-324, 1e-300])
}

fn limit(r: &mut Random) -> u64 {
    r.pick(&[1, 2, 3, 5, 10, 20, 40, 60, 100, 100, 1000, 10_000, u64::MAX])
}

/// The greatest penalty of y, by the Rust; 1 where it has none.
pub fn lam_max_of(y: &[f64], order: u32) -> f64 {
    use crate::trend_filter::{l1_trend_filter, Penalty, TrendFilterOptions};
    let o = TrendFilterOptions { order: order as usize, penalty: Penalty::L1, tol: 1.0, max_iter: 1 };
    match l1_trend_filter(y, 0.0, o) {
        Ok(f) if f.lam_max.is_finite() => f.lam_max,
        _ => 1.0,
    }
}

/// A case whose questions are mostly answered yes.
pub fn good(r: &mut Random, most: usize) -> Case {
    let order = 1 + r.below(2) as u32;
    let short = r.below(3) == 0;
    let n = order as usize + 1 + r.below(if short { 8.min(most - 2) } else { most - order as usize });
    let y = series(r, n);
    let top = lam_max_of(&y, order);
    let lam = penalty_weight(r, top);
    let penalty = if r.below(4) == 0 { 2 } else { 1 };
    Case { y, lam, tol: tolerance(r), max_iter: limit(r), order, penalty }
}

/// A good case with something wrong in it, or with one bit changed.
pub fn damaged(r: &mut Random, most: usize) -> Case {
    let mut c = good(r, most);
    match r.below(9) {
        0 => {
            let i = r.below(c.y.len());
            c.y[i] = r.pick(&[f64::NAN, f64::INFINITY, f64::NEG_INFINITY]);
        }
        1 => c.lam = r.pick(&[-5e-324, -1.0, f64::NAN, f64::INFINITY, f64::NEG_INFINITY]),
        2 => c.tol = r.pick(&[0.0, -0.0, -1.0, f64::NAN, f64::INFINITY]),
        3 => c.max_iter = 0,
        4 => c.order = r.pick(&[0, 3, 7, u32::MAX]),
        5 => c.y.truncate(c.order as usize),
        6 => {
            let i = r.below(c.y.len());
            c.y[i] = f64::from_bits(c.y[i].to_bits() ^ (1 << r.below(64)));
        }
        7 => c.lam = f64::from_bits(c.lam.to_bits() ^ (1 << r.below(64))),
        _ => c.tol = f64::from_bits(c.tol.to_bits() ^ (1 << r.below(64))),
    }
    c
}

/// Orders and penalties that are none, some with a 1 or a 2 in their lowest bits.
const NO_KIND: [u32; 9] = [0, 3, 4, 7, 0x101, 0x1_0002, 0x8000_0001, 0xffff_fffe, u32::MAX];

/// A good case cut to fewer places than its order asks, to none in half of them, or with another order or penalty than 1 and 2.
pub fn odd(r: &mut Random, most: usize) -> Case {
    let mut c = good(r, most);
    let what = r.below(5);
    if what == 0 {
        c.y.clear();
    } else if what == 1 {
        c.y.truncate(r.below(c.order as usize + 1));
    }
    if what == 2 || what == 4 {
        c.penalty = r.pick(&NO_KIND);
    }
    if what == 3 || what == 4 {
        c.order = r.pick(&NO_KIND);
    }
    if r.below(4) == 0 {
        c.lam = f64::NAN;
    }
    c
}

/// Every order and every penalty of a few, with series of 0 to 4 places, also with a lam that a later question refuses.
pub fn kinds() -> Vec<Case> {
    let known = [1, 2];
    let mut all = Vec::new();
    for n in 0..5usize {
        for &order in known.iter().chain(&NO_KIND) {
            for &penalty in known.iter().chain(&NO_KIND) {
                for lam in [0.0, 1.0, -1.0, f64::NAN] {
                    let y = (0..n).map(|i| [1.0, 4.0, -2.0, 8.0][i % 4]).collect();
                    all.push(Case { y, lam, tol: 1e-8, max_iter: 100, order, penalty });
                }
            }
        }
    }
    all
}

/// Every series of 2 to 4 places over a few values, with a few penalties, both orders and both penalties.
pub fn short_ones() -> Vec<Case> {
    let values = [-2.0, -1.0, 0.0, 1.0, 3.0];
    let mut all = Vec::new();
    for n in 2..5usize {
        for code in 0..values.len().pow(n as u32) {
            let y: Vec<f64> = (0..n).map(|i| values[code / values.len().pow(i as u32) % values.len()]).collect();
            for order in 1..3u32 {
                for penalty in 1..3u32 {
                    for lam in [0.0, -0.0, 0.25, 0.999_999_999_999_999_7, 1.0, 2.5, 1e16] {
                        for (tol, max_iter) in [(1e-8, 100), (1.0, 3)] {
                            all.push(Case { y: y.clone(), lam, tol, max_iter, order, penalty });
                        }
                    }
                }
            }
        }
    }
    all
}
