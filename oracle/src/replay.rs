//! Writes the fixed list of the Rust's answers that the program `replay` reads: little-endian words of 8 bytes.
//!
//! The file is the number of cases and then the cases. A case is: group, order, penalty, n, the lengths lent of trend, cycle, knots, dual,
//! work and marks, lam, tol, max_iter, the n places of y; then the refusal's number, 0 for a fit; and for a fit lam_max, gap, first gap,
//! best gap, objective, how many knots, n_iter, improvements, converged, reason, the n places of trend and of cycle, the knots, and the
//! n - order places of dual.
//! A double is its bits, any NaN 7ff8000000000000.
use crate::cases::{damaged, good, lam_max_of, Case};
use crate::compare::{answer, bits, expected};
use crate::port::Lengths;
use crate::random::Random;

pub const GROUPS: [&str; 12] = [
    "refused", "short buffers", "lam 0", "lam at lam_max or above", "L2", "gap small enough", "limit spent", "stalled", "pivot lost", "NaN or infinite gaps",
    "subnormal and huge", "weeks",
];

fn words(group: usize, c: &Case, l: &Lengths, out: &mut Vec<u64>) {
    let n = c.y.len();
    let lent = [l.trend, l.cycle, l.knots, l.dual, l.work, l.marks].map(|x| x as u64);
    out.extend([group as u64, c.order as u64, c.penalty as u64, n as u64]);
    out.extend(lent);
    out.extend([c.lam.to_bits(), c.tol.to_bits(), c.max_iter]);
    out.extend(c.y.iter().map(|&x| bits(x)));
    match answer(c, l) {
        Err(q) => out.push(q as u64),
        Ok((f, s)) => {
            out.push(0);
            out.extend([f.lam_max, f.duality_gap, s.first, s.best, f.objective].map(bits));
            out.extend([f.knots.len() as u64, f.n_iter as u64, s.improvements, f.converged as u64, s.reason as u64]);
            out.extend(f.trend.iter().chain(&f.cycle).map(|&x| bits(x)));
            out.extend(f.knots.iter().map(|&k| k as u64));
            out.extend(s.dual.iter().map(|&x| bits(x)));
        }
    }
}

/// The group of a case, by how the Rust answers it.
fn group(c: &Case) -> usize {
    let Ok((f, s)) = expected(c) else { return 0 };
    let size = c.y.iter().fold(0.0f64, |m, v| m.max(v.abs()));
    if !f.duality_gap.is_finite() {
        9
    } else if c.penalty == 2 {
        4
    } else if c.lam == 0.0 {
        2
    } else if s.reason == 0 {
        3
    } else if !(1e-140..1e140).contains(&size) {
        10
    } else {
        4 + s.reason as usize
    }
}

/// The list: some cases of every group, most of them short, and some weeks of 168 places.
pub fn list(seed: u64, each: usize) -> Vec<u64> {
    let mut r = Random::new(seed);
    let mut have = [0usize; 12];
    let mut out = vec![0];
    let mut count = 0;
    while have[..11].iter().enumerate().any(|(g, &h)| g != 1 && h < each) {
        let c = if r.below(4) == 0 { damaged(&mut r, 14) } else { good(&mut r, 14) };
        let g = group(&c);
        if have[g] < each {
            have[g] += 1;
            count += 1;
            words(g, &c, &Lengths::exact(c.y.len(), c.penalty), &mut out);
        }
    }
    for i in 0..each {
        // L2 needs no marks, so that none can be too few
        let (c, mut l) = std::iter::repeat_with(|| good(&mut r, 14))
            .map(|c| (Lengths::exact(c.y.len(), c.penalty), c))
            .find_map(|(mut l, c)| (*l.buffer(i % Lengths::BUFFERS) > 0).then_some((c, l)))
            .unwrap();
        *l.buffer(i % Lengths::BUFFERS) -= 1;
        count += 1;
        words(1, &c, &l, &mut out);
    }
    for (i, part) in [0.3, 0.05, 0.01].into_iter().enumerate() {
        let order = 1 + i as u32 % 2;
        let y: Vec<f64> = (0..168).map(|h| (h as f64 * 20.0 + if h > 90 { 2500.0 } else { 0.0 } + r.normal() * 400.0).round()).collect();
        let lam = lam_max_of(&y, order) * part;
        count += 1;
        words(11, &Case { y, lam, tol: 1e-8, max_iter: 100, order, penalty: 1 }, &Lengths::exact(168, 1), &mut out);
    }
    out[0] = count;
    out
}
