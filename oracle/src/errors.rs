//! The Rust crate (bindings/rust) against the module, as a program sees both: the whole answer, and where a call is refused the error's
//! case, fields and texts, for calls that break any set of questions. Where the source's error type isn't beside the module, errors are
//! compared by their cases and fields alone.
use crate::port::Lengths;
use crate::random::Random;
use binding::{l1_trend_filter_into, Buffers, MlError, Penalty, Refused, TrendFilterOptions};
use std::collections::BTreeMap;

#[cfg(error_rs)]
mod sides {
    pub use crate::as_the_binding::{error, fitted as by_the_binding, told as texts_of_the_binding};
    pub use crate::as_the_source::{fitted as by_the_source, told as texts_of_the_source};
}

#[cfg(not(error_rs))]
mod sides {
    use binding::MlError;

    pub fn error(e: &MlError) -> String {
        format!("{e:?}")
    }

    pub fn by_the_source(y: &[f64], lam: f64, order: usize, squared: bool, tol: f64, max_iter: usize) -> String {
        use crate::source::{l1_trend_filter, Penalty, TrendFilterOptions};
        let penalty = if squared { Penalty::L2 } else { Penalty::L1 };
        l1_trend_filter(y, lam, TrendFilterOptions { order, penalty, tol, max_iter }).map_or_else(|e| format!("{e:?}"), |f| format!("{f:?}"))
    }

    pub fn by_the_binding(y: &[f64], lam: f64, order: usize, squared: bool, tol: f64, max_iter: usize) -> String {
        use binding::{l1_trend_filter, Penalty, TrendFilterOptions};
        let penalty = if squared { Penalty::L2 } else { Penalty::L1 };
        l1_trend_filter(y, lam, TrendFilterOptions { order, penalty, tol, max_iter }).map_or_else(|e| error(&e), |f| format!("{f:?}"))
    }
}

/// A call of the fit, as a Rust program makes it.
struct Call {
    y: Vec<f64>,
    lam: f64,
    order: usize,
    squared: bool,
    tol: f64,
    max_iter: usize,
    lent: Lengths,
}

/// A call that breaks a set of questions, bit q - 1 of it for question q: 3 gives way to 2, and 10 to 5.
fn call(r: &mut Random, set: u32) -> Call {
    let breaks = |question: u32| set >> (question - 1) & 1 == 1;
    let k = 1 + r.below(2);
    let order = if breaks(1) { r.pick(&[0, 3, 4, usize::MAX, 1 << 63, (1 << 32) + 1, (1 << 32) + 2]) } else { k };
    let n = match (breaks(2), breaks(3)) {
        (true, _) => r.below(k + 1),
        (_, true) => 65_537 + r.below(3),
        _ => k + 1 + r.below(8),
    };
    let mut y: Vec<f64> = (0..n).map(|_| r.below(9) as f64).collect();
    if breaks(4) && n > 0 {
        let i = r.below(n);
        y[i] = r.pick(&[f64::NAN, f64::INFINITY, f64::NEG_INFINITY]);
    }
    let lam = match (breaks(5), breaks(10)) {
        (true, _) => r.pick(&[-5e-324, -1.0, f64::NAN, f64::INFINITY, f64::NEG_INFINITY]),
        (_, true) => 1e308,
        _ => r.pick(&[0.0, -0.0, 0.5, 3.0, 1e6]),
    };
    let tol = if breaks(6) { r.pick(&[0.0, -0.0, -1.0, f64::NAN, f64::INFINITY]) } else { r.pick(&[1e-8, 0.5, 5e-324]) };
    let max_iter = if breaks(7) { 0 } else if n > 65_536 { 1 } else { r.pick(&[1, 30, usize::MAX]) };
    let squared = breaks(10) || r.below(2) == 0;
    // Of a series that is too long the lengths lent aren't asked.
    let mut lent = Lengths::exact(if n > 65_536 { 0 } else { n }, 1 + squared as u32);
    for (question, from, to) in [(8, 0, Lengths::ANSWERS), (9, Lengths::ANSWERS, Lengths::BUFFERS)] {
        let places = lent.buffer(from + r.below(to - from));
        *places = places.saturating_sub(breaks(question) as usize);
    }
    Call { y, lam, order, squared, tol, max_iter, lent }
}

/// What both entries of the crate have to tell, where the source tells this: its own answer, unless only the port refuses the call.
fn right(c: &Call, source: &str) -> [String; 2] {
    let n = c.y.len();
    let only_here = |q: u32| sides::error(&MlError::Refused(Refused(q)));
    // after questions 1 to 7 of the source's
    let asked = source.starts_with("TrendFilterFit") || source.starts_with("DecompositionFailed");
    if asked && n > 65_536 {
        return [only_here(3), only_here(3)];
    }
    let lending = match c.lent.refused(n, 1 + c.squared as u32) {
        Some(q) if asked => only_here(q),
        _ if source.starts_with("TrendFilterFit") => "fitted".into(),
        _ => source.into(),
    };
    [source.into(), lending]
}

/// What the entry that lends tells.
fn lending(c: &Call) -> String {
    let penalty = if c.squared { Penalty::L2 } else { Penalty::L1 };
    let opts = TrendFilterOptions { order: c.order, penalty, tol: c.tol, max_iter: c.max_iter };
    let l = &c.lent;
    let [mut trend, mut cycle, mut dual, mut work] = [l.trend, l.cycle, l.dual, l.work].map(|n| vec![0.0; n]);
    let [mut knots, mut marks] = [l.knots, l.marks].map(|n| vec![0; n]);
    let mut lent = Buffers { trend: &mut trend, cycle: &mut cycle, knots: &mut knots, dual: &mut dual, work: &mut work, marks: &mut marks };
    l1_trend_filter_into(&c.y, c.lam, opts, &mut lent).map_or_else(|e| sides::error(&e), |_| "fitted".into())
}

/// Every set of questions, and 256 more calls of which only 8 to 10 can be broken, so many times over: how many calls were compared, and
/// how often both entries told what. An error tells the first difference.
pub fn calls(r: &mut Random, rounds: u64) -> Result<(u64, BTreeMap<String, u64>), String> {
    let mut seen = BTreeMap::new();
    let mut count = 0;
    for set in (0..rounds).flat_map(|_| (0..1024u32).chain((0..256).map(|i| (i % 8) << 7))) {
        let c = call(r, set);
        let source = sides::by_the_source(&c.y, c.lam, c.order, c.squared, c.tol, c.max_iter);
        let told = [sides::by_the_binding(&c.y, c.lam, c.order, c.squared, c.tol, c.max_iter), lending(&c)];
        let right = right(&c, &source);
        if told != right {
            let short = |texts: &[String; 2]| texts.each_ref().map(|t| t.chars().take(400).collect::<String>());
            let broken: Vec<u32> = (1..=10).filter(|q| set >> (q - 1) & 1 == 1).collect();
            return Err(format!("questions {broken:?}, {} places: {:?} is right, {:?} by the crate", c.y.len(), short(&right), short(&told)));
        }
        let kind: String = told.iter().map(|t| t.split(['|', '{', ' ']).next().unwrap()).collect::<Vec<_>>().join(", lending ");
        *seen.entry(kind).or_insert(0) += 1;
        count += 1;
    }
    Ok((count, seen))
}

/// Every case of the error type, whatever its fields hold: how many were compared; none where the source's type isn't at hand.
#[cfg(error_rs)]
pub fn texts(r: &mut Random, rounds: u64) -> Result<u64, String> {
    let words = ["", "y", "lam must be finite", "\"quoted\" {} \\", "–"];
    let numbers = [0, 1, 7, 65_537, usize::MAX];
    let mut count = 0;
    for _ in 0..rounds {
        let (what, accepted, text) = (r.pick(&words), r.pick(&words), r.pick(&words));
        let (a, b, x) = (r.pick(&numbers), r.pick(&numbers), f64::from_bits(r.bits()));
        let source = sides::texts_of_the_source(what, accepted, text, a, b, x);
        let told = sides::texts_of_the_binding(what, accepted, text, a, b, x);
        if let Some(i) = (0..source.len().max(told.len())).find(|&i| source.get(i) != told.get(i)) {
            return Err(format!("{:?} by the source, {:?} by the crate", source.get(i), told.get(i)));
        }
        count += source.len() as u64;
    }
    Ok(count)
}

#[cfg(not(error_rs))]
pub fn texts(_: &mut Random, _: u64) -> Result<u64, String> {
    println!("the source's error type isn't beside the module: errors are compared by their cases and fields, not by their texts");
    Ok(0)
}
