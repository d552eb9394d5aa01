//! One case through both sides, and every number and place compared.
use crate::cases::Case;
use crate::counted;
use crate::error::MlError;
use crate::port::{needed, Answer, Lengths, Port};
use crate::trend_filter::{l1_trend_filter, Penalty, TrendFilterFit, TrendFilterOptions};

/// How the cases of a run ended.
#[derive(Default, Debug)]
pub struct Tally {
    pub fits: u64,
    pub refused: [u64; 11],
    /// closed path, gap small enough, limit spent, stalled, pivot lost
    pub reasons: [u64; 5],
    pub not_converged: u64,
    pub nan_gaps: u64,
    pub places: u64,
    pub iterations: u64,
    /// calls that were lent more places than needed of some buffer, and none too short
    pub longer: u64,
    /// places whose bits were compared with what they held before the call
    pub kept: u64,
}

/// A double by its bits, any NaN as a listing has it.
pub fn bits(x: f64) -> u64 {
    if x.is_nan() {
        0x7ff8_0000_0000_0000
    } else {
        x.to_bits()
    }
}

fn same(a: f64, b: f64) -> bool {
    bits(a) == bits(b)
}

/// The number that document 01 gives the Rust's refusal. `penalty` is asked before it is called.
#[allow(unreachable_patterns)]
fn number(e: &MlError) -> u32 {
    match e {
        MlError::InsufficientData { .. } => 2,
        MlError::NonFinite { .. } => 4,
        MlError::DecompositionFailed { .. } => 10,
        MlError::InvalidArgument { what } if what.starts_with("order") => 1,
        MlError::InvalidArgument { what } if what.starts_with("lam") => 5,
        MlError::InvalidArgument { what } if what.starts_with("tol") => 6,
        MlError::InvalidArgument { .. } => 7,
        other => panic!("the module refuses with {other:?}"),
    }
}

/// The duality gap from the objective and the dual point, as someone works it out who rechecks a fit.
fn gap_of(c: &Case, objective: f64, dual: &[f64]) -> f64 {
    if c.lam == 0.0 {
        return 0.0;
    }
    let (mut dy, mut back) = (c.y.clone(), dual.to_vec());
    for _ in 0..c.order {
        dy = dy.windows(2).map(|w| w[1] - w[0]).collect();
        let at = |i: usize| back.get(i).copied().unwrap_or(0.0);
        back = (0..=back.len()).map(|j| at(j.wrapping_sub(1)) - at(j)).collect();
    }
    let sum = |v: &[f64], w: &[f64]| v.iter().zip(w).map(|(a, b)| a * b).sum::<f64>();
    let below = -0.5 * sum(&back, &back) + sum(dual, &dy);
    objective - if c.penalty == 1 { below } else { below - sum(dual, dual) / (2.0 * c.lam) }
}

/// The Rust's answer, and what its copy with counters noted: the search's numbers and the dual point.
pub fn expected(c: &Case) -> Result<(TrendFilterFit, counted::Seen), u32> {
    let penalty = match c.penalty {
        1 => Penalty::L1,
        2 => Penalty::L2,
        _ => return Err(1),
    };
    let o = TrendFilterOptions { order: c.order as usize, penalty, tol: c.tol, max_iter: c.max_iter as usize };
    let fit = l1_trend_filter(&c.y, c.lam, o).map_err(|e| number(&e));
    counted::take_seen();
    let p = match penalty {
        Penalty::L1 => counted::Penalty::L1,
        Penalty::L2 => counted::Penalty::L2,
    };
    let again = counted::l1_trend_filter(&c.y, c.lam, counted::TrendFilterOptions { order: o.order, penalty: p, tol: c.tol, max_iter: o.max_iter });
    let mut seen = counted::take_seen();
    assert_eq!(fit.is_ok(), again.is_ok(), "the copy with counters differs from the module");
    if let (Ok(f), Ok(g)) = (&fit, &again) {
        let trends = f.trend.iter().zip(&g.trend).all(|(&a, &b)| same(a, b));
        assert!(trends && f.n_iter == g.n_iter && same(f.duality_gap, g.duality_gap), "the copy with counters differs from the module");
        assert_eq!(seen.dual.len(), c.y.len() - o.order, "places of dual");
        assert!(same(gap_of(c, f.objective, &seen.dual), f.duality_gap), "the dual point doesn't give the module's gap");
        // A search always leaves a reason above 0; none was made exactly where the module takes a path without one.
        let closed = c.penalty == 2 || c.lam == 0.0 || c.lam >= f.lam_max;
        assert!((seen.reason == 0) == closed && (!closed || f.n_iter == 0 && f.converged), "reason {} of a path that isn't its own", seen.reason);
        if closed {
            seen.first = f.duality_gap;
            seen.best = f.duality_gap;
        }
    }
    fit.map(|f| (f, seen))
}

/// What is right: the Rust's answer, and where it has none to give, document 01's: a series that is too long or a buffer that is
/// too short is refused by its number, asked where document 01 asks it.
pub fn answer(c: &Case, l: &Lengths) -> Result<(TrendFilterFit, counted::Seen), u32> {
    let n = c.y.len();
    let known = |x: u32| x == 1 || x == 2;
    if known(c.order) && known(c.penalty) && n > 65_536 {
        return Err(3);
    }
    match (expected(c), l.refused(n, c.penalty)) {
        (Ok(_) | Err(10), Some(q)) => Err(q),
        (e, _) => e,
    }
}

fn same_fit(f: &TrendFilterFit, seen: &counted::Seen, a: &Answer) -> Result<(), String> {
    if a.refused != 0 {
        return Err(format!("refused with {} by the port only", a.refused));
    }
    for (name, x, y) in [("trend", &f.trend, &a.trend), ("cycle", &f.cycle, &a.cycle), ("dual", &seen.dual, &a.dual)] {
        if x.len() != y.len() {
            return Err(format!("{} places of {name} are right, {} by the port", x.len(), y.len()));
        }
        if let Some(i) = (0..x.len()).find(|&i| !same(x[i], y[i])) {
            return Err(format!("{name} {i}: {:016x} by the Rust, {:016x} by the port", x[i].to_bits(), y[i].to_bits()));
        }
    }
    if f.knots.len() != a.knots.len() || f.knots.iter().zip(&a.knots).any(|(x, y)| *x != *y as usize) {
        return Err("knots".into());
    }
    let numbers = [f.lam_max, f.duality_gap, seen.first, seen.best, f.objective];
    if let Some(i) = (0..5).find(|&i| !same(numbers[i], a.numbers[i])) {
        return Err(format!("number {i}: {:016x} by the Rust, {:016x} by the port", numbers[i].to_bits(), a.numbers[i].to_bits()));
    }
    let counts = [f.knots.len() as u64, f.n_iter as u64, seen.improvements, f.converged as u64, seen.reason as u64];
    if a.counts != counts {
        return Err(format!("counts: {counts:?} by the Rust, {:?} by the port", a.counts));
    }
    Ok(())
}

/// What a fit needs, asked before it: the port's answer is document 02's, and a fit takes no more steps than its ceiling.
fn foretold(port: &mut Port, c: &Case, a: &Answer) -> Result<(), String> {
    let n = c.y.len() as u64;
    let (right, told) = (needed(n, c.max_iter, c.order, c.penalty), port.needs(n, c.max_iter, c.order, c.penalty)?);
    if told != right {
        return Err(format!("needs: {right:?} is right, {told:?} by the port"));
    }
    match told {
        Ok([_, _, steps]) if a.refused == 0 && a.counts[1] > steps => Err(format!("{} steps, at most {steps} were foretold", a.counts[1])),
        Err(q) if a.refused == 0 => Err(format!("a fit where needs was refused with {q}")),
        _ => Ok(()),
    }
}

/// Compares one case; an error says where the two differ.
pub fn compare(port: &mut Port, c: &Case, l: &Lengths, t: &mut Tally) -> Result<(), String> {
    let n = c.y.len();
    let a = port.fit(c, l)?;
    foretold(port, c, &a)?;
    let e = Lengths::exact(n, c.penalty);
    let more = l.trend > n || l.cycle > n || l.knots > n || l.dual > n || l.work > e.work || l.marks > e.marks;
    t.longer += (l.refused(n, c.penalty).is_none() && more) as u64;
    t.kept += a.kept;
    match answer(c, l) {
        Err(q) if q == a.refused => {
            t.refused[q as usize] += 1;
            Ok(())
        }
        Err(q) => Err(format!("refused with {q} is right, {} by the port", a.refused)),
        Ok((f, seen)) => {
            same_fit(&f, &seen, &a)?;
            t.fits += 1;
            t.reasons[seen.reason as usize] += 1;
            t.not_converged += !f.converged as u64;
            t.nan_gaps += f.duality_gap.is_nan() as u64;
            t.places += c.y.len() as u64;
            t.iterations += f.n_iter as u64;
            Ok(())
        }
    }
}
