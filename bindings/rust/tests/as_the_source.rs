//! A program that was written for the source: its first `use` line is another, and nothing else. oracle/ compiles it with the source's
//! own module and error type too, and compares what both tell.
use trend_filter::{l1_trend_filter, MlError, Penalty, TrendFilterFit, TrendFilterOptions};
use std::error::Error;

/// A call, and its whole answer in words.
pub fn fitted(y: &[f64], lam: f64, order: usize, squared: bool, tol: f64, max_iter: usize) -> String {
    let penalty = if squared { Penalty::L2 } else { Penalty::L1 };
    match l1_trend_filter(y, lam, TrendFilterOptions { order, penalty, tol, max_iter }) {
        Ok(fit) => whole(fit),
        Err(e) => error(&e),
    }
}

/// The fields of a fit: with one more or less this doesn't compile.
fn whole(fit: TrendFilterFit) -> String {
    let TrendFilterFit { trend, cycle, knots, duality_gap, objective, converged, n_iter, lam_max } = fit.clone();
    assert_eq!(knots, fit.knots);
    let again = TrendFilterFit { trend, cycle, knots, duality_gap, objective, converged, n_iter, lam_max };
    format!("{again:?}")
}

/// An error by its case and its fields, its text and what it derives.
pub fn error(e: &MlError) -> String {
    let fields = match e {
        MlError::EmptyInput { what } => format!("EmptyInput {what}"),
        MlError::DimensionMismatch { what, expected, got } => format!("DimensionMismatch {what} {expected} {got}"),
        MlError::NonFinite { what } => format!("NonFinite {what}"),
        MlError::InvalidArgument { what } => format!("InvalidArgument {what}"),
        MlError::DecompositionFailed { what } => format!("DecompositionFailed {what}"),
        MlError::InvalidValue { what } => format!("InvalidValue {what}"),
        MlError::NotPositiveDefinite { what } => format!("NotPositiveDefinite {what}"),
        MlError::NoConvergence { iterations, max_change } => format!("NoConvergence {iterations} {max_change}"),
        MlError::InsufficientData { got, needed, what } => format!("InsufficientData {got} {needed} {what}"),
        MlError::InvalidBlockLength { what, block_length, n } => format!("InvalidBlockLength {what} {block_length} {n}"),
        MlError::UnknownChoice { what, got, accepted } => format!("UnknownChoice {what} {got} {accepted}"),
        MlError::Diverged { member, epoch } => format!("Diverged {member} {epoch}"),
        _ => "another".into(),
    };
    let e: Box<dyn Error + Send + Sync> = Box::new(e.clone());
    format!("{fields} | {e} | {e:?} | {}", e.source().is_some())
}

/// One of each case.
pub fn cases(what: &'static str, accepted: &'static str, text: &str, a: usize, b: usize, x: f64) -> Vec<MlError> {
    vec![
        MlError::EmptyInput { what },
        MlError::DimensionMismatch { what, expected: a, got: b },
        MlError::NonFinite { what },
        MlError::InvalidArgument { what },
        MlError::DecompositionFailed { what },
        MlError::InvalidValue { what: text.into() },
        MlError::NotPositiveDefinite { what: text.into() },
        MlError::NoConvergence { iterations: a, max_change: x },
        MlError::InsufficientData { got: a, needed: b, what },
        MlError::InvalidBlockLength { what, block_length: a, n: b },
        MlError::UnknownChoice { what, got: text.into(), accepted },
        MlError::Diverged { member: a, epoch: b },
    ]
}

/// What [`cases`] tell of themselves, and which are equal.
pub fn told(what: &'static str, accepted: &'static str, text: &str, a: usize, b: usize, x: f64) -> Vec<String> {
    let all = cases(what, accepted, text, a, b, x);
    let same = |e: &MlError| cases(what, accepted, text, b, a, x).iter().map(|f| (e == f) as u8).collect::<Vec<u8>>();
    all.iter().map(|e| format!("{} | {:?}", error(e), same(e))).collect()
}

#[test]
fn a_fit_is_taken_apart() {
    let text = "TrendFilterFit { trend: [4.0, 2.0], cycle: [2.0, -2.0], knots: [0], \
                duality_gap: 0.0, objective: 6.0, converged: true, n_iter: 0, lam_max: 3.0 }";
    assert_eq!(fitted(&[6.0, 0.0], 1.0, 1, true, 1e-8, 100), text);
}

#[test]
fn an_error_by_its_case() {
    let right = "InsufficientData 2 3 trend filter | insufficient data: 2 observations, at least 3 required (trend filter) | \
                 InsufficientData { got: 2, needed: 3, what: \"trend filter\" } | false";
    assert_eq!(fitted(&[6.0, 0.0], 1.0, 2, false, 1e-8, 100), right);
}

/// The texts, by hand.
#[test]
fn the_texts_of_every_case() {
    let right = [
        "empty input: X",
        "dimension mismatch: X (expected 7, got 12)",
        "non-finite value (NaN or infinity) in X",
        "invalid argument: X",
        "dense decomposition failed to converge in X",
        "invalid argument: adam\"",
        "not positive definite: adam\"",
        "coordinate descent did not converge after 7 sweeps (last max coefficient change 2.5e-7)",
        "insufficient data: 7 observations, at least 12 required (X)",
        "X=7 is outside 1..=12: a block cannot be empty or longer than the 12-row sample",
        "unknown X \"adam\\\"\"; expected one of sgd, lbfgs",
        "training diverged (non-finite loss) in ensemble member 7 at epoch 12; lower learning_rate, raise alpha, or standardize the inputs",
    ];
    let texts: Vec<String> = cases("X", "sgd, lbfgs", "adam\"", 7, 12, 2.5e-7).iter().map(|e| e.to_string()).collect();
    assert_eq!(texts, right);
}
