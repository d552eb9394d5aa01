//! What a fit is refused with: the source's error for the same arguments, and the port's own questions.
use trend_filter::{l1_trend_filter, l1_trend_filter_with_search, MlError, Penalty, Reason, Refused, TrendFilterOptions};

const L1: TrendFilterOptions = TrendFilterOptions { order: 2, penalty: Penalty::L1, tol: 1e-8, max_iter: 100 };
const L2: TrendFilterOptions = TrendFilterOptions { penalty: Penalty::L2, ..L1 };

fn refused(y: &[f64], lam: f64, opts: TrendFilterOptions) -> MlError {
    let one = l1_trend_filter(y, lam, opts).unwrap_err();
    assert_eq!(l1_trend_filter_with_search(y, lam, opts).unwrap_err(), one);
    one
}

fn out_of_range(what: &'static str) -> MlError {
    MlError::InvalidArgument { what }
}

const ORDER: &str = "order must be 1 (piecewise-constant trend) or 2 (piecewise-linear trend)";
const LAM: &str = "lam must be finite and non-negative";
const TOL: &str = "tol must be finite and positive";
const LIMIT: &str = "max_iter must be at least 1";

#[test]
fn in_the_order_of_the_source() {
    let broken = TrendFilterOptions { tol: 0.0, max_iter: 0, ..L1 };
    let nan = [1.0, f64::NAN, 2.0];
    let good = [1.0, 3.0, 2.0];
    for order in [0, 3, usize::MAX, (1 << 32) + 1] {
        assert_eq!(refused(&[], -1.0, TrendFilterOptions { order, ..broken }), out_of_range(ORDER));
    }
    for (order, got) in [(2, 0), (2, 1), (2, 2), (1, 0), (1, 1)] {
        let right = MlError::InsufficientData { got, needed: order + 1, what: "trend filter" };
        assert_eq!(refused(&nan[1..][..got], -1.0, TrendFilterOptions { order, ..broken }), right);
    }
    assert_eq!(refused(&nan, -1.0, broken), MlError::NonFinite { what: "y" });
    for lam in [-5e-324, f64::NAN, f64::INFINITY] {
        assert_eq!(refused(&good, lam, broken), out_of_range(LAM));
    }
    for tol in [0.0, -0.0, -1.0, f64::NAN, f64::INFINITY] {
        assert_eq!(refused(&good, 1.0, TrendFilterOptions { tol, ..broken }), out_of_range(TOL));
    }
    assert_eq!(refused(&good, 1.0, TrendFilterOptions { max_iter: 0, ..L1 }), out_of_range(LIMIT));
    assert_eq!(refused(&[0.0; 3], 1e308, L2), MlError::DecompositionFailed { what: "trend-filter (I + lam D'D) factorization" });
    assert!(l1_trend_filter(&good, -0.0, L1).is_ok());
}

/// The source has no question 3: of a longer series it asks the next ones, and the error is its own.
#[test]
fn a_series_that_is_too_long() {
    let long = vec![0.0; 65_537];
    let mut nan = long.clone();
    nan[65_536] = f64::NAN;
    let only_here = MlError::Refused(Refused(3));
    assert_eq!(refused(&long, 1.0, L1), only_here);
    assert_eq!(refused(&long, 1e308, L2), only_here);
    assert_eq!(refused(&long, -0.0, L2), only_here);
    assert_eq!(refused(&nan, -1.0, TrendFilterOptions { order: 3, ..L1 }), out_of_range(ORDER));
    assert_eq!(refused(&nan, -1.0, TrendFilterOptions { tol: 0.0, max_iter: 0, ..L1 }), MlError::NonFinite { what: "y" });
    for lam in [-1.0, f64::NAN, f64::INFINITY] {
        assert_eq!(refused(&long, lam, TrendFilterOptions { tol: 0.0, max_iter: 0, ..L1 }), out_of_range(LAM));
    }
    for tol in [0.0, f64::NAN, f64::INFINITY] {
        assert_eq!(refused(&long, 1.0, TrendFilterOptions { tol, max_iter: 0, ..L1 }), out_of_range(TOL));
    }
    assert_eq!(refused(&long, 1.0, TrendFilterOptions { max_iter: 0, ..L1 }), out_of_range(LIMIT));
}

/// The factor of D D' of a shorter series is the start of this one: so a lost pivot is always one of L2's system.
#[test]
fn no_pivot_of_the_differences_is_lost() {
    let longest = vec![0.0; 65_536];
    for order in [1, 2] {
        assert!(l1_trend_filter(&longest, 0.0, TrendFilterOptions { order, ..L1 }).is_ok());
    }
}

#[test]
fn in_words() {
    assert_eq!(Refused(5).to_string(), "refused 5: is lam finite and not below 0?");
    assert_eq!(Refused(18).to_string(), "refused 18: is the level finite?");
    assert_eq!(MlError::Refused(Refused(3)).to_string(), "refused 3: is the series at most 65,536 long?");
    assert_eq!(MlError::from(Refused(7)), MlError::Refused(Refused(7)));
}

const HEADER: &str = include_str!("../../c/trend_filter.h");

/// The number that the header gives a name.
fn number_of(name: &str) -> u64 {
    let line = HEADER.lines().find_map(|l| l.trim().strip_prefix(name)?.strip_prefix(" = "));
    let digits = line.and_then(|l| l.split(|c: char| !c.is_ascii_digit()).next());
    digits.and_then(|d| d.parse().ok()).unwrap_or_else(|| panic!("the header has no number for {name}"))
}

/// The header has the same words for each refusal and each reason.
#[test]
fn the_header_says_the_same() {
    let reasons = [Reason::ClosedPath, Reason::GapSmall, Reason::LimitSpent, Reason::Stalled, Reason::PivotLost];
    let (mut refusals, mut why) = (Vec::new(), Vec::new());
    for (name, text) in HEADER.lines().filter_map(|l| l.trim().strip_prefix("case ")?.split_once(": return ")) {
        let (number, text) = (number_of(name), text.trim_matches(['"', ';']));
        match reasons.iter().find(|r| r.to_string() == text) {
            Some(&r) => {
                assert_eq!(r as u64, number, "{name}");
                why.push(number);
            }
            None => {
                assert_eq!(Refused(number as u32).question(), text, "{name}");
                refusals.push(number);
            }
        }
    }
    assert_eq!(why, [0, 1, 2, 3, 4]);
    assert_eq!(refusals, [0, 1, 2, 3, 4, 5, 6, 7, 8, 9, 10, 18, 19]);
    for unknown in [11, 17, 20, u32::MAX] {
        assert!(HEADER.contains(&format!("default: return \"{}\";", Refused(unknown).question())));
    }
}
