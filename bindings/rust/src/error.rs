//! What a fit is refused with: the source's error type, and the port's question by its number.
use crate::TrendFilterOptions;
use std::fmt;

/// The source's error type: its cases, fields, texts and derives. Where the source refuses a call of `l1_trend_filter`, so does the port,
/// with the same case and the same fields; the exceptions stand at [`MlError::Refused`], the one case that the source doesn't have.
///
/// A fit gives `InvalidArgument`, `InsufficientData`, `NonFinite`, `DecompositionFailed` and `Refused`. The other cases belong to other
/// modules of the source's crate; they are here for programs that name them.
///
/// The source's case `Hac(HacError)` is not here, nor is its `From<HacError>`: the type `HacError` belongs to another crate. So a program
/// that names `MlError::Hac`, or whose `match` lists every case of the source and has no `_`, has to be changed.
#[derive(Debug, Clone, PartialEq)]
pub enum MlError {
    /// Something was empty that must not be.
    EmptyInput {
        /// The argument.
        what: &'static str,
    },
    /// Two sizes don't go together.
    DimensionMismatch {
        /// The rule that was broken.
        what: &'static str,
        expected: usize,
        got: usize,
    },
    /// A NaN or an infinity was passed: question 4, with `y`.
    NonFinite {
        /// The argument.
        what: &'static str,
    },
    /// An argument is outside its range: questions 1 (the order), 5 (`lam`), 6 (`tol`) and 7 (`max_iter`).
    InvalidArgument {
        /// The range, in words.
        what: &'static str,
    },
    /// A factorization lost a pivot: question 10. A fit's is always that of I + lam D'D, so of L2: the pivots of D D' depend on the order
    /// and the length alone, and up to 65,536 places all are good.
    DecompositionFailed {
        /// What was to be factored.
        what: &'static str,
    },
    /// An argument is outside its range, told with the value that was passed. The text begins as that of `InvalidArgument`.
    InvalidValue {
        /// The range and the value, in words.
        what: String,
    },
    /// A matrix that must be symmetric positive definite isn't.
    NotPositiveDefinite {
        /// The matrix, and what may help.
        what: String,
    },
    /// Coordinate descent spent its limit.
    NoConvergence {
        /// How many sweeps it made.
        iterations: usize,
        /// The greatest change of a coefficient in the last one.
        max_change: f64,
    },
    /// There are too few observations: question 2.
    InsufficientData {
        /// How many there are.
        got: usize,
        /// How many are needed.
        needed: usize,
        /// What needs them.
        what: &'static str,
    },
    /// The length of a block is not from 1 to `n`.
    InvalidBlockLength {
        /// The argument.
        what: &'static str,
        block_length: usize,
        n: usize,
    },
    /// An option that is given by its name has a name that isn't known.
    UnknownChoice {
        /// The option.
        what: &'static str,
        got: String,
        /// The names that are known.
        accepted: &'static str,
    },
    /// The training of a network ended in a loss that isn't finite.
    Diverged {
        /// The network's index in its ensemble, from 0.
        member: usize,
        /// When it was seen.
        epoch: usize,
    },
    /// Only the port refuses this; the source has no such case.
    ///
    /// * 3: the series is longer than 65,536, and the source would fit it, or lose a pivot on the way, which isn't worked out here. Where
    ///   one of questions 4 to 7 is answered no for such a series, the error is the source's.
    /// * 8 and 9: what was lent to [`l1_trend_filter_into`](crate::l1_trend_filter_into) is too short. They are asked after 7 and before
    ///   10. The source lends its own memory.
    /// * Any number by which [`needs`](TrendFilterOptions::needs), [`crossings`](crate::crossings) or
    ///   [`nearest_knot`](crate::nearest_knot), which the source doesn't have, refuse, where `?` makes an `MlError` of it.
    Refused(Refused),
}

impl fmt::Display for MlError {
    fn fmt(&self, f: &mut fmt::Formatter<'_>) -> fmt::Result {
        match self {
            Self::EmptyInput { what } => write!(f, "empty input: {what}"),
            Self::DimensionMismatch { what, expected, got } => write!(f, "dimension mismatch: {what} (expected {expected}, got {got})"),
            Self::NonFinite { what } => write!(f, "non-finite value (NaN or infinity) in {what}"),
            Self::InvalidArgument { what } => write!(f, "invalid argument: {what}"),
            Self::DecompositionFailed { what } => write!(f, "dense decomposition failed to converge in {what}"),
            Self::InvalidValue { what } => write!(f, "invalid argument: {what}"),
            Self::NotPositiveDefinite { what } => write!(f, "not positive definite: {what}"),
            Self::NoConvergence { iterations, max_change } => {
                write!(f, "coordinate descent did not converge after {iterations} sweeps (last max coefficient change {max_change:e})")
            }
            Self::InsufficientData { got, needed, what } => {
                write!(f, "insufficient data: {got} observations, at least {needed} required ({what})")
            }
            Self::InvalidBlockLength { what, block_length, n } => {
                write!(f, "{what}={block_length} is outside 1..={n}: a block cannot be empty or longer than the {n}-row sample")
            }
            Self::UnknownChoice { what, got, accepted } => write!(f, "unknown {what} {got:?}; expected one of {accepted}"),
            Self::Diverged { member, epoch } => {
                write!(f, "training diverged (non-finite loss) in ensemble member {member} at epoch {epoch}; ")?;
                f.write_str("lower learning_rate, raise alpha, or standardize the inputs")
            }
            Self::Refused(refused) => refused.fmt(f),
        }
    }
}

impl std::error::Error for MlError {}

impl From<Refused> for MlError {
    /// The case [`MlError::Refused`], whatever the number: it isn't known here what was asked.
    fn from(refused: Refused) -> MlError {
        MlError::Refused(refused)
    }
}

impl MlError {
    /// The error of a fit that the port refuses: the source's for the same arguments, where it has one.
    pub(crate) fn of_fit(refused: Refused, y: &[f64], lam: f64, opts: TrendFilterOptions) -> MlError {
        let out_of_range = |what| MlError::InvalidArgument { what };
        match refused.0 {
            1 => out_of_range("order must be 1 (piecewise-constant trend) or 2 (piecewise-linear trend)"),
            2 => MlError::InsufficientData { got: y.len(), needed: opts.order + 1, what: "trend filter" },
            // The source has no such question, and goes on with the next.
            3 => match next_of_the_source(y, lam, opts) {
                Some(next) => MlError::of_fit(next, y, lam, opts),
                None => MlError::Refused(refused),
            },
            4 => MlError::NonFinite { what: "y" },
            5 => out_of_range("lam must be finite and non-negative"),
            6 => out_of_range("tol must be finite and positive"),
            7 => out_of_range("max_iter must be at least 1"),
            10 => MlError::DecompositionFailed { what: "trend-filter (I + lam D'D) factorization" },
            _ => MlError::Refused(refused),
        }
    }
}

/// The first of questions 4 to 7 answered no.
fn next_of_the_source(y: &[f64], lam: f64, opts: TrendFilterOptions) -> Option<Refused> {
    if !y.iter().all(|v| v.is_finite()) {
        Some(Refused(4))
    } else if !(lam.is_finite() && lam >= 0.0) {
        Some(Refused(5))
    } else if !(opts.tol.is_finite() && opts.tol > 0.0) {
        Some(Refused(6))
    } else if opts.max_iter == 0 {
        Some(Refused(7))
    } else {
        None
    }
}

/// A refusal: the number of the first question answered no.
#[derive(Debug, Clone, Copy, PartialEq, Eq)]
pub struct Refused(pub u32);

impl Refused {
    /// The question that was answered no. The C header has the same words.
    pub fn question(self) -> &'static str {
        match self.0 {
            0 => "nothing was refused",
            1 => "are order and penalty each 1 or 2?",
            2 => "is the series at least order + 1 long?",
            3 => "is the series at most 65,536 long?",
            4 => "is every place of the series finite?",
            5 => "is lam finite and not below 0?",
            6 => "is tol finite and above 0?",
            7 => "is max_iter at least 1?",
            8 => "have trend, cycle, knots and dual a place for each of the series?",
            9 => "have work and marks the places that they need?",
            10 => "is every pivot met finite and above 0?",
            18 => "is the level finite?",
            19 => "is the trend at most 65,536 long, has the list as many places, is the place asked about one of them?",
            _ => "the library has no question of this number",
        }
    }
}

impl fmt::Display for Refused {
    fn fmt(&self, f: &mut fmt::Formatter<'_>) -> fmt::Result {
        write!(f, "refused {}: {}", self.0, self.question())
    }
}

impl std::error::Error for Refused {}
