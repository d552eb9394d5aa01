//! L1 trend filtering and its squared-penalty counterpart, by the proved port, with the names of the source module: a program that
//! used `l1_trend_filter`, `TrendFilterOptions`, `Penalty`, `TrendFilterFit` and `MlError` of the source changes its `use` line only.
//! `TrendFilterFit` has the source's fields and no other, so that a program which takes it apart or builds one compiles too. [`MlError`]
//! says which case of the source's error isn't here, and which is added.
//!
//! `tools/build trend_filter`, in the repository's root, writes the library that this crate links; then a program needs
//! `trend-filter = { path = ".../bindings/rust" }` among its dependencies. `TREND_FILTER_LIB` names a library that stands elsewhere, by its full path.
//!
//! ```
//! use trend_filter::{l1_trend_filter, MlError, TrendFilterOptions};
//!
//! fn main() -> Result<(), MlError> {
//!     // how many milliseconds each day of a week ran over
//!     let week = [120.0, 80.0, 100.0, 2050.0, 1950.0, 2100.0, 1900.0];
//!     let opts = TrendFilterOptions { order: 1, ..TrendFilterOptions::default() };
//!     let fit = l1_trend_filter(&week, 150.0, opts)?;
//!     for (day, (habit, rest)) in fit.trend.iter().zip(&fit.cycle).enumerate() {
//!         println!("day {day}: {habit:.1} ms, and {rest:.1} ms beside the habit");
//!     }
//!     assert_eq!(fit.knots, [2]); // the habit changes after day 2
//!     assert_eq!(fit.trend, [150.0, 150.0, 150.0, 1962.5, 1962.5, 1962.5, 1962.5]);
//!
//!     match l1_trend_filter(&week[..1], 150.0, opts) {
//!         Err(MlError::InsufficientData { got, needed, .. }) => println!("{got} of the {needed} days that it takes"),
//!         Err(other) => return Err(other),
//!         Ok(_) => unreachable!("one day has no trend"),
//!     }
//!     Ok(())
//! }
//! ```
//!
//! What the port knows beyond the source, how the search went, why it stopped and the dual point, is [`Search`];
//! [`l1_trend_filter_with_search`] gives it beside the fit. [`l1_trend_filter_into`] fits in memory that is lent and takes none itself;
//! [`TrendFilterOptions::needs`] tells before a fit how much it will need and how many steps it takes at most.
//! [`TrendFilterFit::crossings`] tells of a fit where its trend passes a level, [`TrendFilterFit::nearest_knot`] which of its knots is
//! nearest a place; [`crossings`] and [`nearest_knot`] do so for any trend and any knots, in memory that is lent.
//!
//! The floating-point environment is taken as a program starts: rounding to nearest, subnormal numbers kept, no exception that
//! traps. Rust assumes the same of all its code. Where other code on the thread has changed it (C's `fesetround` or
//! `feenableexcept`, flush to zero, a C library linked with `-ffast-math`), a fit has other bits or ends in a signal.
//! `trend_filter_environment_ok` in bindings/c/trend_filter.h can tell.

mod error;

pub use error::{MlError, Refused};
use std::fmt;

/// Shape of the penalty on the `order`-th differences of the trend.
#[derive(Debug, Clone, Copy, PartialEq, Eq)]
pub enum Penalty {
    /// `lam * ||D x||_1`
    L1,
    /// `(lam/2) * ||D x||_2^2`
    L2,
}

/// Configuration of [`l1_trend_filter`].
#[derive(Debug, Clone, Copy, PartialEq)]
pub struct TrendFilterOptions {
    /// Difference order, 1 or 2.
    pub order: usize,
    pub penalty: Penalty,
    /// The search stops when the gap is at most `tol` times the objective. Not used by L2, but asked for all the same.
    pub tol: f64,
    /// Step limit of the search, at least 1.
    pub max_iter: usize,
}

impl Default for TrendFilterOptions {
    fn default() -> Self {
        Self { order: 2, penalty: Penalty::L1, tol: 1e-8, max_iter: 10_000 }
    }
}

/// What a fit needs, known before it runs: see [`TrendFilterOptions::needs`].
#[derive(Debug, Clone, Copy, PartialEq, Eq)]
pub struct Needs {
    /// Places of `f64` that it works in: 40 n for L1, 16 n for L2.
    pub work: usize,
    /// Places of `u32` that it marks: 2 n for L1, none for L2.
    pub marks: usize,
    /// The most steps: `n_iter` of the fit is never above this. For L1 the lesser of `max_iter` and 1,447,640, for L2 0.
    pub steps: usize,
}

impl TrendFilterOptions {
    /// What the fit of a series of `n` places with these options needs, whatever the series, its `lam` and `tol` are. The fit takes
    /// `8 * work + 4 * marks` bytes to work in, given back when it ends, and at most `36 * n` for its answer.
    ///
    /// # Errors
    /// [`Refused`] with the number of the first of questions 1, 2, 3 and 7 answered no.
    ///
    /// ```
    /// use trend_filter::{Needs, Penalty, Refused, TrendFilterOptions};
    ///
    /// let opts = TrendFilterOptions { max_iter: 100, ..TrendFilterOptions::default() };
    /// assert_eq!(opts.needs(168), Ok(Needs { work: 6720, marks: 336, steps: 100 }));
    /// let squared = TrendFilterOptions { penalty: Penalty::L2, ..opts };
    /// assert_eq!(squared.needs(168), Ok(Needs { work: 2688, marks: 0, steps: 0 }));
    /// assert_eq!(opts.needs(65_537), Err(Refused(3)));
    /// ```
    pub fn needs(&self, n: usize) -> Result<Needs, Refused> {
        let mut needs = [0; 3];
        // SAFETY: needs has three places, and the entry asks nothing more.
        let refused = unsafe { trend_filter_needs(n as u64, self.max_iter as u64, self.order_number(), self.penalty_number(), &mut needs) };
        let [work, marks, steps] = needs.map(|x| x as usize);
        told(refused, Needs { work, marks, steps })
    }

    fn order_number(&self) -> u32 {
        u32::try_from(self.order).unwrap_or(u32::MAX)
    }

    fn penalty_number(&self) -> u32 {
        match self.penalty {
            Penalty::L1 => 1,
            Penalty::L2 => 2,
        }
    }
}

/// Result of [`l1_trend_filter`]: the source's fields.
#[derive(Debug, Clone, PartialEq)]
pub struct TrendFilterFit {
    pub trend: Vec<f64>,
    /// `y - trend`
    pub cycle: Vec<f64>,
    /// Indices where the trend's difference is above the threshold, rising.
    pub knots: Vec<usize>,
    pub duality_gap: f64,
    pub objective: f64,
    pub converged: bool,
    pub n_iter: usize,
    pub lam_max: f64,
}

impl TrendFilterFit {
    /// Where the trend passes `level`, rising: the `i` for which `trend[i]` is at or below it and `trend[i + 1]` above, or `trend[i]`
    /// above it and `trend[i + 1]` at or below.
    ///
    /// # Errors
    /// As of [`crossings`].
    pub fn crossings(&self, level: f64) -> Result<Vec<usize>, Refused> {
        let mut list = vec![0; self.trend.len()];
        let count = crossings(level, &self.trend, &mut list)?;
        Ok(wide(&list[..count]))
    }

    /// The knot nearest a place of the trend, the lower of two that are as near; `None` where the fit has no knot.
    ///
    /// # Errors
    /// As of [`nearest_knot`].
    pub fn nearest_knot(&self, place: usize) -> Result<Option<usize>, Refused> {
        // A fit's knots are below 65,536. Of one that was built by hand those beyond u32 are farthest, and the lowest of them is nearest.
        let short = |k: usize| u32::try_from(k).unwrap_or(u32::MAX);
        let knots: Vec<u32> = self.knots.iter().map(|&k| short(k)).collect();
        let found = nearest_knot(place as u64, &self.trend, &knots)?;
        Ok(found.and_then(|f| self.knots.iter().copied().filter(|&k| short(k) == f).min()))
    }
}

/// How the search of a fit went, and the dual point of its certificate: what the source's fit doesn't have.
#[derive(Debug, Clone, PartialEq)]
pub struct Search {
    /// The gap before the first step; on a closed path the gap.
    pub first_gap: f64,
    /// The least gap by which a step was an improvement; the first gap where none was.
    pub best_gap: f64,
    /// How many steps were improvements: `n_iter` is at most 10 times this plus 10.
    pub improvements: u64,
    /// Why it stopped.
    pub reason: Reason,
    /// The point `z` at which the dual objective of the gap was worked out, `n - order` places: for L2 `lam` times each place of
    /// `D trend`, not clamped; for L1 with `lam` 0 or -0 each place +0; otherwise `z` of the certificate that was kept, clamped to
    /// `lam` (a place below `-lam` is `-lam`, one above `lam` is `lam`, a NaN stays).
    pub dual: Vec<f64>,
}

/// Why the search stopped. Where more than one of `GapSmall`, `LimitSpent` and `Stalled` holds, it is the first of them.
///
/// It tells of the search and not of the answer: the polish after it may lower the objective, so that `converged` is false after
/// `GapSmall`, or the gap, so that it is true after `LimitSpent`, `Stalled` or `PivotLost`. Any reason but `LimitSpent` stays, with
/// the whole answer, for every larger `max_iter`. `reason as u8` is the number that the weekly program prints.
#[derive(Debug, Clone, Copy, PartialEq, Eq)]
pub enum Reason {
    /// There was no search: L2, or L1 with `lam` 0 or at least `lam_max`.
    ClosedPath = 0,
    /// Where the search stood, the gap was at most `tol` times the objective.
    GapSmall = 1,
    /// `n_iter` is `max_iter`; also where the search stalled just then.
    LimitSpent = 2,
    /// The last ten steps were no improvements.
    Stalled = 3,
    /// The last step met a pivot that isn't finite and above 0, and the search stayed where it stood.
    PivotLost = 4,
}

impl Reason {
    /// The reason of a number, as the entry returns it.
    fn of(number: u64) -> Reason {
        match number {
            0 => Reason::ClosedPath,
            1 => Reason::GapSmall,
            2 => Reason::LimitSpent,
            3 => Reason::Stalled,
            4 => Reason::PivotLost,
            _ => panic!("the static library is not this crate's: it returns the reason {number}"),
        }
    }
}

impl fmt::Display for Reason {
    fn fmt(&self, f: &mut fmt::Formatter<'_>) -> fmt::Result {
        f.write_str(match self {
            Reason::ClosedPath => "closed path",
            Reason::GapSmall => "gap small enough",
            Reason::LimitSpent => "limit spent",
            Reason::Stalled => "stalled",
            Reason::PivotLost => "pivot lost",
        })
    }
}

/// What an entry has answered: 0 and the answer, or a refusal's number.
fn told<T>(refused: u32, answer: T) -> Result<T, Refused> {
    if refused == 0 { Ok(answer) } else { Err(Refused(refused)) }
}

/// Places as the entries have them, for a Rust program.
fn wide(places: &[u32]) -> Vec<usize> {
    places.iter().map(|&i| i as usize).collect()
}

extern "C" {
    fn trend_filter_fit(
        y: *const f64, y_len: usize,
        lam: f64, tol: f64, max_iter: u64, order: u32, penalty: u32,
        trend: *mut f64, trend_len: usize,
        cycle: *mut f64, cycle_len: usize,
        knots: *mut u32, knots_len: usize,
        dual: *mut f64, dual_len: usize,
        work: *mut f64, work_len: usize,
        marks: *mut u32, marks_len: usize,
        numbers: *mut [f64; 5], counts: *mut [u64; 5],
    ) -> u32;

    fn trend_filter_needs(n: u64, max_iter: u64, order: u32, penalty: u32, needs: *mut [u64; 3]) -> u32;

    fn trend_filter_crossings(
        level: f64, trend: *const f64, trend_len: usize, list: *mut u32, list_len: usize, found: *mut [u64; 1],
    ) -> u32;

    fn trend_filter_nearest_knot(
        place: u64, trend: *const f64, trend_len: usize, knots: *const u32, knots_len: usize, found: *mut [u64; 2],
    ) -> u32;
}

/// The trend of `y` with the penalty weight `lam`.
///
/// # Errors
/// [`MlError`] as the source gives it, or [`MlError::Refused`] with 3 where `y` is longer than 65,536.
pub fn l1_trend_filter(y: &[f64], lam: f64, opts: TrendFilterOptions) -> Result<TrendFilterFit, MlError> {
    l1_trend_filter_with_search(y, lam, opts).map(|(fit, _)| fit)
}

/// The trend of `y`, as [`l1_trend_filter`] gives it, how its search went, and the dual point.
///
/// # Errors
/// As of [`l1_trend_filter`].
pub fn l1_trend_filter_with_search(y: &[f64], lam: f64, opts: TrendFilterOptions) -> Result<(TrendFilterFit, Search), MlError> {
    let n = y.len();
    // Asked first, so that no memory is taken for a series that is refused anyway, and none that isn't needed.
    let need = match opts.needs(n) {
        Ok(need) => need,
        // The fit asks 4 to 6 before it asks this; it doesn't come to its work and marks.
        Err(Refused(7)) => Needs { work: 0, marks: 0, steps: 0 },
        Err(refused) => return Err(MlError::of_fit(refused, y, lam, opts)),
    };
    let [mut trend, mut cycle, mut dual] = [n; 3].map(|places| vec![0.0; places]);
    let mut knots = vec![0; n];
    let s = l1_trend_filter_into(y, lam, opts, &mut Buffers {
        trend: &mut trend,
        cycle: &mut cycle,
        knots: &mut knots,
        dual: &mut dual,
        work: &mut vec![0.0; need.work],
        marks: &mut vec![0; need.marks],
    })?;
    dual.truncate(n - opts.order);
    let search = Search { first_gap: s.first_gap, best_gap: s.best_gap, improvements: s.improvements, reason: s.reason, dual };
    let fit = TrendFilterFit {
        trend,
        cycle,
        knots: wide(&knots[..s.knots]),
        duality_gap: s.duality_gap,
        objective: s.objective,
        converged: s.converged,
        n_iter: s.n_iter,
        lam_max: s.lam_max,
    };
    Ok((fit, search))
}

/// The memory that [`l1_trend_filter_into`] is lent, for a series of `n` places: at least `n` for each part of the answer, and to work in
/// what [`TrendFilterOptions::needs`] tells. More may be lent.
#[derive(Debug)]
pub struct Buffers<'a> {
    /// Its first `n` places become the trend.
    pub trend: &'a mut [f64],
    /// Its first `n` places become `y - trend`.
    pub cycle: &'a mut [f64],
    /// Its first [`Summary::knots`] places become the knots, rising.
    pub knots: &'a mut [u32],
    /// Its first `n - order` places become the dual point: see [`Search::dual`].
    pub dual: &'a mut [f64],
    /// At least [`Needs::work`] places.
    pub work: &'a mut [f64],
    /// At least [`Needs::marks`] places: for L2 `&mut []` will do.
    pub marks: &'a mut [u32],
}

/// What [`l1_trend_filter_into`] gives beside what it writes: the numbers of [`TrendFilterFit`] and of [`Search`].
#[derive(Debug, Clone, Copy, PartialEq)]
pub struct Summary {
    /// How many knots there are.
    pub knots: usize,
    pub duality_gap: f64,
    pub objective: f64,
    pub converged: bool,
    pub n_iter: usize,
    pub lam_max: f64,
    pub first_gap: f64,
    pub best_gap: f64,
    pub improvements: u64,
    pub reason: Reason,
}

/// The trend of `y`, as [`l1_trend_filter`] gives it, in memory that is lent: nothing is allocated.
///
/// After a fit the places that [`Buffers`] names hold the answer; all later ones are as found. After a refusal trend, cycle, knots and
/// dual are as found; so are work and marks, unless a pivot was lost ([`MlError::DecompositionFailed`]). After a fit or a lost pivot
/// nothing is promised of the places of work and marks that are needed; later ones are as found.
///
/// # Errors
/// As of [`l1_trend_filter`], and [`MlError::Refused`] with 8 where trend, cycle, knots or dual, or with 9 where work or marks, are too
/// short.
///
/// ```
/// use trend_filter::{l1_trend_filter_into, Buffers, MlError, Refused, TrendFilterOptions};
///
/// fn main() -> Result<(), MlError> {
///     let y = [120.0, 80.0, 100.0, 2050.0, 1950.0, 2100.0, 1900.0];
///     let opts = TrendFilterOptions { order: 1, ..TrendFilterOptions::default() };
///     let need = opts.needs(y.len())?;
///     let (mut work, mut marks) = (vec![0.0; need.work], vec![0; need.marks]);
///     let (mut trend, mut cycle, mut knots, mut dual) = ([0.0; 7], [0.0; 7], [0; 7], [0.0; 7]);
///     let mut lent = Buffers {
///         trend: &mut trend, cycle: &mut cycle, knots: &mut knots, dual: &mut dual, work: &mut work, marks: &mut marks,
///     };
///     // the same memory serves many fits
///     for lam in [150.0, 300.0] {
///         let fit = l1_trend_filter_into(&y, lam, opts, &mut lent)?;
///         assert_eq!(lent.knots[..fit.knots], [2]);
///         println!("lam {lam}: {:.1} ms from day 3 on, {} steps, {}", lent.trend[3], fit.n_iter, fit.reason);
///     }
///     // a week and a day don't fit into the places of a week
///     let longer = [0.0; 8];
///     assert_eq!(l1_trend_filter_into(&longer, 150.0, opts, &mut lent), Err(MlError::Refused(Refused(8))));
///     Ok(())
/// }
/// ```
pub fn l1_trend_filter_into(y: &[f64], lam: f64, opts: TrendFilterOptions, lent: &mut Buffers<'_>) -> Result<Summary, MlError> {
    let mut numbers = [0.0; 5];
    let mut counts = [u64::MAX; 5]; // no reason has this number
    // SAFETY: each pointer is to as many places as the length beside it, none overlap, and the entry asks nothing more.
    let refused = unsafe {
        trend_filter_fit(
            y.as_ptr(), y.len(), lam, opts.tol, opts.max_iter as u64, opts.order_number(), opts.penalty_number(),
            lent.trend.as_mut_ptr(), lent.trend.len(), lent.cycle.as_mut_ptr(), lent.cycle.len(),
            lent.knots.as_mut_ptr(), lent.knots.len(), lent.dual.as_mut_ptr(), lent.dual.len(),
            lent.work.as_mut_ptr(), lent.work.len(), lent.marks.as_mut_ptr(), lent.marks.len(),
            &mut numbers, &mut counts,
        )
    };
    if refused != 0 {
        return Err(MlError::of_fit(Refused(refused), y, lam, opts));
    }
    let [lam_max, duality_gap, first_gap, best_gap, objective] = numbers;
    let [knots, n_iter, improvements, converged, reason] = counts;
    Ok(Summary {
        knots: knots as usize,
        duality_gap,
        objective,
        converged: converged == 1,
        n_iter: n_iter as usize,
        lam_max,
        first_gap,
        best_gap,
        improvements,
        reason: Reason::of(reason),
    })
}

/// Where a trend passes `level`: the first places of `list` become the `i`, rising, with `i + 1` below the trend's length for which
/// `trend[i]` is at or below the level and `trend[i + 1]` above it, or `trend[i]` above it and `trend[i + 1]` at or below. A NaN is
/// neither, so there is no crossing beside it. Gives how many there are; later places of `list` stay as they are.
///
/// # Errors
/// [`Refused`] with 18 where the level isn't finite, then with 19 where the trend is longer than 65,536 or `list` shorter than the
/// trend; `list` stays as it is.
///
/// ```
/// use trend_filter::{crossings, Refused};
///
/// // 8,000 ms themselves are at the mark and not past it
/// let trend = [7900.0, 8000.0, 8600.0, 8100.0, 7400.0];
/// let mut list = [0; 5];
/// let count = crossings(8000.0, &trend, &mut list).unwrap();
/// assert_eq!(list[..count], [1, 3]); // past it after place 1, back after place 3
/// assert_eq!(crossings(f64::NAN, &trend, &mut list), Err(Refused(18)));
/// ```
pub fn crossings(level: f64, trend: &[f64], list: &mut [u32]) -> Result<usize, Refused> {
    let mut found = [0];
    // SAFETY: each pointer is to as many places as the length beside it, none overlap, and the entry asks nothing more.
    let refused = unsafe { trend_filter_crossings(level, trend.as_ptr(), trend.len(), list.as_mut_ptr(), list.len(), &mut found) };
    told(refused, found[0] as usize)
}

/// The one of `knots` that is nearest a place of the trend, the lower of two that are as near; `None` where there is none. They may be
/// any numbers, in any order.
///
/// # Errors
/// [`Refused`] with 19 where the trend is longer than 65,536 or the place isn't below its length.
///
/// ```
/// use trend_filter::nearest_knot;
///
/// let trend = [7900.0, 8000.0, 8600.0, 8100.0, 7400.0];
/// assert_eq!(nearest_knot(1, &trend, &[0, 2]), Ok(Some(0)));
/// assert_eq!(nearest_knot(1, &trend, &[]), Ok(None));
/// ```
pub fn nearest_knot(place: u64, trend: &[f64], knots: &[u32]) -> Result<Option<u32>, Refused> {
    let mut found = [0; 2];
    // SAFETY: each pointer is to as many places as the length beside it, found overlaps neither, and the entry asks nothing more.
    let refused = unsafe { trend_filter_nearest_knot(place, trend.as_ptr(), trend.len(), knots.as_ptr(), knots.len(), &mut found) };
    told(refused, (found[0] == 1).then_some(found[1] as u32))
}
