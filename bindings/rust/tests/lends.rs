//! The entry that lends: no memory is taken, what a refusal finds it leaves, and the answer is the other entry's.
use std::alloc::{GlobalAlloc, Layout, System};
use std::cell::Cell;
use trend_filter::{l1_trend_filter_into, l1_trend_filter_with_search, Buffers, MlError, Needs, Penalty, Refused};
use trend_filter::{Search, Summary, TrendFilterFit, TrendFilterOptions};

/// The system's memory, each time that this thread takes some counted.
struct Counting;

thread_local! { static TAKEN: Cell<u64> = const { Cell::new(0) }; }

fn count() {
    TAKEN.with(|t| t.set(t.get() + 1));
}

// SAFETY: everything is the system's own.
unsafe impl GlobalAlloc for Counting {
    unsafe fn alloc(&self, layout: Layout) -> *mut u8 {
        count();
        System.alloc(layout)
    }
    unsafe fn alloc_zeroed(&self, layout: Layout) -> *mut u8 {
        count();
        System.alloc_zeroed(layout)
    }
    unsafe fn realloc(&self, from: *mut u8, layout: Layout, size: usize) -> *mut u8 {
        count();
        System.realloc(from, layout, size)
    }
    unsafe fn dealloc(&self, from: *mut u8, layout: Layout) {
        System.dealloc(from, layout)
    }
}

#[global_allocator]
static MEMORY: Counting = Counting;

fn taken<T>(f: impl FnOnce() -> T) -> (T, u64) {
    let before = TAKEN.with(Cell::get);
    let answer = f();
    (answer, TAKEN.with(Cell::get) - before)
}

const L1: TrendFilterOptions = TrendFilterOptions { order: 1, penalty: Penalty::L1, tol: 1e-8, max_iter: 100 };
const L2: TrendFilterOptions = TrendFilterOptions { penalty: Penalty::L2, ..L1 };

/// What each place holds before a call: of doubles NaNs, by their bits.
const DOUBLE: u64 = 0xfff4_0000_0000_beef;
const MARK: u32 = 0xbeef_0007;

/// Memory of the lengths of trend, cycle, knots, dual, work and marks.
struct Memory {
    doubles: [Vec<f64>; 4],
    words: [Vec<u32>; 2],
}

impl Memory {
    fn new([trend, cycle, knots, dual, work, marks]: [usize; 6]) -> Memory {
        let doubles = [trend, cycle, dual, work].map(|n| vec![f64::from_bits(DOUBLE); n]);
        Memory { doubles, words: [knots, marks].map(|n| vec![MARK; n]) }
    }

    fn lent(&mut self) -> Buffers<'_> {
        let ([trend, cycle, dual, work], [knots, marks]) = (&mut self.doubles, &mut self.words);
        Buffers { trend, cycle, knots, dual, work, marks }
    }

    /// Whether all but the first places, as many as are given, are as they were.
    fn kept(&self, [trend, cycle, knots, dual, work, marks]: [usize; 6]) -> bool {
        let doubles = self.doubles.iter().zip([trend, cycle, dual, work]).all(|(v, n)| v[n..].iter().all(|x| x.to_bits() == DOUBLE));
        doubles && self.words.iter().zip([knots, marks]).all(|(v, n)| v[n..].iter().all(|&x| x == MARK))
    }
}

/// What a series of n places needs, and so many more of each.
fn lengths(n: usize, opts: TrendFilterOptions, more: usize) -> [usize; 6] {
    let need = opts.needs(n).unwrap();
    [n, n, n, n, need.work, need.marks].map(|places| places + more)
}

const WEEK: [f64; 9] = [120.0, 80.0, 100.0, 2050.0, 1950.0, 2100.0, 1900.0, 40.0, -60.0];

/// What both entries give is one answer.
fn same(s: Summary, lent: &Buffers, fit: &TrendFilterFit, search: &Search) {
    let n = fit.trend.len();
    assert_eq!((&lent.trend[..n], &lent.cycle[..n]), (&fit.trend[..], &fit.cycle[..]));
    assert_eq!(lent.knots[..s.knots].iter().map(|&k| k as usize).collect::<Vec<_>>(), fit.knots);
    assert_eq!(lent.dual[..search.dual.len()], search.dual);
    let fits = (fit.duality_gap, fit.objective, fit.converged, fit.n_iter, fit.lam_max);
    assert_eq!((s.duality_gap, s.objective, s.converged, s.n_iter, s.lam_max), fits);
    let searches = (search.first_gap, search.best_gap, search.improvements, search.reason);
    assert_eq!((s.first_gap, s.best_gap, s.improvements, s.reason), searches);
}

#[test]
fn a_fit_takes_no_memory_and_is_the_other_entry_s() {
    for (order, opts, lam) in [(1, L1, 150.0), (2, L1, 90.0), (1, L1, 0.0), (1, L1, 1e6), (1, L2, 1600.0), (2, L2, 4.0)] {
        let opts = TrendFilterOptions { order, ..opts };
        let ((fit, search), some) = taken(|| l1_trend_filter_with_search(&WEEK, lam, opts).unwrap());
        assert!(some > 0, "the count doesn't count");
        for more in [0, 5] {
            let mut memory = Memory::new(lengths(9, opts, more));
            let mut lent = memory.lent();
            let (summary, none) = taken(|| l1_trend_filter_into(&WEEK, lam, opts, &mut lent));
            assert_eq!(none, 0);
            let s = summary.unwrap();
            same(s, &lent, &fit, &search);
            let need = opts.needs(9).unwrap();
            assert!(memory.kept([9, 9, s.knots, 9 - order, need.work, need.marks]), "order {order}, lam {lam}, {more} more");
        }
    }
}

/// The error of a call in memory of these lengths, which it leaves as it was.
fn refused(y: &[f64], lam: f64, opts: TrendFilterOptions, lengths: [usize; 6]) -> MlError {
    let mut memory = Memory::new(lengths);
    let (answer, none) = taken(|| l1_trend_filter_into(y, lam, opts, &mut memory.lent()));
    assert_eq!(none, 0);
    // after a lost pivot nothing is promised of the places of work and marks that are needed
    let lost = matches!(answer, Err(MlError::DecompositionFailed { .. }));
    let free = if lost { opts.needs(y.len()).unwrap() } else { Needs { work: 0, marks: 0, steps: 0 } };
    assert!(memory.kept([0, 0, 0, 0, free.work, free.marks]));
    answer.unwrap_err()
}

#[test]
fn a_refusal_takes_no_memory_and_leaves_it() {
    let exact = lengths(9, L1, 0);
    let mut nan = WEEK;
    nan[8] = f64::NAN;
    let long = vec![0.0; 65_537];
    let limit = TrendFilterOptions { max_iter: 0, ..L1 };
    let what = |e: MlError| match e {
        MlError::InvalidArgument { what } => what,
        other => panic!("{other:?}"),
    };
    assert!(what(refused(&WEEK, 1.0, TrendFilterOptions { order: 3, ..L1 }, exact)).starts_with("order"));
    assert_eq!(refused(&WEEK[..1], 1.0, L1, exact), MlError::InsufficientData { got: 1, needed: 2, what: "trend filter" });
    assert_eq!(refused(&long, 1.0, L1, exact), MlError::Refused(Refused(3)));
    assert!(what(refused(&long, -1.0, L1, exact)).starts_with("lam"));
    assert_eq!(refused(&nan, 1.0, L1, [0; 6]), MlError::NonFinite { what: "y" });
    assert!(what(refused(&WEEK, -1.0, L1, [0; 6])).starts_with("lam"));
    assert!(what(refused(&WEEK, 1.0, TrendFilterOptions { tol: 0.0, ..L1 }, [0; 6])).starts_with("tol"));
    assert!(what(refused(&WEEK, 1.0, limit, [0; 6])).starts_with("max_iter"));
    assert_eq!(refused(&WEEK, 1e308, L2, lengths(9, L2, 3)), MlError::DecompositionFailed { what: "trend-filter (I + lam D'D) factorization" });
}

#[test]
fn what_is_too_short() {
    for (opts, lam) in [(L1, 150.0), (L2, 1600.0), (L2, 1e308)] {
        let exact = lengths(9, opts, 0);
        for i in 0..6 {
            let mut short = exact;
            // L2 needs no marks, so that none can be too few
            if short[i] > 0 {
                short[i] -= 1;
                assert_eq!(refused(&WEEK, lam, opts, short), MlError::Refused(Refused(if i < 4 { 8 } else { 9 })));
            }
        }
        assert_eq!(refused(&WEEK, lam, opts, [0; 6]), MlError::Refused(Refused(8)));
        assert_eq!(refused(&WEEK, lam, opts, [9, 9, 9, 9, 0, 0]), MlError::Refused(Refused(9)));
    }
}
