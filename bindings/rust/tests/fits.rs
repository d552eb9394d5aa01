use trend_filter::{crossings, l1_trend_filter, l1_trend_filter_with_search, nearest_knot};
use trend_filter::{MlError, Needs, Penalty, Reason, Refused, Search, TrendFilterOptions};

fn opts(order: usize, penalty: Penalty) -> TrendFilterOptions {
    TrendFilterOptions { order, penalty, tol: 1e-8, max_iter: 100 }
}

#[test]
fn the_listing_of_document_01() {
    let f = l1_trend_filter(&[8000.0, 0.0], 4000.0, opts(1, Penalty::L1)).unwrap();
    assert_eq!(f.trend, [4000.0, 4000.0]);
    assert_eq!(f.cycle, [4000.0, -4000.0]);
    assert!(f.knots.is_empty() && f.converged && f.n_iter == 0);
    assert_eq!((f.lam_max, f.duality_gap, f.objective), (4000.0, 0.0, 16e6));
}

#[test]
fn l2_of_six_and_zero() {
    let f = l1_trend_filter(&[6.0, 0.0], 1.0, opts(1, Penalty::L2)).unwrap();
    assert_eq!((f.trend, f.knots), (vec![4.0, 2.0], vec![0]));
    assert_eq!((f.objective, f.duality_gap, f.lam_max), (6.0, 0.0, 3.0));
}

#[test]
fn a_search_with_a_polish() {
    let (f, s) = l1_trend_filter_with_search(&[8000.0, 0.0, 100.0], 1000.0, opts(1, Penalty::L1)).unwrap();
    assert_eq!((f.trend, f.n_iter, s.improvements), (vec![7000.0, 550.0, 550.0], 16, 13));
    assert!(f.converged && s.first_gap == 8_100_000.0 && s.best_gap < 0.1 && s.reason == Reason::GapSmall);
}

#[test]
fn both_entries_give_one_fit() {
    for (y, lam) in [(&[8000.0, 0.0][..], 3000.0), (&[8000.0, 0.0], 4000.0), (&[1.0, f64::NAN], 1.0)] {
        let o = opts(1, Penalty::L1);
        assert_eq!(l1_trend_filter(y, lam, o), l1_trend_filter_with_search(y, lam, o).map(|(f, _)| f));
    }
}

/// Steps, converged and reason of an L1 fit.
fn ended(order: usize, y: &[f64], lam: f64, tol: f64, max_iter: usize) -> (usize, bool, Reason) {
    let (f, s) = l1_trend_filter_with_search(y, lam, TrendFilterOptions { order, penalty: Penalty::L1, tol, max_iter }).unwrap();
    (f.n_iter, f.converged, s.reason)
}

#[test]
fn every_reason_arrives() {
    let hours = [8000.0, 0.0];
    let far = [1e308, -1e308];
    let peak = [0.0, 1.0, 0.0];
    let small = [0.0, 5e-15];
    let all = [
        (ended(1, &hours, 4000.0, 1e-3, 100), (0, true, Reason::ClosedPath)),
        (ended(1, &hours, 0.0, 1e-3, 100), (0, true, Reason::ClosedPath)),
        (ended(1, &hours, 3000.0, 1.0, 100), (0, true, Reason::GapSmall)),
        (ended(1, &hours, 3000.0, 1e-3, 100), (3, true, Reason::GapSmall)),
        (ended(1, &hours, 3000.0, 1e-3, 3), (3, true, Reason::GapSmall)),
        (ended(1, &hours, 3000.0, 1e-3, 2), (2, true, Reason::LimitSpent)),
        (ended(1, &far, 1e308, 1e-8, 100), (10, false, Reason::Stalled)),
        (ended(1, &far, 1e308, 1e-8, 10), (10, false, Reason::LimitSpent)),
        (ended(2, &peak, 2e-308, 1e-8, 100), (2, false, Reason::PivotLost)),
        (ended(2, &peak, 2e-308, 1e-8, 2), (2, false, Reason::PivotLost)),
        (ended(1, &small, 2e-19, 0.996, 10), (10, true, Reason::GapSmall)),
        (ended(1, &small, 2e-19, 0.99, 10), (10, true, Reason::LimitSpent)),
        (ended(1, &small, 2e-19, 0.99, 11), (10, true, Reason::Stalled)),
        (ended(1, &[-1.0, 0.0, -2.0, -1.0], 0.999_999_999_999_999_7, 1.0, 100), (0, false, Reason::GapSmall)),
    ];
    for (i, (got, right)) in all.iter().enumerate() {
        assert_eq!(got, right, "case {i}");
    }
    let l2 = l1_trend_filter_with_search(&[6.0, 0.0], 1.0, opts(1, Penalty::L2)).unwrap().1;
    assert_eq!(l2, Search { first_gap: 0.0, best_gap: 0.0, improvements: 0, reason: Reason::ClosedPath, dual: vec![-2.0] });
}

/// The dual point by its bits.
fn dual(order: usize, penalty: Penalty, y: &[f64], lam: f64) -> Vec<u64> {
    let (_, s) = l1_trend_filter_with_search(y, lam, opts(order, penalty)).unwrap();
    s.dual.iter().map(|x| x.to_bits()).collect()
}

fn bits<const M: usize>(places: [f64; M]) -> Vec<u64> {
    places.map(f64::to_bits).to_vec()
}

#[test]
fn the_dual_point_of_every_path() {
    let hours = [8000.0, 0.0];
    // L2: lam times the differences, beyond lam too, and with the sign of a product with 0 or -0
    assert_eq!(dual(1, Penalty::L2, &[600.0, 0.0], 1.0), bits([-200.0]));
    assert_eq!(dual(1, Penalty::L2, &hours, 0.0), bits([-0.0]));
    assert_eq!(dual(1, Penalty::L2, &hours, -0.0), bits([0.0]));
    // L1: +0 for lam 0 and -0, z* from lam_max on, and the polish's z at the bounds below it
    assert_eq!(dual(1, Penalty::L1, &hours, 0.0), bits([0.0]));
    assert_eq!(dual(1, Penalty::L1, &hours, -0.0), bits([0.0]));
    assert_eq!(dual(1, Penalty::L1, &hours, 4000.0), bits([-4000.0]));
    assert_eq!(dual(1, Penalty::L1, &hours, 5000.0), bits([-4000.0]));
    assert_eq!(dual(1, Penalty::L1, &[8000.0, 0.0, 100.0], 1000.0), bits([-1000.0, -450.0]));
    assert_eq!(dual(2, Penalty::L1, &[0.0; 5], 1.0).len(), 3);
}

/// The gap, from the answer alone: the objective at the trend less the dual objective at the dual point.
#[test]
fn a_fit_can_be_rechecked() {
    let y: Vec<f64> = (0..40).map(|i| f64::from(i * i % 23) - f64::from(i % 7) * 3.5).collect();
    for (order, penalty, lam) in [(1, Penalty::L1, 2.0), (2, Penalty::L1, 3.0), (1, Penalty::L1, 1e4), (1, Penalty::L2, 5.0), (2, Penalty::L2, 9.0)] {
        let (f, s) = l1_trend_filter_with_search(&y, lam, opts(order, penalty)).unwrap();
        let down = |v: &[f64]| v.windows(2).map(|w| w[1] - w[0]).collect::<Vec<f64>>();
        let (mut dy, mut back) = (y.clone(), s.dual.clone());
        for _ in 0..order {
            dy = down(&dy);
            back = down(&[&[0.0], &back[..], &[0.0]].concat()).iter().map(|x| -x).collect();
        }
        let dot = |a: &[f64], b: &[f64]| a.iter().zip(b).map(|(x, y)| x * y).sum::<f64>();
        let mut lower = dot(&s.dual, &dy) - 0.5 * dot(&back, &back);
        match penalty {
            Penalty::L1 => assert!(s.dual.iter().all(|z| z.abs() <= lam)),
            Penalty::L2 => lower -= dot(&s.dual, &s.dual) / (2.0 * lam),
        }
        assert_eq!(f.objective - lower, f.duality_gap, "order {order}, {penalty:?}");
    }
}

#[test]
fn reasons_in_numbers_and_words() {
    let all = [Reason::ClosedPath, Reason::GapSmall, Reason::LimitSpent, Reason::Stalled, Reason::PivotLost];
    assert_eq!(all.map(|r| r as u8), [0, 1, 2, 3, 4]);
    assert_eq!(all.map(|r| r.to_string()), ["closed path", "gap small enough", "limit spent", "stalled", "pivot lost"]);
}

#[test]
fn what_a_fit_needs() {
    let limit = |penalty, max_iter| TrendFilterOptions { max_iter, ..opts(2, penalty) };
    assert_eq!(limit(Penalty::L1, 100).needs(168), Ok(Needs { work: 6720, marks: 336, steps: 100 }));
    assert_eq!(limit(Penalty::L2, 100).needs(168), Ok(Needs { work: 2688, marks: 0, steps: 0 }));
    assert_eq!(limit(Penalty::L1, usize::MAX).needs(65_536), Ok(Needs { work: 2_621_440, marks: 131_072, steps: 1_447_640 }));
    assert_eq!(limit(Penalty::L1, 1_447_639).needs(3).unwrap().steps, 1_447_639);
    // in this order: 1, 2, 3 and 7
    assert_eq!(TrendFilterOptions { order: 3, ..limit(Penalty::L1, 0) }.needs(0), Err(Refused(1)));
    assert_eq!(limit(Penalty::L1, 0).needs(2), Err(Refused(2)));
    assert_eq!(limit(Penalty::L2, 0).needs(usize::MAX), Err(Refused(3)));
    assert_eq!(limit(Penalty::L2, 0).needs(65_536), Err(Refused(7)));
    // a fit asks 4 before 7
    assert_eq!(l1_trend_filter(&[0.0, f64::NAN, 1.0], 1.0, limit(Penalty::L1, 0)), Err(MlError::NonFinite { what: "y" }));
    for (penalty, lam) in [(Penalty::L1, 1000.0), (Penalty::L1, 0.0), (Penalty::L2, 1600.0)] {
        let o = TrendFilterOptions { order: 1, ..limit(penalty, 7) };
        let f = l1_trend_filter(&[8000.0, 0.0, 100.0], lam, o).unwrap();
        assert!(f.n_iter <= o.needs(3).unwrap().steps);
    }
}

#[test]
fn where_a_trend_passes_eight_seconds() {
    let mut list = [7; 6];
    // 8,000 itself is at the level and not past it; beside a NaN there is no crossing.
    let trend = [7000.0, 8000.0, 8000.5, 8001.0, 8000.0, f64::NAN];
    assert_eq!(crossings(8000.0, &trend, &mut list), Ok(2));
    assert_eq!(list, [1, 3, 7, 7, 7, 7]);
    assert_eq!(crossings(-0.0, &[0.0, -0.0, 5e-324, f64::INFINITY, f64::NEG_INFINITY], &mut list), Ok(2));
    assert_eq!(list, [1, 3, 7, 7, 7, 7]);
    for none in [&[][..], &[9000.0], &[9000.0, f64::NAN, 7000.0]] {
        assert_eq!(crossings(8000.0, none, &mut list), Ok(0));
    }
    // 18 comes before 19, and a refusal leaves the list.
    for (level, places, number) in [(f64::INFINITY, 5, 18), (f64::NAN, 6, 18), (8000.0, 5, 19)] {
        assert_eq!(crossings(level, &trend, &mut list[..places]), Err(Refused(number)));
    }
    assert_eq!(crossings(8000.0, &[0.0; 65_537], &mut [0; 65_537]), Err(Refused(19)));
    assert_eq!(crossings(8000.0, &[0.0; 65_536], &mut [0; 65_536]), Ok(0));
    assert_eq!(list, [1, 3, 7, 7, 7, 7]);
    assert_eq!(Refused(18).to_string(), "refused 18: is the level finite?");
}

#[test]
fn the_nearest_knot() {
    let trend = [0.0; 10];
    assert_eq!(nearest_knot(4, &trend, &[9, 6, 1, 2]), Ok(Some(2)));
    assert_eq!(nearest_knot(4, &trend, &[6, 2]), Ok(Some(2)));
    assert_eq!(nearest_knot(9, &trend, &[u32::MAX, 0]), Ok(Some(0)));
    assert_eq!(nearest_knot(9, &trend, &[]), Ok(None));
    assert_eq!(nearest_knot(10, &trend, &[]), Err(Refused(19)));
    assert_eq!(nearest_knot(0, &[], &[0]), Err(Refused(19)));
    assert_eq!(nearest_knot(0, &[0.0; 65_537], &[0]), Err(Refused(19)));
}

#[test]
fn a_fit_is_asked_where_it_passes_and_bends() {
    let mut f = l1_trend_filter(&[0.0, 0.0, 9000.0, 9000.0, 0.0, 0.0], 10.0, opts(1, Penalty::L1)).unwrap();
    assert_eq!((f.crossings(8000.0), f.crossings(9000.0), &f.knots), (Ok(vec![1, 3]), Ok(vec![]), &vec![1, 3]));
    assert_eq!((f.nearest_knot(2), f.nearest_knot(3), f.nearest_knot(6)), (Ok(Some(1)), Ok(Some(3)), Err(Refused(19))));
    f.knots = vec![usize::MAX, u32::MAX as usize + 5];
    assert_eq!(f.nearest_knot(2), Ok(Some(u32::MAX as usize + 5)));
    f.knots.clear();
    assert_eq!(f.nearest_knot(2), Ok(None));
}
