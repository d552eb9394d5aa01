//! Times the port, the Rust original and flat loops with the same bits, side by side in one run, on a quiet core and on a busy one apart
//! (regime.rs). `bench` prints the table; `bench port K N LIMIT` and `bench flat K N LIMIT` run one search of order K and N places 20 times
//! over, LIMIT iterations each: the table's last lines count their instructions, where valgrind is at hand.
//! The port's and the flat loops' buffers are taken once and not cleared between fits; the Rust takes its own memory in each fit.
mod flat;
mod regime;

use flat::Ws;
use oracle::cases::lam_max_of;
use oracle::port::{trend_filter_fit, Lengths};
use oracle::random::Random;
use oracle::trend_filter::{l1_trend_filter, Penalty, TrendFilterOptions};
use regime::{median, Times, Watch};
use std::hint::black_box;
use std::time::Instant;

struct Buffers {
    trend: Vec<f64>,
    cycle: Vec<f64>,
    knots: Vec<u32>,
    dual: Vec<f64>,
    work: Vec<f64>,
    marks: Vec<u32>,
    numbers: [f64; 5],
    counts: [u64; 5],
}

impl Buffers {
    /// What a fit of n places with this penalty needs, and no place more.
    fn new(n: usize, penalty: u32) -> Buffers {
        let series = || vec![0.0; n];
        let Lengths { work, marks, .. } = Lengths::exact(n, penalty);
        Buffers { trend: series(), cycle: series(), knots: vec![0; n], dual: series(), work: vec![0.0; work], marks: vec![0; marks], numbers: [0.0; 5], counts: [0; 5] }
    }

    fn fit(&mut self, y: &[f64], lam: f64, tol: f64, max_iter: u64, order: u32, penalty: u32) -> u64 {
        let n = y.len();
        // SAFETY: each pointer is to as many places as the length beside it, and none overlap.
        let refused = unsafe {
            trend_filter_fit(
                y.as_ptr(), n, lam, tol, max_iter, order, penalty,
                self.trend.as_mut_ptr(), n, self.cycle.as_mut_ptr(), n, self.knots.as_mut_ptr(), n, self.dual.as_mut_ptr(), n,
                self.work.as_mut_ptr(), self.work.len(), self.marks.as_mut_ptr(), self.marks.len(),
                &mut self.numbers, &mut self.counts,
            )
        };
        assert_eq!(refused, 0);
        self.counts[1]
    }
}

fn rust_fit(y: &[f64], lam: f64, tol: f64, max_iter: u64, order: u32, penalty: u32) -> u64 {
    let penalty = if penalty == 1 { Penalty::L1 } else { Penalty::L2 };
    let o = TrendFilterOptions { order: order as usize, penalty, tol, max_iter: max_iter as usize };
    black_box(l1_trend_filter(y, lam, o)).unwrap().n_iter as u64
}

fn flat_search(y: &[f64], lam: f64, tol: f64, max_iter: u64, order: u32, ws: &mut Ws) -> u64 {
    let (n, e) = if order == 1 { flat::ipm::<1>(y, lam, tol, max_iter as usize, ws) } else { flat::ipm::<2>(y, lam, tol, max_iter as usize, ws) };
    black_box(e.best_gap);
    n as u64
}

/// A week's overruns: a drift, a step, an evening hump and noise, in milliseconds.
fn week(seed: u64, n: usize) -> Vec<f64> {
    let mut r = Random::new(seed);
    let step = n / 3 + r.below(n / 3 + 1);
    (0..n)
        .map(|i| (i as f64 * 12.0 + if i >= step { 2500.0 } else { 0.0 } + (i as f64 / 24.0 * 6.283).sin() * 900.0 + r.normal() * 350.0).round())
        .collect()
}

/// What one case of the table showed: port and flat loops an iteration, each on a quiet core and a busy one.
struct Iteration {
    /// port / flat, quiet and busy
    of_flat: [f64; 2],
    /// seconds of a place of the port, quiet
    place: f64,
}

const REGIMES: [&str; 2] = ["quiet", "busy"];

/// Time of one iteration: a longer search less a shorter one. The tolerance is one that no gap reaches. A segment is one search.
fn iteration(w: &Watch, order: u32, n: usize, share: f64, seconds: f64) -> Iteration {
    let y = week(7, n);
    let lam = lam_max_of(&y, order) * share;
    let (tol, limits) = (1e-300, [5, 25]);
    let mut b = Buffers::new(n, 1);
    let mut ws = Ws::new(n);
    let mut times = vec![Times::default(); 6];
    let start = Instant::now();
    while start.elapsed().as_secs_f64() < seconds {
        for (j, limit) in limits.into_iter().enumerate() {
            for _ in 0..5 {
                w.time(&mut times[j], || b.fit(&y, lam, tol, limit, order, 1));
                w.time(&mut times[2 + j], || flat_search(&y, lam, tol, limit, order, &mut ws));
            }
            w.time(&mut times[4 + j], || rust_fit(&y, lam, tol, limit, order, 1));
        }
    }
    let one = |j: usize, regime: usize| (times[j + 1].figures()[regime] - times[j].figures()[regime]) / (limits[1] - limits[0]) as f64;
    let fewest = |regime: usize| times.iter().map(|t| t.counts()[regime]).min().unwrap_or(0);
    for (r, name) in REGIMES.into_iter().enumerate().filter(|&(r, _)| fewest(r) >= 5) {
        let (p, f, u) = (one(0, r), one(2, r), one(4, r));
        println!(
            "iteration, order {order}, n {n:5}, lam_max*{share:4}  {name:5}  port {:8.2} us  flat {:8.2} us  Rust {:9.2} us  port/flat {:5.2}  Rust/port {:5.2}  (at least {} segments)",
            p * 1e6, f * 1e6, u * 1e6, p / f, u / p, fewest(r)
        );
    }
    Iteration { of_flat: [one(0, 0) / one(2, 0), one(0, 1) / one(2, 1)], place: one(0, 0) / n as f64 }
}

/// Whole fits of several series, one segment each; the middle of the series' own ratios, Rust / port, quiet and busy.
fn fits(w: &Watch, name: &str, ys: &[Vec<f64>], lams: &[f64], order: u32, penalty: u32, rounds: usize) -> [f64; 2] {
    let mut b = Buffers::new(ys[0].len(), penalty);
    let mut times = vec![[Times::default(), Times::default()]; ys.len()];
    let mut steps = 0;
    for _ in 0..rounds {
        for ((y, &lam), [port, rust]) in ys.iter().zip(lams).zip(&mut times) {
            steps += w.time(port, || b.fit(y, lam, 1e-8, 10_000, order, penalty));
            w.time(rust, || rust_fit(y, lam, 1e-8, 10_000, order, penalty));
        }
    }
    let of = |regime: usize, f: fn(f64, f64) -> f64| -> Vec<f64> {
        times.iter().map(|[p, r]| f(p.figures()[regime], r.figures()[regime])).filter(|x| !x.is_nan()).collect()
    };
    let ratios = [of(0, |p, r| r / p), of(1, |p, r| r / p)];
    let port = of(0, |p, _| p);
    println!(
        "{name:34} quiet: port {:9.2} us  Rust/port {:5.2}  busy: Rust/port {:5.2} ({} of {} series)  steps a fit {:6.1}",
        port.iter().sum::<f64>() / port.len() as f64 * 1e6, median(&ratios[0]), median(&ratios[1]), ratios[1].len(), ys.len(), steps as f64 / (ys.len() * rounds) as f64
    );
    ratios.map(|r| median(&r))
}

/// What callgrind counts of this program's own `WHO K 168 LIMIT`, and the iterations that it made.
fn counted(who: &str, order: u32, limit: u64) -> Option<[f64; 2]> {
    let me = std::env::current_exe().ok()?;
    let (k, limit) = (order.to_string(), limit.to_string());
    let words = ["--tool=callgrind", "--callgrind-out-file=/dev/null", me.to_str()?, who, &k, "168", &limit];
    let run = std::process::Command::new("valgrind").args(words).output().ok()?;
    let number = |text: &str, mark: &str| -> Option<f64> {
        let line = text.lines().find(|l| l.contains(mark))?;
        line.split_whitespace().filter_map(|w| w.parse().ok()).last()
    };
    Some([number(&String::from_utf8_lossy(&run.stderr), "Collected")?, number(&String::from_utf8_lossy(&run.stdout), "iterations")?])
}

/// Instructions of one iteration and place: longer searches less shorter ones.
fn instructions(who: &str, order: u32) -> Option<f64> {
    let ([few, short], [many, long]) = (counted(who, order, 5)?, counted(who, order, 25)?);
    Some((many - few) / (long - short) / 168.0)
}

fn iterations(w: &Watch) {
    let mut worst = [f64::NAN; 2];
    for order in 1..3 {
        let mut near = 0.0;
        for share in [0.5, 0.05, 0.01] {
            let i = iteration(w, order, 168, share, 8.0);
            worst = [worst[0].max(i.of_flat[0]), worst[1].max(i.of_flat[1])];
            if share == 0.05 {
                near = i.place;
            }
        }
        iteration(w, order, 1024, 0.05, 6.0);
        iteration(w, order, 8192, 0.05, 8.0);
        let far = iteration(w, order, 65_536, 0.05, 20.0);
        println!("a place and iteration at 65,536 against 168, order {order}, quiet: {:.2}", far.place / near);
    }
    println!("n 168, worst of the six cases, port/flat: quiet {:.2}, busy {:.2}", worst[0], worst[1]);
}

fn whole_fits(w: &Watch) {
    let mut week_fits = [Vec::new(), Vec::new()];
    for order in 1..3 {
        let ys: Vec<Vec<f64>> = (0..100).map(|s| week(s, 168)).collect();
        for share in [0.5, 0.1, 0.01] {
            let lams: Vec<f64> = ys.iter().map(|y| lam_max_of(y, order) * share).collect();
            let r = fits(w, &format!("L1, order {order}, n 168, lam_max*{share}"), &ys, &lams, order, 1, 15);
            (0..2).for_each(|i| week_fits[i].push(r[i]));
        }
        fits(w, &format!("L2, order {order}, n 168, lam 1600"), &ys, &vec![1600.0; 100], order, 2, 40);
    }
    println!("L1 week fits, the middle of the six cases, Rust/port: quiet {:.2}, busy {:.2}", median(&week_fits[0]), median(&week_fits[1]));
    let ys: Vec<Vec<f64>> = (0..400).map(|s| week(1000 + s, 168)).collect();
    let lams: Vec<f64> = ys.iter().map(|y| lam_max_of(y, 2) * 0.05).collect();
    fits(w, "400 strands, L1, order 2, n 168", &ys, &lams, 2, 1, 5);
    for n in [1024, 8192, 65_536] {
        let ys = vec![week(5, n)];
        let lams = vec![lam_max_of(&ys[0], 2) * 0.01];
        fits(w, &format!("L1, order 2, n {n}"), &ys, &lams, 2, 1, 9);
        fits(w, &format!("L2, order 2, n {n}"), &ys, &[1600.0], 2, 2, 21);
    }
}

fn main() {
    let word: Vec<String> = std::env::args().skip(1).collect();
    if let [who, k, n, limit] = &word[..] {
        let (k, n, limit): (u32, usize, u64) = (k.parse().unwrap(), n.parse().unwrap(), limit.parse().unwrap());
        let y = week(7, n);
        let lam = lam_max_of(&y, k) * 0.05;
        let mut b = Buffers::new(n, 1);
        let mut ws = Ws::new(n);
        let steps: u64 = (0..20).map(|_| if who == "port" { b.fit(&y, lam, 1e-300, limit, k, 1) } else { flat_search(&y, lam, 1e-300, limit, k, &mut ws) }).sum();
        println!("{who} {k} {n}: {steps} iterations");
        return;
    }
    println!("buffers are not cleared between fits; many segments, interleaved, those of a quiet core and of a busy one apart (src/regime.rs)");
    let w = Watch::new();
    iterations(&w);
    whole_fits(&w);
    for order in 1..3 {
        match (instructions("port", order), instructions("flat", order)) {
            (Some(p), Some(f)) => println!("instructions a place and iteration, order {order}, n 168: port {p:.0}, flat {f:.0}"),
            _ => println!("instructions a place and iteration, order {order}: no valgrind"),
        }
    }
}
