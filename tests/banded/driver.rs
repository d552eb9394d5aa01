//! Compares the proved `factor_solve` with the Rust's own `Banded::factor` and `BandedLdl::solve`, bit by bit (a NaN
//! matches any NaN): the answer, the factor's rows, the solution, and that no place after the system was written.
//! `run` beside this file builds and runs it. The repository holds no copy of the Rust module: `run` takes its path.
use std::env;
use std::process::exit;

mod error {
    /// The cases of the crate's error type that the module makes.
    #[derive(Debug)]
    #[allow(dead_code)]
    pub enum MlError {
        InvalidArgument { what: &'static str },
        InsufficientData { needed: usize, got: usize, what: &'static str },
        NonFinite { what: &'static str },
        DecompositionFailed { what: &'static str },
    }
}

#[allow(dead_code)]
mod reference {
    include!(env!("TREND_FILTER_RS"));

    pub struct Done {
        pub rows: Vec<f64>,
        pub solution: Vec<f64>,
    }

    /// The factor's rows of k + 1 numbers, and the solution; nothing if a pivot was bad.
    pub fn factor_solve(k: usize, m: usize, rows: &[f64], b: &[f64]) -> Option<Done> {
        let low = rows.chunks(k + 1).map(|r| r.to_vec()).collect();
        let f = Banded { n: m, bw: k, low }.factor()?;
        let mut out = Vec::new();
        for i in 0..m {
            out.extend_from_slice(&f.l[i][..k]);
            out.push(f.d[i]);
        }
        Some(Done { rows: out, solution: f.solve(b) })
    }
}

extern "C" {
    fn substitution_factor_solve(s: *mut f64, len: usize, k: usize, m: usize) -> u32;
}

fn call(s: &mut [f64], k: usize, m: usize) -> u32 {
    unsafe { substitution_factor_solve(s.as_mut_ptr(), s.len(), k, m) }
}

struct Random(u64);

impl Random {
    fn bits(&mut self) -> u64 {
        self.0 = self.0.wrapping_add(0x9e37_79b9_7f4a_7c15);
        let mut z = self.0;
        z = (z ^ (z >> 30)).wrapping_mul(0xbf58_476d_1ce4_e5b9);
        z = (z ^ (z >> 27)).wrapping_mul(0x94d0_49bb_1331_11eb);
        z ^ (z >> 31)
    }

    fn below(&mut self, n: usize) -> usize {
        (self.bits() % n as u64) as usize
    }

    /// From -1 to 1.
    fn unit(&mut self) -> f64 {
        (self.bits() >> 11) as f64 / (1u64 << 52) as f64 - 1.0
    }

    fn special(&mut self) -> f64 {
        const S: [f64; 12] = [0.0, -0.0, 1.0, -1.0, 2.0, 0.5, f64::INFINITY, f64::NEG_INFINITY, f64::NAN, f64::MAX, f64::MIN_POSITIVE, 5e-324];
        S[self.below(12)]
    }
}

const GRAM: [[f64; 3]; 3] = [[0.0; 3], [2.0, -1.0, 0.0], [6.0, -4.0, 1.0]];

/// The rows of a system and its right side, of one of seven kinds.
fn system(r: &mut Random, k: usize, m: usize, kind: usize) -> Vec<f64> {
    let scale = 2f64.powi(r.below(2040) as i32 - 1020);
    let mut s = Vec::new();
    for i in 0..m {
        for c in 0..=k {
            let g = if i + c < k { 0.0 } else { GRAM[k][k - c] };
            s.push(match kind {
                0 => g,
                1 => if c == k { g + r.unit().abs() * 10f64.powi(r.below(30) as i32 - 12) } else { g },
                2 => if c == k { 2.0 * (k as f64) + r.unit() } else { r.unit() },
                3 => (if c == k { 3.0 + r.unit() } else { r.unit() }) * scale,
                4 => f64::from_bits(r.bits()),
                5 => if r.below(6) == 0 { r.special() } else { g + r.unit() / 8.0 },
                _ => if c == k { 1.0 + r.unit().abs() } else { 2.0 * r.unit() },
            });
        }
    }
    for _ in 0..m {
        s.push(match kind {
            4 => f64::from_bits(r.bits()),
            5 => if r.below(4) == 0 { r.special() } else { r.unit() },
            _ => r.unit() * 10f64.powi(r.below(12) as i32 - 4),
        });
    }
    s
}

fn same(a: f64, b: f64) -> bool {
    a.to_bits() == b.to_bits() || (a.is_nan() && b.is_nan())
}

fn fail(what: &str, k: usize, m: usize, s: &[f64]) -> ! {
    println!("differs: {what}; order {k}, {m} rows, run {:x?}", s.iter().map(|x| x.to_bits()).collect::<Vec<_>>());
    exit(1);
}

fn compare(r: &mut Random, k: usize, m: usize, kind: usize) -> bool {
    let s = system(r, k, m, kind);
    let n = m * (k + 1);
    let after: Vec<f64> = (0..3).map(|_| f64::from_bits(r.bits())).collect();
    let mut run = s.clone();
    run.extend_from_slice(&after);
    let answer = call(&mut run, k, m);
    if !run[n + m..].iter().zip(&after).all(|(a, b)| a.to_bits() == b.to_bits()) {
        fail("a place after the system", k, m, &s);
    }
    match reference::factor_solve(k, m, &s[..n], &s[n..]) {
        None => {
            if answer != 1 {
                fail("refused by the Rust alone", k, m, &s);
            }
            false
        }
        Some(d) => {
            if answer != 0 {
                fail("refused by the port alone", k, m, &s);
            }
            if !run[..n].iter().zip(&d.rows).all(|(a, b)| same(*a, *b)) {
                fail("the rows", k, m, &s);
            }
            if !run[n..n + m].iter().zip(&d.solution).all(|(a, b)| same(*a, *b)) {
                fail("the solution", k, m, &s);
            }
            true
        }
    }
}

/// What the port alone refuses leaves the run as it was.
fn out_of_range() {
    for (k, m, len) in [(0, 4, 100), (3, 4, 100), (usize::MAX, 1, 100), (1, 0, 100), (2, 0, 0), (1, 65537, 300000), (2, usize::MAX, 100), (1, 10, 29), (2, 10, 39)] {
        let s: Vec<f64> = (0..len).map(|i| i as f64).collect();
        let mut run = s.clone();
        if call(&mut run, k, m) != 2 || run != s {
            fail("out of range", k, m, &s);
        }
    }
}

fn main() {
    let args: Vec<u64> = env::args().skip(1).map(|a| a.parse().unwrap()).collect();
    let mut r = Random(*args.first().unwrap_or(&1));
    let systems = *args.get(1).unwrap_or(&20000);
    if systems == 0 {
        println!("no system to compare");
        exit(2);
    }
    out_of_range();
    let mut solved = 0;
    for i in 0..systems {
        let k = 1 + r.below(2);
        let m = match i % 100 {
            0 => 1 + r.below(2000),
            99 => if i < 1000 { 65536 - r.below(3) } else { 168 },
            _ => 1 + r.below(24),
        };
        let kind = r.below(7);
        if compare(&mut r, k, m, kind) {
            solved += 1;
        }
    }
    println!("{systems} cases, 0 differences ({solved} solved, {} refused)", systems - solved);
}
