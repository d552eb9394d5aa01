//! oracle SEED FITS LARGE: compares FITS cases of up to 168 places, every short one, and LARGE cases of up to 65,536 places.
//! oracle replay SEED EACH PATH: writes the list of answers that the program `replay` reads, EACH cases a group.
//! oracle answers FOLDER: writes the Rust's answer NAME.exp beside each NAME.case; oracle check FOLDER compares them.
//! oracle errors SEED ROUNDS: compares the Rust crate's answers and errors, for calls that break any set of questions.
//! The first prints how the cases ended and 'N cases, 0 differences', or the first case that differs, and exits 1.
use oracle::cases::{damaged, good, kinds, odd, short_ones, Case};
use oracle::compare::{answer, compare, Tally};
use oracle::port::{needed, nothing_lent, Lengths, Port};
use oracle::random::Random;
use oracle::stored::answers;
use std::process::exit;

const USAGE: &str = "oracle SEED FITS LARGE (FITS at least 1) | oracle replay SEED EACH PATH | oracle answers FOLDER | oracle check FOLDER | oracle errors SEED ROUNDS";

fn usage() -> ! {
    eprintln!("{USAGE}");
    exit(2)
}

fn number(word: &str) -> u64 {
    word.parse().unwrap_or_else(|_| usage())
}

/// Compares the cases, each with lengths lent of its own; how many there were.
fn run(port: &mut Port, name: &str, r: &mut Random, mut next: impl FnMut(&mut Random) -> Option<Case>) -> u64 {
    let mut t = Tally::default();
    let mut count = 0u64;
    while let Some(c) = next(r) {
        count += 1;
        let n = c.y.len();
        let l = if count % 2 == 0 { Lengths::exact(n, c.penalty) } else { Lengths::any(r, n, c.penalty) };
        if let Err(e) = compare(port, &c, &l, &mut t) {
            println!("{name}: case {count} differs: {e}\n{c:?}\n{l:?}");
            exit(1);
        }
    }
    println!("{name}: {count} cases, {t:?}");
    count
}

/// What only the port refuses, each buffer one short, and where its sizes end.
fn only_here(port: &mut Port) -> u64 {
    let asked = |y: Vec<f64>| Case { y, lam: 1.0, tol: 1e-8, max_iter: 10, order: 2, penalty: 1 };
    let mut count = 0;
    let mut check = |c: &Case, l: Lengths, want: u32| {
        let got = port.fit(c, &l).expect("a place outside what it may write").refused;
        let right = answer(c, &l).err().unwrap_or(0);
        assert_eq!((got, right), (want, want), "{c:?} {l:?}");
        count += 1;
    };
    check(&asked(vec![0.0; 65_537]), Lengths::exact(65_537, 1), 3);
    check(&asked(vec![f64::NAN; 65_537]), Lengths::exact(65_537, 1), 3);
    check(&asked(vec![0.0; 65_536]), Lengths::exact(65_536, 1), 0);
    check(&Case { penalty: 2, ..asked(vec![0.0; 65_536]) }, Lengths::exact(65_536, 2), 0);
    for penalty in [1, 2] {
        let c = Case { penalty, ..asked(vec![1.0, 2.0, 4.0, 8.0]) };
        for i in 0..Lengths::BUFFERS {
            let mut l = Lengths::exact(4, penalty);
            // L2 needs no marks, so that none can be too few
            if *l.buffer(i) > 0 {
                *l.buffer(i) -= 1;
                check(&c, l, if i < Lengths::ANSWERS { 8 } else { 9 });
            }
        }
        // What L2 needs is not enough for L1.
        check(&c, Lengths::exact(4, 2), if penalty == 2 { 0 } else { 9 });
    }
    // A bad pivot is found after a short buffer.
    let c = Case { lam: 1e308, penalty: 2, ..asked(vec![0.0; 3]) };
    let mut short = Lengths::exact(3, 2);
    short.work -= 1;
    check(&c, short, 9);
    check(&c, Lengths::exact(3, 2), 10);
    for (order, penalty, want) in [(0, 1, 1), (1, 0, 1), (1, 3, 1), (1, 1, 2), (2, 2, 2)] {
        assert_eq!(nothing_lent(order, penalty), want);
        count += 1;
    }
    println!("only here: {count} cases");
    count
}

/// What a fit needs, by itself: every n and limit around an edge, and random ones, of all 64 bits.
fn asked_first(port: &mut Port, r: &mut Random) -> u64 {
    let edges: Vec<u64> = [0, 1 << 16, 1 << 32, 1 << 63, u64::MAX / 40, u64::MAX / 16, 1_447_640, 5 << 16].iter().flat_map(|&e: &u64| (0..9).map(move |i| e.wrapping_add(i).wrapping_sub(4))).collect();
    let mut all = Vec::new();
    for &n in &edges {
        all.extend(edges.iter().map(|&max_iter| (n, max_iter)));
    }
    for _ in 0..2_000 {
        let (a, b) = (r.below(64), r.below(64));
        all.push((r.bits() >> a, r.bits() >> b));
    }
    let kinds = [0, 1, 2, 3, 255, 256, 257, 258, u32::MAX];
    let mut count = 0;
    for (n, max_iter) in all {
        for (order, penalty) in kinds.iter().flat_map(|&o| kinds.iter().map(move |&p| (o, p))) {
            let told = port.needs(n, max_iter, order, penalty).expect("a place outside what it may write");
            assert_eq!(told, needed(n, max_iter, order, penalty), "needs of {n} {max_iter} {order} {penalty}");
            count += 1;
        }
    }
    println!("asked first: {count} cases");
    count
}

/// Compares what a Rust program is told; prints how often that was what.
fn errors(seed: u64, rounds: u64) -> Result<u64, String> {
    let mut r = Random::new(seed);
    let (calls, seen) = oracle::errors::calls(&mut r, rounds)?;
    seen.iter().for_each(|(kind, times)| println!("{times} {kind}"));
    Ok(calls + oracle::errors::texts(&mut r, 64 * rounds)?)
}

/// The cases by random, adversarial and exhaustive inputs; how many there were.
fn cases(seed: u64, fits: u64, large: u64) -> u64 {
    let mut port = Port::default();
    let mut count = only_here(&mut port);
    count += asked_first(&mut port, &mut Random::new(seed));
    let mut all = kinds().into_iter();
    count += run(&mut port, "orders and penalties", &mut Random::new(seed), |_| all.next());
    let mut all = short_ones().into_iter();
    count += run(&mut port, "short", &mut Random::new(seed), |_| all.next());
    let mut i = 0;
    count += run(&mut port, "random", &mut Random::new(seed), |r| {
        i += 1;
        (i <= fits).then(|| match i % 16 {
            0 | 8 => damaged(r, 168),
            4 => odd(r, 168),
            _ => good(r, 168),
        })
    });
    let mut i = 0;
    count + run(&mut port, "large", &mut Random::new(seed ^ 0xff), |r| {
        i += 1;
        (i <= large).then(|| {
            let most = r.pick(&[1000, 8192, 65_536]);
            let mut c = good(r, most);
            c.max_iter = c.max_iter.min(60);
            c
        })
    })
}

/// The last line, and the status.
fn counted(cases: u64, differences: u64) -> ! {
    println!("{cases} cases, {differences} differences");
    exit((cases == 0 || differences > 0) as i32)
}

fn main() {
    let args: Vec<String> = std::env::args().skip(1).collect();
    let words: Vec<&str> = args.iter().map(|s| s.as_str()).collect();
    match words[..] {
        ["replay", seed, each, path] => {
            let words = oracle::replay::list(number(seed), number(each) as usize);
            std::fs::write(path, words.iter().flat_map(|w| w.to_le_bytes()).collect::<Vec<u8>>()).unwrap();
            println!("{} cases, {} bytes", words[0], 8 * words.len());
        }
        [how @ ("answers" | "check"), folder] => {
            let (cases, other) = answers(folder.as_ref(), how == "answers");
            other.iter().for_each(|name| println!("{name}: another answer by the Rust"));
            counted(cases as u64, other.len() as u64)
        }
        ["errors", seed, rounds] => match errors(number(seed), number(rounds)) {
            Ok(cases) => counted(cases, 0),
            Err(first) => {
                println!("{first}");
                counted(1, 1)
            }
        },
        [seed, fits, large] if number(fits) > 0 => counted(cases(number(seed), number(fits), number(large)), 0),
        _ => usage(),
    }
}
