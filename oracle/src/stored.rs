//! Calls of the fit that are stored as NAME.case, and the Rust's answers to them as NAME.exp.
//!
//! A .case, little-endian: "TFC2", order and penalty (1 byte each), two bytes 0, n, the lengths lent of trend, cycle, knots, work, marks and
//! dual (4 bytes each), four bytes 0, lam, tol (the bits of a double each), max_iter (8 bytes), the n places of y. One from before dual was
//! lent is "TFC1": without the length of dual and the four bytes after it. It is lent n places of dual.
//! An .exp is text: `refused N`; or `fit n order penalty n_iter improvements converged reason knots` (reason: 0 closed path, 1 gap small
//! enough, 2 limit spent, 3 stalled, 4 pivot lost), `num lam_max gap first_gap best_gap objective`, `hash trend cycle knots dual`, and for n
//! up to 256 `h i trend cycle` for each place, `knot i` for each knot and `dual i dual` for each of the n - order places of dual. That of a
//! TFC1 has neither dual's hash nor its places. A double is its 16 hexadecimal digits, any NaN 7ff8000000000000. A hash is FNV-1a of 64 bits
//! over the little-endian bytes of the bits, of a knot as 4 bytes.
use crate::cases::Case;
use crate::compare::{answer, bits};
use crate::port::Lengths;
use std::fmt::Write;
use std::path::Path;

fn hash(bytes: impl Iterator<Item = u8>) -> u64 {
    bytes.fold(0xcbf2_9ce4_8422_2325, |h, b| (h ^ b as u64).wrapping_mul(0x100_0000_01b3))
}

/// A stored call, and whether it is from when dual was lent.
fn read(d: &[u8]) -> Option<(Case, Lengths, bool)> {
    let u32_at = |i: usize| Some(u32::from_le_bytes(d.get(i..i + 4)?.try_into().ok()?));
    let u64_at = |i: usize| Some(u64::from_le_bytes(d.get(i..i + 8)?.try_into().ok()?));
    let with_dual = match d.get(..4)? {
        b"TFC1" => false,
        b"TFC2" => true,
        _ => return None,
    };
    let n = u32_at(8)? as usize;
    let at = if with_dual { 40 } else { 32 };
    if d.len() != at + 24 + 8 * n {
        return None;
    }
    let l = [12, 16, 20, 24, 28].map(|i| u32_at(i).unwrap() as usize);
    let dual = if with_dual { u32_at(32)? as usize } else { n };
    let y = (0..n).map(|i| f64::from_bits(u64_at(at + 24 + 8 * i).unwrap())).collect();
    let c = Case { y, lam: f64::from_bits(u64_at(at)?), tol: f64::from_bits(u64_at(at + 8)?), max_iter: u64_at(at + 16)?, order: d[4] as u32, penalty: d[5] as u32 };
    Some((c, Lengths { trend: l[0], cycle: l[1], knots: l[2], dual, work: l[3], marks: l[4] }, with_dual))
}

fn text(c: &Case, l: &Lengths, with_dual: bool) -> String {
    let (f, s) = match answer(c, l) {
        Err(q) => return format!("refused {q}\n"),
        Ok(found) => found,
    };
    let n = c.y.len();
    let mut out = String::new();
    writeln!(out, "fit {n} {} {} {} {} {} {} {}", c.order, c.penalty, f.n_iter, s.improvements, f.converged as u32, s.reason, f.knots.len()).unwrap();
    let [a, b, p, q, r] = [f.lam_max, f.duality_gap, s.first, s.best, f.objective].map(bits);
    writeln!(out, "num {a:016x} {b:016x} {p:016x} {q:016x} {r:016x}").unwrap();
    let doubles = |v: &[f64]| hash(v.iter().flat_map(|&x| bits(x).to_le_bytes()));
    let knots = hash(f.knots.iter().flat_map(|&k| (k as u32).to_le_bytes()));
    write!(out, "hash {:016x} {:016x} {knots:016x}", doubles(&f.trend), doubles(&f.cycle)).unwrap();
    let dual: &[f64] = if with_dual { &s.dual } else { &[] };
    if with_dual {
        write!(out, " {:016x}", doubles(dual)).unwrap();
    }
    out.push('\n');
    if n <= 256 {
        for i in 0..n {
            writeln!(out, "h {i} {:016x} {:016x}", bits(f.trend[i]), bits(f.cycle[i])).unwrap();
        }
        for k in &f.knots {
            writeln!(out, "knot {k}").unwrap();
        }
        for (i, &x) in dual.iter().enumerate() {
            writeln!(out, "dual {i} {:016x}", bits(x)).unwrap();
        }
    }
    out
}

/// The Rust's answers to the cases of a folder: written beside them, or only compared with what stands there. The number of cases,
/// and the names of those whose answer is another.
pub fn answers(folder: &Path, write: bool) -> (usize, Vec<String>) {
    let mut cases: Vec<_> = std::fs::read_dir(folder).expect("no such folder").map(|e| e.unwrap().path()).filter(|p| p.extension().is_some_and(|e| e == "case")).collect();
    cases.sort();
    let mut other = Vec::new();
    for path in &cases {
        let name = path.display().to_string();
        let (c, l, with_dual) = read(&std::fs::read(path).unwrap()).unwrap_or_else(|| panic!("{name} is no stored case"));
        let right = text(&c, &l, with_dual);
        let exp = path.with_extension("exp");
        if write {
            std::fs::write(&exp, right).unwrap();
        } else if std::fs::read_to_string(&exp).ok() != Some(right) {
            other.push(name);
        }
    }
    (cases.len(), other)
}
