// Finds the two sides of the comparison:
// - TREND_FILTER_RS: the path of the unchanged module trend_filter.rs. It is compiled where it stands, and once more as a copy
//   with counters in its search (first gap, best gap, improvements and the reason it stopped) and with the dual point of the
//   certificate that is kept, which the module doesn't return. Its error type is the source's own, if that file stands beside it, its
//   name the module's with error for trend_filter (error.rs beside trend_filter.rs); else the part of it in src/error.rs.
// - the proved static library, which the crate bindings/rust links: see its build.rs. That crate's tests/as_the_source.rs, a program that
//   was written for the source, is compiled for either side, with only its `use` line changed.
use std::path::{Path, PathBuf};
use std::{env, fs};

fn replace_once(text: &str, old: &str, new: &str) -> String {
    assert_eq!(text.matches(old).count(), 1, "the module has changed: {old:?}");
    text.replace(old, new)
}

fn counted(text: &str) -> String {
    let body: String = text.lines().filter(|l| !l.starts_with("//!")).map(|l| format!("{l}\n")).collect();
    let t = replace_once(
        &body,
        ") -> (Vec<f64>, Vec<f64>, Vec<f64>, usize) {",
        ") -> (Vec<f64>, Vec<f64>, Vec<f64>, usize) {\n    let mut seen = Seen::default();",
    );
    let t = replace_once(&t, "let mut best_gap = gap;", "let mut best_gap = gap;\n    seen.first = gap;\n    seen.best = gap;");
    let t = replace_once(&t, "best_gap = gap;\n            stalled = 0;", "best_gap = gap;\n            seen.best = gap;\n            seen.improvements += 1;\n            stalled = 0;");
    let t = replace_once(
        &t,
        "stalled >= STALL_ITERS {\n            break;",
        "stalled >= STALL_ITERS {\n            seen.reason = if gap <= tol * pobj { 1 } else if n_iter >= max_iter { 2 } else { 3 };\n            break;",
    );
    let t = replace_once(&t, "None => break,", "None => {\n                seen.reason = 4;\n                break;\n            }");
    let t = replace_once(&t, "    (z, mu1, mu2, n_iter)\n}", "    SEEN.with(|s| s.replace(seen));\n    (z, mu1, mu2, n_iter)\n}");
    let t = with_dual(&t);
    format!(
        "{t}\n#[derive(Clone, Default, Debug)]\npub struct Seen {{ pub first: f64, pub best: f64, pub improvements: u64, pub reason: u32, pub dual: Vec<f64> }}\n\
         thread_local! {{ static SEEN: std::cell::RefCell<Seen> = std::cell::RefCell::default(); }}\n\
         fn keep_dual(dual: Vec<f64>) {{ SEEN.with(|s| s.borrow_mut().dual = dual); }}\n\
         /// What the last call on this thread noted; taken before each call.\n\
         pub fn take_seen() -> Seen {{ SEEN.with(|s| s.take()) }}\n"
    )
}

/// The certificate also returns its clamped z, and each path keeps its dual point (document 02, A3): lam * D trend for L2, +0 for L1
/// with lam 0 or -0, else the clamped z of the certificate that is kept.
fn with_dual(text: &str) -> String {
    let changes = [
        (") -> (Vec<f64>, Vec<f64>, f64, f64) {", ") -> (Vec<f64>, Vec<f64>, f64, f64, Vec<f64>) {"),
        ("    (x, dx, pobj, dobj)\n}", "    (x, dx, pobj, dobj, zc)\n}"),
        ("let (_, _, mut pobj, mut dobj) =", "let (_, _, mut pobj, mut dobj, _) ="),
        ("Ok(finish(trend, dx, gap, objective, 0, true))", "keep_dual(dx.iter().map(|d| lam * d).collect());\n            Ok(finish(trend, dx, gap, objective, 0, true))"),
        ("return Ok(finish(trend, dx, 0.0, 0.0, 0, true));", "keep_dual(vec![0.0; m]);\n                return Ok(finish(trend, dx, 0.0, 0.0, 0, true));"),
        ("let (x, dx, pobj, dobj) = certify_l1", "let (x, dx, pobj, dobj, dual) = certify_l1"),
        ("return Ok(finish(x, dx, pobj - dobj, pobj, 0, true));", "keep_dual(dual);\n                return Ok(finish(x, dx, pobj - dobj, pobj, 0, true));"),
        ("let (mut x, mut dx, mut pobj, mut dobj) =", "let (mut x, mut dx, mut pobj, mut dobj, mut dual) ="),
        ("let (xp, dxp, pp, dp) =", "let (xp, dxp, pp, dp, dualp) ="),
        ("gap = gp;", "gap = gp;\n                    dual = dualp;"),
        ("Ok(finish(x, dx, gap, pobj, n_iter, converged))", "keep_dual(dual);\n            Ok(finish(x, dx, gap, pobj, n_iter, converged))"),
    ];
    changes.iter().fold(text.to_string(), |t, (old, new)| replace_once(&t, old, new))
}

/// Where the source's error type stands, if it does.
fn error_beside(source: &Path) -> Option<PathBuf> {
    let path = source.with_file_name(source.file_name()?.to_str()?.replacen("trend_filter", "error", 1));
    println!("cargo:rerun-if-changed={}", path.display());
    (path != source && path.is_file()).then_some(path)
}

/// The error type, with a stand-in for the error of another crate that it wraps.
fn by_itself(text: &str) -> String {
    let other = "#[derive(Debug, Clone, PartialEq)]\npub struct HacError;\n\
                 impl fmt::Display for HacError {\n    fn fmt(&self, _: &mut fmt::Formatter<'_>) -> fmt::Result { Ok(()) }\n}";
    replace_once(text, "use tsecon_hac::HacError;", other)
}

fn main() {
    println!("cargo:rerun-if-env-changed=TREND_FILTER_RS");
    println!("cargo:rustc-check-cfg=cfg(error_rs)");
    let here = PathBuf::from(env::var("CARGO_MANIFEST_DIR").unwrap());
    let out = PathBuf::from(env::var("OUT_DIR").unwrap());
    let source = PathBuf::from(env::var("TREND_FILTER_RS").expect("set TREND_FILTER_RS to the path of the module trend_filter.rs"));
    let source = fs::canonicalize(&source).expect("TREND_FILTER_RS names no file");
    let read = |path: &Path| {
        println!("cargo:rerun-if-changed={}", path.display());
        fs::read_to_string(path).unwrap()
    };
    let mut modules = String::new();
    let mut module = |name: &str, path: PathBuf| modules += &format!("#[allow(dead_code)]\n#[path = {path:?}]\npub mod {name};\n");
    let made = |name: &str, text: String| {
        let path = out.join(name).with_extension("rs");
        fs::write(&path, text).unwrap();
        path
    };
    module("counted", made("counted", counted(&read(&source))));
    if let Some(error) = error_beside(&source) {
        println!("cargo:rustc-cfg=error_rs");
        module("error", made("error", by_itself(&read(&error))));
        let program = read(&here.join("../bindings/rust/tests/as_the_source.rs"));
        for (name, used) in [("as_the_source", "use crate::source::{"), ("as_the_binding", "use binding::{")] {
            module(name, made(name, replace_once(&program, "use trend_filter::{", used)));
        }
    } else {
        module("error", here.join("src/error.rs"));
    }
    module("trend_filter", source);
    fs::write(out.join("modules.rs"), modules).unwrap();
}
