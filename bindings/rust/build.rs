// Links the proved static library: TREND_FILTER_LIB, or ../../target/staticlib/libtrend_filter.a, which `tools/build trend_filter` writes.
use std::path::{Path, PathBuf};
use std::{env, fs};

/// The folder and the name that the linker is given, or what is wrong, in a line.
fn library(path: &Path) -> Result<(PathBuf, String), String> {
    let make = "run 'tools/build trend_filter' in the repository's root, or set TREND_FILTER_LIB to the full path of libtrend_filter.a";
    let full = fs::canonicalize(path).map_err(|_| format!("there is no static library {}: {make}", path.display()))?;
    let name = full.file_name().and_then(|n| n.to_str()).and_then(|n| n.strip_prefix("lib")?.strip_suffix(".a"));
    match (full.is_file(), name, full.parent()) {
        (true, Some(name), Some(folder)) => Ok((folder.into(), name.into())),
        _ => Err(format!("{} is no static library, a file libNAME.a: {make}", path.display())),
    }
}

fn main() {
    println!("cargo:rerun-if-env-changed=TREND_FILTER_LIB");
    let here = PathBuf::from(env::var("CARGO_MANIFEST_DIR").unwrap());
    let path = here.join(env::var("TREND_FILTER_LIB").unwrap_or("../../target/staticlib/libtrend_filter.a".into()));
    println!("cargo:rerun-if-changed={}", path.display());
    match library(&path) {
        Ok((folder, name)) => {
            println!("cargo:rustc-link-search=native={}", folder.display());
            println!("cargo:rustc-link-lib=static={name}");
        }
        Err(line) => println!("cargo::error={line}"),
    }
}
