//! Finds the static library: libjirvaldo.a in the directory that JIRVALDO_LIB_DIR names (from the crate's own directory on, where it is
//! relative), else in target/jirvaldo of this repository.

use std::env;
use std::path::Path;
use std::process::exit;

const VARIABLE: &str = "JIRVALDO_LIB_DIR";
const ARCHIVE: &str = "libjirvaldo.a";

fn main() {
    println!("cargo:rerun-if-env-changed={VARIABLE}");
    let named = env::var_os(VARIABLE).filter(|name| !name.is_empty());
    let named = named.unwrap_or_else(|| "../../target/jirvaldo".into());
    let directory = Path::new(env!("CARGO_MANIFEST_DIR")).join(named);
    let archive = directory.join(ARCHIVE);
    println!("cargo:rerun-if-changed={}", archive.display());
    match directory.canonicalize() {
        Ok(directory) if archive.is_file() => {
            println!("cargo:rustc-link-search=native={}", directory.display());
            println!("cargo:rustc-link-lib=static=jirvaldo");
        }
        _ => {
            let wanted = archive.display();
            eprintln!("{wanted} is not there: tools/build-library builds it, or {VARIABLE} names the directory that has it");
            exit(1);
        }
    }
}
