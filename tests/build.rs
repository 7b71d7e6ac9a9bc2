//! Links the product's archive to the programs that call it, and to no other: the library's own
//! tests, `make_file` and the comparisons of programs are built where no archive stands. And links the
//! rounds in C to `bench_c`, where there is a gcc.

use std::path::PathBuf;
use std::process::Command;

/// The programs that call the product's C interface, through `library.rs`. Each links as soon as the
/// archive has the functions that it calls.
const CALLERS: [&str; 12] = [
    "compare_reading",
    "compare_rates",
    "compare_solving",
    "compare_audit",
    "compare_following",
    "compare_exchange",
    "bench",
    "bench_c",
    "bench_checking",
    "bench_following",
    "bench_exchanging",
    "measure_stack",
];

/// The builds of `c/rounds.c` that `bench_c` times: how much gcc optimizes, and the name of the function.
const C_BUILDS: [(&str, &str); 2] = [("-Os", "rounds_solve_os"), ("-O2", "rounds_solve_o2")];

/// The folder of `libcapi.a`: the one named in `CAPI_DIR`, or the repository's own.
fn archive_folder() -> PathBuf {
    let package = PathBuf::from(std::env::var("CARGO_MANIFEST_DIR").expect("set by cargo"));
    match std::env::var("CAPI_DIR") {
        Ok(folder) => package.join(folder),
        Err(_) => package.join("../crates/capi/out"),
    }
}

/// Compiles `c/rounds.c` in one of these ways. None where there is no gcc, or it fails.
fn c_rounds((optimize, name): (&str, &str)) -> Option<PathBuf> {
    let object = PathBuf::from(std::env::var("OUT_DIR").expect("set by cargo")).join(name);
    let object = object.with_extension("o");
    let mut gcc = Command::new("gcc");
    gcc.args(["-std=c11", "-fPIE", "-c", "c/rounds.c", optimize, "-o"]).arg(&object);
    let ended = gcc.arg(format!("-DROUNDS_SOLVE={name}")).status().ok()?;
    if !ended.success() {
        println!(
            "cargo:warning=gcc {optimize} does not build c/rounds.c, and bench_c goes without it"
        );
        return None;
    }
    Some(object)
}

/// Links `c/rounds.c` in all its builds to `bench_c`, and tells it so by `c_rounds`. Without them it is
/// built as well, and says so when it runs.
fn link_c_rounds() {
    println!("cargo:rerun-if-changed=c/rounds.c");
    println!("cargo:rerun-if-changed=../examples/c/cuulipso.h");
    println!("cargo:rustc-check-cfg=cfg(c_rounds)");
    let objects: Option<Vec<PathBuf>> = C_BUILDS.into_iter().map(c_rounds).collect();
    for object in objects.iter().flatten() {
        println!("cargo:rustc-link-arg-bin=bench_c={}", object.display());
    }
    if objects.is_some() {
        println!("cargo:rustc-cfg=c_rounds");
    }
}

fn main() {
    link_c_rounds();
    let archive = archive_folder().join("libcapi.a");
    println!("cargo:rerun-if-env-changed=CAPI_DIR");
    println!("cargo:rerun-if-changed=build.rs");
    println!("cargo:rerun-if-changed={}", archive.display());
    for caller in CALLERS {
        println!("cargo:rustc-link-arg-bin={caller}={}", archive.display());
    }
}
