//! Links the port's static libraries, which `tools/build bench_exports ffi` writes, and the second peer and the port of an earlier commit where
//! bench/run built them.

fn main() {
    let here = std::env::var("CARGO_MANIFEST_DIR").expect("cargo sets it");
    let libraries = format!("{here}/../target/staticlib");
    println!("cargo:rustc-link-search=native={libraries}");
    for library in ["bench_exports", "ffi"] {
        println!("cargo:rerun-if-changed={libraries}/lib{library}.a");
        println!("cargo:rustc-link-lib=static={library}");
    }
    if std::env::var("CARGO_FEATURE_BEFORE").is_ok() {
        println!("cargo:rustc-link-search=native={here}/target/before");
        for library in ["bench_exports", "ffi"] {
            println!("cargo:rerun-if-changed={here}/target/before/libbefore_{library}.a");
            println!("cargo:rustc-link-lib=static=before_{library}");
        }
    }
    if std::env::var("CARGO_FEATURE_SDSL").is_ok() {
        println!("cargo:rerun-if-changed={here}/target/sdsl/libsdsl_side.a");
        println!("cargo:rustc-link-search=native={here}/target/sdsl");
        for library in ["static=sdsl_side", "dylib=sdsl", "dylib=stdc++"] {
            println!("cargo:rustc-link-lib={library}");
        }
    }
}
