//! Links the proved libraries `bench_checks`, `bench_rounds` and `test_script`, which `bench/build`
//! puts into target/staticlib.
fn main() {
    let root = std::env::var("CARGO_MANIFEST_DIR").unwrap();
    println!("cargo:rustc-link-search=native={root}/../target/staticlib");
    for name in ["bench_checks", "bench_rounds", "test_script"] {
        println!("cargo:rustc-link-lib=static={name}");
        println!("cargo:rerun-if-changed={root}/../target/staticlib/lib{name}.a");
    }
}
