// Links the archive of `crates/bench_calls_c`, which bench/run puts here.
fn main() {
    let dir = concat!(env!("CARGO_MANIFEST_DIR"), "/out");
    println!("cargo:rustc-link-search=native={dir}");
    println!("cargo:rustc-link-lib=static=bench_calls");
    println!("cargo:rerun-if-changed={dir}/libbench_calls.a");
}
