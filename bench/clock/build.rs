//! Says where the archives of our code are, and that the program is linked anew when either changes.

fn main() {
    let root = concat!(env!("CARGO_MANIFEST_DIR"), "/../..");
    for (folder, name) in [("target/part", "hirgwamo"), ("crates/bench_clock/out", "bench_clock")] {
        println!("cargo:rustc-link-search=native={root}/{folder}");
        println!("cargo:rerun-if-changed={root}/{folder}/lib{name}.a");
    }
}
