//! Says where our code's archive is, and that the program is linked anew when it changes.

fn main() {
    let folder = concat!(env!("CARGO_MANIFEST_DIR"), "/../../crates/bench_week/out");
    println!("cargo:rustc-link-search=native={folder}");
    println!("cargo:rerun-if-changed={folder}/libbench_week.a");
}
