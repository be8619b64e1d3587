// Links the archive of the proved calls, which bench/run has `rt lib` write.
use std::path::Path;

fn main() {
    let root = Path::new(env!("CARGO_MANIFEST_DIR")).join("..");
    let folder = root.join("target/staticlib");
    println!("cargo:rustc-link-search=native={}", folder.display());
    println!("cargo:rustc-link-lib=static=bench_calls");
    println!("cargo:rerun-if-changed={}", folder.join("libbench_calls.a").display());
}
