// Links the archive that host/c/archive writes of the crate bench_c; BENCH_ARCHIVE is its folder.
fn main() {
    let folder = std::env::var("BENCH_ARCHIVE").expect("BENCH_ARCHIVE names the folder of libbench_c.a");
    println!("cargo:rustc-link-search=native={folder}");
    println!("cargo:rustc-link-lib=static=bench_c");
    println!("cargo:rerun-if-env-changed=BENCH_ARCHIVE");
    println!("cargo:rerun-if-changed={folder}/libbench_c.a");
}
