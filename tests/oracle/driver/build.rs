// Where BENCH_ARCHIVE names the folder of libbench_c.a, links it for the program `rows`; where FRODO_ARCHIVE names the folder of libfrodo_c.a, links it for the
// programs `side_by_side` and `calls`.
fn main() {
    for (variable, flag, archive) in [("BENCH_ARCHIVE", "bench_archive", "libbench_c.a"), ("FRODO_ARCHIVE", "frodo_archive", "libfrodo_c.a")] {
        println!("cargo:rerun-if-env-changed={variable}");
        println!("cargo:rustc-check-cfg=cfg({flag})");
        if let Ok(folder) = std::env::var(variable) {
            println!("cargo:rustc-cfg={flag}");
            println!("cargo:rustc-link-search=native={folder}");
            println!("cargo:rerun-if-changed={folder}/{archive}");
        }
    }
}
