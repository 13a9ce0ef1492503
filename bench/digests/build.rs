// Links the proved hashes: the folder of their static library comes from `run`.
use std::env::var;

fn main() {
    let folder = var("DIGESTS_LIBRARY").expect("started by ./run");
    println!("cargo:rerun-if-env-changed=DIGESTS_LIBRARY");
    println!("cargo:rerun-if-changed={folder}/libbench_digests.a");
    println!("cargo:rustc-link-search=native={folder}");
    println!("cargo:rustc-link-lib=static=bench_digests");
}
