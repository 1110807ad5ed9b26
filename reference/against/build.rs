//! Links the libraries for C, each into the programs that call it: the store (`make library`), and `bench_calls`, which
//! has functions for the benchmark (`tools/prove.py staticlib bench_calls`).

use std::path::Path;

const LIBRARIES: [(&str, &str); 4] = [
    ("against_inspect", "libpagestore.a"),
    ("against_store", "libpagestore.a"),
    ("bench", "staticlib/libbench_calls.a"),
    ("bench", "libpagestore.a"),
];

fn main() {
    let here = std::env::var("CARGO_MANIFEST_DIR").expect("cargo sets it");
    let target = Path::new(&here).join("../../target");
    for (program, name) in LIBRARIES {
        let library = target.join(name);
        println!("cargo:rustc-link-arg-bin={program}={}", library.display());
        println!("cargo:rerun-if-changed={}", library.display());
    }
}
