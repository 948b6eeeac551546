//! Links the static libraries that `./run --build` writes.

fn main() {
    let folder = std::env::var("WOLDLADLE_LIB").unwrap_or_else(|_| {
        let here = std::env::var("CARGO_MANIFEST_DIR").expect("cargo sets it");
        format!("{here}/../../target/staticlib")
    });
    println!("cargo:rustc-link-search=native={folder}");
    println!("cargo:rerun-if-env-changed=WOLDLADLE_LIB");
    for library in ["woldladle", "woldladle_runs"] {
        println!("cargo:rustc-link-lib=static={library}");
        println!("cargo:rerun-if-changed={folder}/lib{library}.a");
    }
}
