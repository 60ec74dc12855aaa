// Links libpresolve_c.a, of the folder PRESOLVE_LIB_DIR or of target/staticlib (`tools/staticlib presolve_c`).
use std::env;
use std::path::PathBuf;

fn main() {
    println!("cargo:rerun-if-env-changed=PRESOLVE_LIB_DIR");
    let folder = env::var_os("PRESOLVE_LIB_DIR").map(PathBuf::from).unwrap_or_else(|| {
        PathBuf::from(env::var_os("CARGO_MANIFEST_DIR").expect("cargo sets it")).join("../../target/staticlib")
    });
    let library = folder.join("libpresolve_c.a");
    println!("cargo:rerun-if-changed={}", library.display());
    if !library.is_file() {
        println!("cargo:warning={} is not there: tools/staticlib presolve_c, or PRESOLVE_LIB_DIR", library.display());
    }
    println!("cargo:rustc-link-search=native={}", folder.display());
    println!("cargo:rustc-link-lib=static=presolve_c");
}
