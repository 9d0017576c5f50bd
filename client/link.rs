//! Tells cargo which static libraries to link: all that `client/build` left in target/staticlib.
use std::path::Path;

fn main() {
    let folder = Path::new(env!("CARGO_MANIFEST_DIR")).join("../target/staticlib");
    println!("cargo:rustc-link-search=native={}", folder.display());
    println!("cargo:rerun-if-changed={}", folder.display());
    let libraries = std::fs::read_dir(&folder).expect("target/staticlib is there: run client/build first");
    for library in libraries {
        let name = library.expect("the folder can be read").file_name();
        if let Some(name) = name.to_str().and_then(|name| name.strip_prefix("lib")?.strip_suffix("_exports.a")) {
            println!("cargo:rustc-link-lib=static={name}_exports");
        }
    }
}
