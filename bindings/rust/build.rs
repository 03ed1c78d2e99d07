//! Links the archive that `tools/build lustrejasper_c` wrote. LUSTREJASPER_LIB names another folder that has it.

use std::env;
use std::path::PathBuf;

fn main() {
    let folder = match env::var_os("LUSTREJASPER_LIB") {
        Some(folder) => PathBuf::from(folder),
        None => PathBuf::from(env::var_os("CARGO_MANIFEST_DIR").unwrap()).join("../../target/staticlib"),
    };
    println!("cargo:rerun-if-env-changed=LUSTREJASPER_LIB");
    println!("cargo:rerun-if-changed={}", folder.join("liblustrejasper.a").display());
    println!("cargo:rustc-link-search=native={}", folder.display());
}
