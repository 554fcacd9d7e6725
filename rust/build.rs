// Says where libpunchbronze.a is: PUNCHBRONZE_LIB, or else target/staticlib of this repository, where `tools/staticlib punchbronze`
// writes it.
use std::env;
use std::path::PathBuf;

fn main() {
    let dir = env::var_os("PUNCHBRONZE_LIB").map(PathBuf::from).unwrap_or_else(|| {
        PathBuf::from(env::var_os("CARGO_MANIFEST_DIR").unwrap()).join("../target/staticlib")
    });
    println!("cargo:rustc-link-search=native={}", dir.display());
    println!("cargo:rerun-if-env-changed=PUNCHBRONZE_LIB");
    println!("cargo:rerun-if-changed={}", dir.join("libpunchbronze.a").display());
}
