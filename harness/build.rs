//! Links the archive with the C export, for the feature `export`.

use std::env;
use std::path::Path;

fn main() {
    println!("cargo:rerun-if-env-changed=GEKUMOSARI_ARCHIVE");
    if env::var_os("CARGO_FEATURE_EXPORT").is_none() {
        return;
    }
    let archive = env::var("GEKUMOSARI_ARCHIVE").unwrap_or("../target/staticlib/libagent.a".into());
    let archive = Path::new(&archive).canonicalize().unwrap_or_else(|error| panic!("GEKUMOSARI_ARCHIVE={archive}: {error}"));
    println!("cargo:rerun-if-changed={}", archive.display());
    println!("cargo:rustc-link-arg={}", archive.display());
}
