use std::env;
use std::path::{Path, PathBuf};

/// Links the parts of the library: libnilguseg.a and the others of the folder NILGUSEG_LIB, or of
/// target/staticlib at the repository's root.
fn main() {
    println!("cargo:rerun-if-env-changed=NILGUSEG_LIB");
    let folder = env::var_os("NILGUSEG_LIB")
        .map_or_else(|| Path::new(env!("CARGO_MANIFEST_DIR")).join("../../target/staticlib"), PathBuf::from);
    println!("cargo:rustc-link-search=native={}", folder.display());
    for part in ["nilguseg", "nilguseg_words", "nilguseg_log", "nilguseg_replay", "nilguseg_guarded"] {
        println!("cargo:rerun-if-changed={}", folder.join(format!("lib{part}.a")).display());
        println!("cargo:rustc-link-lib=static={part}");
    }
}
