include!("../sources.rs");

fn main() {
    println!("cargo:rerun-if-changed=../sources.rs");
    let published = |name: &str| find(&format!("core/lib/instructions/src/{name}"));
    // lib.rs becomes a module: its #![feature] lines, which a stable compiler refuses at a crate's
    // root, are without effect there, and the stand-in for bitmatch needs neither.
    copy(&published("lib.rs"), "published/mod.rs");
    for name in ["reg.rs", "ins/mod.rs", "ins/encoding.rs"] {
        copy(&published(name), &format!("published/{name}"));
    }
    for name in ["asm.rs", "ins/analysis.rs", "ins/assembly.rs"] {
        copy(&Path::new("standins").join(name), &format!("published/{name}"));
    }
    copy(Path::new("standins/root.rs"), "root.rs");
}
