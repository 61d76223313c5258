include!("../sources.rs");

fn main() {
    println!("cargo:rerun-if-changed=../sources.rs");
    for name in ["core.rs", "memory/mod.rs", "memory/simple.rs"] {
        copy(&find(&format!("core/lib/emulator/src/{name}")), name);
    }
    copy(Path::new("standins/root.rs"), "root.rs");
}
