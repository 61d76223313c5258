// Shared by the two build scripts: lays the published files out, unchanged, in the build folder.
use std::path::{Path, PathBuf};
use std::{env, fs};

/// The folder with the published files: the one that DELTA_NULL_SOURCES names, or shared/docs
/// beside the repository.
fn sources() -> PathBuf {
    println!("cargo:rerun-if-env-changed=DELTA_NULL_SOURCES");
    env::var_os("DELTA_NULL_SOURCES").map_or_else(
        || Path::new(env!("CARGO_MANIFEST_DIR")).join("../../../../shared/docs"),
        PathBuf::from,
    )
}

/// The published file `path`: in a checkout of the published repository (NOTICE names it) it stands
/// under its own path, in a flat folder under `src--` and the path with `--` for each `/`, ending
/// in `.txt`.
fn find(path: &str) -> PathBuf {
    let folder = sources();
    let flat = folder.join(format!("src--{}.txt", path.replace('/', "--")));
    let plain = folder.join(path);
    let found = [flat, plain].into_iter().find(|file| file.is_file());
    found.unwrap_or_else(|| panic!("{path} is not in {}: set DELTA_NULL_SOURCES", folder.display()))
}

/// Copies `from` to `to` below OUT_DIR.
fn copy(from: &Path, to: &str) {
    let to = PathBuf::from(env::var_os("OUT_DIR").unwrap()).join(to);
    fs::create_dir_all(to.parent().unwrap()).unwrap();
    fs::copy(from, &to).unwrap_or_else(|e| panic!("{}: {e}", from.display()));
    println!("cargo:rerun-if-changed={}", from.display());
}
