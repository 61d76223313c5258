# Sourced by the scripts beside it: settings, and what to do where something is missing.
#
# NILGUSEG_LIB        a folder with the library's parts, libnilguseg.a and the four others; by
#                     default target/staticlib, built by scripts/staticlib
# DELTA_NULL_SOURCES  a folder with the published Rust: a checkout of the repository that NOTICE
#                     names, or its seven files side by side, as rust/published/sources.rs finds
#                     them; by default ../shared/docs

absolute() { [ -z "$1" ] || realpath -m "$1"; }
library_given=$(absolute "${NILGUSEG_LIB:-}")
sources_given=$(absolute "${DELTA_NULL_SOURCES:-}")

unset CDPATH # by which cd might go elsewhere
cd "$(dirname "${BASH_SOURCE[0]}")/.."
export NILGUSEG_LIB=${library_given:-$PWD/target/staticlib}
export DELTA_NULL_SOURCES=${sources_given:-$PWD/../shared/docs}
unset CARGO_TARGET_DIR # rust/.cargo/config.toml says where cargo builds

have() { command -v "$1" >/dev/null; }

skip_all() {
    echo "skipped: $1"
    exit 0
}

need_cc() {
    have cc || skip_all "all, for there is no cc on the path, by which cargo links too"
}

parts="nilguseg nilguseg_words nilguseg_log nilguseg_replay nilguseg_guarded"

# Builds the library's parts unless a folder with them was given.
need_library() {
    local part
    if [ -z "$library_given" ] && have rt; then
        scripts/staticlib
    fi
    for part in $parts; do
        [ -f "$NILGUSEG_LIB/lib$part.a" ] || skip_all "all, for there is no lib$part.a in $NILGUSEG_LIB, nor rt to build it"
    done
}

need_cargo() {
    need_cc
    have cargo || skip_all "all, for there is no cargo on the path"
}

need_sources() {
    local core=core/lib/emulator/src/core.rs
    [ -f "$DELTA_NULL_SOURCES/$core" ] || [ -f "$DELTA_NULL_SOURCES/src--${core//\//--}.txt" ] ||
        skip_all "all, for the published Rust is not in $DELTA_NULL_SOURCES; name its folder in DELTA_NULL_SOURCES"
}

in_workspace() { (cd rust && cargo --offline "$@"); }
