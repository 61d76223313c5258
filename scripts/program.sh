# Sourced by the scripts beside it, which set root and script: the program berth.
program=$root/crates/berth/out/berth

# Builds the program where it is missing or older than its sources, or says why that can't be.
need_program() {
    local state="there is no program $program" why advice
    if is_program; then
        is_old || return 0
        state="the program $program is older than its sources"
    fi
    if ! command -v rt > /dev/null; then
        why="rt, which builds it, is not on the path"
        advice="install the Rattle kit, or put this release's program there"
    elif [ ! -w "$root/crates/berth" ]; then
        why="$root/crates/berth may not be written"
        advice="have someone who may write there call scripts/berth once, or put this release's program there"
    else
        build_program
        return
    fi
    echo "$script: $state, and $why: $advice" >&2
    is_program || exit 1
}

is_program() { [ -f "$program" ] && [ -x "$program" ]; }

# One that is older may go by the rules of an older release.
is_old() { [ -n "$(find "$root"/crates/*/src -newer "$program" -print -quit 2> /dev/null)" ]; }

# `rt run` builds the program, and then runs it, here on no sheet. What all that prints is shown
# only where it fails.
build_program() {
    local said begun=${EPOCHREALTIME/,/.}
    echo "$script: building the program, which takes some minutes the first time" >&2
    if ! said=$(cd "$root/crates/berth" && rt run < /dev/null 2>&1); then
        printf '%s\n%s\n' "$said" "$script: the program was not built, as said above" >&2
        exit 1
    fi
    # Where nothing had to be built, it is as old as before; a source may have changed meanwhile.
    touch -d "@$begun" "$program" 2> /dev/null || true
}
