# For run, list, faults and bench: builds the Rust side, finds ours.

root=$(cd "$(dirname "${BASH_SOURCE[0]}")/.." && pwd)
features=library

in_cargo() {
    cargo "$1" --release --offline --quiet --manifest-path "$root/compare/Cargo.toml" --features "$features" "${@:2}"
}

# Builds the comparison; where the original is missing, one line says what to set.
build() {
    local log
    if ! log=$(in_cargo build 2>&1); then
        if grep -q '^error: compare@' <<<"$log"; then
            sed -n 's/^error: compare@[^:]*: /compare: /p' <<<"$log" >&2
        else
            tail -n 30 <<<"$log" >&2
        fi
        exit 2
    fi
}

# For the short comparison: what is linked; else the programs are tried, which takes no proof.
find_ours() {
    if [ -n "${REPLAY:-}" ] || [ -x "$root/target/bin/replay" ]; then
        find_linked
    else
        features=
    fi
}

# The programs and the library. REPLAY and AHB_LIB are taken as they are.
find_linked() {
    local old=()
    if outdated bin/tables; then old+=(tables); fi
    if [ -z "${REPLAY:-}" ] && outdated bin/replay; then old+=(replay); fi
    if [ ${#old[@]} -gt 0 ]; then made "${old[@]}"; fi
    export REPLAY=${REPLAY:-$root/target/bin/replay}
    if [ ! -x "$REPLAY" ]; then
        echo "compare: no program at $REPLAY: run tools/make replay, or set REPLAY" >&2
        exit 2
    fi
    if [ -z "${AHB_LIB:-}" ]; then find_library ahb; fi
}

# A static library.
find_library() {
    if outdated "staticlib/lib$1.a"; then made "$1"; fi
}

# Whether what rt makes of the crates is missing, or older than their code.
outdated() {
    local made=$root/target/$1
    [ ! -e "$made" ] || [ -n "$(find "$root/crates.txt" "$root"/crates/*/src -newer "$made" -print -quit)" ]
}

# Has programs or libraries made anew; where they are not made, there is nothing to compare.
made() {
    echo "compare: tools/make $*" >&2
    "$root/tools/make" "$@" >&2 || exit 2
}
