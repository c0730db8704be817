# Read by the scripts beside it and by `bench/run`: finds the Rust source, builds the side that answers from it, and has it ask ours.

root=$(cd "$(dirname "${BASH_SOURCE[0]}")/.." && pwd)
out=$root/target/compare
reference=$out/release/reference
CRAFTY_SRC=$(realpath -m "${CRAFTY_SRC:-$root/../shared/docs/src}")
export CRAFTY_SRC
seed=${1:-1}
count=${2:-20000}

has_source() {
    [ -f "$CRAFTY_SRC/crafty/src/action.rs" ]
}

build() {
    cargo build --release --offline --locked --quiet \
        --manifest-path "$root/compare/Cargo.toml" --target-dir "$out"
}

fail() {
    echo "compare: $1" >&2
    exit 1
}

# skip WHY: ends the script.
skip() {
    echo "skipped: $(basename "$(dirname "$0")")/$(basename "$0"), $1"
    exit 0
}

# Without the Rust there is nothing to compare with.
build_reference() {
    has_source || skip "no Rust source at $CRAFTY_SRC"
    build
}

# A program of C that calls the archive for another process, as the words of `command`.
build_host() {
    source "$root/bindings/build.sh"
    has_compiler || skip "no C compiler"
    build_archive
    build_program host "$root/bindings/host.c"
    set_command host
}

# check_sample NAME: the sample of the program compare_NAME that rt ci replays is the Rust's, as it is now.
check_sample() {
    for file in stdin stdout; do
        "$reference" sample "$1" "$file" | cmp -s - "$root/crates/compare_$1/$file" \
            || fail "crates/compare_$1/$file is not what compare/sample writes"
    done
}

# ask WHAT PROGRAM..: of the Rust's side and of ours.
ask() {
    "$reference" "$1" "$seed" "$count" "${@:2}"
}
