# Cargo without a network: its packages are Debian's, in $packages (RUST_PACKAGES, or where Debian puts them), and what it knows and makes
# is in $work, or in CARGO_TARGET_DIR. A script reads counting.sh before this file.
# shellcheck shell=sh disable=SC2034,SC2154
packages=${RUST_PACKAGES:-/usr/share/cargo/registry}
jobs=${JOBS:-2}
mkdir "$work/cargo"
cat > "$work/cargo/config.toml" << CONFIG
[source.crates-io]
replace-with = "packages"
[source.packages]
directory = "$packages"
[net]
offline = true
CONFIG
export CARGO_HOME="$work/cargo" CARGO_TARGET_DIR="${CARGO_TARGET_DIR:-$work/target}" CARGO_TERM_COLOR=never RUSTFLAGS='-D warnings'

# lacking NAME-VERSION..: the first of these packages that is not there, or nothing.
lacking() {
    for name in "$@"; do
        [ -n "$(find "$packages" -maxdepth 1 -name "$name*" 2> /dev/null | head -n 1)" ] || {
            echo "$name"
            return
        }
    done
}
# quiet COMMAND..: what it says is in $work/said, and its end is shown if it fails.
quiet() {
    "$@" > "$work/said" 2>&1 || {
        tail -n 30 "$work/said"
        return 1
    }
}
