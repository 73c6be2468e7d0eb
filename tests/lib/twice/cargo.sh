# What tests/slow/rust-32 and tests/bench/rust share: cargo offline over Debian's packages, with a rustc for other targets. `top` is the
# folder of the repository, and counting.sh has been read.
#
# RUST_PACKAGES is the registry that `tests/lib/twice/packages` makes, or /usr/share/cargo/registry; RUST_TARGETS the folder that
# `tests/lib/twice/toolchains` makes. Without the latter it takes the system's rustc, with the targets that this one has.
# shellcheck shell=sh disable=SC2034,SC2154
packages=${RUST_PACKAGES:-/usr/share/cargo/registry}
rustc=rustc
[ -z "${RUST_TARGETS-}" ] || rustc=$RUST_TARGETS/rustc
jobs=${JOBS:-2}
mkdir "$work/dist"
cp -R "$top/dist/rust" "$work/dist/rust"
rm -rf "$work/dist/rust/target" "$work/dist/rust/Cargo.lock"
mkdir "$work/cargo"
cat > "$work/cargo/config.toml" << CONFIG
[source.crates-io]
replace-with = "packages"
[source.packages]
directory = "$packages"
[net]
offline = true
CONFIG
export CARGO_HOME="$work/cargo" CARGO_TARGET_DIR="$work/target" CARGO_TERM_COLOR=never RUSTC="$rustc"

# missing TARGET..: names what is not there of the packages and of these targets, and is false if all is there.
missing() {
    for name in arrayvec-0.7 byteorder-1 hex-0.4 thiserror-2; do
        [ -n "$(find "$packages" -maxdepth 1 -name "$name*" 2> /dev/null)" ] || {
            echo "no $name in $packages: tests/lib/twice/packages fetches it"
            return
        }
    done
    for target in "$@"; do
        [ -d "$("$rustc" --print sysroot)/lib/rustlib/$target/lib" ] || {
            echo "$rustc has no $target: tests/lib/twice/toolchains fetches it"
            return
        }
    done
    return 1
}
# quiet COMMAND..: what it says is shown if it fails.
quiet() {
    "$@" > "$work/said" 2>&1 || {
        tail -n 30 "$work/said"
        return 1
    }
}
