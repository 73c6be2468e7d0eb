# What tests/bench/rust/run and tests/bench/rust/panics share: cargo over Debian's packages, and the sessions in Rust. `top` is the folder
# of the repository, and counting.sh has been read.
# shellcheck shell=sh disable=SC2154
# shellcheck source=tests/lib/twice/cargo.sh
. "$top/tests/lib/twice/cargo.sh"
mkdir -p "$work/tests/bench/rust"
cp -R "$top/tests/bench/rust/package" "$work/tests/bench/rust/package"
rm -rf "$work/tests/bench/rust/package/target" "$work/tests/bench/rust/package/Cargo.lock"

# session_of PART TARGET ARCHIVE: the session of a device or of a host, for what rustc calls a target.
session_of() {
    (cd "$work/tests/bench/rust/package" && quiet cargo build -j "$jobs" --release --target "$2" --features "$1") || exit 1
    cp "$work/target/$2/release/libsession.a" "$3"
}
