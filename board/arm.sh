#!/bin/sh
# The crate on Arm: built for aarch64 over the board's archive, its tests and scene S run by qemu-aarch64. The compiler is Debian's, for
# which Debian has the standard library of aarch64 too, with the C library that it runs on. Where they cannot be installed, nothing is run.
set -eu
cd "$(dirname "$0")/.."
log=$PWD/target/board-arm.log
target=aarch64-unknown-linux-gnu
export PATH="/usr/bin:$PATH"

is_there() {
    command -v cargo && command -v qemu-aarch64 && ls "$(rustc --print target-libdir --target $target)"/libstd-*.rlib &&
        ls "$(aarch64-linux-gnu-gcc -print-file-name=Scrt1.o)" /lib/ld-linux-aarch64.so.1
}
install_it() {
    dpkg --add-architecture arm64 && timeout 120 apt-get update &&
        timeout 600 apt-get install -y --no-install-recommends rustc-web cargo-web libstd-rust-web-dev:arm64 \
            gcc-aarch64-linux-gnu libc6-dev-arm64-cross qemu-user
}
{ is_there || install_it || true; } >"$log" 2>&1
if ! is_there >>"$log" 2>&1; then
    echo "no cargo, rustc and C compiler for $target with qemu-aarch64, and they could not be installed: the crate was not run on Arm"
    exit 0
fi

export CARGO_TARGET_DIR="$PWD/target/board-arm" S2_DIR=target/aarch64 RUSTFLAGS=-Dwarnings RUSTDOCFLAGS=-Dwarnings
export CARGO_TARGET_AARCH64_UNKNOWN_LINUX_GNU_LINKER=aarch64-linux-gnu-gcc CARGO_TARGET_AARCH64_UNKNOWN_LINUX_GNU_RUNNER=qemu-aarch64
cd board/dervhalt-s2
timeout 600 cargo test --offline --target $target >"$log" 2>&1 || { cat "$log"; exit 1; }
timeout 60 cargo run --quiet --offline --target $target --example scene_s >"$CARGO_TARGET_DIR/example.out"
diff ../example.out "$CARGO_TARGET_DIR/example.out"
echo "board-arm: $(grep -c '^test .* ok$' "$log") tests of the crate, and scene S, on aarch64"
