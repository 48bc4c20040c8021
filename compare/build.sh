#!/bin/bash
# Builds the comparison, the benchmark and the tests of plain Rust.
#
#   compare/build.sh LIBRARY_FOLDER [OUTPUT_FOLDER]   against libxnc.a in that folder
#   compare/build.sh selftest [OUTPUT_FOLDER]         against a second copy of plain Rust
#
# The output folder gets `plain-tests`, `compare` and `bench`; it is
# target/compare (target/selftest) beside this folder unless named.
# RUSTC names another compiler and RUSTFLAGS adds to its arguments, for example
#   RUSTC=/usr/bin/rustc RUSTFLAGS="--target x86_64-unknown-linux-gnu \
#     -C linker=x86_64-linux-gnu-gcc -C target-feature=+crt-static"
# SUBJECT names another lib.rs as the copy under test in the self-test.
set -euo pipefail

here=$(cd "$(dirname "$0")" && pwd)
library=${1:?usage: compare/build.sh LIBRARY_FOLDER|selftest [OUTPUT_FOLDER]}
name=compare
[ "$library" = selftest ] && name=selftest
out=${2:-$here/../target/$name}
mkdir -p "$out"

build() {
    # shellcheck disable=SC2086 # RUSTFLAGS holds several words
    "${RUSTC:-rustc}" --edition 2021 -O ${RUSTFLAGS:-} "$@"
}

build --crate-type rlib --crate-name plain "$here/plain/src/lib.rs" -o "$out/libplain.rlib"
build --test --crate-name plain_tests "$here/plain/src/lib.rs" -o "$out/plain-tests"

if [ "$library" = selftest ]; then
    build --crate-type rlib --crate-name subject "${SUBJECT:-$here/plain/src/lib.rs}" -o "$out/libsubject.rlib"
    under_test=(--cfg selftest --extern "subject=$out/libsubject.rlib")
else
    build --crate-type rlib --crate-name xnc "$here/../rust/xnc/src/lib.rs" \
        -L "native=$library" -l static=xnc -o "$out/libxnc.rlib"
    under_test=(--extern "xnc=$out/libxnc.rlib" -L "native=$library")
fi
for program in "compare $here/src/main.rs" "bench $here/bench/src/main.rs"; do
    read -r name source <<<"$program"
    build --crate-name "$name" "$source" --extern "plain=$out/libplain.rlib" "${under_test[@]}" -o "$out/$name"
done
