#!/bin/sh
# Measures reads of ue codes against the same loop in plain Rust. Run by hand: sh bench/bit_io/run.sh
set -e
here=$(cd "$(dirname "$0")" && pwd)
work=$(mktemp -d)
trap 'rm -rf "$work"' EXIT
mkdir -p "$work/crates/ue_bench/src"
cp -r "$here/../../crates/bit_io" "$work/crates/bit_io"
rm -rf "$work/crates/bit_io/must-fail"
cp "$here/main.rt.txt" "$work/crates/ue_bench/src/main.rt"
printf 'bit_io:\nue_bench: bit_io\n' >"$work/crates.txt"
cp "$here/codes.rs.txt" "$work/codes.rs"
rustc -O -o "$work/codes" "$work/codes.rs"
"$work/codes" write "$work/crates/ue_bench/stdin"
cd "$work/crates/ue_bench"
rt run >"$work/rattle.log" 2>&1 || { tail -20 "$work/rattle.log"; exit 1; }
echo "rattle"
./out/ue_bench <stdin
echo "plain Rust"
"$work/codes" read <stdin
grep -m1 'model name' /proc/cpuinfo
