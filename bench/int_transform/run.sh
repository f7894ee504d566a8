#!/bin/sh
# Measures residuals of 4x4 blocks against the same transform in plain Rust. Run by hand: sh bench/int_transform/run.sh
set -e
here=$(cd "$(dirname "$0")" && pwd)
work=$(mktemp -d)
trap 'rm -rf "$work"' EXIT
mkdir -p "$work/crates/residual_bench/src"
for crate in cb_tables int_transform; do
    cp -r "$here/../../crates/$crate" "$work/crates/$crate"
    rm -rf "$work/crates/$crate/must-fail"
done
cp "$here/main.rt.txt" "$work/crates/residual_bench/src/main.rt"
printf 'cb_tables:\nint_transform: cb_tables\nresidual_bench: int_transform\n' >"$work/crates.txt"
rustc --edition 2024 -O -o "$work/residual" - <"$here/residual.rs.txt"
cd "$work/crates/residual_bench"
rt run >"$work/rattle.log" 2>&1 || { tail -20 "$work/rattle.log"; exit 1; }
echo "rattle"
./out/residual_bench
echo "plain Rust"
"$work/residual"
grep -m1 'model name' /proc/cpuinfo
