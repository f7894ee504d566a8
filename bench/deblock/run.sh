#!/bin/sh
# Measures the deblocking filter against the same in plain Rust. Run by hand: sh bench/deblock/run.sh
set -e
here=$(cd "$(dirname "$0")" && pwd)
work=$(mktemp -d)
trap 'rm -rf "$work"' EXIT
crates=$here/../../crates
mkdir -p "$work/crates/deblock_bench/src"
for name in cb_types cb_tables vd_plane int_transform deblock; do
    cp -r "$crates/$name" "$work/crates/$name"
    rm -rf "$work/crates/$name/must-fail"
done
cp "$here/main.rt.txt" "$work/crates/deblock_bench/src/main.rt"
printf 'cb_types:\ncb_tables:\nvd_plane: cb_types\nint_transform: cb_tables\ndeblock: vd_plane cb_types cb_tables int_transform\ndeblock_bench: deblock vd_plane cb_types int_transform\n' >"$work/crates.txt"
cp "$here/plain.rs.txt" "$work/plain.rs"
rustc --edition 2024 -O -C target-cpu=x86-64-v2 -o "$work/plain" "$work/plain.rs"
cd "$work/crates/deblock_bench"
rt run >"$work/rattle.log" 2>&1 || { tail -20 "$work/rattle.log"; exit 1; }
./out/deblock_bench >"$work/rattle.txt"
"$work/plain" >"$work/plain.txt"
echo "marks (0 mixed, 1 intra, 2 still), us a picture, us in plain Rust, ratio"
paste -d ' ' "$work/rattle.txt" "$work/plain.txt" | awk '{
    if ($3 != $6) { print "sums differ"; exit 1 }
    printf "%s  %d %d  %.2f\n", $1, $2, $5, $2 / $5
}'
grep -m1 'model name' /proc/cpuinfo
