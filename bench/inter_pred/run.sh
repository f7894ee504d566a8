#!/bin/sh
# Measures luma prediction against the same in plain Rust. Run by hand: sh bench/inter_pred/run.sh
set -e
here=$(cd "$(dirname "$0")" && pwd)
work=$(mktemp -d)
trap 'rm -rf "$work"' EXIT
crates=$here/../../crates
mkdir -p "$work/crates/luma_bench/src"
for name in cb_types vd_plane inter_pred; do
    cp -r "$crates/$name" "$work/crates/$name"
    rm -rf "$work/crates/$name/must-fail"
done
cp "$here/main.rt.txt" "$work/crates/luma_bench/src/main.rt"
printf 'cb_types:\nvd_plane: cb_types\ninter_pred: vd_plane\nluma_bench: inter_pred vd_plane\n' >"$work/crates.txt"
cp "$here/plain.rs.txt" "$work/plain.rs"
rustc -O -C target-cpu=x86-64-v2 -o "$work/plain" "$work/plain.rs"
cd "$work/crates/luma_bench"
rt run >"$work/rattle.log" 2>&1 || { tail -20 "$work/rattle.log"; exit 1; }
./out/luma_bench >"$work/rattle.txt"
"$work/plain" >"$work/plain.txt"
echo "side, quarters right and below, ns a call, ns in plain Rust, ratio"
paste -d ' ' "$work/rattle.txt" "$work/plain.txt" | awk '{
    if ($5 != $10) { print "sums differ"; exit 1 }
    printf "%s %s %s  %.0f %.0f  %.2f\n", $1, $2, $3, $4 / 1000, $9 / 1000, $4 / $9
}'
grep -m1 'model name' /proc/cpuinfo
