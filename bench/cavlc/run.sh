#!/bin/sh
# Measures reads of blocks against the same reading in plain Rust. Run by hand: sh bench/cavlc/run.sh
set -e
here=$(cd "$(dirname "$0")" && pwd)
work=$(mktemp -d)
trap 'rm -rf "$work"' EXIT
crates=$here/../../crates
mkdir -p "$work/crates/block_bench/src"
for name in bit_io cb_tables cavlc; do
    cp -r "$crates/$name" "$work/crates/$name"
    rm -rf "$work/crates/$name/must-fail"
done
cp "$here/main.rt.txt" "$work/crates/block_bench/src/main.rt"
printf 'bit_io:\ncb_tables:\ncavlc: bit_io cb_tables\nblock_bench: cavlc bit_io\n' >"$work/crates.txt"
# the statics of a file of cb_tables, in a module
tables() {
    echo "mod $1 {"
    awk '/^static/ { on = 1 } on { print } /^[]}];/ { on = 0 }' "$crates/cb_tables/src/$2" | sed 's/^static/pub static/'
    echo "}"
}
{
    sed '/^pub(crate) use/d' "$crates/cb_tables/src/macros.rt"
    tables token coeff_token.rt
    tables zeros total_zeros.rt
    tables run run_before.rt
    cat "$here/blocks.rs.txt"
} >"$work/blocks.rs"
rustc -O -o "$work/blocks" "$work/blocks.rs"
cd "$work/crates/block_bench"
"$work/blocks" write 1 stdin
rt run >"$work/rattle.log" 2>&1 || { tail -20 "$work/rattle.log"; exit 1; }
for levels in 1 4 12; do
    "$work/blocks" write $levels "$work/$levels.bits"
    echo "$levels levels a block, rattle"
    ./out/block_bench <"$work/$levels.bits"
    echo "$levels levels a block, plain Rust"
    "$work/blocks" read <"$work/$levels.bits"
done
grep -m1 'model name' /proc/cpuinfo
