#!/bin/sh
# Measures look-ups of coeff_token against the same look-up in plain Rust. Run by hand: sh bench/cb_tables/run.sh
set -e
here=$(cd "$(dirname "$0")" && pwd)
work=$(mktemp -d)
trap 'rm -rf "$work"' EXIT
crate=$here/../../crates/cb_tables
mkdir -p "$work/crates/token_bench/src"
cp -r "$crate" "$work/crates/cb_tables"
rm -rf "$work/crates/cb_tables/must-fail"
cp "$here/main.rt.txt" "$work/crates/token_bench/src/main.rt"
printf 'cb_tables:\ntoken_bench: cb_tables\n' >"$work/crates.txt"
{
    sed '/^pub(crate) use/d' "$crate/src/macros.rt"
    sed -n '/^static CODES/,/^\/\/\/ The code/p' "$crate/src/coeff_token.rt" | grep -v '^///'
    cat "$here/tokens.rs.txt"
} >"$work/tokens.rs"
rustc -O -o "$work/tokens" "$work/tokens.rs"
cd "$work/crates/token_bench"
rt run >"$work/rattle.log" 2>&1 || { tail -20 "$work/rattle.log"; exit 1; }
echo "rattle"
./out/token_bench
echo "plain Rust"
"$work/tokens"
grep -m1 'model name' /proc/cpuinfo
