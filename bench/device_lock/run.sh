#!/bin/sh
# Measures turns of a lock against std's Mutex around the same work, and what waiting costs. Run by hand: sh bench/device_lock/run.sh
set -e
here=$(cd "$(dirname "$0")" && pwd)
work=$(mktemp -d)
trap 'rm -rf "$work"' EXIT
crates=$here/../../crates
mkdir -p "$work/crates/lock_bench/src" "$work/crates/lock_bench/proofs/count_many"
cp -r "$crates/device_lock" "$work/crates/device_lock"
rm -rf "$work/crates/device_lock/must-fail"
cp "$here/main.rt.txt" "$work/crates/lock_bench/src/main.rt"
cp "$here/invariants.antt.txt" "$work/crates/lock_bench/proofs/count_many/Invariants.antt"
printf 'device_lock: atomic_table\nlock_bench: device_lock\n' >"$work/crates.txt"
echo 'Handles allowed: Threads, Wait.' >"$work/HANDLES"
cd "$work/crates/lock_bench"
rt run </dev/null >"$work/rattle.log" 2>&1 || { tail -20 "$work/rattle.log"; exit 1; }
echo "a million turns: ms alone, ms by four threads, ms by sixteen"
for round in 1 2 3 4 5; do
    ./out/lock_bench </dev/null
done
echo "sixteen threads, each of which holds the value for 100 ms:"
echo holds >"$work/stdin"
bash -c 'TIMEFORMAT="%R s, of the processor %U s and %S s"; time ./out/lock_bench <"$1"' bash "$work/stdin"
grep -m1 'model name' /proc/cpuinfo
