#!/bin/sh
# Measures reads of slice data. Run by hand: sh bench/mb_syntax/run.sh STREAM..; with no streams, two are made by x264 where it is
# there. Each stream is read forty times, and ffmpeg decodes it whole, where it is there.
set -e
here=$(cd "$(dirname "$0")" && pwd)
work=$(mktemp -d)
trap 'rm -rf "$work"' EXIT
streams=$work/streams
mkdir "$streams"
if [ $# -gt 0 ]; then
    cp "$@" "$streams/"
elif command -v x264 >/dev/null && command -v ffmpeg >/dev/null; then
    for qp in 20 32; do
        ffmpeg -loglevel error -f lavfi -i testsrc2=size=640x480:rate=25 -frames:v 100 -pix_fmt yuv420p "$work/in.y4m"
        x264 --quiet --profile baseline --qp $qp -o "$streams/made-qp$qp.264" "$work/in.y4m"
        rm "$work/in.y4m"
    done
else
    echo "no streams given, and no x264 and ffmpeg to make some: skipped"
    exit 0
fi
crates=$here/../../crates
mkdir -p "$work/crates/slice_bench/src"
for name in bit_io cb_tables cavlc element_tables cb_types param_sets slice_header mb_syntax; do
    cp -r "$crates/$name" "$work/crates/$name"
    rm -rf "$work/crates/$name/must-fail"
done
cp "$here/main.rt.txt" "$work/crates/slice_bench/src/main.rt"
cat >"$work/crates.txt" <<'END'
bit_io:
cb_tables:
cavlc: bit_io cb_tables
element_tables: bit_io
cb_types:
param_sets: bit_io cb_types element_tables bitflags
slice_header: bit_io cb_types element_tables
mb_syntax: cavlc bit_io cb_types cb_tables
slice_bench: mb_syntax slice_header param_sets bit_io cb_types anyhow
END
cp "$here/units.rs.txt" "$work/units.rs"
rustc -O -o "$work/units" "$work/units.rs"
cd "$work/crates/slice_bench"
: >stdin
rt run >"$work/rattle.log" 2>&1 || { tail -20 "$work/rattle.log"; exit 1; }
for stream in "$streams"/*; do
    "$work/units" <"$stream" >"$work/units.bin"
    echo "$(basename "$stream"): slice data, the best of forty rounds"
    ./out/slice_bench <"$work/units.bin" | sort -t, -k2 -n | head -1
    if command -v ffmpeg >/dev/null; then
        echo "$(basename "$stream"): the whole decoding by ffmpeg"
        ffmpeg -hide_banner -nostats -benchmark -cpuflags 0 -threads 1 -i "$stream" -f null - 2>&1 | grep "^bench: utime" || true
    fi
done
grep -m1 'model name' /proc/cpuinfo
