#!/bin/sh
# Measures pictures of several slices, decoded by one thread and with their slices at once, beside ffmpeg's slice threads. Run by
# hand: sh bench/slices/run.sh. The streams are made by x264 from ffmpeg's test pattern, 20 pictures of 1920x1088, each of which
# refers to the picture before: of eight slices, and of one.
set -e
if ! command -v ffmpeg >/dev/null || ! command -v x264 >/dev/null; then
    echo "no ffmpeg or no x264: skipped"
    exit 0
fi
here=$(cd "$(dirname "$0")" && pwd)
work=$(mktemp -d)
trap 'rm -rf "$work"' EXIT
names="bit_io cavlc cb_tables cb_types deblock decoder_render element_tables int_transform inter_pred intra_pred mb_syntax motion mv_pred
    nal_units param_sets recon ref_lists slice_header vd_outside vd_plane"
mkdir -p "$work/crates/slices_bench/src"
for name in $names; do
    cp -r "$here/../../crates/$name" "$work/crates/$name"
    rm -rf "$work/crates/$name/must-fail"
    grep "^$name:" "$here/../../crates.txt" >>"$work/crates.txt"
done
cp "$here/../../HANDLES" "$work/HANDLES"
echo "slices_bench: decoder_render param_sets slice_header recon vd_outside vd_plane bit_io cb_types anyhow" >>"$work/crates.txt"
cp "$here/main.rt.txt" "$work/crates/slices_bench/src/main.rt"
cp "$here/../decoder_render/units.rs.txt" "$work/units.rs"
rustc -O -o "$work/units" "$work/units.rs"
cd "$work/crates/slices_bench"
: >stdin
rt run >"$work/rattle.log" 2>&1 || { tail -20 "$work/rattle.log"; exit 1; }

pictures=20
ffmpeg -v error -f lavfi -i testsrc2=size=1920x1088:rate=25 -frames:v $pictures -pix_fmt yuv420p "$work/in.y4m"

# The time of ffmpeg over a stream ten times, in microseconds a picture, by so many threads.
theirs() {
    for _ in 1 2 3 4 5 6 7 8 9 10; do cat "$1"; done >"$work/ten.264"
    ffmpeg -nostats -benchmark -cpuflags 0 -threads "$2" -thread_type slice -i "$work/ten.264" -f null - 2>&1 |
        awk -v pictures=$((10 * pictures)) '/^bench: utime/ { split($4, t, "="); printf "%d", t[2] * 1000000 / pictures }'
}

# In turn, so that all have the same machine; then the best of each.
for slices in 8 1; do
    stream=$work/made.264
    x264 --quiet --no-progress --threads 1 --profile baseline --ref 1 --qp 28 --slices $slices -o "$stream" "$work/in.y4m" 2>/dev/null
    "$work/units" <"$stream" >"$work/units.bin"
    echo "$slices slices, $(wc -c <"$stream") bytes; us a picture: decode, decode_gated, ffmpeg by one thread, ffmpeg by four"
    for _ in 1 2 3 4 5; do
        ./out/slices_bench <"$work/units.bin" 2>&1 >"$work/ours" | awk '{ printf "%d %d ", $2 / $1, $3 / $1 }'
        theirs "$stream" 1
        printf " "
        theirs "$stream" 4
        echo
    done | awk '
        { print; for (k = 1; k <= 4; k++) if (NR == 1 || $k < best[k]) best[k] = $k }
        END { printf "best: %d %d %d %d; decode_gated is %.2f times as fast as decode\n", best[1], best[2], best[3], best[4], best[1] / best[2] }'
    ffmpeg -v error -i "$stream" -f rawvideo -pix_fmt yuv420p - | tail -c 3133440 >"$work/last"
    if cmp -s "$work/ours" "$work/last"; then echo "the last pictures are equal"; else echo "the last pictures differ"; fi
done
grep -m1 'model name' /proc/cpuinfo
