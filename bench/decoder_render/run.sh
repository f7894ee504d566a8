#!/bin/sh
# Measures the decoding of pictures beside ffmpeg's by C code. Run by hand: sh bench/decoder_render/run.sh. The stream is made by x264
# from ffmpeg's test pattern, 30 pictures of 1280x720: one slice a picture, which refers to the picture before.
set -e
if ! command -v ffmpeg >/dev/null || ! command -v x264 >/dev/null; then
    echo "no ffmpeg or no x264: skipped"
    exit 0
fi
here=$(cd "$(dirname "$0")" && pwd)
work=$(mktemp -d)
trap 'rm -rf "$work"' EXIT
names="bit_io cavlc cb_tables cb_types deblock decoder_render element_tables int_transform inter_pred intra_pred mb_syntax motion mv_pred
    nal_units param_sets recon ref_lists slice_header vd_plane"
mkdir -p "$work/crates/decoder_bench/src" "$work/crates/decoder_bench/proofs/are_held"
for name in $names; do
    cp -r "$here/../../crates/$name" "$work/crates/$name"
    rm -rf "$work/crates/$name/must-fail"
    grep "^$name:" "$here/../../crates.txt" >>"$work/crates.txt"
done
echo "decoder_bench: decoder_render param_sets slice_header recon vd_plane bit_io cb_types anyhow" >>"$work/crates.txt"
cp "$here/main.rt.txt" "$work/crates/decoder_bench/src/main.rt"
cp "$here/invariants.antt.txt" "$work/crates/decoder_bench/proofs/are_held/Invariants.antt"
cp "$here/units.rs.txt" "$work/units.rs"
rustc -O -o "$work/units" "$work/units.rs"
cd "$work/crates/decoder_bench"
: >stdin
rt run >"$work/rattle.log" 2>&1 || { tail -20 "$work/rattle.log"; exit 1; }

pictures=30
stream=$work/made.264
ffmpeg -v error -f lavfi -i testsrc2=size=1280x720:rate=25 -frames:v $pictures -pix_fmt yuv420p "$work/in.y4m"
x264 --quiet --no-progress --threads 1 --profile baseline --ref 1 --qp 28 -o "$stream" "$work/in.y4m" 2>/dev/null
"$work/units" <"$stream" >"$work/units.bin"
for _ in 1 2 3 4 5 6 7 8 9 10 11 12 13 14 15 16 17 18 19 20; do cat "$stream"; done >"$work/twenty.264"

# The processor time of ffmpeg over the stream twenty times, in microseconds a picture.
theirs() {
    ffmpeg -nostats -benchmark -cpuflags 0 -threads 1 -i "$work/twenty.264" -f null - 2>&1 |
        awk -v pictures=$((20 * pictures)) '/^bench: utime/ { gsub(/[a-z:=]/, " "); printf "%d", ($1 + $2) * 1000000 / pictures }'
}

# In turn, so that both have the same machine; then the best of each.
echo "$(wc -c <"$stream") bytes; us a picture: decode, ffmpeg"
for _ in 1 2 3 4 5; do
    ./out/decoder_bench <"$work/units.bin" 2>&1 >"$work/ours" | awk '{ printf "%d ", $2 / $1 }'
    theirs
    echo
done | awk '
    { print; if (NR == 1 || $1 < ours) ours = $1; if (NR == 1 || $2 < theirs) theirs = $2 }
    END { printf "best: decode %d us, ffmpeg %d us, ratio %.2f\n", ours, theirs, ours / theirs }'
ffmpeg -v error -i "$stream" -f rawvideo -pix_fmt yuv420p - | tail -c 1382400 >"$work/last"
if cmp -s "$work/ours" "$work/last"; then echo "the last pictures are equal"; else echo "the last pictures differ"; fi
grep -m1 'model name' /proc/cpuinfo
