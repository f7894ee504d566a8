#!/bin/sh
# Measures the mixer beside ffmpeg's conversion of the same picture by C code. Run by hand: sh bench/mixer/run.sh
set -e
if ! command -v ffmpeg >/dev/null; then
    echo "no ffmpeg: skipped"
    exit 0
fi
here=$(cd "$(dirname "$0")" && pwd)
work=$(mktemp -d)
trap 'rm -rf "$work"' EXIT
mkdir -p "$work/crates/mixer_bench/src"
for name in cb_types vd_plane mixer; do
    cp -r "$here/../../crates/$name" "$work/crates/$name"
    rm -rf "$work/crates/$name/must-fail"
done
cp "$here/main.rt.txt" "$work/crates/mixer_bench/src/main.rt"
printf 'cb_types:\nvd_plane: cb_types\nmixer: vd_plane\nmixer_bench: mixer vd_plane cb_types anyhow\n' >"$work/crates.txt"
cd "$work/crates/mixer_bench"
: >stdin
rt run >"$work/rattle.log" 2>&1 || { tail -20 "$work/rattle.log"; exit 1; }

pictures=400
source="-f rawvideo -pix_fmt yuv420p -video_size 1280x720"
ffmpeg -v error -f lavfi -i testsrc2=size=1280x720 -frames:v 1 -f rawvideo -pix_fmt yuv420p "$work/planes"

# The processor time of ffmpeg over so many pictures to this format, in microseconds a picture.
theirs() {
    ffmpeg -nostats -benchmark -threads 1 -filter_threads 1 -cpuflags 0 -stream_loop $((pictures - 1)) $source -i "$work/planes" \
        -pix_fmt "$1" -f null - 2>&1 | awk -v pictures=$pictures '/^bench: utime/ { gsub(/[a-z:=]/, " "); printf "%d", ($1 + $2) * 1000000 / pictures }'
}

# In turn, so that all have the same machine; then the best of each.
echo "us a picture: mix, ffmpeg to bgra, ffmpeg without a conversion"
for _ in 1 2 3 4 5 6 7; do
    ./out/mixer_bench <"$work/planes" 2>&1 >"$work/ours" | tr '\n' ' '
    echo "$(theirs bgra) $(theirs yuv420p)"
done | awk '
    { print; if (NR == 1 || $1 < ours) ours = $1; if (NR == 1 || $2 < all) all = $2; if (NR == 1 || $3 < rest) rest = $3 }
    END { printf "best: mix %d us, the conversion by ffmpeg %d us, ratio %.2f\n", ours, all - rest, ours / (all - rest) }'
ffmpeg -v error -cpuflags 0 $source -i "$work/planes" -f rawvideo -pix_fmt bgra "$work/theirs"
cmp -l "$work/ours" "$work/theirs" | awk '
    function value(octal) { return int(octal / 100) * 64 + int(octal / 10) % 10 * 8 + octal % 10 }
    { d = value($2) - value($3); if (d < 0) d = -d; if (d > most) most = d; sum += d }
    END { printf "bytes that differ: %d, by %d at most\n", NR, most }'
grep -m1 'model name' /proc/cpuinfo
