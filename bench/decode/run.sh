#!/bin/sh
# Measures `vdplay decode` beside other decoders over whole streams. Run by hand: sh bench/decode/run.sh [VDPLAY]. The built program is
# crates/vdplay/out/vdplay where none is named, which `rt run` there proves and builds. The streams are made by x264's baseline encoder
# of two moving pictures of ffmpeg's, with noise, at two sizes. Each decoder writes planes to /dev/null, on one thread: ffmpeg by its C
# code, ffmpeg with vector instructions, and openh264 with its own, where Debian's libopenh264-dev is there.
set -e
for name in ffmpeg x264 /usr/bin/time; do
    command -v $name >/dev/null || { echo "no $name: skipped"; exit 0; }
done
here=$(cd "$(dirname "$0")" && pwd)
work=$(mktemp -d)
trap 'rm -rf "$work"' EXIT
ours=${1:-$here/../../crates/vdplay/out/vdplay}
if [ ! -x "$ours" ]; then
    (cd "$here/../../crates/vdplay" && rt run -- decode data/two.264) >"$work/rattle.log" 2>&1 || { tail -20 "$work/rattle.log"; exit 1; }
fi
openh264=
if [ -e /usr/include/wels/codec_api.h ] && command -v cc >/dev/null; then
    cp "$here/openh264.c.txt" "$work/openh264.c"
    cc -O2 -o "$work/openh264" "$work/openh264.c" -lopenh264 && openh264=$work/openh264
fi

# Processor time (user and system, in seconds) and peak memory (in MiB) of a command, whose output goes to /dev/null.
spent() {
    /usr/bin/time -f '%U %S %M' -o "$work/time" "$@" >/dev/null 2>&1
    awk 'END { printf "%.2f %.1f ", $1 + $2, $3 / 1024 }' "$work/time"
}

# One line for each round, in turn, so that all have the same machine; then the best of each, and the middle one of the rounds' ratios.
measure() {
    for _ in 1 2 3 4 5 6 7 8 9; do
        spent "$ours" decode "$1"
        spent ffmpeg -v error -threads 1 -cpuflags 0 -i "$1" -f rawvideo -pix_fmt yuv420p -y /dev/null
        spent ffmpeg -v error -threads 1 -i "$1" -f rawvideo -pix_fmt yuv420p -y /dev/null
        if [ "$openh264" ]; then spent "$openh264" "$1"; else printf 'none none'; fi
        echo
    done | awk '
        function least(k) { if (NR == 1 || $k < best[k]) best[k] = $k }
        {
            print "  " $0
            least(1); least(3); least(5); least(7)
            if ($2 > memory) memory = $2
            for (k = NR; k > 1 && ratios[k - 1] > $1 / $3; k--) ratios[k] = ratios[k - 1]
            ratios[k] = $1 / $3
        }
        END {
            printf "  best: vdplay %s s, ffmpeg C %s s (ratio %.2f), ffmpeg %s s (%.2f)", best[1], best[3], best[1] / best[3], best[5], best[1] / best[5]
            if (best[7] != "none") printf ", openh264 %s s (%.2f)", best[7], best[1] / best[7]
            printf "\n  to ffmpeg C round by round: %.2f (%.2f to %.2f); vdplay took %s MiB\n", ratios[int((NR + 1) / 2)], ratios[1], ratios[NR], memory
        }'
}

# The instructions of a command on the first pictures of a stream.
instructions() {
    valgrind --tool=callgrind --callgrind-out-file=/dev/null "$@" 2>&1 >/dev/null | awk '/refs:/ { gsub(",", "", $NF); print $NF }'
}

# Instructions a picture, from the sixth to the eighteenth: whatever else runs, they are the same.
count() {
    for pictures in 6 18; do
        ffmpeg -v error -i "$1" -c copy -frames:v $pictures -f h264 -y "$work/first.264"
        instructions "$ours" decode "$work/first.264"
        instructions ffmpeg -v error -threads 1 -cpuflags 0 -i "$work/first.264" -f rawvideo -pix_fmt yuv420p -y /dev/null
    done | awk '
        { found[NR] = $1 }
        END {
            ours = (found[3] - found[1]) / 12000000
            theirs = (found[4] - found[2]) / 12000000
            printf "  millions of instructions a picture: vdplay %.1f, ffmpeg C %.1f (ratio %.2f)\n", ours, theirs, ours / theirs
        }'
}

# Whether the planes are the same; at the coded size, that is without cropping. openh264 crops.
compare() {
    "$ours" decode "$1" | md5sum >"$work/ours"
    ffmpeg -v error -flags2 +ignorecrop -i "$1" -f rawvideo -pix_fmt yuv420p - | md5sum >"$work/theirs"
    if cmp -s "$work/ours" "$work/theirs"; then echo "  ffmpeg's planes are the same"; else echo "  ffmpeg's planes differ"; fi
    if [ "$openh264" ]; then
        ffmpeg -v error -i "$1" -f rawvideo -pix_fmt yuv420p - | md5sum >"$work/theirs"
        "$openh264" "$1" | md5sum >"$work/ours"
        if cmp -s "$work/ours" "$work/theirs"; then echo "  openh264's are too"; else echo "  openh264's planes differ"; fi
    fi
}

for size in 1280x720 1920x1080; do
    for source in testsrc2 mandelbrot; do
        stream=$work/made.264
        ffmpeg -v error -f lavfi -i "$source=size=$size:rate=25,noise=alls=6:allf=t" -frames:v 60 -pix_fmt yuv420p -y "$work/in.y4m"
        x264 --quiet --no-progress --threads 1 --profile baseline --ref 3 --crf 23 -o "$stream" "$work/in.y4m" 2>/dev/null
        rm "$work/in.y4m"
        echo "$source $size, 60 pictures, $(wc -c <"$stream") bytes; s and MiB: vdplay, ffmpeg C, ffmpeg, openh264"
        measure "$stream"
        if command -v valgrind >/dev/null; then count "$stream"; fi
        compare "$stream"
    done
done
ffmpeg -version | head -1
x264 --version | head -1
if [ "$openh264" ]; then dpkg-query -W -f '${Package} ${Version}\n' libopenh264-dev 2>/dev/null || true; fi
grep -m1 'model name' /proc/cpuinfo
