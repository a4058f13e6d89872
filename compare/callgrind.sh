#!/bin/bash
# Instructions a pixel of the picture, at 64 a side, of the original and of the library; and those of one changed pixel, its paint
# and its refresh, at 256 a side, in a session and in a nine-times one. Needs valgrind; the counts repeat.
set -eu
here=$(cd "$(dirname "$0")" && pwd)
side=64
"$here/run" --build
program=$("$here/run" --where)
room=$(mktemp -d)
trap 'rm -rf "$room"' EXIT

# The instructions inside a function, in one call.
count() { # FUNCTION WORDS..
    local function=$1
    shift
    valgrind --tool=callgrind --toggle-collect="$function" --callgrind-out-file="$room/out" \
        "$program" bench --calls "$@" >"$room/said" 2>&1
    sed -n 's/^.*Collected : *\([0-9]*\).*$/\1/p' "$room/said"
}

for call in scale scale9x; do
    for picture in page noise; do
        original=$(count "*original_$call*" "$call" "$picture" "$side" original)
        library=$(count "panel_$call" "$call" "$picture" "$side")
        awk -v c="$call" -v p="$picture" -v n=$((side * side)) -v a="$original" -v b="$library" 'BEGIN {
            printf "%-8s %-6s original %9.1f   library %9.1f instructions a pixel   library / original %.3f\n", c, p, a / n, b / n, b / a
        }'
    done
done
for call in change change9; do
    for picture in page noise; do
        awk -v c="$call" -v p="$picture" -v b="$(count "*change_pixel*" "$call" "$picture" 256)" 'BEGIN {
            printf "%-8s %-6s library %9.0f instructions for one changed pixel\n", c, p, b
        }'
    done
done
