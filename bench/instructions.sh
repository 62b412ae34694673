#!/bin/sh
# Instructions of a call of pkreg on 20,000 pixels, counted by callgrind inside that call only, beside the same call of the unverified C++
# PK-tree of bench/tree.hpp, and nearest beside boost's R-tree, counted in the same way. Needs valgrind; callgrind's files stay in build/,
# for callgrind_annotate.
cd "$(dirname "$0")/.." || exit 1
PIXELS=${PIXELS:-20000}

# instructions NAME SET FUNCTION PANEL K: calls, numbers found and instructions of one run
instructions() {
    file=build/callgrind.$1.$2.$4.$5
    said=$(valgrind --quiet --tool=callgrind --toggle-collect="$3" --callgrind-out-file="$file" \
        build/bench --only "$1" --set "$2" --panel "$4" --pixels "$PIXELS" --k "$5") || exit 1
    echo "$said" "$(awk '/^(totals|summary):/ { total = $2 } END { print total }' "$file")"
}

# print NAME PANEL K UNIT: a line from the two runs; with UNIT pixel, for each pixel of the register
print() {
    awk -v name="$1" -v panel="$2" -v k="$3" -v unit="$4" -v pixels="$PIXELS" '
        { each = $5 / $1; other = $10 / $6
          if (unit == "pixel") { each /= pixels; other /= pixels }
          found = name ~ /^list/ ? "" : sprintf("%.1f", $3 / $1)  # of a list, bench sums codes too
          printf "%-11s %-8s %2d %10.1f %10.1f per %-5s %6.2f %10s\n", name, panel, k, each, other, unit, each / other, found }'
}

# row NAME CALL PANEL UNIT
row() {
    for k in 3 8; do
        ours=$(instructions "$1" pkreg "pk_$2" "$3" "$k") || exit 1
        other=$(instructions "$1" tree "unverified::$2(*" "$3" "$k") || exit 1
        echo "$ours" "$other" | print "$1" "$3" "$k" "$4"
    done
}

# nearest_row PANEL: unbounded searches; the last figure is the blocks opened
nearest_row() {
    for k in 3 8; do
        ours=$(instructions nearest pkreg pk_nearest "$1" "$k") || exit 1
        other=$(instructions nearest-r-tree r-tree 'PointTree::nearest*' "$1" "$k") || exit 1
        echo "$ours" "$other" | print nearest "$1" "$k" call
    done
}

printf '%-11s %-8s %2s %10s %10s     %-5s %6s %10s\n' call panel k pkreg C++ '' ratio found/call
for panel in spread crowded; do
    for call in mark clear ask; do
        row $call $call $panel call
    done
    row count-16 count $panel call
    row count-256 count $panel call
    [ $panel = crowded ] && row count-spot count $panel call
    row count-all count $panel call
    row list-16 list $panel call
    row list-256 list $panel call
    row list-all list $panel pixel
    for call in save fill load; do
        row $call $call $panel pixel
    done
done
printf '%-11s %-8s %2s %10s %10s     %-5s %6s %10s\n' '' '' '' pkreg R-tree '' ratio opened
for panel in spread crowded ring; do
    nearest_row $panel
done
