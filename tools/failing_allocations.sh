#!/bin/sh
# Lets each allocation of the program `failing_allocations` fail in turn, and checks that the library reports it. The status is not 0 if a run ends
# in an unexpected way, faults or hangs. It proves nothing (`rt try`), and takes some minutes.
#
# First, each shape is printed without a failure, and then the empty module, which is the last shape and is printed alone in its own run. The
# status must be 0, with `printed` for each module. This run also counts the allocations. One of them may be the program's own, for the text
# to which lines are appended. Two pairs of shapes must make the same number of allocations: a second name for an item needs no allocation
# (`names once` and `names replaced`), and neither do the calls that are listed in src/without_memory.rt (`setup` and `calls without memory`).
#
# Then each of these allocations fails in a run of its own, which must end with status 1, `out of memory` for one module and `printed` for the
# other. Some allocations only give back the spare capacity of a list: if one of them fails, the run must end as the first run. In one more
# run for each shape, the allocation after the last would fail: this run must end as the first run. For three shapes, a table gives the length
# of the text before each failure. The number of allocations is not known for the shape that reads a file. It must be at least that of the
# shape that copies the same bytes. The runs in which one of its allocations fails must come before those without.
#
# Names of 1 to 300 characters are written to a text that has room for a part of the name only: each character by itself, as a quoted
# string, and as a byte string. In one run for each name, the allocation that extends the text fails, and the program checks that the text
# contains exactly the pieces that fit.
#
# The allocation that fails always has the same number. Before it prints, each run makes allocations of its own, one fewer than the previous
# run, so that a later allocation of the library gets that number. The runs are distributed among as many builds as there are processors.
set -eu
cd "$(dirname "$0")/../crates/failing_allocations"
shapes=$(wc -l <stdout)
workers=$(nproc)
began=$(date +%s)
work=$(mktemp -d)
trap 'rm -rf "$work"' EXIT

# lengths: prints a line for each of three shapes: the number of bytes of text before the first allocation fails, before the second fails,
# and so on. A faster library must leave the same numbers. `-` is the program's own allocation.
lengths() {
    cat <<'END'
lines: - 0 0 0 0 0 0 0 1 11 28 61 108 123 249 252 501 555 971
lines in quotes: - 0 0 1 11 29 61 125 253
folded: 0 0 0 0 0 0 0 0 139 139 139 139 139 201 201 201 201 201 201 201 201 250
END
}

# spare: prints a line for each shape in which the list of names has spare capacity, with the numbers of the allocations that give it back.
spare() {
    cat <<'END'
names again: 13 36
names alone: 13
lists: 9 27
setup: 9 22 43
calls without memory: 9 22 43
END
}

# names: prints a line for each name, `FORM WIDTH CHARACTERS`, the numbers that the program reads. The forms are 0 (each character by
# itself), 1 (a quoted string) and 2 (a byte string).
names() {
    awk 'BEGIN {
        for (form = 0; form <= 2; form++) {
            for (width = 0; width <= 5; width++)
                for (chars = 1 + width + 6 * form; chars <= 300; chars += 17) print form, width, chars
            for (chars = 254; chars <= 258; chars++) print form, 1, chars
            print form, 4, 300
        }
    }' | sort -u
}

# runs NUMBER: runs the cases in $work/cases*, and lets the allocation with that number fail in each. Writes their output to $work/out, and
# the report of `rt try` to $work/err. The file of a case contains the number of allocations to make first, and the number of the shape, both
# with four digits. For a name, three more numbers follow: its form, the width of its characters, and the number of characters.
runs() {
    for cases in "$work"/cases*; do
        rt try --data everything.wasm=data/everything.wasm --fail-alloc "$1" --cases "$cases" >"$cases.out" 2>"$cases.err" || touch "$cases.failed" &
    done
    wait
    cat "$work"/cases*.out >"$work/out"
    cat "$work"/cases*.err >"$work/err"
    if ls "$work"/cases*.failed >"$work/failed" 2>&1; then
        cat "$work/err"
        echo "failing_allocations: a run faulted, hung, or differed between its two executions"
        exit 1
    fi
    rm -r "$work"/cases*
}

# ended: prints a line for each run, `SHAPE REQUEST STATUS PRINTED REFUSED REQUESTS LENGTH`: the two parts of its name, its status, the
# number of lines `printed` and of lines `out of memory`, the number of allocations (`-` if it is not known), and the number of bytes of text
# before the failure. Any other line of a run is reported, and makes the status 9.
ended() {
    awk -v err="$work/err" '
        BEGIN { made = "-" }
        FILENAME != err && /^== / { run = $2; next }
        FILENAME != err && /: printed$/ { printed[run]++; next }
        FILENAME != err && /: out of memory$/ { refused[run]++; next }
        FILENAME != err && /: out of memory after [0-9]+ bytes$/ { refused[run]++; if (!/^empty: /) len[run] = $(NF - 1); next }
        FILENAME != err { other[run] = 1; print "failing_allocations: run " run ": " $0 >"/dev/stderr" }
        FILENAME == err && /^allocations: / { made = $2 ~ /^[0-9]+$/ ? $2 : "-" }
        FILENAME == err && /^case=/ {
            run = substr($1, 6)
            status = 9
            for (i = 2; i <= NF; i++) if ($i ~ /^status=/ && !other[run]) status = substr($i, 8)
            split(run, name, "-")
            print name[1], name[2], status, printed[run] + 0, refused[run] + 0, made, (run in len) ? len[run] : "-"
            made = "-"
        }
    ' "$work/out" "$work/err"
}

# no allocation fails: no run makes 9999 allocations
mkdir "$work/cases0"
shape=0
while [ "$shape" -lt "$shapes" ]; do
    printf '0000%04d' "$shape" >"$work/cases0/$shape-0"
    shape=$((shape + 1))
done
runs 9999
ended >"$work/whole"
if ! awk -v shapes="$shapes" '
    NR == FNR { sub(/: printed$/, ""); name[NR - 1] = $0; next }
    $3 == 0 && $5 == 0 && (name[$1] == "file" ? $6 == "-" : $6 > 0) && $4 == ($1 + 1 == shapes ? 1 : 2) { well++ }
    END { exit well != shapes }
' stdout "$work/whole"; then
    cat "$work/whole"
    echo "failing_allocations: a shape was not printed"
    exit 1
fi

if ! awk '
    NR == FNR { sub(/: printed$/, ""); name[NR - 1] = $0; next }
    { requests[name[$1]] = $6 }
    function differ(x, y) { return !(requests[x] > 0) || requests[x] != requests[y] }
    END { exit differ("names once", "names replaced") || differ("setup", "calls without memory") }
' stdout "$work/whole"; then
    cat "$work/whole"
    echo "failing_allocations: a second name for an item, or a call that needs no memory, makes an allocation"
    exit 1
fi

# each allocation fails, and the one after the last; for a name the fourth allocation, which extends the text
growth=4
last=$(awk '$6 + 2 > last { last = $6 + 2 } END { print last }' "$work/whole")
run=0
while read -r shape _ _ _ _ requests _; do
    request=1
    [ "$requests" != - ] || requests=$((last - 2))
    while [ "$request" -le $((requests + 1)) ]; do
        mkdir -p "$work/cases$((run % workers))"
        printf '%04d%04d' "$((last - request))" "$shape" >"$work/cases$((run % workers))/$shape-$request"
        request=$((request + 1))
        run=$((run + 1))
    done
done <"$work/whole"
names >"$work/names"
while read -r form width chars; do
    case="$work/cases$((run % workers))/name.$form.$width.$chars-$growth"
    printf '%04d0000%04d%04d%04d' "$((last - growth))" "$form" "$width" "$chars" >"$case"
    run=$((run + 1))
done <"$work/names"
runs "$last"
ended >"$work/refused"
lengths >"$work/lengths"
spare >"$work/spare"
awk -v runs="$run" -v shapes="$shapes" -v names="$(wc -l <"$work/names")" -v last="$last" -v work="$work" '
    FILENAME == "stdout" { sub(/: printed$/, ""); number[$0] = FNR - 1; next }
    FILENAME == work "/lengths" { at = index($0, ": "); expected[number[substr($0, 1, at - 1)]] = substr($0, at + 1); next }
    FILENAME == work "/spare" {
        at = index($0, ": ")
        count = split(substr($0, at + 2), listed, " ")
        for (i = 1; i <= count; i++) harmless[number[substr($0, 1, at - 1)], listed[i]] = 1
        next
    }
    FILENAME == work "/whole" { requests[$1] = $6; next }
    { len[$1, $2] = $7 }
    $1 ~ /^name/ && $3 == 1 && $4 == 0 && $5 == 1 { named++; next }
    $1 ~ /^name/ { print "failing_allocations: " $1 ": status " $3; next }
    { whole = $1 + 1 == shapes ? 1 : 2 }
    $3 == 1 && $5 == 1 && $4 == whole - 1 { failed[$1, $2] = 1; reported++; next }
    $3 == 0 && $5 == 0 && $4 == whole { unrefused++; next }
    { print "failing_allocations: allocation " $2 " of shape " $1 ": status " $3 ", " $4 " printed, " $5 " out of memory" }
    END {
        for (shape in requests) {
            if (requests[shape] == "-") {
                for (count = 0; (shape, count + 1) in failed; count++) continue
                if (count < requests[number["source"]] || count > last - 2) { print "failing_allocations: shape " shape ": " count " failed allocations"; differ++ }
                requests[shape] = count
            }
            for (i = 1; i < last; i++) {
                reports = i <= requests[shape] && !((shape, i) in harmless)
                if (((shape, i) in failed) == reports) continue
                print "failing_allocations: allocation " i " of shape " shape ": expected " (reports ? "a failure" : "no failure")
                differ++
            }
        }
        for (shape in expected) {
            found = ""
            for (i = 1; i <= requests[shape]; i++) if (len[shape, i] != "-" || i == 1) found = found " " len[shape, i]
            if (found != expected[shape]) { print "failing_allocations: shape " shape ": text of" found " bytes, expected" expected[shape]; differ++ }
        }
        print "failing_allocations: " reported + 0 " failed allocations in " shapes " shapes were reported as such"
        print "failing_allocations: of " names " names, " named + 0 " left exactly the pieces that fit"
        exit differ || named != names || reported + unrefused + named != runs
    }
' stdout "$work/lengths" "$work/spare" "$work/whole" "$work/refused"
echo "failing_allocations: $(($(date +%s) - began)) seconds"
