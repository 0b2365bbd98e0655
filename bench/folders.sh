#!/usr/bin/env bash
# Times the built program on large folders, beside plain tools that go over the same bytes. Prints for each folder the
# seconds of both and their ratio. Run `make build` first; nothing depends on what this prints.
source "$(dirname "$0")/common.sh"

# One row: a name, the folder, the exit status that the program has for it, and the yardstick with its words.
row() {
    local name=$1 folder=$2 status=$3
    shift 3
    local ours theirs
    ours=$(seconds "$status" "$program" "$folder")
    theirs=$(seconds 0 "$@")
    awk -v n="$name" -v a="$ours" -v b="$theirs" -v y="$1" \
        'BEGIN { printf "%-34s %8ss  %-5s %8ss  ratio %.1f\n", n, a, y, b, a / (b > 0 ? b : 0.001) }'
}

mkdir "$work/blanks" "$work/empty" "$work/calls" "$work/names"
head -c 1048576 /dev/zero | tr '\0' ' ' >"$work/blank"
for i in $(seq -w 1 64); do cp "$work/blank" "$work/blanks/m$i.luau"; done
for i in $(seq -w 1 10000); do : >"$work/empty/m$i.luau"; done
# The last file of each folder has a report, so that the status tells a run that read it from one that did nothing.
(head -c 1048564 "$work/blank" && printf 'math.abs("")') >"$work/blanks/m64.luau"
printf 'math.abs("")' >"$work/empty/m10000.luau"
awk 'BEGIN { for (i = 0; i < 87381; i++) print "math.abs(1)" }' >"$work/calls/numbers.luau"
awk 'BEGIN { for (i = 0; i < 65536; i++) print "math.abs(\"\")   " }' >"$work/calls/strings.luau"
find "$work/empty" -name '*.luau' | sort -R >"$work/names/list"

row '64 files of 1,048,576 blanks' "$work/blanks" 1 wc -c "$work"/blanks/*.luau
row '2 files of calls, about 2 MiB' "$work/calls" 1 wc -c "$work"/calls/*.luau
row '10,000 files, all but one empty' "$work/empty" 1 sort "$work/names/list"
