#!/usr/bin/env bash
# Times how the built program cuts 64 MiB of mixed tokens, in files of 1 MiB, beside `wc -w` on the same files, and
# prints the ratio. Run `make build` first; nothing depends on what this prints.
source "$(dirname "$0")/common.sh"

# Lines of names, words, numerals, strings of each form, signs and comments, up to 1,048,576 bytes.
awk 'BEGIN {
    lines[0] = "local total, count = 0x1F_ff + 1e-3, #names -- a comment\n"
    lines[1] = "if value ~= nil and value >= 12.5 then total += value // 2 end\n"
    lines[2] = "local text = \"one\\ttwo\\u{1F600}\" .. [==[three]==] .. `four {five + 6} seven`\n"
    lines[3] = "--[[ a longer\ncomment ]] return function(a: number, ...): string return f(a, ...) end\n"
    size = 0
    for (i = 0; size + length(lines[i % 4]) <= 1048576; i++) { printf "%s", lines[i % 4]; size += length(lines[i % 4]) }
}' >"$work/mixed"
mkdir "$work/folder"
for i in $(seq -w 1 64); do cp "$work/mixed" "$work/folder/m$i.luau"; done

# The files have tokens and aren't of the built form, so they are refused: status 2.
ours=$(seconds 2 "$program" "$work/folder")
theirs=$(seconds 0 env LC_ALL=C wc -w "$work"/folder/*.luau)
awk -v a="$ours" -v b="$theirs" 'BEGIN { printf "64 MiB of tokens: %ss, wc -w %ss, ratio %.1f\n", a, b, a / b }'
