#!/usr/bin/env bash
# Times how the built program reads 64 MiB of ordinary modules, in files of 1 MiB, over cutting the same files into tokens
# alone, and beside `luac -p` on the same files where it is installed; then the most memory that a file of 1 MiB takes.
# Run `make build` first; nothing depends on what this prints.
source "$(dirname "$0")/common.sh"

# Functions, loops, tables and calls that Lua has too, up to 1,048,575 bytes; the last byte is for a fault of the tokens.
awk 'BEGIN {
    lines[0] = "local function total(items, limit)\n    local sum, count = 0, #items\n"
    lines[1] = "    for index, item in ipairs(items) do\n        if item ~= nil and index <= limit then sum = sum + item.price * item.count end\n    end\n"
    lines[2] = "    while count > limit do count = count - 1 end\n    return { sum = sum, count = count, [\"name\"] = items.name or \"none\" }\nend\n"
    lines[3] = "do local shop = { open = true, items = { { price = 1.5, count = 2 } } }\n    print(total(shop.items, 0x10).sum, -2 ^ 3 .. \"x\", not shop.open) end -- a comment\n"
    size = 0
    for (i = 0; size + length(lines[0] lines[1] lines[2] lines[3]) < 1048576; i++) {
        text = "do " lines[0] lines[1] lines[2] lines[3] "end\n"
        if (size + length(text) >= 1048576) break
        printf "%s", text
        size += length(text)
    }
}' >"$work/module"
mkdir "$work/modules" "$work/tokens" "$work/one"
for i in $(seq -w 1 64); do
    cp "$work/module" "$work/modules/m$i.luau"
    # A stray byte at the end: the text has no tokens, so it is never parsed.
    { cat "$work/module"; printf '\001'; } >"$work/tokens/m$i.luau"
done
cp "$work/module" "$work/one/m.luau"

parsed=$(seconds 2 "$program" "$work/modules")
cut=$(seconds 2 "$program" "$work/tokens")
awk -v a="$parsed" -v b="$cut" 'BEGIN { printf "64 MiB of modules: %ss, their tokens alone %ss, ratio %.1f\n", a, b, a / b }'
if luac=$(command -v luac5.4 || command -v luac); then
    # One file a process: it keeps all that it is given.
    theirs=$(seconds 0 sh -c 'for f; do "$0" -p "$f" || exit 1; done' "$luac" "$work"/modules/*.luau)
    awk -v a="$parsed" -v b="$theirs" 'BEGIN { printf "luac -p: %ss, ratio %.1f\n", b, a / b }'
else
    echo "luac is not installed"
fi
if [ -x /usr/bin/time ]; then
    peak=$(/usr/bin/time -f %M "$program" "$work/one" 2>&1 >/dev/null | tail -n 1)
    awk -v k="$peak" -v n="$(wc -c <"$work/one/m.luau")" 'BEGIN { printf "one file of %d bytes: %d KiB at most, %.1f bytes a byte\n", n, k, k * 1024 / n }'
fi
