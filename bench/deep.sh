#!/usr/bin/env bash
# Times how the built program reads texts that open one phrase after another, of 512 KiB and of 1 MiB, and prints both times:
# each text may cost twice as much where it is twice as long. Then reads the deepest accepted text of each form that nests.
# Run `make build` first; nothing depends on what this prints.
source "$(dirname "$0")/common.sh"

# A text of a file: what comes before, what opens a phrase so many times, what stands innermost, what closes it as often.
nested() {
    awk -v before="$1" -v open="$2" -v inside="$3" -v close_="$4" -v count="$5" 'BEGIN {
        printf "%s", before
        for (i = 0; i < count; i++) printf "%s", open
        printf "%s", inside
        for (i = 0; i < count; i++) printf "%s", close_
    }'
}

# A row: a name, what comes before, what opens a phrase again and again, up to 1 MiB.
row() {
    local half=$((524288 / ${#3} - 8)) short long
    rm -rf "$work/short" "$work/long"
    mkdir "$work/short" "$work/long"
    nested "$2" "$3" '' '' "$half" >"$work/short/m.luau"
    nested "$2" "$3" '' '' $((half * 2)) >"$work/long/m.luau"
    short=$(seconds 2 "$program" "$work/short")
    long=$(seconds 2 "$program" "$work/long")
    printf '%-28s 512 KiB %ss  1 MiB %ss  %s\n' "$1" "$short" "$long" "$("$program" "$work/long" | head -c 80)"
}

row 'parentheses' 'x = ' '('
row 'braces' 'x = ' '{'
row 'fields' 'x = a' '.b'
row 'calls' 'x = ' 'f('
row 'calls, one behind the other' 'f' '()'
row 'minus' 'x = ' '- '
row 'operators' 'x = ' 'a + '
row 'powers' 'x = ' 'a ^ '
row 'strings in strings' 'x = ' '`{'
row 'unions' 'type T = A' '|A'
row 'function types' 'type T = ' '()->'
row 'type arguments' 'type T = ' 'T<'
row 'types in parentheses' 'type T = ' '('
row 'ifs' '' 'if a then '
row 'elseifs' 'if a then ' 'elseif a then '
row 'functions' 'x = ' 'function() return '
row 'statements' '' 'x = 1 '
row 'assignments' 'a' ', a'

# The text in the folder `deep` is read: it ends with a refusal for its form, or without a line, never by a signal.
is_read() {
    local status=0 line
    line=$("$program" "$work/deep" 2>&1) || status=$?
    case $status in
        0 | 1 | 2) ;;
        *) echo "$1: exit status $status" >&2; exit 1 ;;
    esac
    case $line in
        *nesting* | *unexpected* | *ambiguous*) echo "$1: $line" >&2; exit 1 ;;
    esac
}

# The deepest accepted text of a form.
deepest() {
    rm -rf "$work/deep"
    mkdir "$work/deep"
    nested "$@" >"$work/deep/m.luau"
    is_read "$2"
}

deepest 'x = ' '(' 1 ')' 198
deepest 'x = ' '{' 1 '}' 198
deepest 'x = ' 'f(' 1 ')' 99
deepest 'x = ' '- ' 1 '' 198
deepest 'x = ' 'a + ' 1 '' 198
deepest 'x = a' '.b' '' '' 198
deepest 'x = a' '[1]' '' '' 197
deepest 'x = a' ':m()' '' '' 198
deepest 'x = f' '()' '' '' 198
deepest 'x = ' 'function() return ' 1 ' end' 99
deepest 'x = ' '`{' 1 '}`' 198
deepest 'x = ' 'if a then b else ' 1 '' 198
deepest '' 'if a then ' '' ' end' 199
deepest '' 'do ' '' ' end' 200
deepest '' 'repeat ' '' ' until a' 199
deepest '' 'while a do ' '' ' end' 199
deepest 'a' '.b' ' = 1' '' 199
deepest 'function a' '.b' '() end' '' 199
deepest 'type T = ' '{' T '}' 198
deepest 'type T = ' '(' T ')' 198
deepest 'type T = ' '() -> ' T '' 198
deepest 'local x: ' 'T<' T '>' 198
deepest 'type T = U' '?' '' '' 199
# The deepest tree that is known of: types with marks behind them, each an argument of the next.
awk 'BEGIN {
    printf "type t = x"
    for (i = 0; i < 198; i++) printf "<(x"
    printf "?"
    for (i = 1; i <= 198; i++) {
        printf ")"
        for (j = 0; j < i; j++) printf "?"
        printf ">"
        for (j = 0; j <= i; j++) printf "?"
    }
}' >"$work/deep/m.luau"
is_read 'types with marks'
echo 'the deepest accepted text of each of 24 forms is read'
