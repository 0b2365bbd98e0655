# What the scripts here share: the built program, a folder of their own to work in, and a clock. Source it.
set -eu
cd "$(dirname "${BASH_SOURCE[0]}")/.."
program=$PWD/bin/luau-nonstrict
[ -x "$program" ] || { echo "no bin/luau-nonstrict: run 'make build' first" >&2; exit 1; }
work=$(mktemp -d)
trap 'rm -rf "$work"' EXIT

# The least of five times of a command, in seconds; what it prints is dropped. The first word is the exit status that
# the command must have each time; with another one there is no time, and the script ends.
seconds() {
    local wanted=$1 best='' start end took status
    shift
    for _ in 1 2 3 4 5; do
        status=0
        start=$(date +%s%N)
        "$@" >/dev/null 2>&1 || status=$?
        end=$(date +%s%N)
        if [ "$status" -ne "$wanted" ]; then
            echo "$1 ${2-}: exit status $status in place of $wanted" >&2
            exit 1
        fi
        took=$((end - start))
        if [ -z "$best" ] || [ "$took" -lt "$best" ]; then best=$took; fi
    done
    awk -v ns="$best" 'BEGIN { printf "%.3f", ns / 1e9 }'
}
