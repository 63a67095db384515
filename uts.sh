#!/usr/bin/env bash
# Runs uts with the words and the standard streams of this call, and ends with its status.
# Where the program is missing, or older than a source, it is proved and built first: its crates side by side, as many
# as there are processors and 4 GiB of free memory each. On a terminal it says how far it is. Where that fails, the last
# lines of what failed are told, and the status is 125.
set -eu

top=$(dirname -- "$(readlink -f -- "${BASH_SOURCE[0]}")")
program=$top/crates/uts/out/uts

is_fresh() {
    [ -x "$program" ] || return 1
    local newer
    newer=$(find "$top/crates.txt" "$top/crates" -name out -prune -o -type f \
        \( -name '*.rt' -o -name '*.antt' -o -name crates.txt \) -newer "$program" -print -quit)
    [ -z "$newer" ]
}

# The crates that `uts` stands on and `uts` itself, lowest first: a line for each, its name and those that it names.
crates() {
    awk '
        function visit(name,   count, names, i, line) {
            if (name in seen) return
            seen[name]
            count = split(below[name], names, " ")
            line = name
            for (i = 1; i <= count; i++) if (names[i] in below) { visit(names[i]); line = line " " names[i] }
            print line
        }
        { sub(/#.*/, "") }
        split($0, parts, ":") == 2 { split(parts[1], words, " "); below[words[1]] = parts[2] }
        END { visit("uts") }
    ' "$top/crates.txt"
}

# How many crates may be proved at once.
lanes() {
    local processors memory
    processors=$(nproc)
    memory=$(awk '/^MemAvailable:/ { print int($2 / 4194304) }' /proc/meminfo)
    if [ "$memory" -lt "$processors" ]; then processors=$memory; fi
    if [ "$processors" -lt 1 ]; then processors=1; fi
    echo "$processors"
}

say() {
    if [ -t 2 ]; then echo "uts.sh: $1" >&2; fi
}

fail() {
    tail -n 20 -- "$1" >&2
    echo "uts.sh: $2 is not proved and built; rt check in crates/$2 says more" >&2
    exit 125
}

# Proves and builds a crate's library. The program is proved, built and run on a problem that it serves: an older one stays
# where the proof fails, so only a run that ends with status 0 counts.
build() {
    cd -- "$top/crates/$1"
    if [ "$1" = uts ]; then rt run -- plain <"$top/examples/shift.uts"; else rt lib; fi
}

build_all() {
    local most line name other count=0 ended=0
    local -a order=()
    local -A below=() state=() running=()
    logs=$(mktemp -d)
    trap 'rm -rf -- "$logs"' EXIT
    most=$(lanes)
    while read -r line; do
        name=${line%% *}
        order+=("$name")
        below[$name]=${line#"$name"}
        state[$name]=waits
    done < <(crates)
    count=${#order[@]}
    say "proving and building $count crates, $most at once; the first time takes some minutes"
    while [ "$ended" -lt "$count" ]; do
        for name in "${order[@]}"; do
            if [ "${state[$name]}" != waits ] || [ "${#running[@]}" -ge "$most" ]; then continue; fi
            for other in ${below[$name]}; do
                if [ "${state[$other]}" != done ]; then continue 2; fi
            done
            build "$name" >"$logs/$name" 2>&1 &
            running[$!]=$name
            state[$name]=runs
        done
        local child='' status=0
        wait -n -p child "${!running[@]}" || status=$?
        name=${running[$child]}
        unset "running[$child]"
        if [ "$status" -ne 0 ]; then
            wait
            fail "$logs/$name" "$name"
        fi
        state[$name]=done
        ended=$((ended + 1))
        say "$ended of $count: $name"
    done
    touch -- "$program"
}

if ! is_fresh; then (build_all); fi
exec "$program" "$@"
