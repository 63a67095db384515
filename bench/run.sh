#!/usr/bin/env bash
# Times `uts plain` beside two plain Rust programs that do the same work, in one run on one machine, the dumps thrown away: one walks
# the same expression trees index by index over whole fields (yardstick.rs), one has the kernels compiled in (compiled.rs). The
# problems are a diffusion on 64 x 64 x 64 cells with seven reads a cell and 50 steps, and one of two levels, two materials and a
# reduction, whose runs are so short that a mean of twenty is taken. Prints the rows of the README's table: the best of three times of
# each, and the most memory that it took. Then it says how long texts of about a million bytes take: one of many tasks, which is read
# whole and refused for its first fault (and printed, where the program reprint is built), and one that is no problem, which is
# refused. Before all this it compares what all three write, on both problems, and on the examples. Needs rustc.
set -eu

top=$(dirname -- "$(dirname -- "$(readlink -f -- "${BASH_SOURCE[0]}")")")
program=$top/crates/uts/out/uts
room=$(mktemp -d)
trap 'rm -rf -- "$room"' EXIT
yardstick=$room/yardstick
compiled=$room/compiled

# The diffusion: so many steps, and so many cells along each axis.
problem() {
    cat <<TEXT
problem 1
steps $1
dump 1
ghost 1
materials 1
level ratio 1
box 0 0 0 $2 $2 $2
patch 0 0 0 $2 $2 $2
var u cell outside 5
init
task start levels 0 materials 0
computes u = 1
timestep
task shift levels 0 materials 0
requires old u cells 1
computes u = old.u[0,0,0] + old.u[-1,0,0] + old.u[1,0,0] + old.u[0,-1,0] + old.u[0,1,0] + old.u[0,0,-1] + old.u[0,0,1]
keep u
end
TEXT
}

# The problem of two levels: 8,192 and 4,096 cells in 64 and 32 patches, two materials, ten steps.
two_levels() {
    printf '%s\n' 'problem 1' 'steps 10' 'dump 5' 'ghost 1' 'materials 2' 'level ratio 1' 'box 0 0 0 32 32 8'
    local i j k
    for j in 0 4 8 12 16 20 24 28; do for i in 0 4 8 12 16 20 24 28; do echo "patch $i $j 0 $((i + 4)) $((j + 4)) 8"; done; done
    printf '%s\n' 'level ratio 2' 'box 8 8 0 24 24 16'
    for k in 0 8; do for j in 8 12 16 20; do for i in 8 12 16 20; do echo "patch $i $j $k $((i + 4)) $((j + 4)) $((k + 8))"; done; done; done
    cat <<TEXT
var u cell outside 0
var b cell outside 0
reduction top max
init
task start levels 0 1 materials 0 1
computes u = (x * 7 + y * 11 + z * 13 + material * 5 + 0) % 100
task first levels 0 1 materials 0 1
requires new u none
reduces top cell = new.u[0,0,0]
timestep
task diffuse levels 0 1 materials 0 1
requires old u cells 1
computes u = (old.u[-1,0,0] + old.u[1,0,0] + old.u[0,-1,0] + old.u[0,1,0] + old.u[0,0,-1] + old.u[0,0,1] + 2 * old.u[0,0,0]) / 8
task coarsen levels 0 materials 0 1
requires new u none
requires new fine u
modifies u = select(new.fine_count.u, new.fine_sum.u / 8, new.u[0,0,0])
task edge levels 1 materials 0 1
requires new coarse u none
computes b = new.coarse.u[0,0,0]
task peak levels 0 1 materials 0 1
requires new u none
reduces top cell = new.u[0,0,0]
keep u
keep top
end
TEXT
}

same() {
    "$program" plain <"$1" >"$room/ours"
    "$2" "${@:3}" <"$1" >"$room/theirs"
    cmp -- "$room/ours" "$room/theirs" || { echo "the dumps of $1 differ"; exit 1; }
}

# The wall-clock seconds of a command that reads the given file, its output thrown away.
seconds() {
    local text=$1 TIMEFORMAT=%R
    shift
    { time "$@" <"$text" >/dev/null 2>"$room/said"; } 2>&1
}

least() {
    sort -g -- "$1" | head -n 1
}

memory() {
    local text=$1
    shift
    /usr/bin/time -f %M -o "$room/memory" "$@" <"$text" >/dev/null
    tail -n 1 -- "$room/memory"
}

rustc --edition 2021 -O -o "$yardstick" "$top/bench/yardstick.rs"
rustc --edition 2021 -O -o "$compiled" "$top/bench/compiled.rs"
problem 6 8 >"$room/small"
problem 50 64 >"$room/large"
two_levels >"$room/levels"

# the first call proves and builds, where need be
"$top/uts.sh" plain <"$room/small" >/dev/null
for text in "$room/small" "$room/levels" "$top"/examples/*.uts; do same "$text" "$yardstick"; done
same "$room/small" "$compiled" diffusion 6 8
same "$room/levels" "$compiled" two_levels
echo "the dumps of small problems and of the examples are equal"

# The seconds of one run of a command that reads the given file: the mean of so many in turn.
mean() {
    local runs=$1 text=$2 run TIMEFORMAT=%R
    shift 2
    { time for ((run = 0; run < runs; run++)); do "$@" <"$text" >/dev/null; done; } 2>&1 | awk -v runs="$runs" '{ printf "%.4f\n", $1 / runs }'
}

# A cell of the table: the least of three means, and the most memory in MB where that can be told.
cell() {
    printf ' %s s' "$(least "$1")"
    if [ -x /usr/bin/time ]; then memory "${@:2}" | awk '{ printf ", %.1f MB", $1 * 1024 / 1000000 }'; fi
    printf ' |'
}

# A row of the table in the README, and the ratios of its times: a title, how many runs a mean is of, a text, and the words of the
# compiled program.
beside() {
    local title=$1 runs=$2 text=$3 name
    shift 3
    for name in uts yardstick compiled; do : >"$room/$name.seconds"; done
    for _ in 1 2 3; do
        mean "$runs" "$text" "$yardstick" >>"$room/yardstick.seconds"
        mean "$runs" "$text" "$compiled" "$@" >>"$room/compiled.seconds"
        mean "$runs" "$text" "$program" plain >>"$room/uts.seconds"
    done
    printf '| %s: best of three means of %s |' "$title" "$runs"
    cell "$room/uts.seconds" "$text" "$program" plain
    cell "$room/yardstick.seconds" "$text" "$yardstick"
    cell "$room/compiled.seconds" "$text" "$compiled" "$@"
    echo
    awk -v ours="$(least "$room/uts.seconds")" -v walked="$(least "$room/yardstick.seconds")" -v built="$(least "$room/compiled.seconds")" \
        'BEGIN { printf "  uts plain takes %.2f times as long as index by index, and %.2f times as long as compiled in\n", ours / walked, ours / built }'
}

echo '| Problem | `uts plain` | index by index | compiled in |'
echo '|---|---|---|---|'
beside "diffusion, 64 x 64 x 64 cells, seven reads, 50 steps, all dumped" 1 "$room/large" diffusion 50 64
beside "two levels of 8,192 and 4,096 cells, two materials, ten steps, three dumped" 20 "$room/levels" two_levels

# The time and the most memory of a text that is answered with status 1, and what was said of it.
answered() {
    local status=0 took
    took=$(seconds "$2" "$program" plain) || status=$?
    [ "$status" = 1 ] || { echo "$1 ended with status $status"; exit 1; }
    echo "$1, $(cat -- "$room/said"): $took s"
    if [ -x /usr/bin/time ]; then
        /usr/bin/time -f %M -o "$room/memory" "$program" plain <"$2" >/dev/null 2>&1 || true
        echo "  most memory  $(tail -n 1 -- "$room/memory") KiB"
    fi
}

# A problem of many tasks, each with a name of its own and a kernel of several reads.
many_tasks() {
    problem 1 4 | sed '/^keep u$/,$d'
    local task=0
    while [ "$task" -lt 6900 ]; do
        printf 'task number_%d levels 0 materials 0\nrequires old u cells 1\n' "$task"
        printf 'computes u = max(old.u[-1,0,0], old.u[1,0,0] * %d) - select(x < %d, old.u[0,0,0], -7)\n' "$task" "$task"
        task=$((task + 1))
    done
    printf 'keep u\nend\n'
}

many_tasks >"$room/many"
answered "a problem of $(wc -c <"$room/many") bytes" "$room/many"
printer=$top/crates/reprint/out/reprint
if [ -x "$printer" ]; then
    echo "read and printed in $(seconds "$room/many" "$printer") s"
    [ -x /usr/bin/time ] && echo "  most memory  $(memory "$room/many" "$printer") KiB"
fi
head -c 1048576 /dev/zero | tr '\0' x >"$room/garbage"
answered "1,048,576 bytes of garbage" "$room/garbage"
