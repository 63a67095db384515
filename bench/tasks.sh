#!/usr/bin/env bash
# Times one detailed task of 32 x 32 x 32 cells with seven reads beside the same cells under `uts plain`, in one run on one machine: a problem
# of one step whose list has so many such tasks one after another, on one patch. `first_step` runs its detailed tasks on one thread, `plain` the
# whole fields. The best of five processor times of each, and their ratio. Both programs have to be built.
set -eu

top=$(dirname -- "$(dirname -- "$(readlink -f -- "${BASH_SOURCE[0]}")")")
plain=$top/crates/uts/out/uts
detailed=$top/crates/first_step/out/first_step
room=$(mktemp -d)
trap 'rm -rf -- "$room"' EXIT

for program in "$plain" "$detailed"; do
    [ -x "$program" ] || { echo "build $program first: rt run in its crate's folder"; exit 1; }
done

# So many tasks, each of which takes what the one before left, by seven reads.
text() {
    awk -v tasks="$1" 'BEGIN {
        print "problem 1\nsteps 0\ndump 1\nghost 1\nmaterials 1\nlevel ratio 1\nbox 0 0 0 32 32 32\npatch 0 0 0 32 32 32"
        for (t = 0; t <= tasks; t++) print "var u" t " cell outside 0"
        print "init\ntask start levels 0 materials 0\ncomputes u0 = x * y + z"
        for (t = 1; t <= tasks; t++) {
            u = "new.u" (t - 1)
            print "task t" t " levels 0 materials 0\nrequires new u" (t - 1) " cells 1"
            print "computes u" t " = " u "[0,0,0] + " u "[1,0,0] + " u "[-1,0,0] + " u "[0,1,0] + " u "[0,-1,0] + " u "[0,0,1] + " u "[0,0,-1]"
        }
        print "timestep\ntask none levels 0 materials 0\ncomputes u0 = 0\nend"
    }'
}

# The best processor time of five runs of a program, in milliseconds.
best() {
    for _ in 1 2 3 4 5; do
        { TIMEFORMAT='%U %S'; time "$@" < "$room/text" > "$room/out"; } 2>&1 | awk '{print ($1 + $2) * 1000}'
    done | sort -n | head -n 1
}

text 60 > "$room/text"
of_plain=$(best "$plain" plain)
of_tasks=$(best "$detailed")
echo "60 tasks of 32768 cells with seven reads: plain $of_plain ms, detailed tasks $of_tasks ms"
awk -v a="$of_tasks" -v b="$of_plain" 'BEGIN { printf "detailed tasks take %.2f times as long\n", a / b }'
