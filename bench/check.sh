#!/usr/bin/env bash
# Times `uts check` and `uts graph` on texts with levels of 1,024 patches, in one run on one machine: the best of three wall-clock times of
# each, the most memory that it took, and what it answered, of a listing the sizes of the plans. The program has to be built.
set -eu

top=$(dirname -- "$(dirname -- "$(readlink -f -- "${BASH_SOURCE[0]}")")")
program=$top/crates/uts/out/uts
room=$(mktemp -d)
trap 'rm -rf -- "$room"' EXIT

[ -x "$program" ] || { echo "build the program first: ./uts.sh check < examples/diffusion.uts"; exit 1; }

# A level of 32 x 32 x 1 cells in 1,024 patches of one cell, 8 materials, and so many variables of which each is required with 8 layers.
windows() {
    awk -v variables="$1" 'BEGIN {
        print "problem 1\nsteps 0\ndump 1\nghost 8\nmaterials 8\nlevel ratio 1\nbox 0 0 0 32 32 1"
        for (y = 0; y < 32; y++) for (x = 0; x < 32; x++) print "patch", x, y, 0, x + 1, y + 1, 1
        for (v = 0; v < variables; v++) print "var v" v " cell outside 0"
        print "init"
        for (v = 0; v < variables; v++) print "task a" v " levels 0 materials 0 1 2 3 4 5 6 7\ncomputes v" v " = 0"
        print "timestep"
        for (v = 0; v < variables; v++)
            print "task b" v " levels 0 materials 0 1 2 3 4 5 6 7\nrequires old v" v " cells 8\ncomputes v" v " = old.v" v "[1,0,0]"
        print "end"
    }'
}

# Four levels of 1,024 patches in a row, and in each list so many tasks with so many requirements of one kind each.
many() {
    awk -v tasks="$1" -v variables="$2" -v layers="$3" 'BEGIN {
        print "problem 1\nsteps 0\ndump 1\nghost 8\nmaterials 1"
        for (level = 0; level < 4; level++) {
            wide = 2 ^ level
            high = level < 3 ? wide : 4
            print "level ratio", (level ? 2 : 1)
            print "box 0 0 0", wide, wide, 1024 * high
            for (z = 0; z < 1024; z++) print "patch 0 0", z * high, wide, wide, (z + 1) * high
        }
        for (v = 0; v < variables; v++) print "var v" v " cell outside 0"
        for (t = 0; t < tasks; t++) print "reduction r" t " sum"
        for (list = 0; list < 2; list++) {
            print (list ? "timestep" : "init") "\ntask c levels 0 1 2 3 materials 0"
            for (v = 0; v < variables; v++) print "computes v" v " = 0"
            for (t = 0; t < tasks; t++) {
                print "task t" t " levels 0 1 2 3 materials 0"
                for (v = 0; v < variables; v++) print "requires new v" v, layers
                print "reduces r" t " cell = 0"
            }
        }
        print "end"
    }'
}

# Four levels of 1,024 patches in a row, and in each list windows of 27 kinds around variables of five centrings.
different() {
    awk 'BEGIN {
        split("cell node facex facey facez", centrings, " ")
        split("cells nodes facex facey facez", layers, " ")
        kinds[0] = "none"
        for (n = 1; n <= 8; n++) for (k = 1; k <= 5; k++) kinds[(n - 1) * 5 + k] = layers[k] " " n
        print "problem 1\nsteps 0\ndump 1\nghost 8\nmaterials 1"
        for (level = 0; level < 4; level++) {
            print "level ratio", (level ? 2 : 1)
            print "box 0 0 0 4 4 4096"
            for (z = 0; z < 4096; z += 4) print "patch 0 0", z, 4, 4, z + 4
        }
        for (v = 0; v < 60; v++) print "var v" v, centrings[v % 5 + 1], "outside 0"
        print "reduction r0 sum\nreduction r1 sum\nreduction r2 sum"
        for (list = 0; list < 2; list++) {
            print (list ? "timestep" : "init") "\ntask c levels 0 1 2 3 materials 0"
            for (v = 0; v < 60; v++) print "computes v" v " = 0"
            count = 0
            for (t = 0; t < 3; t++) {
                print "task t" t " levels 0 1 2 3 materials 0"
                for (v = 0; v < 55 && count < 132; v++) {
                    print "requires new v" v, kinds[int(count / 5) % 41]
                    count += 1
                }
                print "reduces r" t " cell = 0"
            }
        }
        print "end"
    }'
}

# Two levels of 1,024 patches, of which the finer one lies in a corner: 60 tasks there require each of 30 variables of the coarser level as
# it stands at the end of the step before, on patches most of which no window reaches.
corner() {
    awk 'BEGIN {
        print "problem 1\nsteps 0\ndump 1\nghost 8\nmaterials 1\nlevel ratio 1\nbox 0 0 0 64 64 64"
        for (z = 0; z < 64; z++) for (x = 0; x < 64; x += 4) print "patch", x, 0, z, x + 4, 64, z + 1
        print "level ratio 2\nbox 0 0 0 32 32 8"
        for (z = 0; z < 8; z += 2) for (y = 0; y < 32; y += 2) for (x = 0; x < 32; x += 2) print "patch", x, y, z, x + 2, y + 2, z + 2
        for (v = 0; v < 30; v++) print "var v" v " cell outside 0"
        print "var w cell outside 0"
        for (list = 0; list < 2; list++) {
            print (list ? "timestep" : "init") "\ntask c levels 0 materials 0"
            for (v = 0; v < 30; v++) print "computes v" v " = 0"
            print "task d levels 1 materials 0\ncomputes w = 0"
            for (t = 0; list && t < 60; t++) {
                print "task t" t " levels 1 materials 0"
                for (v = 0; v < 30; v++) print "requires old coarse v" v " none"
                print "modifies w = old.coarse.v0[0,0,0]"
            }
        }
        print "end"
    }'
}

# A text of about a million bytes: one task that requires the same 50,000 times.
repeated() {
    printf '%s\n' "problem 1" "steps 0" "dump 1" "ghost 8" "materials 1" "level ratio 1" "box 0 0 0 1 1 1" "patch 0 0 0 1 1 1" \
        "var u cell outside 0" init "task a levels 0 materials 0" "computes u = 0" timestep "task a levels 0 materials 0"
    yes "requires old u none" | head -n 50000
    printf '%s\n' "computes u = 0" end
}

# What stands on the streams of a call, of a listing the first lines of its plans.
answer() {
    grep '^plan' -- "$room/out" || cat -- "$room/out" "$room/err"
}

# The text's line in the table, by one command.
measure() {
    local best=999 seconds memory
    for _ in 1 2 3; do
        /usr/bin/time -f '%e %M' -o "$room/time" "$program" "$1" <"$room/text" >"$room/out" 2>"$room/err" || true
        read -r seconds memory <<<"$(tail -n 1 -- "$room/time")"
        best=$(printf '%s\n%s\n' "$best" "$seconds" | sort -g | head -n 1)
    done
    printf '%-5s %-34s %6s s %8s kB   %s\n' "$1" "$2" "$best" "$memory" "$(answer | paste -s -d ' ')"
}

windows 1 >"$room/text" && measure check "windows of 8 layers, one variable"
measure graph "the same"
windows 2 >"$room/text" && measure check "windows of two variables"
many 14 33 none >"$room/text" && measure check "3,696 windows without layers"
measure graph "the same"
many 8 30 "cells 1" >"$room/text" && measure check "1,920 windows of one layer"
different >"$room/text" && measure check "1,056 windows of 135 kinds"
corner >"$room/text" && measure check "1,800 old windows in a corner"
measure graph "the same"
repeated >"$room/text" && measure check "50,000 equal requirements"
