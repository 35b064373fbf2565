#!/bin/sh
# build.sh OUT: makes each kernel of races.c in that folder, with its race (raceN.bin) and without it (rightN.bin), by the guest kit's own
# build.sh, and a plain script for each (raceN.sbi, rightN.sbi): 200 rounds of 100 turns of each hart. The tenth has rows of 500, since two
# of them must be more than the 850 turns from its start of a hart to what it sends there.
set -eu
here=$(cd "$(dirname "$0")" && pwd)
mkdir -p "$1" && cd "$1"
for n in 1 2 3 4 5 6 7 8 9 10 11; do
    case $n in 2) harts=4 ;; 9) harts=3 ;; *) harts=2 ;; esac
    case $n in 10) turns=500 ;; *) turns=100 ;; esac
    case $n in 11) look='on keep' ;; *) look='mem 0x80000040 32' ;; esac
    for kind in race right; do
        bug=$([ $kind = right ] || echo '#define BUG')
        printf '#define RACE %s\n%s\n#include "%s/races.c"\n' "$n" "$bug" "$here" >"$kind$n.c"
        "$here/../build.sh" --harts 4 --stack 256 --pages 1 "$kind$n.c" >/dev/null
        {
            printf 'board %s 1 1\npayload 0 %s\nformat\non fresh\n' "$harts" "$(od -An -v -tx1 "$kind$n.bin" | tr -d ' \n')"
            round=0
            while [ $round -lt 200 ]; do
                hart=0
                while [ $hart -lt "$harts" ]; do echo "turn $hart $turns"; hart=$((hart + 1)); done
                round=$((round + 1))
            done
            echo "$look"
        } >"$kind$n.sbi"
        rm -f "$kind$n.c" "$kind$n.elf"
    done
done
