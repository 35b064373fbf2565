#!/bin/sh
# rows.sh 'board H P L' [--rows N] [--turns N] [LINE ..]: prints a script that runs a kernel, of slot 0, on that board (docs/SCRIPT.md).
#
# It formats the disk and boots; then come N rows (60), each with N turns (1000) of every hart; and at the end the LINEs, or, where none is
# given, a look at the words `shown` (guest.h). --rows 200 --turns 500 'mem 0x80000040 32' 'on keep' is an example.
set -eu
case ${1:-} in
    'board '[1-8]' '*) ;;
    *) sed -n '2,5s/^# \{0,1\}//p' "$0"; [ "${1:-}" = --help ] && exit; exit 2 ;;
esac
board=$1 rows=60 turns=1000
shift
while :; do
    case ${1:-} in
        --rows) rows=$2 ;;
        --turns) turns=$2 ;;
        *) break ;;
    esac
    shift 2
done
harts=${board#board }
harts=${harts%% *}
[ $((harts * rows + $# + 4)) -le 65536 ] || { echo "rows.sh: a script has at most 65,536 lines" >&2; exit 2; }
[ $# -gt 0 ] || set -- 'mem 0x80000040 64'

printf '%s\nformat\non fresh\n' "$board"
row=0
while [ $row -lt "$rows" ]; do
    hart=0
    while [ $hart -lt "$harts" ]; do
        echo "turn $hart $turns"
        hart=$((hart + 1))
    done
    row=$((row + 1))
done
printf '%s\n' "$@"
