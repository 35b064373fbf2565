#!/bin/sh
# build.sh [--harts N] [--pages N] [--stack BYTES] [--script] NAME.c [MORE.c ..]: makes NAME.elf and NAME.bin, the payload, in this folder.
#
# For a board of so many pages at least (1) and harts at most (1), with a stack of so many bytes for each hart (1024); the linker refuses
# what does not fit. --script makes NAME.sbi too, which runs it on such a board by rows.sh and looks at what it shows and says. CFLAGS has
# more words for the compiler, as -Og -DRACE. CC names the compiler: riscv64-linux-gnu-gcc or riscv64-unknown-elf-gcc (Debian:
# gcc-riscv64-linux-gnu or gcc-riscv64-unknown-elf), or clang; else the first of these that is there. clang takes GNU's linker where one is
# there, and its own one by LD=ld.lld.
set -eu
kit=$(cd "$(dirname "$0")" && pwd)
harts=1 pages=1 stack=1024 script=
while :; do
    case ${1:-} in
        --harts) harts=$2 ;;
        --pages) pages=$2 ;;
        --stack) stack=$2 ;;
        --script) script=1; shift; continue ;;
        [!-]*) break ;;
        *) sed -n '2,9s/^# \{0,1\}//p' "$0"; [ "${1:-}" = --help ] && exit; exit 2 ;;
    esac
    shift 2
done

is_there() { command -v "$1" >/dev/null 2>&1; }

# The compiler, its words for RV64I with Zicsr, and the linker and objcopy: GNU's, or LLVM's where none of GNU's is there.
if [ -z "${CC:-}" ]; then
    for CC in riscv64-linux-gnu-gcc riscv64-unknown-elf-gcc clang; do is_there "$CC" && break; done
fi
march=rv64i_zicsr
case $CC in
    *clang*)
        binutils=llvm
        [ "${LD:-}" = ld.lld ] || for each in riscv64-linux-gnu- riscv64-unknown-elf-; do is_there "${each}ld" && binutils=$each && break; done
        # clang has Zicsr in rv64i up to version 16
        [ "$("$CC" -dumpversion | cut -d. -f1)" -ge 17 ] || march=rv64i
        target=--target=riscv64
        # ld.lld of LLVM 14 makes no linker relaxation
        [ $binutils != llvm ] || target="$target -mno-relax"
        ;;
    *) binutils=${CC%gcc*} target= ;;
esac
case $binutils in
    llvm) linker=ld.lld objcopy=llvm-objcopy nm=llvm-nm quiet= ;;
    *) linker=${binutils}ld objcopy=${binutils}objcopy nm=${binutils}nm quiet=--no-warn-rwx-segments ;;
esac
is_there "$linker" || { echo "build.sh: $CC or $linker is not there" >&2; exit 1; }

# The debugger looks for sources from this folder on, so the kit's are named as they are found from here.
case $kit in
    "$PWD" | "$PWD"/*) maps=-ffile-prefix-map=$PWD=. ;;
    *) maps=-ffile-prefix-map=$kit=$(dirname "$0") ;;
esac

name=$(basename "$1" .c)
work=$(mktemp -d)
trap 'rm -rf "$work"' EXIT
objects=
for source in "$kit/start.S" "$@" "$kit/say.c" "$kit/library.c"; do
    object=$work/$(basename "$source").o
    "$CC" $target -march=$march -mabi=lp64 -mcmodel=medany -O2 -g -ffreestanding -fno-pic -fno-common -ffunction-sections -nostdlib \
        -Wall -Wextra -Wno-unused-parameter -I"$kit" "$maps" -DHARTS="$harts" -DSTACK_BYTES="$stack" ${CFLAGS:-} \
        -c "$source" -o "$object"
    objects="$objects $object"
done
"$linker" $quiet --gc-sections -T "$kit/guest.ld" -e start --defsym=PAGES="$pages" --defsym=HARTS="$harts" --defsym=STACK="$stack" \
    $objects -o "$name.elf"
"$objcopy" -O binary -j .text "$name.elf" "$name.bin"
echo "$name.bin: $(wc -c <"$name.bin") bytes for $pages pages and $harts harts, by $("$CC" --version | head -1)"

# The words shown, and of each hart the lines that it said, where it says any: each of 64 bytes, one after the other.
look() {
    echo 'mem 0x80000040 64'
    "$nm" -S "$name.elf" | while read -r address size _ symbol; do
        [ "$symbol" = said ] || continue
        at=0
        while [ $at -lt $((0x$size)) ]; do
            printf 'mem 0x%x 64\n' $((0x${address#????????} + at))
            at=$((at + 64))
        done
    done
}

if [ -n "$script" ]; then
    look | { set --; while read -r line; do set -- "$@" "$line"; done; "$kit/rows.sh" "board $harts $pages 1" "$@"; } >"$name.sbi"
    echo "$name.sbi: 60 rows of 1000 turns (more: guest/rows.sh --help)"
fi
