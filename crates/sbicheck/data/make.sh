#!/bin/sh
# Builds own.elf, the kernel of docs/CHECKING.md with its race, without the lines for a debugger (Debian: clang, lld, llvm).
set -e
CC=clang LD=ld.lld ../../examples/data/guest/build.sh --harts 2 --pages 2 own.c
llvm-objcopy --strip-debug own.elf
rm own.bin
