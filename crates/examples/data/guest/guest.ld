/* A payload: code and the data that it reads, from the start of RAM on; after it .bss, which is zero at power-on and takes no bytes of
   the payload; and at the end of RAM a stack for each hart, hart 0's last. build.sh gives PAGES, HARTS and STACK, for which it was built. */
SECTIONS
{
    . = 0x80000000;
    .text : { KEEP(*(.text.start)) *(.text*) *(.rodata*) *(.srodata*) *(.data*) *(.sdata*) }
    .bss ALIGN(16) (NOLOAD) : { *(.bss*) *(.sbss*) *(COMMON) }
    bss_end = .;
    stacks_end = 0x80000000 + 4096 * PAGES;
    stacks = stacks_end - HARTS * STACK;
    /DISCARD/ : { *(.comment) *(.note*) *(.eh_frame*) *(.riscv.attributes) }
}
ASSERT(PAGES >= 1 && PAGES <= 256, "a board has 1 to 256 pages")
ASSERT(HARTS >= 1 && HARTS <= 8, "a board has 1 to 8 harts")
ASSERT(STACK % 16 == 0, "a stack is a multiple of 16 bytes")
ASSERT(shown == 0x80000040, "start.S is to be linked first")
ASSERT(bss_end <= stacks, "code, .bss and stacks need more pages: build it with --pages")
