/* The least memory of the three boards: 256 KB of flash and 16 KB of RAM, as the BBC micro:bit has. */
MEMORY
{
    FLASH (rx) : ORIGIN = 0x00000000, LENGTH = 256K
    RAM (rw) : ORIGIN = 0x20000000, LENGTH = 16K
}

ENTRY(start)

SECTIONS
{
    .text : { KEEP(*(.vectors)) *(.text*) *(.rodata*) } > FLASH
    .ARM.exidx : { *(.ARM.exidx*) } > FLASH
    .bss (NOLOAD) : ALIGN(4) { zeros_begin = .; *(.bss*) *(COMMON) . = ALIGN(4); zeros_end = .; } > RAM
    stack_top = ORIGIN(RAM) + LENGTH(RAM);
}
