/* mps2-an385 has 4 MiB of code at 0 and 4 MiB of RAM at 0x20000000. The firmware gets 16 KiB of RAM, and keeps a counter in a
   page of "flash": RAM that the startup doesn't touch, which QEMU loads from a file (run.py). */
MEMORY {
    rom (rx) : ORIGIN = 0, LENGTH = 64K
    ram (rw) : ORIGIN = 0x20000000, LENGTH = 16K
    flash (rw) : ORIGIN = 0x20100000, LENGTH = 4K
}
ENTRY(reset)
SECTIONS {
    .text : { KEEP(*(.vectors)) *(.text*) *(.rodata*) } > rom
    .ARM.exidx : { *(.ARM.exidx*) } > rom
    .data : { data_start = .; *(.data*) data_end = .; } > ram AT > rom
    data_load = LOADADDR(.data);
    .bss (NOLOAD) : { bss_start = .; *(.bss*) *(COMMON) . = ALIGN(4); bss_end = .; } > ram
    stack_top = ORIGIN(ram) + LENGTH(ram);
    flash_page = ORIGIN(flash);
}
