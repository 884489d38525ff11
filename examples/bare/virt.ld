/* QEMU's virt machine has RAM from 0x40000000 on; an image is loaded 512 KiB above that. 128 KiB of stack. */
ENTRY(_start)
SECTIONS {
    . = 0x40080000;
    .text : { *(.start) *(.text*) *(.rodata*) }
    .data : { *(.data*) }
    .got : { *(.got*) }
    .bss (NOLOAD) : { *(.bss*) *(COMMON) . = ALIGN(16); . += 0x20000; stack_top = .; }
}
