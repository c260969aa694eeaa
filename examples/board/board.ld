/* Where things lie on the board: QEMU's mps2-an386, a Cortex-M4. For another board change the two lines in MEMORY, such as on an STM32F405
   FLASH (rx) : ORIGIN = 0x08000000, LENGTH = 1024K  and  RAM (rw) : ORIGIN = 0x20000000, LENGTH = 128K. */
MEMORY
{
    FLASH (rx) : ORIGIN = 0x00000000, LENGTH = 256K
    RAM (rw) : ORIGIN = 0x20000000, LENGTH = 256K
}
ENTRY(reset)
stack_top = ORIGIN(RAM) + LENGTH(RAM);
SECTIONS
{
    .text : {
        KEEP(*(.vectors)) *(.text*) *(.rodata*) *(.ARM.exidx*) *(.ARM.extab*)
        . = ALIGN(8);
        __preinit_array_start = .; KEEP(*(.preinit_array)) __preinit_array_end = .;
        __init_array_start = .; KEEP(*(SORT(.init_array.*))) KEEP(*(.init_array)) __init_array_end = .;
        __fini_array_start = .; KEEP(*(.fini_array)) __fini_array_end = .;
    } > FLASH
    data_stored = LOADADDR(.data);
    .data : { data_start = .; *(.data*) . = ALIGN(8); data_end = .; } > RAM AT > FLASH
    .bss : { bss_start = .; *(.bss*) *(COMMON) . = ALIGN(8); bss_end = .; } > RAM
    end = .; /* the heap of the C library begins here, and the stack comes down from stack_top */
}
