/* For the tests of thumbv7em-none-eabi: the Cortex-M4 of QEMU's board mps2-an386, with code in its SSRAM and everything else in its PSRAM of 16 MB. */
MEMORY {
    code : ORIGIN = 0, LENGTH = 4M
    data : ORIGIN = 0x21000000, LENGTH = 16M
}
ENTRY(reset)
SECTIONS {
    .vectors : { LONG(__stack) LONG(reset | 1) } > code
    .text : { *(.text*) KEEP(*(.init)) KEEP(*(.fini)) *(.rodata*) } > code
    .ARM.exidx : { *(.ARM.exidx*) } > code
    .init_array : { KEEP(*(.preinit_array*)) KEEP(*(.init_array*)) KEEP(*(.fini_array*)) } > data
    .data : { *(.data*) } > data
    __bss_start__ = .;
    .bss : { *(.bss*) *(COMMON) } > data
    __bss_end__ = .;
    end = .;
    __end__ = .;
    __stack = ORIGIN(data) + LENGTH(data);
}
