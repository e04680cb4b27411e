/* Text from 0 on, memory from 0x20000000 on; FLASH and RAM are given as symbols (-Wl,--defsym). The emulator loads data where it stands. */
ENTRY(_start)
MEMORY {
    flash : ORIGIN = 0, LENGTH = DEFINED(FLASH) ? FLASH : 256K
    ram : ORIGIN = 0x20000000, LENGTH = DEFINED(RAM) ? RAM : 16K
}
SECTIONS {
    .text : {
        KEEP(*(.vectors))
        *(.text*)
        *(.rodata*)
        KEEP(*(SORT_NONE(.init)))
        KEEP(*(SORT_NONE(.fini)))
        . = ALIGN(8);
    } > flash
    .ARM.exidx : { *(.ARM.exidx*) } > flash
    .init_array : {
        __preinit_array_start = .;
        KEEP(*(.preinit_array))
        __preinit_array_end = .;
        __init_array_start = .;
        KEEP(*(.init_array*))
        __init_array_end = .;
        __fini_array_start = .;
        KEEP(*(.fini_array*))
        __fini_array_end = .;
    } > flash
    .data : { *(.data*) . = ALIGN(8); } > ram
    .bss : {
        __bss_start__ = .;
        *(.bss*)
        *(COMMON)
        . = ALIGN(8);
        __bss_end__ = .;
    } > ram
    end = .;
    __end__ = .;
    top_of_stack = ORIGIN(ram) + LENGTH(ram);
}
