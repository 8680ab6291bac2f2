/* The memory of mps2-an500 as its emulator has it (Cortex-M7): 4 MB for the program from 0 on, 16 MB for all else; mps2-an386 (Cortex-M4) has these at another place,
   which RAM names. The heap that newlib asks for lies between `end` and the stack. */
MEMORY
{
    code (rx) : ORIGIN = 0x00000000, LENGTH = 4M
    ram (rw) : ORIGIN = DEFINED(RAM) ? RAM : 0x60000000, LENGTH = 16M
}
ENTRY(reset)
SECTIONS
{
    .text : { KEEP(*(.vectors)) *(.text .text.*) KEEP(*(.init)) KEEP(*(.fini)) *(.rodata .rodata.*) *(.eh_frame*) } > code
    .ARM.extab : { *(.ARM.extab*) } > code
    .ARM.exidx : { *(.ARM.exidx*) } > code
    .init_array : { KEEP(*(.init_array*)) KEEP(*(.fini_array*)) . = ALIGN(8); } > code
    image_data = LOADADDR(.data);
    .data : { image_data_start = .; *(.data .data.*) . = ALIGN(8); image_data_end = .; } > ram AT > code
    .bss (NOLOAD) : { image_bss_start = .; *(.bss .bss.* COMMON) . = ALIGN(8); image_bss_end = .; } > ram AT > ram
    end = .;
    image_stack = ORIGIN(ram) + LENGTH(ram);
}
