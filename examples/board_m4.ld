/* Memory of the MPS2 board with a Cortex-M4 (AN386): code from 0, data from 0x20000000. Another board changes these two rows. */
MEMORY
{
    code (rx) : ORIGIN = 0x00000000, LENGTH = 256K
    data (rw) : ORIGIN = 0x20000000, LENGTH = 16K
}
ENTRY(reset)
SECTIONS
{
    .text : { KEEP(*(.vectors)) *(.text*) *(.rodata*) } >code
    .ARM.exidx : { *(.ARM.exidx*) } >code
    .data : ALIGN(8) { data_start = .; *(.data*) . = ALIGN(8); data_end = .; } >data AT>code
    data_kept = LOADADDR(.data);
    .bss (NOLOAD) : ALIGN(8) { bss_start = .; *(.bss*) *(COMMON) . = ALIGN(8); bss_end = .; } >data
    stack_top = ORIGIN(data) + LENGTH(data);
}
