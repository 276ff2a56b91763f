/* Where the driver's sections stand on the board. r13 holds _SDA_BASE_. */
SECTIONS
{
    .text 0x80003100 : { *(.text*) }
    .rodata 0x80004000 : { *(.rodata*) }
    .data 0x80005000 : { *(.data*) *(.sdata*) }
    .sbss 0x80006000 (NOLOAD) : { *(.sbss*) *(.scommon) }
    .bss 0x80007000 (NOLOAD) : { *(.bss*) *(COMMON) }
    _SDA_BASE_ = 0x8000d000;
    /DISCARD/ : { *(.comment) *(.note*) *(.gnu*) }
}
