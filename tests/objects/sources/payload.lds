/* Joins the families of names. */
SECTIONS
{
    .text 0 : { *(.text .text.*) }
    .rodata 0 : { *(.rodata .rodata.*) }
    .data 0 : { *(.data .data.*) }
    .bss 0 : { *(.bss .bss.* COMMON) }
    .livepatch.funcs 0 : { *(.livepatch.funcs) }
    .livepatch.depends 0 : { *(.livepatch.depends) }
    .note.gnu.build-id 0 : { *(.note.gnu.build-id) }
}
