/* Relocations that a compiler seldom makes: addends far from 0, fields side by side and unaligned, type 0, symbols with
 * a fixed value, places at a section's very end, and bytes in a field, which are not added. */
        .section .text.one, "ax", @progbits
        .globl one, last, one_end
        .hidden one, last, one_end
one:    call two
        call outside_high
        lea far+0x7000(%rip), %rax
        movabs $outside_low - 0x10, %rcx
        movabs $-1, %rdx
        jmp one_end
last:   ret
        .reloc one, R_X86_64_NONE, outside_low
one_end:

        .section .data.fields, "aw", @progbits
        .byte 0xcc
        .quad one, one_end, far, far_end + 1, fixed, fixed + 0x7fffffffffffffff
        .quad outside_high - 0x8000000000000000, outside_low + 0x7fffffff, -1
        .byte 0xcc
        .long two - ., outside_high - . - 0x1000, one_end + 4 - .
        .reloc ., R_X86_64_64, two
        .quad 0x1111111111111111
        .reloc ., R_X86_64_PC32, far - 4
        .long 0x22222222
        .reloc ., R_X86_64_NONE
        .long 0x33333333

        .section .bss.far, "aw", @nobits
        .balign 1024
        .globl far, far_end
        .hidden far, far_end
far:    .zero 1001
far_end:

        .section .text.two, "ax", @progbits
        .balign 64
        .globl two
        .hidden two
two:    jmp one
        .long one_end - .

        .section .rodata.empty, "a", @progbits
        .section .rodata.page, "a", @progbits
        .balign 4096
name:   .asciz "xen_extra_version"
        .balign 8
        .quad two + 6

        .section .livepatch.funcs, "aw", @progbits
        .quad name, two, 0
        .long 5, 5
        .byte 1
        .zero 31
        .quad 0, last, 0xffff82d0802ffffb
        .long 1, 5
        .byte 1
        .zero 31
        .section .note.GNU-stack, "", @progbits
