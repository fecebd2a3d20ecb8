/* An accepted payload: `gcc -c` of this file makes it. It has placed sections with and without bytes, all four relocation types,
 * symbols of its own and of the list, 32 records, jumps and fills, by name and by address, and an id of 64 bytes. */
        .macro record name=0, new=0, old=0, new_size, old_size
        .quad \name, \new, \old
        .long \new_size, \old_size
        .byte 1
        .zero 31
        .endm

        .text
replacement:
        lea words(%rip), %rdi           /* type 2 */
        call printk                     /* type 4 */
        incl count(%rip)
        ret
replacement_end:
        .reloc ., R_X86_64_NONE, printk /* type 0 */
        .nops 8

        .section .rodata, "a", @progbits
printed: .asciz "printk"
version: .asciz "xen_extra_version"
words:  .asciz "replaced"

        .data
        .balign 8
        .quad replacement, printk, 0    /* type 1 */

        .bss
        .balign 64
count:  .zero 256

        .section .livepatch.funcs, "aw", @progbits
        .balign 8
        record name=version, new=replacement, new_size=(replacement_end - replacement), old_size=13
        record name=printed, new_size=9, old_size=20
        record new=replacement, old=0xffff82d080ffff00, new_size=1, old_size=256
        .set at, 0
        .rept 29
        record old=(0xffff82d080000000 + 32 * at), new_size=(at + 3), old_size=31
        .set at, at + 1
        .endr

        .section .note.gnu.build-id, "a", @note
        .balign 4
        .long 4, 64, 3
        .asciz "GNU"
        .fill 64, 1, 0x5a

        .section .livepatch.depends, "a", @note
        .balign 4
        .long 4, 1, 3
        .asciz "GNU"
        .byte 0x77
        .balign 4

        .section .note.GNU-stack, "", @progbits
