/* Both notes by assembler, placed, of type SHT_PROGBITS and aligned to 8; the ids have 64 bytes and 1 byte. */
        .section .note.gnu.build-id, "a", @progbits
        .balign 8
        .long 4, 64, 3
        .asciz "GNU"
        .fill 63, 1, 0x5a
        .byte 0xa5

        .section .livepatch.depends, "a", @progbits
        .balign 8
        .long 4, 1, 3
        .asciz "GNU"
        .byte 0x77
        .balign 4
        .section .note.GNU-stack, "", @progbits
