/* A symbol with a fixed value, in an object of its own so that the assembler leaves its uses to relocations. */
        .globl fixed
        .set fixed, 0x123456789abcdef0
        .section .note.GNU-stack, "", @progbits
