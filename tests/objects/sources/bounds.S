/* One field that reaches a name outside: a call (type 4), a distance (type 2) or an address (type 1). The name is global, or of
 * another BINDING. The record is a fill, so that no other distance matters. */
#ifndef BINDING
#define BINDING .globl
#endif
        .text
        .nops 3
#if TYPE == 4
        .byte 0xe8
field:  .reloc ., R_X86_64_PLT32, near - 4
        .long 0
#elif TYPE == 2
field:  .long near - .
#else
field:  .quad near
#endif
        .hidden near
        BINDING near

        .section .livepatch.funcs, "aw", @progbits
        .quad 0, 0, 0xffff82d080100000
        .long 1, 1
        .byte 1
        .zero 31
        .section .note.GNU-stack, "", @progbits
