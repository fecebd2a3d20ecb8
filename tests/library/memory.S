/* memcpy and memset as a host without vector registers may have them. They take no stack but the return address. */
        .text
        .globl memcpy
        .type memcpy, @function
memcpy:
        mov %rdi, %rax
        mov %rdx, %rcx
        shr $3, %rcx
        rep movsq
        mov %edx, %ecx
        and $7, %ecx
        rep movsb
        ret
        .size memcpy, . - memcpy

        .globl memset
        .type memset, @function
memset:
        mov %rdi, %r8
        mov $0x0101010101010101, %rax
        movzbl %sil, %esi
        imul %rsi, %rax
        mov %rdx, %rcx
        shr $3, %rcx
        rep stosq
        mov %edx, %ecx
        and $7, %ecx
        rep stosb
        mov %r8, %rax
        ret
        .size memset, . - memset

        .section .note.GNU-stack, "", @progbits
