/* uint64_t call_on_stack(void (*function)(void), const uint64_t arguments[15], uint8_t *stack, struct registers *registers)
 *
 * Calls the function with the stack pointer at `stack`, where the arguments from the seventh on stand, and with the registers
 * that are given; leaves in their place what they hold after the call. The layout of struct registers: */
        .set KEPT, 512          /* x87, MXCSR and xmm before it, as fxsave64 writes them; here rbx, rbp, r12 to r15 */
        .set POINTER, 560       /* after the call: the stack pointer */
        .set FLAGS, 568         /* before: flags to set; after: the flags */
        .set TRAP, 0x100

        .text
        .globl call_on_stack
        .type call_on_stack, @function
call_on_stack:
        push %rbp
        push %rbx
        push %r12
        push %r13
        push %r14
        push %r15
        push %rcx
        sub $512, %rsp          /* a multiple of 16: the caller's was, less a return address and seven registers */
        fxsave64 (%rsp)
        mov %rsp, home(%rip)

        mov %rdi, %rax
        mov %rsi, %r10
        mov %rcx, %r11
        mov %rdx, %rsp
        .set at, 0
        .rept 9
        mov 48 + at(%r10), %rcx
        mov %rcx, at(%rsp)
        .set at, at + 8
        .endr
        fxrstor64 (%r11)
        mov KEPT(%r11), %rbx
        mov KEPT + 8(%r11), %rbp
        mov KEPT + 16(%r11), %r12
        mov KEPT + 24(%r11), %r13
        mov KEPT + 32(%r11), %r14
        mov KEPT + 40(%r11), %r15
        pushfq
        mov FLAGS(%r11), %rcx
        or %rcx, (%rsp)
        mov (%r10), %rdi
        mov 8(%r10), %rsi
        mov 16(%r10), %rdx
        mov 24(%r10), %rcx
        mov 32(%r10), %r8
        mov 40(%r10), %r9
        popfq
        call *%rax
        pushfq
        andq $~TRAP, (%rsp)
        popfq

        mov home(%rip), %r10
        mov 512(%r10), %r11
        mov %rbx, KEPT(%r11)
        mov %rbp, KEPT + 8(%r11)
        mov %r12, KEPT + 16(%r11)
        mov %r13, KEPT + 24(%r11)
        mov %r14, KEPT + 32(%r11)
        mov %r15, KEPT + 40(%r11)
        mov %rsp, POINTER(%r11)
        fxsave64 (%r11)
        mov %r10, %rsp
        pushfq
        pop FLAGS(%r11)
        cld

        fxrstor64 (%rsp)
        add $520, %rsp
        pop %r15
        pop %r14
        pop %r13
        pop %r12
        pop %rbx
        pop %rbp
        ret
        .size call_on_stack, . - call_on_stack

        .lcomm home, 8

        .section .note.GNU-stack, "", @progbits
